/* Nodes segments on grid 1 by GEOS. Reads four numbers of each segment, and tells the pieces, the processor seconds, the best of
   some times, and the greatest memory in kilobytes. */
#include <geos_c.h>
#include <stdio.h>
#include <stdlib.h>
#include <sys/resource.h>
#include <time.h>

static GEOSGeometry *segment(const double *at)
{
    GEOSCoordSequence *ends = GEOSCoordSeq_create(2, 2);
    for (int i = 0; i < 2; i++) {
        GEOSCoordSeq_setX(ends, i, at[2 * i]);
        GEOSCoordSeq_setY(ends, i, at[2 * i + 1]);
    }
    return GEOSGeom_createLineString(ends);
}

static long pieces(const GEOSGeometry *drawn)
{
    long count = 0;
    for (int i = 0; i < GEOSGetNumGeometries(drawn); i++)
        count += GEOSGeomGetNumPoints(GEOSGetGeometryN(drawn, i)) - 1;
    return count;
}

int main(int count, char **words)
{
    int times = count > 1 ? atoi(words[1]) : 1;
    size_t room = 1024, number = 0;
    double *at = malloc(room * 4 * sizeof *at);
    while (scanf("%lf %lf %lf %lf", at + 4 * number, at + 4 * number + 1, at + 4 * number + 2, at + 4 * number + 3) == 4)
        if (++number == room)
            at = realloc(at, (room *= 2) * 4 * sizeof *at);
    initGEOS(NULL, NULL);
    long found = 0;
    double best = 1e9;
    for (int i = 0; i < times; i++) {
        clock_t before = clock();
        GEOSGeometry **all = malloc(number * sizeof *all);
        for (size_t j = 0; j < number; j++)
            all[j] = segment(at + 4 * j);
        GEOSGeometry *given = GEOSGeom_createCollection(GEOS_MULTILINESTRING, all, number);
        GEOSGeometry *drawn = GEOSUnaryUnionPrec(given, 1);
        double seconds = (double)(clock() - before) / CLOCKS_PER_SEC;
        if (!drawn)
            return 1;
        best = seconds < best ? seconds : best;
        found = pieces(drawn);
        GEOSGeom_destroy(given);
        GEOSGeom_destroy(drawn);
        free(all);
    }
    struct rusage used;
    getrusage(RUSAGE_SELF, &used);
    printf("%ld %.6f %ld\n", found, best, used.ru_maxrss);
    return 0;
}
