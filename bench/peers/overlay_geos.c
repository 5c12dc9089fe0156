/* Intersects two areas on grid 1 by GEOS. Reads a polygon a line, its rings parted by ;, the outer one first, and a line / between
   the areas. Tells the area of what is common, and the processor seconds, the best of some times. */
#define _GNU_SOURCE
#include <geos_c.h>
#include <stdio.h>
#include <stdlib.h>
#include <string.h>
#include <time.h>

/* the ring whose numbers stand here, up to the next ; or the end of the line; end is what follows them */
static GEOSGeometry *ring(const char *from, char **end)
{
    size_t room = 16, number = 0;
    double *at = malloc(room * sizeof *at);
    for (char *next; at[number] = strtod(from, &next), next != from; from = next)
        if (++number == room)
            at = realloc(at, (room *= 2) * sizeof *at);
    *end = (char *)from + strspn(from, " ");
    GEOSCoordSequence *points = GEOSCoordSeq_create(number / 2 + 1, 2);
    for (size_t i = 0; i <= number / 2; i++) {
        GEOSCoordSeq_setX(points, i, at[2 * i % number]);
        GEOSCoordSeq_setY(points, i, at[2 * i % number + 1]);
    }
    free(at);
    return GEOSGeom_createLinearRing(points);
}

static GEOSGeometry *polygon(char *line)
{
    char *end;
    GEOSGeometry *outer = ring(line, &end);
    GEOSGeometry *holes[64];
    unsigned number = 0;
    while (*end == ';' && number < 64)
        holes[number++] = ring(end + 1, &end);
    return GEOSGeom_createPolygon(outer, holes, number);
}

/* the area whose polygons come next, up to a line / or the end of the input */
static GEOSGeometry *area(void)
{
    size_t room = 16, number = 0, wide = 0;
    char *line = NULL;
    GEOSGeometry **all = malloc(room * sizeof *all);
    while (getline(&line, &wide, stdin) > 0 && line[0] != '/') {
        all[number] = polygon(line);
        if (++number == room)
            all = realloc(all, (room *= 2) * sizeof *all);
    }
    GEOSGeometry *made = GEOSGeom_createCollection(GEOS_MULTIPOLYGON, all, number);
    free(all);
    free(line);
    return made;
}

int main(int count, char **words)
{
    int times = count > 1 ? atoi(words[1]) : 1;
    initGEOS(NULL, NULL);
    GEOSGeometry *first = area(), *second = area();
    double best = 1e9, size = 0;
    for (int i = 0; i < times; i++) {
        clock_t before = clock();
        GEOSGeometry *common = GEOSIntersectionPrec(first, second, 1);
        double seconds = (double)(clock() - before) / CLOCKS_PER_SEC;
        if (!common)
            return 1;
        best = seconds < best ? seconds : best;
        GEOSArea(common, &size);
        GEOSGeom_destroy(common);
    }
    printf("%.1f %.6f\n", size, best);
    return 0;
}
