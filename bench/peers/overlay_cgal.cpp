// Intersects two areas by CGAL's sets of polygons, with nothing rounded. Input and output are those of overlay_geos.c; the time is
// that of the intersection, without that of making the sets.
#include <CGAL/Exact_predicates_exact_constructions_kernel.h>
#include <CGAL/Polygon_set_2.h>
#include <cstdio>
#include <cstdlib>
#include <ctime>
#include <iostream>
#include <list>
#include <sstream>
#include <string>

using Kernel = CGAL::Exact_predicates_exact_constructions_kernel;
using Ring = CGAL::Polygon_2<Kernel>;
using Polygon = CGAL::Polygon_with_holes_2<Kernel>;
using Area = CGAL::Polygon_set_2<Kernel>;

static Ring read_ring(const std::string &text, CGAL::Orientation way)
{
    Ring ring;
    std::istringstream numbers(text);
    for (double x, y; numbers >> x >> y;)
        ring.push_back(Kernel::Point_2(x, y));
    if (ring.orientation() != way)
        ring.reverse_orientation();
    return ring;
}

static Area read_area()
{
    std::list<Polygon> all;
    for (std::string line; std::getline(std::cin, line) && line[0] != '/';) {
        std::istringstream rings(line);
        std::string text;
        std::getline(rings, text, ';');
        Polygon polygon(read_ring(text, CGAL::COUNTERCLOCKWISE));
        while (std::getline(rings, text, ';'))
            polygon.add_hole(read_ring(text, CGAL::CLOCKWISE));
        all.push_back(polygon);
    }
    Area area;
    area.join(all.begin(), all.end());
    return area;
}

static double size_of(const Area &area)
{
    std::list<Polygon> all;
    area.polygons_with_holes(std::back_inserter(all));
    double size = 0;
    for (const Polygon &polygon : all) {
        size += CGAL::to_double(polygon.outer_boundary().area());
        for (auto hole = polygon.holes_begin(); hole != polygon.holes_end(); ++hole)
            size += CGAL::to_double(hole->area());
    }
    return size;
}

int main(int count, char **words)
{
    int times = count > 1 ? std::atoi(words[1]) : 1;
    Area first = read_area(), second = read_area();
    double best = 1e9, size = 0;
    for (int i = 0; i < times; i++) {
        Area common(first);
        std::clock_t before = std::clock();
        common.intersection(second);
        double seconds = double(std::clock() - before) / CLOCKS_PER_SEC;
        best = std::min(best, seconds);
        size = size_of(common);
    }
    std::printf("%.1f %.6f\n", size, best);
    return 0;
}
