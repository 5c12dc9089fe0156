// Intersects two areas by Boost, with nothing rounded. Input and output are those of overlay_geos.c.
#include <boost/geometry.hpp>
#include <boost/geometry/geometries/multi_polygon.hpp>
#include <boost/geometry/geometries/point_xy.hpp>
#include <boost/geometry/geometries/polygon.hpp>
#include <cstdio>
#include <cstdlib>
#include <ctime>
#include <iostream>
#include <sstream>
#include <string>

namespace bg = boost::geometry;
using Point = bg::model::d2::point_xy<double>;
using Polygon = bg::model::polygon<Point>;
using Area = bg::model::multi_polygon<Polygon>;

static void read_ring(const std::string &text, Polygon::ring_type &ring)
{
    std::istringstream numbers(text);
    for (double x, y; numbers >> x >> y;)
        ring.emplace_back(x, y);
    ring.push_back(ring.front());
}

static Area read_area()
{
    Area area;
    for (std::string line; std::getline(std::cin, line) && line[0] != '/';) {
        Polygon polygon;
        std::istringstream rings(line);
        std::string text;
        std::getline(rings, text, ';');
        read_ring(text, polygon.outer());
        while (std::getline(rings, text, ';')) {
            polygon.inners().emplace_back();
            read_ring(text, polygon.inners().back());
        }
        area.push_back(polygon);
    }
    bg::correct(area);
    return area;
}

int main(int count, char **words)
{
    int times = count > 1 ? std::atoi(words[1]) : 1;
    Area first = read_area(), second = read_area();
    double best = 1e9, size = 0;
    for (int i = 0; i < times; i++) {
        std::clock_t before = std::clock();
        Area common;
        bg::intersection(first, second, common);
        double seconds = double(std::clock() - before) / CLOCKS_PER_SEC;
        best = std::min(best, seconds);
        size = bg::area(common);
    }
    std::printf("%.1f %.6f\n", size, best);
    return 0;
}
