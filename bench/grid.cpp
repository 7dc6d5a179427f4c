// Plans a fixed street grid with the library and with the plain search of plain.hpp, one after the other in turn, holds the
// answers against each other, and prints both times.
#include "plain.hpp"

#include <algorithm>
#include <cstddef>
#include <cstdint>
#include <cstdio>
#include <cstdlib>
#include <ctime>
#include <vector>

// As crates/linked/src/kinds.rt and export.rt have them. Nothing holds these lines to those.
struct Street {
    std::uint64_t a, b, cost;
};

struct Found {
    std::uint64_t cost;
    std::uint32_t count, number;
};

extern "C" Found duct_plan(std::uint64_t junctions, const Street* streets, std::size_t street_count, const std::uint64_t* outlets,
                           std::size_t outlet_count, std::uint32_t limit, std::size_t places, std::uint8_t* row, std::size_t row_length);
extern "C" std::size_t duct_bytes_a_place();

namespace {

constexpr std::uint64_t side = 32;
constexpr std::size_t run_count = 3000;
constexpr std::uint64_t seed = 159;

struct Grid {
    std::vector<Street> streets;
    std::vector<std::uint64_t> outlets;
};

// Streets to the east and the south of each junction, a diagonal through each block, and a second one through every
// seventeenth until there are 3,000. Costs are 10 to 100, by xorshift64, and for a diagonal two fifths more.
Grid street_grid() {
    Grid grid;
    std::uint64_t state = seed * 0x9E3779B97F4A7C15u + 1;
    const auto lay = [&](std::uint64_t a, std::uint64_t b, std::uint64_t fifths) {
        state ^= state << 13;
        state ^= state >> 7;
        state ^= state << 17;
        grid.streets.push_back({a, b, (10 + (state >> 11) % 91) * fifths / 5});
    };
    const auto at = [](std::uint64_t x, std::uint64_t y) { return y * side + x; };
    for (std::uint64_t y = 0; y < side; ++y)
        for (std::uint64_t x = 0; x < side; ++x) {
            if (x + 1 < side)
                lay(at(x, y), at(x + 1, y), 5);
            if (y + 1 < side)
                lay(at(x, y), at(x, y + 1), 5);
        }
    for (std::uint64_t y = 0; y + 1 < side; ++y)
        for (std::uint64_t x = 0; x + 1 < side; ++x)
            lay(at(x, y), at(x + 1, y + 1), 7);
    for (std::uint64_t block = 0; grid.streets.size() < run_count; block += 17) {
        const std::uint64_t x = block % (side - 1), y = block / (side - 1);
        lay(at(x + 1, y), at(x, y + 1), 7);
    }
    grid.outlets = {at(6, 6), at(25, 6), at(15, 12), at(8, 15), at(22, 16), at(14, 20), at(6, 25), at(26, 26)};
    return grid;
}

plain::Plan plan_plainly(const Grid& grid) {
    plain::District district{side * side, {}, {}, {}};
    for (const Street& s : grid.streets) {
        district.runs.push_back({static_cast<std::uint16_t>(s.a), static_cast<std::uint16_t>(s.b), s.cost});
        district.open.push_back(1);
    }
    district.outlets.assign(grid.outlets.begin(), grid.outlets.end());
    std::sort(district.outlets.begin(), district.outlets.end());
    const auto plan = plain::Search(district).plan();
    if (!plan) {
        std::puts("plain: the outlets cannot be joined");
        std::exit(1);
    }
    return *plan;
}

plain::Plan plan_proved(const Grid& grid) {
    const std::size_t places = side * side << (grid.outlets.size() - 1);
    plain::Plan plan{0, 0, std::vector<std::uint8_t>(grid.streets.size(), 0)};
    const Found found = duct_plan(side * side, grid.streets.data(), grid.streets.size(), grid.outlets.data(), grid.outlets.size(),
                                  UINT32_MAX, places, plan.row.data(), plan.row.size());
    if (found.number != 0) {
        std::printf("proved: refused with %u\n", found.number);
        std::exit(1);
    }
    plan.cost = found.cost;
    plan.count = found.count;
    return plan;
}

// The processor time of this thread so far, in milliseconds. What else the machine does counts less in it than in the time of day.
double now() {
    timespec t;
    clock_gettime(CLOCK_THREAD_CPUTIME_ID, &t);
    return static_cast<double>(t.tv_sec) * 1e3 + static_cast<double>(t.tv_nsec) / 1e6;
}

// How long a plan takes: the memory, the district, the search and the drawing.
template <class Planner>
double timed(Planner planner, const Grid& grid, plain::Plan& plan) {
    const double start = now();
    plan = planner(grid);
    return now() - start;
}

double best(const std::vector<double>& times) { return *std::min_element(times.begin(), times.end()); }

double median(std::vector<double> times) {
    std::sort(times.begin(), times.end());
    return times[times.size() / 2];
}

}  // namespace

int main(int argc, char** argv) {
    const int rounds = argc > 1 ? std::max(1, std::atoi(argv[1])) : 15;
    const Grid grid = street_grid();
    std::vector<double> proved_times, plain_times;
    plain::Plan proved{}, expected{};
    for (int i = 0; i < rounds; ++i) {
        plain_times.push_back(timed(plan_plainly, grid, expected));
        proved_times.push_back(timed(plan_proved, grid, proved));
        if (proved.cost != expected.cost || proved.count != expected.count || proved.row != expected.row) {
            std::puts("the two plans differ");
            return 1;
        }
    }
    std::printf("%llu junctions, %zu runs, %zu outlets: cost %llu, %u turns, %ld runs dug; both agree\n",
                static_cast<unsigned long long>(side * side), grid.streets.size(), grid.outlets.size(),
                static_cast<unsigned long long>(proved.cost), proved.count,
                static_cast<long>(std::count(proved.row.begin(), proved.row.end(), 1)));
    std::printf("%d rounds, ms    best  median\n", rounds);
    std::printf("plain C++     %7.1f %7.1f\n", best(plain_times), median(plain_times));
    std::printf("proved        %7.1f %7.1f\n", best(proved_times), median(proved_times));
    std::printf("ratio         %7.2f %7.2f\n", best(proved_times) / best(plain_times), median(proved_times) / median(plain_times));
    std::printf("bytes a label place: %zu\n", duct_bytes_a_place());
    return 0;
}
