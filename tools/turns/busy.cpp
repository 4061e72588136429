// A fleet whose robots always have an errand, on a map of a name: tools/turns/busy says what is measured.
#include <time.h>

#include <functional>
#include <map>

#include "../roomy/fleet.hpp"
#include "maps.hpp"
#include "rooms.hpp"

namespace {

const std::map<std::string, std::function<maps::Rows(Random &)>> named{
    {"aisles", [](Random &) { return maps::aisles(12, 6); }},
    {"deep-aisles", [](Random &) { return maps::aisles(28, 12); }},
    {"random-20", [](Random &random) { return maps::scattered(random, maps::open(64, 64), 20); }},
    {"random-30", [](Random &random) { return maps::scattered(random, maps::open(64, 64), 30); }},
    {"maze", [](Random &random) { return maps::maze(random, 16, 0); }},
    {"maze-loops", [](Random &random) { return maps::maze(random, 16, 6); }},
    {"star", [](Random &) { return maps::star(30, 3); }},
    {"tree-core", [](Random &random) { return maps::tree_round_core(random, 30, 30, 8, 8); }},
};

/// The processor time of this thread, in microseconds.
double now() {
    timespec at{};
    clock_gettime(CLOCK_THREAD_CPUTIME_ID, &at);
    return 1e6 * static_cast<double>(at.tv_sec) + 1e-3 * static_cast<double>(at.tv_nsec);
}

/// The cells whose sides of bridges all have as many cells as there are robots.
std::vector<int> roomy_cells(const Site &site, int robots) {
    std::vector<bool> tight(site.floor.size());
    for (const Room &room : rooms_beyond_bridges(site))
        for (int cell : site.all()) tight[cell] = tight[cell] || (room.size < robots && room.has[cell]);
    std::vector<int> roomy;
    for (int cell : site.all())
        if (!tight[cell]) roomy.push_back(cell);
    return roomy;
}

}  // namespace

// usage: busy MAP ROBOTS TICKS plain|turns all|roomy|none
int main(int argc, char **argv) {
    if (argc != 6 || named.count(argv[1]) == 0) return 2;
    Random drawing(1), random(7);
    Site site = Site::of(named.at(argv[1])(drawing));
    site.keep_largest();
    std::vector<int> starts = site.all();
    const int count = std::atoi(argv[2]);
    const std::vector<int> goals = argv[5] == std::string("roomy") ? roomy_cells(site, count) : site.all();
    std::shuffle(starts.begin(), starts.end(), random);
    starts.resize(static_cast<std::size_t>(count));
    Fleet fleet(site, robots_on(starts), argv[4] == std::string("turns"));
    const bool has_errands = argv[5] != std::string("none");
    const long ticks = std::atol(argv[3]);
    long longest = 0;
    double spent = 0;
    for (long left = ticks; left > 0; left--) {
        for (int robot = 0; robot < count && has_errands; robot++)
            if (!fleet.is_busy(robot)) {
                // one number before and one after, as the program draws them with which this one is compared
                random();
                fleet.post(robot, one_of(random, goals));
                random();
            }
        const double start = now();
        fleet.advance();
        spent += now() - start;
        if (const std::string wrong = fleet.fault(); !wrong.empty()) {
            std::fprintf(stderr, "%s\n", wrong.c_str());
            return 1;
        }
        longest = std::max(longest, 1 + *std::max_element(fleet.waits.begin(), fleet.waits.end()));
    }
    int capacity = 0;
    for (const Part &part : parts_of(site)) capacity = std::max(capacity, part.capacity);
    std::printf("cells %zu capacity %d arrivals %ld longest %ld microseconds %.1f\n", site.all().size(), capacity, fleet.arrived, longest, spent / static_cast<double>(ticks));
}
