// Fleets that take turns, on maps with dead ends of many kinds: tools/turns/ticks says what is looked for.
#include <functional>
#include <map>

#include "maps.hpp"
#include "rooms.hpp"
#include "trial.hpp"

namespace {

struct Kind {
    const char *name;
    std::function<maps::Rows(Random &)> draw;
    bool keeps_parts = false;
};

const std::vector<Kind> kinds{
    {"aisles", [](Random &random) { return maps::aisles(1 + below(random, 6), 1 + below(random, 5)); }},
    {"aisles with walls", [](Random &random) { return maps::scattered(random, maps::aisles(1 + below(random, 4), 1 + below(random, 4)), 8); }},
    {"stubs", [](Random &random) { return maps::stubs(random, 1 + below(random, 4), 3 + below(random, 10)); }},
    {"comb", [](Random &random) { return maps::comb(2 + below(random, 6), 1 + below(random, 3)); }},
    {"star", [](Random &random) { return maps::star(1 + below(random, 8), 3 + below(random, 2)); }},
    {"rooms as a tree", [](Random &random) { return maps::rooms(random, 2 + below(random, 2), 1 + below(random, 4)); }},
    {"tree round a core", [](Random &random) {
         const int height = 2 + below(random, 4), width = 2 + below(random, 4);
         return maps::tree_round_core(random, height + 2 + below(random, 7), width + 2 + below(random, 7), height, width);
     }},
    {"maze", [](Random &random) { return maps::maze(random, 2 + below(random, 4), 5 * below(random, 3)); }},
    {"random", [](Random &random) { return maps::scattered(random, maps::open(1 + below(random, 8), 2 + below(random, 9)), one_of(random, {0, 10, 25, 35, 45})); }},
    {"large random", [](Random &random) { return maps::scattered(random, maps::open(8 + below(random, 8), 8 + below(random, 8)), 20 + below(random, 20)); }},
    {"several parts", [](Random &random) { return maps::scattered(random, maps::open(3 + below(random, 7), 3 + below(random, 7)), 30 + below(random, 15)); }, true},
    {"without bridges", [](Random &random) {
         if (happens(random, 0.5)) return maps::open(2 + below(random, 6), 2 + below(random, 6));
         return maps::lattice(1 + below(random, 4), 1 + below(random, 4));
     }},
};

struct Figures {
    long fleets = 0, ticks = 0, arrivals = 0, lent = 0, unserved = 0;
    double nearest = 0;

    void add(const Figures &other) {
        fleets += other.fleets;
        ticks += other.ticks;
        arrivals += other.arrivals;
        lent += other.lent;
        unserved += other.unserved;
        nearest = std::max(nearest, other.nearest);
    }

    void print(const std::string &name) const {
        std::printf("%-20s fleets %ld ticks %ld arrivals %ld, with others in the way %ld, not served %ld, longest wait %.3f of its bound\n", name.c_str(), fleets, ticks, arrivals, lent,
                    unserved, nearest);
    }
};

/// How many robots: for how many all cells are served, or fewer, or more.
int some_count(Random &random, const std::vector<Part> &parts, int floor, bool is_served, int most_robots) {
    int capacity = 1;
    for (const Part &part : parts) capacity = std::max(capacity, part.capacity);
    if (!is_served) return capacity < floor ? std::min(capacity + 1 + below(random, floor - capacity), most_robots) : 0;
    const int chosen = below(random, 10);
    if (chosen < 5) return std::min(capacity, most_robots);
    return std::min(1 + below(random, chosen < 9 ? capacity : floor), most_robots);
}

/// Robots on distinct cells; in half of all fleets the rooms are full first.
std::vector<nashirudder_robot> some_robots(Random &random, const std::vector<Part> &parts, std::vector<int> floor, int count) {
    std::shuffle(floor.begin(), floor.end(), random);
    if (happens(random, 0.5))
        std::stable_partition(floor.begin(), floor.end(), [&](int cell) {
            return std::any_of(parts.begin(), parts.end(), [&](const Part &part) { return part.cores[0].room_of[cell] != nowhere; });
        });
    floor.resize(static_cast<std::size_t>(count));
    std::vector<nashirudder_robot> robots = robots_on(floor);
    if (happens(random, 0.5))
        for (nashirudder_robot &robot : robots)
            for (std::uint8_t &rank : robot.ranks) rank = static_cast<std::uint8_t>(below(random, 3));
    return robots;
}

Manner some_manner(Random &random) {
    const double busy[] = {1, 1, 0.5, 0.05};
    return {busy[below(random, 4)], 0.5 * below(random, 2), happens(random, 0.2) ? 0.02 : 0, happens(random, 0.2) ? 0.0005 : 0};
}

/// The fleet of this seed, until so many ticks are made; whether all was as promised.
bool try_fleet(std::uint64_t seed, const Wrong &wrong, int most_robots, long most, std::vector<Figures> &by_kind) {
    Random random(seed);
    const std::size_t drawn = static_cast<std::size_t>(below(random, static_cast<int>(kinds.size())));
    const Kind &kind = kinds[drawn];
    Site site = Site::of(kind.draw(random));
    if (!kind.keeps_parts) site.keep_largest();
    const std::vector<int> floor = site.all();
    if (floor.size() < 2) return true;
    const std::vector<Part> parts = parts_of(site);
    const int count = some_count(random, parts, static_cast<int>(floor.size()), !wrong.takes_all_as_served, most_robots);
    // one robot alone has waits of every length up to its bound
    if (count == 0 || (wrong.is_bound_less && count == 1)) return true;
    const std::vector<nashirudder_robot> robots = some_robots(random, parts, floor, count);
    Trial trial(site, parts, robots, wrong);
    const Manner manner = some_manner(random);
    long ticks = 0;
    for (; ticks < std::min(most, trial.most_ticks()); ticks++)
        if (const std::string fault = trial.fault(random, manner); !fault.empty()) {
            std::printf("seed %llu, tick %ld of %d robots: %s\n%s", static_cast<unsigned long long>(seed), ticks, count, fault.c_str(), site.text().c_str());
            return false;
        }
    by_kind[drawn].add({1, ticks, trial.arrived(), trial.lent, trial.unserved, trial.nearest});
    return true;
}

}  // namespace

int main(int argc, char **argv) {
    if (argc < 4) return 2;
    const long most = std::atol(argv[1]);
    std::uint64_t seed = std::strtoull(argv[2], nullptr, 10);
    const int most_robots = std::atoi(argv[3]);
    Wrong wrong;
    for (int word = 4; word < argc; word++) {
        wrong.is_plain |= argv[word] == std::string("plain");
        wrong.takes_all_as_served |= argv[word] == std::string("unserved");
        wrong.is_bound_less |= argv[word] == std::string("less");
        wrong.by_waits |= argv[word] == std::string("waits");
    }
    std::vector<Figures> by_kind(kinds.size());
    Figures all;
    for (; all.ticks < most; seed++) {
        if (!try_fleet(seed, wrong, most_robots, most - all.ticks, by_kind)) return 1;
        all = {};
        for (const Figures &kind : by_kind) all.add(kind);
    }
    for (std::size_t kind = 0; kind < kinds.size(); kind++) by_kind[kind].print(kinds[kind].name);
    all.print("all");
}
