// Fleets with errands to roomy cells only, on random maps with bridges: tools/roomy/check says what is looked for.
#include <numeric>
#include <optional>

#include "fleet.hpp"
#include "site.hpp"

namespace {

constexpr int ticks_of_a_fleet = 400;
constexpr int most_robots = 60;

/// A map whose largest part alone is floor.
Site some_site(Random &random) {
    const double walls[] = {0.1, 0.25, 0.4};
    Site site{2 + below(random, 9), 2 + below(random, 9), {}, {}};
    const double share = walls[below(random, 3)];
    for (int cell = 0; cell < site.cells(); cell++) site.floor.push_back(!happens(random, share));
    site.join();
    site.keep_largest();
    return site;
}

/// For each cell the size of the least side of a bridge that has it, or of the whole floor; nothing where there is no bridge.
std::optional<std::vector<int>> sides_of(const Site &site) {
    std::vector<int> least(site.floor.size(), static_cast<int>(site.all().size()));
    bool has_bridge = false;
    for (int cell : site.all())
        for (int other : site.near[cell]) {
            const Distances side = site.search(other, {cell, other}, cell);
            if (side[cell] != nowhere) continue;
            has_bridge = true;
            for (std::size_t one = 0; one < side.size(); one++)
                if (side[one] != nowhere) least[one] = std::min(least[one], static_cast<int>(size_of(side)));
        }
    return has_bridge ? std::optional(least) : std::nullopt;
}

/// One fleet, and the bound on its waits.
class Trial {
public:
    double nearest = 0;

    Trial(const Site &site, std::vector<int> roomy, const std::vector<int> &starts) : roomy(std::move(roomy)), away(site.searches()), fleet(site, robots_on(starts), false) {
        bound = static_cast<long>(fleet.robots()) * reach_of(away);
    }

    long arrived() const { return fleet.arrived; }

    /// Posts, shuts and one tick; what was wrong with it, or no text.
    std::string fault(Random &random) {
        const int counts[] = {0, 0, 1, 2, fleet.robots()};
        for (int left = counts[below(random, 5)]; left > 0; left--) {
            const int robot = below(random, fleet.robots());
            fleet.post(robot, one_of(random, roomy));
        }
        if (happens(random, 0.002)) fleet.shut(below(random, fleet.robots()));
        const int eldest = eldest_now(), goal = eldest == nowhere ? nowhere : fleet.queues[eldest].front(), from = eldest == nowhere ? nowhere : fleet.cells[eldest];
        if (std::string wrong = fleet.tick(); !wrong.empty()) return wrong;
        if (eldest != nowhere && from != goal && away[goal][fleet.cells[eldest]] != away[goal][from] - 1)
            return "robot " + std::to_string(eldest) + " waited longest, and did not come nearer to " + std::to_string(goal);
        const long wait = *std::max_element(fleet.waits.begin(), fleet.waits.end());
        nearest = std::max(nearest, static_cast<double>(wait) / static_cast<double>(bound));
        return wait < bound ? "" : "a wait of " + std::to_string(wait) + ", and the bound is " + std::to_string(bound);
    }

private:
    std::vector<int> roomy;
    std::vector<Distances> away;
    Fleet fleet;
    long bound = 0;

    int eldest_now() const {
        int eldest = nowhere;
        for (int robot = 0; robot < fleet.robots(); robot++)
            if (fleet.is_busy(robot) && (eldest == nowhere || fleet.waits[robot] > fleet.waits[eldest])) eldest = robot;
        return eldest;
    }
};

}  // namespace

int main(int argc, char **argv) {
    if (argc != 4) return 2;
    const long most = std::atol(argv[1]);
    std::uint64_t seed = std::strtoull(argv[2], nullptr, 10);
    const bool is_full = argv[3] == std::string("full");
    long fleets = 0, ticks = 0, arrivals = 0;
    double nearest = 0;
    for (; ticks < most; seed++) {
        Random random(seed);
        const Site site = some_site(random);
        const auto least = sides_of(site);
        if (!least) continue;
        std::vector<int> floor = site.all(), roomy;
        const int all = static_cast<int>(floor.size());
        const int count = std::min(is_full && happens(random, 0.5) ? all : 1 + below(random, all), most_robots);
        for (int cell : floor)
            if ((*least)[cell] >= count) roomy.push_back(cell);
        if (roomy.empty()) continue;
        std::shuffle(floor.begin(), floor.end(), random);
        floor.resize(static_cast<std::size_t>(count));
        Trial trial(site, roomy, floor);
        for (int left = ticks_of_a_fleet; left > 0 && ticks < most; left--, ticks++)
            if (const std::string wrong = trial.fault(random); !wrong.empty()) {
                std::printf("seed %llu: %s\n%s", static_cast<unsigned long long>(seed), wrong.c_str(), site.text().c_str());
                return 1;
            }
        fleets++;
        arrivals += trial.arrived();
        nearest = std::max(nearest, trial.nearest);
    }
    std::printf("fleets %ld ticks %ld arrivals %ld, no wait over %.2f of its bound\n", fleets, ticks, arrivals, nearest);
}
