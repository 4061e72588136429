/* A game: in each frame a few robots get orders, and all move. A frame can be gone back to, and a wall goes up while robots are
   under way. It looks for conflicts by itself, and ends with status 1 where something is not as it should be.
   usage: game [SIDE [ROBOTS]] */
#include "nashirudder.hpp"

#include <algorithm>
#include <cstdio>
#include <cstdlib>
#include <map>
#include <random>
#include <string>
#include <utility>
#include <vector>

namespace ns = nashirudder;
using Cells = std::vector<std::uint32_t>;

static void need(bool holds, const char *what) {
    if (holds) return;
    std::printf("it does not hold that %s\n", what);
    std::exit(1);
}

/* A square with a pillar in every fourth row and column, and so without a bridge. */
static std::string yard(std::uint32_t side) {
    std::string map = "type octile\nheight " + std::to_string(side) + "\nwidth " + std::to_string(side) + "\nmap\n";
    for (std::uint32_t row = 0; row < side; row++) {
        for (std::uint32_t column = 0; column < side; column++) map += row % 4 == 2 && column % 4 == 2 ? '@' : '.';
        map += '\n';
    }
    return map;
}

/* Whether no two robots are on one cell, and no two have exchanged theirs. */
static bool is_free_of_conflicts(const Cells &from, const Cells &to) {
    std::map<std::uint32_t, std::size_t> on;
    for (std::size_t robot = 0; robot < to.size(); robot++) {
        if (!on.emplace(to[robot], robot).second) return false;
    }
    for (std::size_t robot = 0; robot < to.size(); robot++) {
        const auto other = on.find(from[robot]);
        if (other != on.end() && other->second != robot && from[other->second] == to[robot]) return false;
    }
    return true;
}

class Game {
public:
    Game(std::uint32_t side, std::uint32_t robots) : text(yard(side)), floor(ns::Map(text).floor()), fleet(text, starts(robots), ns::endless_setup()) {
        // Nobody looks at what was: a full chapter is dropped.
        fleet.roll();
        shown.cells = fleet.placement();
    }

    /* One frame: no more than three robots get an errand, all move, and the notices are read. */
    void frame() {
        const auto standings = fleet.standings();
        int left = 3;
        for (std::uint32_t robot = 0; robot < standings.size() && left > 0; robot++) {
            if (standings[robot].state != ns::State::free) continue;
            need(fleet.go(0, robot, floor[draw() % floor.size()]).verdict == ns::Verdict::accepted, "an errand to a floor cell is accepted");
            left--;
        }
        const Cells before = shown.cells;
        fleet.tick_into(shown);
        need(is_free_of_conflicts(before, shown.cells), "the step is free of conflicts");
        for (const ns::Note &note : fleet.notices(0)) arrived += note.verdict == ns::Verdict::no_verdict;
    }
    void play(int frames) {
        while (frames-- > 0) frame();
    }

    /* What a game is saved as: the state of its fleet, and what its next orders are drawn from. */
    using Saved = std::pair<ns::Opening, std::mt19937>;
    [[nodiscard]] Saved save() {
        fleet.next_chapter();
        return {fleet.opening(), draw};
    }
    void load(const Saved &saved) {
        fleet.go_on(text, saved.first);
        shown.cells = fleet.placement();
        draw = saved.second;
    }

    /* Puts a wall on the first cell where it hinders nobody: no robot stands there, and none is under way to it. */
    std::uint32_t build() {
        const Saved saved = save();
        const std::string before = text;
        for (std::uint32_t cell : floor) {
            text = before;
            text[text.find("map\n") + 4 + cell / side_of(before) * (side_of(before) + 1) + cell % side_of(before)] = '@';
            const ns::Map walled(text);
            if (saved.first.fault_on(walled)) continue;
            floor = walled.floor();
            load(saved);
            return cell;
        }
        need(false, "there is room for a wall");
        return 0;
    }

    [[nodiscard]] const Cells &cells() const { return shown.cells; }
    [[nodiscard]] std::size_t arrivals() const { return arrived; }

private:
    static std::size_t side_of(const std::string &map) { return map.size() - map.rfind('\n', map.size() - 2) - 2; }
    std::vector<ns::Robot> starts(std::uint32_t robots) const {
        std::vector<ns::Robot> each;
        for (std::uint32_t robot = 0; robot < robots; robot++) each.push_back({floor[robot], {}});
        return each;
    }

    std::string text;
    Cells floor;
    ns::Fleet fleet;
    ns::Shown shown;
    std::mt19937 draw{1};
    std::size_t arrived = 0;
};

int main(int count, char **words) try {
    const auto number = [&](int at, unsigned long other) { return static_cast<std::uint32_t>(count > at ? std::strtoul(words[at], nullptr, 10) : other); };
    const std::uint32_t robots = number(2, 60);
    Game game(number(1, 32), robots);
    game.play(100);
    const auto saved = game.save();
    game.play(100);
    const Cells then = game.cells();
    game.load(saved);
    need(game.cells() != then, "robots moved");
    game.play(100);
    need(game.cells() == then, "the same state and the same orders give the same cells");
    std::printf("%u robots went back 100 frames, and came to the same cells\n", robots);
    const std::uint32_t wall = game.build();
    for (int frame = 0; frame < 100; frame++) {
        game.frame();
        need(std::find(game.cells().begin(), game.cells().end(), wall) == game.cells().end(), "nobody is on the wall");
    }
    need(game.arrivals() > 0, "robots arrive");
    std::printf("a wall went up, and all went on\n");
} catch (const ns::Refused &refused) {
    std::printf("%s\n", refused.what());
    return 1;
}
