// One fleet that takes turns, and what is promised of it: each errand to a served cell arrives within robots times turn ticks after it has become its robot's front errand.
#pragma once

#include <algorithm>
#include <string>
#include <utility>
#include <vector>

#include "../roomy/fleet.hpp"
#include "rooms.hpp"

/// How errands are posted.
struct Manner {
    /// the chance that a robot without an errand gets one, tick by tick
    double busy;
    /// that it gets one in the room in which it stands
    double same;
    /// that one more is put in its queue
    double more;
    /// that some robot is shut
    double shut;
};

/// What is wrong on purpose, so that it has to be found; and whether waits alone may show it.
struct Wrong {
    bool is_plain = false, takes_all_as_served = false, is_bound_less = false, by_waits = false;
};

class Trial {
public:
    double nearest = 0;
    long lent = 0, unserved = 0;

    Trial(const Site &site, const std::vector<Part> &parts, const std::vector<nashirudder_robot> &robots, Wrong wrong)
        : parts(parts), away(site.searches()), fleet(site, robots, !wrong.is_plain), by_waits(wrong.by_waits), part_of(site.floor.size()), alive(parts.size()) {
        turn = turn_of(parts, reach = reach_of(away), fleet.robots());
        bound = turn * fleet.robots() - wrong.is_bound_less;
        for (std::size_t part = 0; part < parts.size(); part++) {
            for (int cell : parts[part].cells) part_of[cell] = static_cast<int>(part);
            alive[part].assign(parts[part].cores.size(), true);
            served.push_back(wrong.takes_all_as_served || parts[part].capacity >= fleet.robots());
        }
    }

    long arrived() const { return fleet.arrived; }
    long most_ticks() const { return std::clamp(2 * bound, 400L, 2000L); }

    /// Posts, shuts and one tick; what was wrong with it, or no text.
    std::string fault(Random &random, const Manner &manner) {
        post(random, manner);
        const std::vector<int> order = served_in_order();
        if (order.empty()) return fleet.tick();
        const int eldest = order[0], goal = fleet.queues[eldest].front();
        const std::vector<long> before = needs(eldest, goal);
        if (std::string wrong = late(order, before); !by_waits && !wrong.empty()) return wrong;
        lent += std::max(1, away[goal][fleet.cells[eldest]]) < *std::max_element(before.begin(), before.end());
        if (std::string wrong = fleet.tick(); !wrong.empty()) return wrong;
        if (fleet.waits[eldest] != 0 && !comes_nearer(eldest, goal, before) && !by_waits)
            return "robot " + std::to_string(eldest) + " has the turn, and did not come nearer to its arrival";
        for (int robot : order)
            if (std::string wrong = long_wait(robot); !wrong.empty()) return wrong;
        return "";
    }

private:
    const std::vector<Part> &parts;
    std::vector<Distances> away;
    Fleet fleet;
    bool by_waits;
    std::vector<int> part_of;
    /// by part: which of its cores may still be the one that is planned by
    std::vector<std::vector<bool>> alive;
    std::vector<bool> served;
    int reach = 1;
    long turn = 0, bound = 0;

    int some_goal(Random &random, const Manner &manner, int robot) const {
        const int cell = fleet.cells[robot];
        const Part &part = parts[part_of[cell]];
        const int room = part.cores[0].room_of[cell];
        if (room == nowhere || !happens(random, manner.same)) return one_of(random, part.cells);
        std::vector<int> inside;
        for (int other : part.cells)
            if (part.cores[0].room_of[other] == room) inside.push_back(other);
        return one_of(random, inside);
    }

    void post(Random &random, const Manner &manner) {
        for (int robot = 0; robot < fleet.robots(); robot++)
            if (happens(random, fleet.is_busy(robot) ? manner.more : manner.busy)) fleet.post(robot, some_goal(random, manner, robot));
        if (happens(random, manner.shut)) fleet.shut(below(random, fleet.robots()));
    }

    /// The robots whose front errand goes to a served cell, who waits longest first.
    std::vector<int> served_in_order() {
        std::vector<int> order;
        for (int robot = 0; robot < fleet.robots(); robot++)
            if (fleet.is_busy(robot)) {
                const bool is_served = served[part_of[fleet.queues[robot].front()]];
                if (is_served) order.push_back(robot);
                unserved += !is_served;
            }
        std::sort(order.begin(), order.end(), [&](int one, int other) { return std::pair(-fleet.waits[one], one) < std::pair(-fleet.waits[other], other); });
        return order;
    }

    /// For each core of the goal's part, how many ticks are enough for the robot while it has the turn.
    std::vector<long> needs(int robot, int goal) const {
        std::vector<long> ticks;
        for (const Core &core : parts[part_of[goal]].cores) {
            long inside = 0, nearest_inside = 0;
            if (core.room_of[goal] != nowhere) {
                const Room &room = core.rooms[core.room_of[goal]];
                for (int other = 0; other < fleet.robots(); other++)
                    if (other != robot && room.has[fleet.cells[other]]) {
                        const long far = away[room.mouth][fleet.cells[other]];
                        nearest_inside = inside == 0 ? far : std::min(nearest_inside, far);
                        inside++;
                    }
                if (inside != 0) ticks.push_back(reach + (inside - 1) * room.depth + nearest_inside);
            }
            if (inside == 0) ticks.push_back(std::max(1, away[goal][fleet.cells[robot]]));
        }
        return ticks;
    }

    /// Whether by some core, which it always was, the robot needs fewer ticks than before.
    bool comes_nearer(int robot, int goal, const std::vector<long> &before) {
        const std::vector<long> now = needs(robot, goal);
        bool some = false;
        for (std::size_t core = 0; core < now.size(); core++) {
            alive[part_of[goal]][core] = alive[part_of[goal]][core] && now[core] < before[core];
            some = some || alive[part_of[goal]][core];
        }
        return some;
    }

    /// Whether a robot has no time left for the turns of those that come before it.
    std::string late(const std::vector<int> &order, const std::vector<long> &needed) const {
        const long least = *std::min_element(needed.begin(), needed.end());
        for (std::size_t place = 0; place < order.size(); place++)
            if (fleet.waits[order[place]] + least + static_cast<long>(place) * turn > turn * fleet.robots())
                return "robot " + std::to_string(order[place]) + " has no time left for the " + std::to_string(place) + " before it";
        return "";
    }

    std::string long_wait(int robot) {
        const long wait = fleet.waits[robot];
        nearest = std::max(nearest, static_cast<double>(wait) / static_cast<double>(bound));
        return wait < bound ? "" : "robot " + std::to_string(robot) + ": a wait of " + std::to_string(wait) + ", and the bound is " + std::to_string(bound);
    }
};
