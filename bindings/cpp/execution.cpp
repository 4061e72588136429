/* Executes a plan with robots of different speed, and prints how long they take next to lock-step, in which a step of the plan
   lasts as long as its longest move. */
#include "nashirudder.hpp"

#include <algorithm>
#include <cstdio>
#include <functional>
#include <numeric>
#include <queue>

constexpr std::uint32_t ROBOTS = 3, CELLS = 12, AHEAD = 4;
constexpr std::uint64_t STEPS = 8;

/* How long a robot's move takes: this is where real robots would move. */
std::uint64_t takes(const nashirudder::Move &move) { return (move.robot + move.tick) % 4 == 0 ? 3 : 1; }

/* The plan: in a corridor all robots move on by one cell in each step. */
std::vector<std::uint32_t> cells_after(std::uint64_t step) {
    std::vector<std::uint32_t> cells(ROBOTS);
    std::iota(cells.begin(), cells.end(), static_cast<std::uint32_t>(step));
    return cells;
}

void execute(const char *name, nashirudder::Clearance clearance) {
    using Arrival = std::pair<std::uint64_t, std::uint32_t>; // the time, and the robot
    nashirudder::Execution run(CELLS, cells_after(0), clearance, AHEAD);
    std::priority_queue<Arrival, std::vector<Arrival>, std::greater<Arrival>> under_way;
    std::vector<std::uint64_t> longest(STEPS + 1);
    std::uint64_t now = 0, moves = 0;
    for (;;) {
        for (auto progress = run.progress(); progress.has_room && progress.steps < STEPS; progress = run.progress()) {
            run.plan(cells_after(progress.steps + 1));
        }
        while (auto move = run.begin()) {
            longest[move->tick] = std::max(longest[move->tick], takes(*move));
            under_way.emplace(now + takes(*move), move->robot);
            moves++;
        }
        if (under_way.empty()) break;
        now = under_way.top().first;
        run.reached(under_way.top().second);
        under_way.pop();
    }
    const auto lock_step = std::accumulate(longest.begin(), longest.end(), std::uint64_t{0});
    std::printf("%s: %llu moves in %llu, in lock-step %llu\n", name, (unsigned long long)moves, (unsigned long long)now, (unsigned long long)lock_step);
}

int main() {
    execute("arrived", nashirudder::Clearance::arrived);
    execute("started", nashirudder::Clearance::started);
}
