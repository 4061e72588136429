/* Executes a plan with robots of different speed, and prints how long they take next to lock-step, in which a step of the plan
   lasts as long as its longest move. */
#include "nashirudder.h"

#include <inttypes.h>
#include <stdio.h>

enum { ROBOTS = 3, STEPS = 8, CELLS = 12, AHEAD = 4 };

/* How long a robot's move takes: this is where real robots would move. */
static uint64_t takes(uint32_t robot, uint64_t tick) { return (robot + tick) % 4 == 0 ? 3 : 1; }

/* The plan: in a corridor all robots move on by one cell in each step. */
static void cells_after(uint64_t step, uint32_t cells[ROBOTS]) {
    for (uint32_t robot = 0; robot < ROBOTS; robot++) cells[robot] = robot + (uint32_t)step;
}

static int execute(const char *name, uint32_t clearance) {
    nashirudder_execution run = NASHIRUDDER_CLOSED;
    nashirudder_progress progress;
    nashirudder_move move;
    uint32_t cells[ROBOTS];
    uint64_t now = 0, moves = 0, lock_step = 0, due[ROBOTS] = {0}, longest[STEPS + 1] = {0};

    cells_after(0, cells);
    if (nashirudder_execution_open(CELLS, cells, ROBOTS, clearance, AHEAD, &run) != NASHIRUDDER_DONE) return 1;
    for (;;) {
        while (nashirudder_execution_progress(&run, &progress) == NASHIRUDDER_DONE && progress.has_room && progress.steps < STEPS) {
            cells_after(progress.steps + 1, cells);
            if (nashirudder_execution_plan(&run, cells, ROBOTS) != NASHIRUDDER_DONE) return 1;
        }
        while (nashirudder_execution_begin(&run, &move) == NASHIRUDDER_DONE) {
            uint64_t time = takes(move.robot, move.tick);
            if (time > longest[move.tick]) longest[move.tick] = time;
            due[move.robot] = now + time;
            moves++;
        }
        /* The robot that arrives first; of those that arrive at once, the first by number. */
        uint32_t first = ROBOTS;
        for (uint32_t robot = 0; robot < ROBOTS; robot++) {
            if (due[robot] && (first == ROBOTS || due[robot] < due[first])) first = robot;
        }
        if (first == ROBOTS) break;
        now = due[first];
        due[first] = 0;
        if (nashirudder_execution_reached(&run, first, NULL) != NASHIRUDDER_DONE) return 1;
    }
    for (int step = 1; step <= STEPS; step++) lock_step += longest[step];
    printf("%s: %" PRIu64 " moves in %" PRIu64 ", in lock-step %" PRIu64 "\n", name, moves, now, lock_step);
    nashirudder_execution_close(&run);
    return 0;
}

int main(void) { return execute("arrived", NASHIRUDDER_CLEARANCE_ARRIVED) || execute("started", NASHIRUDDER_CLEARANCE_STARTED); }
