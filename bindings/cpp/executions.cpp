/* Tests of the execution of plans. What is wanted is worked out by hand. */
#include "nashirudder.hpp"

#include <cstdio>
#include <cstdlib>
#include <thread>

using namespace nashirudder;

#define CHECK(what)                                                                         \
    do {                                                                                    \
        if (!(what)) {                                                                      \
            std::fprintf(stderr, "%s:%d: %s\n", __FILE__, __LINE__, #what);                 \
            std::exit(1);                                                                   \
        }                                                                                   \
    } while (0)

static bool is(const Move &move, std::uint32_t robot, std::uint32_t from, std::uint32_t to, std::uint64_t tick) {
    return move == Move{tick, robot, from, to};
}

/* A closed handle is refused by each call, and what the results led to stays. */
static void closed() {
    nashirudder_execution run = NASHIRUDDER_CLOSED;
    nashirudder_move move{7, 7, 7, 7};
    nashirudder_whereabouts found{7, 7, 7, true};
    nashirudder_progress progress{7, 7, true};
    const std::uint32_t to[1] = {0};
    CHECK(nashirudder_execution_plan(&run, to, 1) == NASHIRUDDER_NOT_OPEN);
    CHECK(nashirudder_execution_begin(&run, &move) == NASHIRUDDER_NOT_OPEN && is(move, 7, 7, 7, 7));
    CHECK(nashirudder_execution_reached(&run, 0, &move) == NASHIRUDDER_NOT_OPEN && is(move, 7, 7, 7, 7));
    CHECK(nashirudder_execution_whereabouts(&run, 0, &found) == NASHIRUDDER_NOT_OPEN && found == (Whereabouts{7, 7, 7, true}));
    CHECK(nashirudder_execution_progress(&run, &progress) == NASHIRUDDER_NOT_OPEN && progress == (Progress{7, 7, true}));
    nashirudder_execution_close(&run);
    CHECK(!run.is_open && !run.at);
}

static void nulls() {
    nashirudder_execution run = NASHIRUDDER_CLOSED;
    nashirudder_move move;
    CHECK(nashirudder_execution_open(4, nullptr, 1, NASHIRUDDER_CLEARANCE_ARRIVED, 1, &run) == NASHIRUDDER_NULL_POINTER);
    CHECK(nashirudder_execution_open(4, nullptr, 0, NASHIRUDDER_CLEARANCE_ARRIVED, 1, nullptr) == NASHIRUDDER_NULL_POINTER && !run.is_open);
    nashirudder_execution_close(nullptr);
    CHECK(nashirudder_execution_plan(nullptr, nullptr, 0) == NASHIRUDDER_NULL_POINTER);
    CHECK(nashirudder_execution_begin(nullptr, &move) == NASHIRUDDER_NULL_POINTER && nashirudder_execution_begin(&run, nullptr) == NASHIRUDDER_NULL_POINTER);
    CHECK(nashirudder_execution_reached(nullptr, 0, &move) == NASHIRUDDER_NULL_POINTER && nashirudder_execution_reached(&run, 0, nullptr) == NASHIRUDDER_NOT_OPEN);
    CHECK(nashirudder_execution_whereabouts(nullptr, 0, nullptr) == NASHIRUDDER_NULL_POINTER && nashirudder_execution_progress(&run, nullptr) == NASHIRUDDER_NULL_POINTER);
    // Nobody: nothing is planned for nobody, and no move begins.
    CHECK(nashirudder_execution_open(0, nullptr, 0, NASHIRUDDER_CLEARANCE_STARTED, 1, &run) == NASHIRUDDER_DONE);
    CHECK(nashirudder_execution_plan(&run, nullptr, 0) == NASHIRUDDER_DONE && nashirudder_execution_begin(&run, &move) == NASHIRUDDER_NO_MOVE);
    CHECK(nashirudder_execution_open(0, nullptr, 0, 9, 0, &run) == NASHIRUDDER_ALREADY_OPEN);
    nashirudder_execution_close(&run);
    CHECK(!run.is_open);
}

/* The openings that are refused, in their order. */
static void openings() {
    nashirudder_execution run = NASHIRUDDER_CLOSED;
    const std::uint32_t apart[2] = {0, 3}, shared[2] = {1, 1}, outside[2] = {0, 4};
    CHECK(nashirudder_execution_open(4, shared, 2, 0, 0, &run) == NASHIRUDDER_BAD_CLEARANCE && nashirudder_execution_open(4, apart, 2, 3, 1, &run) == NASHIRUDDER_BAD_CLEARANCE);
    CHECK(nashirudder_execution_open(4, shared, 2, 1, 0, &run) == NASHIRUDDER_BAD_WINDOW);
    CHECK(nashirudder_execution_open(4, shared, 2, 1, 1, &run) == NASHIRUDDER_NO_PLACEMENT && nashirudder_execution_open(4, outside, 2, 2, 1, &run) == NASHIRUDDER_NO_PLACEMENT);
    CHECK(!run.is_open);
    CHECK(Execution::try_open(4, shared).error().code == Code::no_placement && Execution::try_open(4, apart, Clearance::started, 0).error().code == Code::bad_window);
    CHECK(Execution::try_open(4, apart)->progress() == (Progress{0, 0, true}));
    CHECK(message_of(Fault{0, 0, NASHIRUDDER_NO_STEP}) == "the cells are no step, free of conflicts, from the placement that was planned last");
    CHECK(message_of(Fault{0, 0, NASHIRUDDER_NOT_UNDER_WAY}) == "the robot is not under way" && message_of(Fault{0, 0, nashirudder_code(67)}) == "there is no such code");
}

/* Two robots in a corridor, the second behind the first. */
static void corridor(Clearance clearance) {
    const std::uint32_t placement[2] = {0, 1}, first[2] = {1, 2}, second[2] = {2, 3}, third[2] = {3, 2}, swap[2] = {3, 2}, one[1] = {3};
    Execution run(4, placement, clearance, 2);
    CHECK(!run.begin() && !run.reached(0) && !run.whereabouts(2));
    CHECK(run.try_plan(swap)); // they are not on 2 and 3 yet, and that 3 is far from 0 is not asked
    run = Execution(4, placement, clearance, 2);
    run.plan(first);
    run.plan(second);
    CHECK(!run.has_room() && run.try_plan(third).error().code == Code::window_full && run.try_plan(one).error().code == Code::window_full);
    CHECK(run.progress() == (Progress{2, 2, false}));
    CHECK(is(run.begin().value(), 1, 1, 2, 1));
    CHECK(run.whereabouts(1) == (Whereabouts{1, 2, 1, true}) && run.whereabouts(0) == (Whereabouts{0, 0, 2, false}));
    if (clearance == Clearance::started) CHECK(is(run.begin().value(), 0, 0, 1, 1));
    CHECK(!run.begin());
    CHECK(is(run.reached(1).value(), 1, 1, 2, 1) && !run.reached(1) && !run.reached(2));
    if (clearance == Clearance::started) {
        CHECK(is(run.begin().value(), 1, 2, 3, 2) && !run.begin());
    } else {
        auto one_of = run.begin().value(), other = run.begin().value();
        if (one_of.robot == 1) std::swap(one_of, other);
        CHECK(is(one_of, 0, 0, 1, 1) && is(other, 1, 2, 3, 2) && !run.begin());
    }
    CHECK(!run.has_room() && is(run.reached(0).value(), 0, 0, 1, 1) && run.has_room() && run.progress() == (Progress{2, 1, true}));
    // They are on 2 and 3 in the plan.
    CHECK(run.try_plan(swap).error().code == Code::no_step && run.try_plan(one).error().code == Code::no_step && run.progress().steps == 2);
    const nashirudder::Execution &seen = run;
    std::thread looks([&] { CHECK(seen.whereabouts(1)->is_under_way); });
    CHECK(seen.whereabouts(1)->bound_for == 3);
    looks.join();
    Execution moved = std::move(run);
    CHECK(moved.reached(1) && moved.begin().value().robot == 0 && moved.reached(0) && !moved.begin() && moved.progress() == (Progress{2, 0, true}));
}

/* Four robots that turn on a block of four cells: they begin together. */
static void cycle() {
    const std::uint32_t placement[4] = {0, 1, 3, 2}, turned[4] = {1, 3, 2, 0};
    Execution run(4, placement);
    run.plan(turned);
    std::uint32_t seen = 0;
    while (auto move = run.begin()) {
        CHECK(move->tick == 1 && move->from == placement[move->robot] && move->to == turned[move->robot]);
        seen |= 1u << move->robot;
    }
    CHECK(seen == 15);
}

int main() {
    closed();
    nulls();
    openings();
    corridor(Clearance::arrived);
    corridor(Clearance::started);
    cycle();
    std::printf("bindings/cpp/executions.cpp: the calls of executions do what is worked out by hand\n");
}
