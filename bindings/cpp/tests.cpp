/* Each call and each answer of the library, from C and C++. What is wanted is worked out by hand. */
#include "nashirudder.hpp"

#include <algorithm>
#include <atomic>
#include <chrono>
#include <cstdio>
#include <cstdlib>
#include <cstring>
#include <thread>

using namespace nashirudder;

#define CHECK(holds)                                                                  \
    do {                                                                              \
        if (!(holds)) {                                                               \
            std::printf("%s:%d: %s\n", __FILE__, __LINE__, #holds);                   \
            std::exit(1);                                                             \
        }                                                                             \
    } while (0)

/* Three rows of four cells, with a wall in the middle: no bridge. */
static const char *const RING = "type octile\nheight 3\nwidth 4\nmap\n....\n.@..\n....\n";
/* Three cells in a row: each edge is a bridge. */
static const char *const ROW = "type octile\nheight 1\nwidth 3\nmap\n...\n";
/* Two cells that a wall divides. */
static const char *const APART = "type octile\nheight 1\nwidth 3\nmap\n.@.\n";
/* A hall of nine cells, and a dead end of three: 9, 10 and 11. The dead end's sides have three, two and one cells. */
static const char *const STUB = "type octile\nheight 3\nwidth 6\nmap\n...@@@\n......\n...@@@\n";

template <typename F> static Fault refusal_of(F call) {
    try {
        call();
    } catch (const Refused &refused) {
        return refused.fault;
    }
    return Fault{0, 0, NASHIRUDDER_DONE};
}

static bool is(const Fault &fault, nashirudder_code code, std::uint64_t first = 0, std::uint64_t second = 0) {
    return fault.code == code && fault.first == first && fault.second == second;
}

/* Every call on a closed handle is refused, and it stays closed. */
static void closed() {
    nashirudder_fleet fleet = NASHIRUDDER_CLOSED;
    nashirudder_judgement judgement;
    nashirudder_report report;
    nashirudder_note note;
    std::uint64_t number;
    std::uint32_t robot, cells[1];
    std::uint8_t text[1];
    std::size_t length;
    nashirudder_setup setup;
    nashirudder_order order = order_go(0, 0, 0);
    nashirudder_arrival arrival;
    bool yes;
    CHECK(nashirudder_go(&fleet, 0, 0, 0, &judgement) == NASHIRUDDER_NOT_OPEN);
    CHECK(nashirudder_close_client(&fleet, 0, &judgement) == NASHIRUDDER_NOT_OPEN);
    CHECK(nashirudder_withdraw(&fleet, 0, 1, &judgement) == NASHIRUDDER_NOT_OPEN);
    CHECK(nashirudder_tick(&fleet, &report) == NASHIRUDDER_NOT_OPEN);
    CHECK(nashirudder_shut(&fleet, 0, &yes) == NASHIRUDDER_NOT_OPEN);
    CHECK(nashirudder_give(&fleet, 0, &note) == NASHIRUDDER_NOT_OPEN);
    CHECK(nashirudder_pending_count(&fleet, 0, &number) == NASHIRUDDER_NOT_OPEN);
    CHECK(nashirudder_widen(&fleet, 0, 1) == NASHIRUDDER_NOT_OPEN);
    CHECK(nashirudder_placement(&fleet, cells, 1) == NASHIRUDDER_NOT_OPEN);
    CHECK(nashirudder_clock(&fleet, &number) == NASHIRUDDER_NOT_OPEN);
    CHECK(nashirudder_wait_of(&fleet, 0, &number) == NASHIRUDDER_NOT_OPEN);
    CHECK(nashirudder_eldest(&fleet, &robot) == NASHIRUDDER_NOT_OPEN);
    CHECK(nashirudder_is_idle(&fleet, &yes) == NASHIRUDDER_NOT_OPEN);
    CHECK(nashirudder_idle_within(&fleet, &number) == NASHIRUDDER_NOT_OPEN);
    CHECK(nashirudder_is_bridgeless(&fleet, &yes) == NASHIRUDDER_NOT_OPEN);
    CHECK(nashirudder_take_many(&fleet, &order, 1, &judgement, 1, &length) == NASHIRUDDER_NOT_OPEN);
    CHECK(nashirudder_tick_into(&fleet, &report, cells, 1, &arrival, 1, cells, 1) == NASHIRUDDER_NOT_OPEN);
    CHECK(nashirudder_give_many(&fleet, 0, &note, 1, &length) == NASHIRUDDER_NOT_OPEN);
    CHECK(nashirudder_peek(&fleet, 0, &note) == NASHIRUDDER_NOT_OPEN);
    CHECK(nashirudder_robots(&fleet, &length) == NASHIRUDDER_NOT_OPEN);
    CHECK(nashirudder_clients(&fleet, &length) == NASHIRUDDER_NOT_OPEN);
    CHECK(nashirudder_limits(&fleet, &setup) == NASHIRUDDER_NOT_OPEN);
    CHECK(nashirudder_longest_wait(&fleet, &number) == NASHIRUDDER_NOT_OPEN);
    CHECK(nashirudder_wait_limit(&fleet, &number) == NASHIRUDDER_NOT_OPEN);
    nashirudder_standing standing{7, 7, 7, 7, NASHIRUDDER_BUSY};
    nashirudder_errand errand{7, 7, 7, 7, 7};
    nashirudder_account account{7, 7, 7, 7};
    nashirudder_chapter chapter = NASHIRUDDER_CLOSED;
    length = 7;
    CHECK(nashirudder_account_of(&fleet, 0, &account) == NASHIRUDDER_NOT_OPEN && account.room == 7);
    CHECK(nashirudder_next_chapter_into(&fleet, &chapter) == NASHIRUDDER_NOT_OPEN && !chapter.is_open);
    CHECK(nashirudder_chapter_trace(&chapter, text, 1, &length) == NASHIRUDDER_NOT_OPEN && length == 7);
    nashirudder_chapter_close(&chapter);
    CHECK(nashirudder_standings(&fleet, &standing, 1) == NASHIRUDDER_NOT_OPEN && standing.cell == 7);
    CHECK(nashirudder_queue(&fleet, 0, &errand, 1, &length) == NASHIRUDDER_NOT_OPEN && errand.cell == 7 && length == 7);
    CHECK(nashirudder_open_errands(&fleet, 0, &errand, 1, &length) == NASHIRUDDER_NOT_OPEN && errand.cell == 7 && length == 7);
    CHECK(nashirudder_trace(&fleet, text, 1, &length) == NASHIRUDDER_NOT_OPEN);
    CHECK(nashirudder_next_chapter(&fleet) == NASHIRUDDER_NOT_OPEN);
    CHECK(nashirudder_keep(&fleet, 0) == NASHIRUDDER_NOT_OPEN);
    nashirudder_close(&fleet);
    CHECK(fleet.at == nullptr && !fleet.is_open);
}

/* Why fleets are not opened. */
static void openings() {
    auto opening = [](const char *map, std::vector<Robot> robots, Setup setup) {
        return refusal_of([&] { Fleet(map, std::span<const Robot>(robots), setup); });
    };
    Setup one = default_setup();
    CHECK(one.clients == 1 && one.queue == 16 && one.mailbox == 0 && one.lane == 0 && one.outlet == 0 && one.life == 1000000);
    CHECK(one.orders == 1000000 && one.clock == 1000000 && one.chapter == 65536 && one.chapters == 1000);
    std::vector<Robot> at_0 = {{0, {0, 0, 0, 0}}};
    CHECK(is(opening(RING, at_0, one), NASHIRUDDER_DONE));
    CHECK(is(opening("", at_0, one), NASHIRUDDER_MAP_HEADER, 1));
    CHECK(is(opening("type octile\nheight 1\nmap\n.\n", at_0, one), NASHIRUDDER_MAP_HEADER, 3));
    CHECK(is(opening("type octile\nheight 0\nwidth 1\nmap\n", at_0, one), NASHIRUDDER_MAP_SIZE));
    CHECK(is(opening("type octile\nheight 2\nwidth 2\nmap\n..\n...\n", at_0, one), NASHIRUDDER_MAP_ROW, 1));
    CHECK(is(opening("type octile\nheight 2\nwidth 2\nmap\n..\n.x\n", at_0, one), NASHIRUDDER_MAP_CELL, 1, 1));
    CHECK(is(opening("type octile\nheight 1\nwidth 2\nmap\n..\n\nx\n", at_0, one), NASHIRUDDER_MAP_TRAILING, 7));
    CHECK(is(opening(RING, at_0, default_setup(0)), NASHIRUDDER_BAD_SETUP));
    CHECK(is(opening(RING, at_0, default_setup(65)), NASHIRUDDER_BAD_SETUP));
    Setup narrow = one;
    narrow.mailbox = 1;
    CHECK(is(opening(RING, at_0, narrow), NASHIRUDDER_BAD_SETUP));
    CHECK(one.size == sizeof one);
    Setup other_form = one;
    other_form.size = 52;
    CHECK(is(opening("", at_0, other_form), NASHIRUDDER_WRONG_SIZE));
    CHECK(is(opening(RING, {}, one), NASHIRUDDER_ROBOT_COUNT));
    CHECK(is(opening(RING, std::vector<Robot>(513), one), NASHIRUDDER_ROBOT_COUNT));
    CHECK(is(opening(RING, {{0, {}}, {5, {}}}, one), NASHIRUDDER_START_BLOCKED, 1));
    CHECK(is(opening(RING, {{12, {}}}, one), NASHIRUDDER_START_BLOCKED, 0));
    CHECK(is(opening(RING, {{3, {}}, {0, {}}, {3, {}}}, one), NASHIRUDDER_START_SHARED, 0, 2));

    nashirudder_fleet fleet = NASHIRUDDER_CLOSED;
    Fault fault{7, 7, NASHIRUDDER_IDLE};
    auto open = [&] { return nashirudder_open((const std::uint8_t *)RING, std::strlen(RING), at_0.data(), 1, &one, &fleet, &fault); };
    CHECK(open() == NASHIRUDDER_DONE);
    CHECK(open() == NASHIRUDDER_ALREADY_OPEN && is(fault, NASHIRUDDER_IDLE, 7, 7));
    nashirudder_close(&fleet);
    CHECK(open() == NASHIRUDDER_DONE);
    nashirudder_close(&fleet);
    nashirudder_close(&fleet);
}

/* Each verdict, and each reason why an order is not taken. */
static void orders() {
    Setup setup = default_setup(2);
    setup.queue = 2;
    setup.life = 3;
    Fleet fleet(RING, {{.cell = 0, .ranks = {}}, {.cell = 3, .ranks = {}}}, setup);
    Judgement accepted = fleet.go(0, 0, 11);
    CHECK(accepted.verdict == NASHIRUDDER_ACCEPTED && accepted.number == 1);
    CHECK(fleet.go(0, 2, 11).verdict == NASHIRUDDER_UNKNOWN_ROBOT);
    CHECK(fleet.go(0, 1, 12).verdict == NASHIRUDDER_NO_CELL);
    CHECK(fleet.go(0, 1, 5).verdict == NASHIRUDDER_BLOCKED);
    CHECK(fleet.go(0, 0, 1).number == 2);
    CHECK(fleet.go(0, 0, 2).verdict == NASHIRUDDER_QUEUE_FULL);
    CHECK(fleet.withdraw(0, 1).verdict == NASHIRUDDER_TOO_LATE);
    CHECK(fleet.withdraw(0, 9).verdict == NASHIRUDDER_NO_ERRAND);
    CHECK(fleet.withdraw(1, 2).verdict == NASHIRUDDER_NO_ERRAND);
    CHECK(fleet.withdraw(0, 2).verdict == NASHIRUDDER_WITHDRAWN);
    CHECK(fleet.go(0, 0, 2).number == 3);
    CHECK(fleet.go(0, 1, 2).verdict == NASHIRUDDER_LIFE_SPENT);
    CHECK(fleet.shut(1));
    CHECK(fleet.go(1, 1, 2).verdict == NASHIRUDDER_ROBOT_SHUT);
    CHECK(fleet.close_client(1).verdict == NASHIRUDDER_CLOSING);
    CHECK(fleet.go(1, 0, 2).verdict == NASHIRUDDER_CLIENT_CLOSED);
    CHECK(is(refusal_of([&] { (void)fleet.go(2, 0, 2); }), NASHIRUDDER_NO_CLIENT));

    Fleet apart(APART, {{.cell = 0, .ranks = {}}});
    CHECK(apart.go(0, 0, 2).verdict == NASHIRUDDER_UNREACHABLE);

    Setup narrow = default_setup();
    narrow.mailbox = 2;
    narrow.chapter = 2;
    narrow.clock = 1;
    Fleet little(ROW, {{.cell = 0, .ranks = {}}}, narrow);
    CHECK(little.go(0, 0, 2).number == 1);
    CHECK(is(refusal_of([&] { (void)little.go(0, 0, 1); }), NASHIRUDDER_MAILBOX_FULL));
    little.widen(0, 2);
    CHECK(little.go(0, 0, 1).number == 2);
    little.widen(0, 100);
    CHECK(is(refusal_of([&] { (void)little.go(0, 0, 1); }), NASHIRUDDER_CHAPTER_FULL));
    CHECK(is(refusal_of([&] { little.tick(); }), NASHIRUDDER_CHAPTER_FULL));
    CHECK(is(refusal_of([&] { little.shut(0); }), NASHIRUDDER_CHAPTER_FULL));
    little.next_chapter();
    CHECK(little.tick().tick == 1);
    CHECK(is(refusal_of([&] { little.tick(); }), NASHIRUDDER_CLOCK_SPENT));
    CHECK(little.clock() == 1 && little.placement() == std::vector<std::uint32_t>{1});
}

/* The words for codes and verdicts, which have no number in common. */
static void names() {
    using nashirudder::name_of, nashirudder::verdict_name;
    CHECK(std::string_view(name_of(NASHIRUDDER_CLOCK_SPENT)) == "clock-spent" && std::string_view(verdict_name(NASHIRUDDER_BLOCKED)) == "blocked");
    CHECK(std::string_view(name_of(NASHIRUDDER_NO_MEMORY)) == "no-memory" && std::string_view(verdict_name(NASHIRUDDER_ACCEPTED)) == "accepted");
    CHECK(std::string_view(name_of(99)) == "unknown" && std::string_view(verdict_name(0)) == "unknown");
    CHECK(std::string_view(name_of(Code::clock_spent)) == "clock-spent" && std::string_view(name_of(Verdict::blocked)) == "blocked");
    for (std::uint32_t number = 0; number < 200; number++) {
        bool is_code = std::string_view(name_of(number)) != "unknown", is_verdict = std::string_view(verdict_name(number)) != "unknown";
        CHECK(!(is_code && is_verdict));
        // Each code has a sentence of its own, and nothing else has one.
        CHECK(is_code == (message_of(Fault{0, 0, static_cast<nashirudder_code>(number)}) != "there is no such code"));
    }
    CHECK(code_of(Fault{0, 0, NASHIRUDDER_IDLE}) == Code::idle && verdict_of(Judgement{0, NASHIRUDDER_TOO_LATE}) == Verdict::too_late);
}

/* Sentences, with the numbers of their faults. */
static void messages() {
    CHECK(message_of(Fault{0, 0, NASHIRUDDER_NO_MEMORY}) == "out of memory");
    CHECK(message_of(Fault{3, 0, NASHIRUDDER_START_BLOCKED}) == "robot 3 starts on a cell that is no floor");
    CHECK(message_of(Fault{0, 12, NASHIRUDDER_START_SHARED}) == "robots 0 and 12 both start on one cell");
    CHECK(message_of(Fault{10, 7, NASHIRUDDER_CHAPTER_ILLEGAL}) == "the trace: entry 10 breaks rule 7");
    CHECK(message_of(Fault{UINT64_MAX, UINT64_MAX, NASHIRUDDER_MAP_CELL}) ==
          "the map: row 18446744073709551615, column 18446744073709551615 has a byte that is no letter of a map");
    char text[8] = "*******";
    Fault memory{0, 0, NASHIRUDDER_NO_MEMORY};
    CHECK(nashirudder_message(&memory, text, 0) == 13 && text[0] == '*');
    CHECK(nashirudder_message(&memory, text, 1) == 13 && text[0] == 0 && text[1] == '*');
    CHECK(nashirudder_message(&memory, text, 7) == 13 && std::string_view(text) == "out of" && text[7] == 0);
    try {
        Fleet(RING, {{.cell = 5, .ranks = {}}});
        CHECK(false);
    } catch (const Refused &refused) {
        CHECK(std::string_view(refused.what()) == "robot 0 starts on a cell that is no floor" && refused.code() == Code::start_blocked);
    }
}

/* What must not be null is refused, and what is not wanted may be null. */
static void nulls() {
    Setup one = default_setup();
    Robot robot{0, {0, 0, 0, 0}};
    nashirudder_fleet fleet = NASHIRUDDER_CLOSED;
    const std::uint8_t *ring = reinterpret_cast<const std::uint8_t *>(RING);
    const std::size_t length = std::strlen(RING);
    std::size_t count = 0;
    CHECK(nashirudder_open(nullptr, 1, &robot, 1, &one, &fleet, nullptr) == NASHIRUDDER_NULL_POINTER);
    CHECK(nashirudder_open(ring, length, nullptr, 1, &one, &fleet, nullptr) == NASHIRUDDER_NULL_POINTER);
    CHECK(nashirudder_open(ring, length, &robot, 1, nullptr, &fleet, nullptr) == NASHIRUDDER_NULL_POINTER);
    CHECK(nashirudder_open(ring, length, &robot, 1, &one, nullptr, nullptr) == NASHIRUDDER_NULL_POINTER);
    CHECK(nashirudder_open(nullptr, 0, &robot, 1, &one, &fleet, nullptr) == NASHIRUDDER_MAP_HEADER);
    CHECK(nashirudder_open(ring, length, nullptr, 0, &one, &fleet, nullptr) == NASHIRUDDER_ROBOT_COUNT);
    CHECK(nashirudder_open(ring, length, &robot, 1, &one, &fleet, nullptr) == NASHIRUDDER_DONE);
    CHECK(nashirudder_go(nullptr, 0, 0, 1, nullptr) == NASHIRUDDER_NULL_POINTER);
    CHECK(nashirudder_go(&fleet, 0, 0, 1, nullptr) == NASHIRUDDER_DONE);
    CHECK(nashirudder_tick(nullptr, nullptr) == NASHIRUDDER_NULL_POINTER && nashirudder_tick(&fleet, nullptr) == NASHIRUDDER_DONE);
    CHECK(nashirudder_clock(&fleet, nullptr) == NASHIRUDDER_NULL_POINTER && nashirudder_give(&fleet, 0, nullptr) == NASHIRUDDER_NULL_POINTER);
    CHECK(nashirudder_give_many(&fleet, 0, nullptr, 0, &count) == NASHIRUDDER_DONE && count == 0);
    CHECK(nashirudder_give_many(&fleet, 0, nullptr, 1, &count) == NASHIRUDDER_NULL_POINTER);
    CHECK(nashirudder_placement(&fleet, nullptr, 0) == NASHIRUDDER_WRONG_LENGTH);
    CHECK(nashirudder_shut(&fleet, 0, nullptr) == NASHIRUDDER_DONE);
    CHECK(nashirudder_message(nullptr, nullptr, 0) == 0);
    nashirudder_setup_default(1, nullptr);
    nashirudder_close(nullptr);
    nashirudder_close(&fleet);
}

/* Orders, notices and ticks, many at once. */
static void batches() {
    Fleet fleet(RING, {{.cell = 0, .ranks = {}}, {.cell = 3, .ranks = {}}}, default_setup(2));
    std::vector<Order> orders = {order_go(0, 0, 1), order_go(1, 1, 5), order_go(1, 1, 2), order_withdraw(0, 1), order_go(2, 0, 1), order_go(0, 0, 2)};
    std::vector<Judgement> judged(6, Judgement{9, NASHIRUDDER_NO_VERDICT});
    Taken taken = fleet.take_many(orders, judged);
    CHECK(taken.count == 4 && taken.stopped == Code::no_client);
    CHECK(judged[0].number == 1 && verdict_of(judged[0]) == Verdict::accepted && verdict_of(judged[1]) == Verdict::blocked);
    CHECK(judged[2].number == 1 && verdict_of(judged[2]) == Verdict::accepted && verdict_of(judged[3]) == Verdict::too_late);
    CHECK(judged[4].number == 9 && judged[5].number == 9);
    Order unknown{0, static_cast<nashirudder_kind>(0), 0, 0, 0};
    taken = fleet.take_many(std::span<const Order>(&unknown, 1), std::span<Judgement>(judged.data(), 1));
    CHECK(taken.count == 0 && taken.stopped == Code::bad_order && judged[0].number == 1);
    CHECK(is(refusal_of([&] { (void)fleet.take_many(orders, std::span<Judgement>(judged.data(), 5)); }), NASHIRUDDER_WRONG_LENGTH));
    taken = fleet.take_many({}, {});
    CHECK(taken.count == 0 && taken.stopped == Code::done && fleet.pending_count(0) == 2 && fleet.pending_count(1) == 2);

    std::uint32_t cells[2] = {9, 9}, farewells[2] = {9, 9};
    Arrival arrivals[2] = {{9, 9, 9, 9, 9}, {9, 9, 9, 9, 9}};
    CHECK(is(refusal_of([&] { fleet.tick_into(std::span<std::uint32_t>(cells, 1), arrivals, farewells); }), NASHIRUDDER_WRONG_LENGTH));
    CHECK(is(refusal_of([&] { fleet.tick_into(cells, std::span<Arrival>(arrivals, 1), farewells); }), NASHIRUDDER_WRONG_LENGTH));
    CHECK(is(refusal_of([&] { fleet.tick_into(cells, arrivals, std::span<std::uint32_t>(farewells, 1)); }), NASHIRUDDER_WRONG_LENGTH));
    CHECK(fleet.clock() == 0 && cells[0] == 9 && arrivals[0].robot == 9 && farewells[0] == 9);
    CHECK(!fleet.shut(1));
    Report report = fleet.tick_into(cells, arrivals, farewells);
    CHECK(report.tick == 1 && report.arrived == 2 && report.farewells == 1 && cells[0] == 1 && cells[1] == 2);
    CHECK(arrivals[0].number == 1 && arrivals[0].robot == 0 && arrivals[0].client == 0 && arrivals[0].cell == 1 && arrivals[0].stamp == 0);
    CHECK(arrivals[1].number == 1 && arrivals[1].robot == 1 && arrivals[1].client == 1 && arrivals[1].cell == 2 && arrivals[1].stamp == 0);
    CHECK(farewells[0] == 1 && farewells[1] == 9);
    Shown shown;
    report = fleet.tick_into(shown);
    CHECK(report.tick == 2 && shown.cells == (std::vector<std::uint32_t>{1, 2}) && shown.arrivals.empty() && shown.farewells.empty());

    Note first = fleet.peek(0).value();
    CHECK(first.seq == 1 && verdict_of(first) == Verdict::accepted && fleet.pending_count(0) == 3);
    Note notes[5] = {};
    notes[2].seq = 77;
    CHECK(fleet.give_many(0, std::span<Note>(notes, 2)) == 2 && notes[0].seq == 1 && notes[1].seq == 2 && verdict_of(notes[1]) == Verdict::too_late);
    CHECK(notes[2].seq == 77 && fleet.pending_count(0) == 1 && fleet.peek(0).value().seq == 3);
    CHECK(fleet.give_many(0, notes) == 1 && notes[0].seq == 3 && verdict_of(notes[0]) == Verdict::no_verdict && notes[0].cell == 1 && notes[1].seq == 2);
    CHECK(!fleet.peek(0) && fleet.give_many(0, notes) == 0 && fleet.give_all(1).size() == 3 && fleet.give_all(1).empty());
    CHECK(is(refusal_of([&] { (void)fleet.give_many(2, notes); }), NASHIRUDDER_NO_CLIENT));
    CHECK(is(refusal_of([&] { (void)fleet.peek(2); }), NASHIRUDDER_NO_CLIENT));
}

/* Ticks, arrivals, waits and shuts on a row of three cells. */
static void ticks() {
    Fleet fleet(ROW, {{.cell = 0, .ranks = {}}});
    CHECK(fleet.is_idle() && !fleet.eldest() && !fleet.wait_of(0) && !fleet.is_bridgeless() && !fleet.idle_within());
    CHECK(fleet.robots() == 1 && fleet.pending_count(0) == 0 && !fleet.give(0));
    CHECK(fleet.go(0, 0, 2).verdict == NASHIRUDDER_ACCEPTED);
    CHECK(!fleet.is_idle() && fleet.eldest() == 0 && fleet.wait_of(0) == 0 && fleet.pending_count(0) == 1);
    Report first = fleet.tick();
    CHECK(first.tick == 1 && first.arrived == 0 && first.farewells == 0 && fleet.wait_of(0) == 1);
    CHECK(!fleet.shut(0));
    CHECK(is(refusal_of([&] { fleet.shut(0); }), NASHIRUDDER_ALREADY_SHUT));
    CHECK(is(refusal_of([&] { fleet.shut(1); }), NASHIRUDDER_NO_ROBOT));
    CHECK(is(refusal_of([&] { (void)fleet.wait_of(1); }), NASHIRUDDER_NO_ROBOT));
    CHECK(is(refusal_of([&] { (void)fleet.give(1); }), NASHIRUDDER_NO_CLIENT));
    CHECK(is(refusal_of([&] { (void)fleet.pending_count(1); }), NASHIRUDDER_NO_CLIENT));
    Report second = fleet.tick();
    CHECK(second.tick == 2 && second.arrived == 1 && second.farewells == 1 && fleet.is_idle());
    CHECK(fleet.pending_count(0) == 2);
    Note verdict = fleet.give(0).value();
    CHECK(verdict.seq == 1 && verdict.order == 1 && verdict.verdict == NASHIRUDDER_ACCEPTED && verdict.number == 1 && verdict.tick == 0);
    Note arrived = fleet.give(0).value();
    CHECK(arrived.seq == 2 && arrived.order == 0 && arrived.verdict == 0 && arrived.number == 1 && arrived.robot == 0);
    CHECK(arrived.cell == 2 && arrived.tick == 2 && arrived.stamp == 0);
    CHECK(!fleet.give(0) && fleet.pending_count(0) == 0);
    std::uint32_t cells[2] = {9, 9};
    CHECK(is(refusal_of([&] { fleet.placement(std::span<std::uint32_t>(cells)); }), NASHIRUDDER_WRONG_LENGTH) && cells[0] == 9);
    fleet.keep(0);
    fleet.keep(1 << 20);
}

/* A robot ranks two ways that are equally near as it says. From the corner cell 0 to the far corner 11 a shortest walk begins
   east or south. */
static void ranks() {
    auto first_step = [](Robot robot) {
        Fleet fleet(RING, {robot});
        CHECK(fleet.go(0, 0, 11).verdict == NASHIRUDDER_ACCEPTED);
        fleet.tick();
        return fleet.placement().at(0);
    };
    CHECK(first_step({0, {0, 0, 0, 0}}) == 1);
    CHECK(first_step({0, {0, 0, 1, 0}}) == 1);
    CHECK(first_step({0, {0, 1, 0, 0}}) == 4);
    CHECK(first_step({0, {9, 255, 254, 9}}) == 4);
}

/* The bound on a map without bridges, and what a mailbox may hold. */
static void bounds() {
    Fleet fleet(RING, {{.cell = 0, .ranks = {}}, {.cell = 3, .ranks = {}}}, default_setup(1));
    CHECK(fleet.is_bridgeless() && fleet.idle_within() == 0);
    CHECK(fleet.go(0, 0, 11).verdict == NASHIRUDDER_ACCEPTED);
    CHECK(fleet.go(0, 1, 8).verdict == NASHIRUDDER_ACCEPTED);
    std::uint64_t bound = fleet.idle_within().value(), made = 0;
    for (; !fleet.is_idle(); made++) fleet.tick();
    CHECK(made == 5 && made <= bound);
    CHECK(is(refusal_of([&] { fleet.widen(0, UINT64_C(1) << 60); }), NASHIRUDDER_TOO_WIDE));
    CHECK(is(refusal_of([&] { fleet.widen(0, UINT64_MAX); }), NASHIRUDDER_TOO_WIDE));
    CHECK(is(refusal_of([&] { fleet.widen(1, 1); }), NASHIRUDDER_NO_CLIENT));
    CHECK(is(refusal_of([&] { fleet.widen(0, (UINT64_C(1) << 60) - 63); }), NASHIRUDDER_TOO_WIDE));
    bool had_memory = true;
    try {
        fleet.widen(0, (UINT64_C(1) << 60) - 64);
    } catch (const std::bad_alloc &) {
        had_memory = false;
    }
    CHECK(!had_memory);
}

/* The trace of a chapter, by docs/TRACE.md. */
static void chapters() {
    Setup setup = default_setup();
    setup.chapters = 2;
    Fleet fleet(ROW, {{.cell = 0, .ranks = {}}}, setup);
    CHECK(fleet.go(0, 0, 1).verdict == NASHIRUDDER_ACCEPTED);
    fleet.tick();
    const std::string wanted =
        "{\"chapter\":0,\"entries\":[[\"take\",0,[\"go\",0,1],[\"accepted\",1]],[\"tick\",[1],[[0,0,1,0]],[]]],"
        "\"opening\":{\"clients\":[[0,0,0,false]],\"life\":1000000,\"queue\":16,\"robots\":[[0,false,null,[],[0,0],[0,0]]],\"tick\":0},\"version\":2}";
    CHECK(fleet.trace() == wanted);
    fleet.next_chapter();
    CHECK(fleet.trace() == "{\"chapter\":1,\"entries\":[],\"opening\":{\"clients\":[[1,1,2,false]],\"life\":1000000,\"queue\":16,"
                           "\"robots\":[[1,false,null,[],[0,0],[0,0]]],\"tick\":1},\"version\":2}");
    CHECK(is(refusal_of([&] { fleet.next_chapter(); }), NASHIRUDDER_BOOK_SPENT));
    CHECK(fleet.pending_count(0) == 2);
}

/* A keeper that fails leaves fleet and chapter as they were, and the call is refused; the chapter is shown again. */
static void keeper_fails() {
    Setup setup = endless_setup(1);
    setup.chapters = 3;
    setup.chapter = 2;
    Fleet fleet(RING, {{.cell = 0, .ranks = {}}}, setup);
    std::vector<std::string> kept;
    int shown = 0;
    fleet.roll([&](const Chapter &chapter) {
        if (++shown == 1) return false;
        if (shown == 2) throw std::runtime_error("disk full");
        kept.push_back(chapter.trace());
        return true;
    });
    fleet.tick();
    fleet.tick();
    const std::string full = fleet.trace();
    CHECK(is(refusal_of([&] { fleet.tick(); }), NASHIRUDDER_CHAPTER_FULL) && shown == 1);
    CHECK(fleet.trace() == full && fleet.clock() == 2 && kept.empty());
    bool thrown = false;
    try {
        fleet.tick();
    } catch (const std::runtime_error &error) {
        thrown = std::string(error.what()) == "disk full";
    }
    CHECK(thrown && shown == 2 && fleet.trace() == full && fleet.clock() == 2 && kept.empty());
    CHECK(fleet.tick().tick == 3 && shown == 3 && kept == std::vector<std::string>{full});
    // The third chapter is the last: it is full, and its keeper is not asked.
    fleet.tick();
    fleet.tick();
    fleet.tick();
    CHECK(shown == 4 && is(refusal_of([&] { fleet.tick(); }), NASHIRUDDER_CHAPTER_FULL) && shown == 4 && fleet.clock() == 6);

    // So it is of a fleet that goes on from its second chapter, which has the number 1.
    Fleet goes_on = Fleet::reopen(RING, kept[0], std::vector<Robot>{{0, {}}}, setup);
    int asked = 0;
    goes_on.roll([&](const Chapter &) { asked++; });
    for (int tick = 0; tick < 4; tick++) goes_on.tick();
    CHECK(asked == 1 && is(refusal_of([&] { goes_on.tick(); }), NASHIRUDDER_CHAPTER_FULL) && asked == 1 && goes_on.clock() == 6);
}

/* A keeper that calls its own fleet is told so, and nothing is lost. */
static void keeper_calls_its_fleet() {
    Setup setup = endless_setup(1);
    setup.chapter = 1;
    Fleet fleet(RING, {{.cell = 0, .ranks = {}}}, setup);
    int refused = 0;
    auto is_refused = [&](auto call) {
        try {
            call();
        } catch (const Reentered &) {
            refused++;
        }
    };
    fleet.roll([&](const Chapter &chapter) {
        CHECK(fleet.trace() == chapter.trace() && fleet.clock() == 1);
        is_refused([&] { fleet.tick(); });
        is_refused([&] { fleet.next_chapter(); });
        is_refused([&] { (void)fleet.hand_out(); });
        is_refused([&] { fleet.roll(); });
        is_refused([&] { (void)fleet.go(0, 0, 1); });
    });
    fleet.tick();
    CHECK(fleet.tick().tick == 2 && refused == 5);
}

/* Numbers of the structs are compared with names, and structs with one another. */
static void compared() {
    Fleet fleet(RING, {{.cell = 0, .ranks = {}}});
    const Judgement judged = fleet.go(0, 0, 8), other = fleet.go(0, 0, 5);
    CHECK(judged.verdict == Verdict::accepted && Verdict::blocked == other.verdict && judged.verdict != Verdict::blocked);
    CHECK(judged == judged && judged != other && fleet.standings()[0].state == State::busy);
    Setup fitted = default_setup();
    fitted.lane = fitted.outlet = fitted.mailbox = 64;
    CHECK(fleet.limits() == fitted && fleet.limits() != endless_setup());
    CHECK(refusal_of([&] { (void)fleet.go(7, 0, 0); }).code == Code::no_client);
    Fleet moved = std::move(fleet);
    CHECK(fleet.robots() == 0 && moved.robots() == 1);
}

/* Chapters that are handed out, and those that roll by themselves. */
static void handed_out() {
    Setup setup = endless_setup(1);
    CHECK(setup.size == sizeof setup && setup.clients == 1 && setup.life == UINT64_C(1) << 40 && setup.orders == UINT64_C(1) << 62);
    CHECK(setup.clock == UINT64_C(1) << 48 && setup.chapters == UINT32_MAX && setup.chapter == 65536 && setup.queue == 16 && setup.mailbox == 0);
    setup.chapters = 3;
    setup.chapter = 2;
    Fleet fleet(RING, {{.cell = 0, .ranks = {}}}, setup);
    CHECK(fleet.go(0, 0, 8).verdict == NASHIRUDDER_ACCEPTED);
    fleet.tick();
    CHECK(is(refusal_of([&] { fleet.tick(); }), NASHIRUDDER_CHAPTER_FULL));
    const std::string wanted = fleet.trace();
    Chapter first = fleet.hand_out();
    // The fleet goes on while another thread writes the chapter. On a map without cell 8 the first entry breaks the third rule.
    std::string written;
    std::thread writes([&] { written = first.trace(); });
    CHECK(fleet.tick().arrived == 1);
    writes.join();
    CHECK(written == wanted && !judge(RING, written) && is(judge(ROW, written).value(), NASHIRUDDER_CHAPTER_ILLEGAL, 1, 3));
    Chapter moved = std::move(first);
    CHECK(moved.trace() == wanted && is(refusal_of([&] { (void)first.trace(); }), NASHIRUDDER_NOT_OPEN));

    std::vector<std::string> kept;
    fleet.roll([&](const Chapter &chapter) { kept.push_back(chapter.trace()); });
    fleet.tick();
    const std::string second = fleet.trace();
    fleet.tick();
    CHECK(kept == std::vector<std::string>{second} && fleet.clock() == 4);
    CHECK(fleet.shut(0) && is(refusal_of([&] { fleet.tick(); }), NASHIRUDDER_CHAPTER_FULL) && kept.size() == 1);
    CHECK(is(refusal_of([&] { (void)fleet.hand_out(); }), NASHIRUDDER_BOOK_SPENT));

    // Each chapter has room for two of these orders, and all are taken.
    setup.chapters = 10;
    Fleet rolls(RING, {{.cell = 0, .ranks = {}}}, setup);
    rolls.roll();
    std::vector<Order> orders(5, order_go(0, 0, 1));
    std::vector<Judgement> judgements(5);
    Taken taken = rolls.take_many(orders, judgements);
    CHECK(taken.count == 5 && taken.stopped == Code::done && judgements[4].number == 5);
    CHECK(rolls.close_client(0).verdict == NASHIRUDDER_CLOSING && rolls.tick().tick == 1);
    Fleet stops(RING, {{.cell = 0, .ranks = {}}}, setup);
    taken = stops.take_many(orders, judgements);
    CHECK(taken.count == 2 && taken.stopped == Code::chapter_full);

    // An open handle to a chapter is refused, and keeps its chapter; nothing begins.
    nashirudder_fleet held = NASHIRUDDER_CLOSED;
    nashirudder_chapter chapter = NASHIRUDDER_CLOSED;
    const Robot robots[1] = {{0, {}}};
    CHECK(nashirudder_open((const std::uint8_t *)ROW, std::strlen(ROW), robots, 1, &setup, &held, nullptr) == NASHIRUDDER_DONE);
    CHECK(nashirudder_next_chapter_into(&held, &chapter) == NASHIRUDDER_DONE && chapter.is_open);
    CHECK(nashirudder_next_chapter_into(&held, &chapter) == NASHIRUDDER_ALREADY_OPEN);
    std::uint8_t text[400];
    std::size_t length = 0;
    CHECK(nashirudder_chapter_trace(&chapter, text, 1, &length) == NASHIRUDDER_WRONG_LENGTH && length > 1 && length < 400);
    CHECK(nashirudder_chapter_trace(&chapter, text, 400, &length) == NASHIRUDDER_DONE && std::memcmp(text, "{\"chapter\":0,", 13) == 0);
    CHECK(nashirudder_trace(&held, text, 400, &length) == NASHIRUDDER_DONE && std::memcmp(text, "{\"chapter\":1,", 13) == 0);
    CHECK(nashirudder_next_chapter_into(&held, nullptr) == NASHIRUDDER_NULL_POINTER && nashirudder_chapter_trace(nullptr, text, 400, &length) == NASHIRUDDER_NULL_POINTER);
    nashirudder_close(&held);
    // The chapter stays when its fleet is gone.
    CHECK(nashirudder_chapter_trace(&chapter, text, 400, &length) == NASHIRUDDER_DONE);
    nashirudder_chapter_close(&chapter);
    nashirudder_chapter_close(&chapter);
    nashirudder_chapter_close(nullptr);
    CHECK(!chapter.is_open);
}

/* The judge of chapters. */
static void judges() {
    const std::string opening = "\"opening\":{\"clients\":[[0,0,0,false]],\"life\":1000000,\"queue\":16,\"robots\":[[0,false,null,[],[0,0],[0,0]]],\"tick\":0},\"version\":2}";
    auto told = [&](const char *entries) { return judge(ROW, "{\"chapter\":0,\"entries\":[" + std::string(entries) + "]," + opening).value_or(Fault{0, 0, NASHIRUDDER_DONE}); };
    CHECK(is(told(""), NASHIRUDDER_DONE) && is(told("[\"tick\",[1],[],[]]"), NASHIRUDDER_DONE));
    // Client 1 is not there; cell 3 is not on the map; a jump over a cell is no step.
    CHECK(is(told("[\"take\",1,[\"go\",0,1],[\"accepted\",1]]"), NASHIRUDDER_CHAPTER_ILLEGAL, 1, 2));
    CHECK(is(told("[\"tick\",[1],[],[]],[\"take\",0,[\"go\",0,3],[\"accepted\",1]]"), NASHIRUDDER_CHAPTER_ILLEGAL, 2, 3));
    CHECK(is(told("[\"tick\",[2],[],[]]"), NASHIRUDDER_CHAPTER_ILLEGAL, 1, 4));
    CHECK(is(judge(APART, "{}").value(), NASHIRUDDER_TRACE_SHAPE) && is(judge("", "{}").value(), NASHIRUDDER_MAP_HEADER, 1));
    CHECK(is(judge(ROW, "{\"version\":3}").value(), NASHIRUDDER_TRACE_VERSION) && is(judge(ROW, "{").value(), NASHIRUDDER_TRACE_NOT_JSON));
}

/* A fleet goes on from a kept chapter as the one does that never ended. */
static void reopenings() {
    const std::vector<Robot> robots = {{0, {0, 1, 0, 0}}, {3, {0, 0, 0, 0}}};
    Setup setup = default_setup(2);
    auto begin = [](Fleet &fleet) {
        CHECK(fleet.go(0, 0, 11).number == 1 && fleet.go(1, 1, 8).number == 1 && fleet.go(0, 0, 2).number == 2);
        fleet.tick();
        fleet.tick();
    };
    auto go_on = [](Fleet &fleet) {
        CHECK(fleet.go(1, 1, 0).number == 2 && fleet.withdraw(0, 2).verdict == NASHIRUDDER_WITHDRAWN);
        CHECK(!fleet.shut(0));
        for (int tick = 0; tick < 20; tick++) fleet.tick();
        CHECK(fleet.close_client(0).verdict == NASHIRUDDER_CLOSING);
        return fleet.trace();
    };
    Fleet never_ended(RING, robots, setup);
    begin(never_ended);
    never_ended.next_chapter();
    std::string kept;
    {
        Fleet ends(RING, robots, setup);
        begin(ends);
        kept = ends.trace();
    }
    Fleet again = Fleet::reopen(RING, kept, robots, setup);
    CHECK(again.clock() == 2 && again.placement() == never_ended.placement() && again.robots() == 2 && again.clients() == 2);
    CHECK(never_ended.pending_count(0) == 2 && again.pending_count(0) == 0);
    CHECK(go_on(again) == go_on(never_ended));
    CHECK(again.placement() == never_ended.placement() && again.is_idle());
    // Its notices go on where those of the kept chapter ended.
    CHECK(again.give(1).value().seq == 2);

    auto reopening = [&](const char *map, std::string_view text, std::vector<Robot> ranks, Setup limits) {
        return refusal_of([&] { (void)Fleet::reopen(map, text, ranks, limits); });
    };
    Setup other_form = setup, invalid = setup, narrow = setup, last = setup;
    other_form.size = 0;
    invalid.mailbox = 1;
    narrow.queue = 15;
    last.chapters = 1;
    CHECK(is(reopening("", "", robots, other_form), NASHIRUDDER_WRONG_SIZE));
    CHECK(is(reopening("", "", robots, setup), NASHIRUDDER_MAP_HEADER, 1));
    CHECK(is(reopening(RING, "", robots, setup), NASHIRUDDER_TRACE_NOT_JSON));
    CHECK(is(reopening(RING, "{\"version\":3}", robots, setup), NASHIRUDDER_TRACE_VERSION));
    CHECK(is(reopening(RING, "{}", robots, setup), NASHIRUDDER_TRACE_SHAPE));
    CHECK(is(reopening(RING, kept, robots, invalid), NASHIRUDDER_BAD_SETUP));
    CHECK(is(reopening(ROW, kept, robots, setup), NASHIRUDDER_CHAPTER_ILLEGAL, 0, 1));
    CHECK(is(reopening(RING, kept, {robots[0]}, setup), NASHIRUDDER_LAWS_DIFFER));
    CHECK(is(reopening(RING, kept, robots, narrow), NASHIRUDDER_LIMITS_DIFFER));
    CHECK(is(reopening(RING, kept, robots, last), NASHIRUDDER_CHAPTERS_SPENT));
    // A jump over a cell breaks the rule of steps, which is the fourth.
    const std::string opening = "\"opening\":{\"clients\":[[0,0,0,false]],\"life\":1000000,\"queue\":16,\"robots\":[[0,false,null,[],[0,0],[0,0]]],\"tick\":0},\"version\":2}";
    CHECK(is(reopening(ROW, "{\"chapter\":0,\"entries\":[[\"tick\",[2],[],[]]]," + opening, {robots[0]}, setup), NASHIRUDDER_CHAPTER_ILLEGAL, 1, 4));
    // One robot that goes to the far corner, five edges away, waits for fewer than ten ticks on this ring of eleven cells.
    CHECK(is(reopening(RING, "{\"chapter\":1,\"entries\":[],\"opening\":{\"clients\":[[1,1,1,false]],\"life\":1000000,\"queue\":16,"
                             "\"robots\":[[0,false,5000,[[0,1,11]],[0,0],[0,0]]],\"tick\":9000},\"version\":2}", {robots[0]}, setup), NASHIRUDDER_WAITED_TOO_LONG));
}

/* What a fleet says of itself. */
static void limits() {
    Setup setup = default_setup(3);
    setup.queue = 7;
    setup.chapters = 9;
    Fleet fleet(RING, {{.cell = 0, .ranks = {}}, {.cell = 3, .ranks = {}}}, setup);
    Setup told = fleet.limits();
    setup.lane = setup.outlet = setup.mailbox = 64; // what was 0 fits the robots
    CHECK(std::memcmp(&told, &setup, sizeof told) == 0 && fleet.robots() == 2 && fleet.clients() == 3);
    CHECK(!fleet.longest_wait() && fleet.wait_limit().value() == 2 * 10);
    CHECK(fleet.go(0, 0, 11).verdict == NASHIRUDDER_ACCEPTED);
    CHECK(fleet.longest_wait() == 0);
    fleet.tick();
    CHECK(fleet.longest_wait() == 1 && nashirudder_version() == NASHIRUDDER_VERSION);
    const char *proved = std::getenv("NASHIRUDDER_PROVED"); /* set by tools/build_c */
    CHECK(proved == nullptr || nashirudder::is_proved() == (std::string_view(proved) == "yes"));
    // One order, whose verdict and whose errand are in the mailbox; it has room for 64.
    Account account = fleet.account_of(0);
    CHECK(account.taken == 1 && account.owed == 1 && account.pending == 1 && account.room == 64);
    fleet.widen(1, 6);
    CHECK(fleet.account_of(1).room == 70 && fleet.account_of(1).taken == 0);
    CHECK(is(refusal_of([&] { (void)fleet.account_of(3); }), NASHIRUDDER_NO_CLIENT));
    CHECK(!Fleet(ROW, {{.cell = 0, .ranks = {}}}).wait_limit());
}

static bool are(const std::vector<Errand> &told, const std::vector<Errand> &wanted) {
    bool same = told.size() == wanted.size();
    for (std::size_t at = 0; same && at < told.size(); at++) {
        const Errand &a = told[at], &b = wanted[at];
        same = a.number == b.number && a.place == b.place && a.client == b.client && a.robot == b.robot && a.cell == b.cell;
    }
    return same;
}

static bool stands(const Standing &told, State state, std::uint32_t cell, std::uint32_t goal, std::uint64_t errands, std::uint64_t wait) {
    return state_of(told) == state && told.cell == cell && told.goal == goal && told.errands == errands && told.wait == wait;
}

/* Queues, open errands, and how the robots stand. */
static void errands() {
    Fleet made(RING, {{.cell = 0, .ranks = {}}, {.cell = 3, .ranks = {}}}, default_setup(2));
    const Fleet &fleet = made;
    const std::uint32_t nowhere = NASHIRUDDER_NOWHERE;
    CHECK(fleet.queue(0).empty() && fleet.open_errands(1).empty());
    CHECK(stands(fleet.standings()[0], State::free, 0, nowhere, 0, 0) && stands(fleet.standings()[1], State::free, 3, nowhere, 0, 0));
    CHECK(made.go(0, 0, 11).number == 1 && made.go(1, 0, 8).number == 1 && made.go(0, 1, 3).number == 2 && made.go(0, 0, 2).number == 3);
    CHECK(are(fleet.queue(0), {{1, 1, 0, 0, 11}, {1, 2, 1, 0, 8}, {3, 3, 0, 0, 2}}) && are(fleet.queue(1), {{2, 1, 0, 1, 3}}));
    CHECK(are(fleet.open_errands(0), {{1, 1, 0, 0, 11}, {3, 3, 0, 0, 2}, {2, 1, 0, 1, 3}}) && are(fleet.open_errands(1), {{1, 2, 1, 0, 8}}));
    CHECK(stands(fleet.standings()[0], State::busy, 0, 11, 3, 0) && stands(fleet.standings()[1], State::busy, 3, 3, 1, 0));
    // Robot 0 goes east, the first of its two shortest ways. Robot 1 is where it is sent to.
    made.tick();
    CHECK(stands(fleet.standings()[0], State::busy, 1, 11, 3, 1) && stands(fleet.standings()[1], State::free, 3, nowhere, 0, 0));
    CHECK(made.withdraw(1, 1).verdict == NASHIRUDDER_WITHDRAWN && !made.shut(0) && made.shut(1));
    auto shut = [&] { return stands(fleet.standings()[0], State::shut, 1, 11, 2, 1) && stands(fleet.standings()[1], State::shut, 3, nowhere, 0, 0); };
    CHECK(shut() && are(fleet.queue(0), {{1, 1, 0, 0, 11}, {3, 2, 0, 0, 2}}) && std::string(name_of(State::shut)) == "shut");
    made.next_chapter();
    CHECK(shut());

    // A list that is too short says how long it has to be, and stays as it was.
    nashirudder_fleet held = NASHIRUDDER_CLOSED;
    const Robot robots[1] = {{0, {}}};
    const Setup setup = default_setup();
    CHECK(nashirudder_open((const std::uint8_t *)RING, std::strlen(RING), robots, 1, &setup, &held, nullptr) == NASHIRUDDER_DONE);
    for (std::uint32_t cell : {1, 2, 3}) CHECK(nashirudder_go(&held, 0, 0, cell, nullptr) == NASHIRUDDER_DONE);
    Errand list[4] = {{7, 7, 7, 7, 7}, {7, 7, 7, 7, 7}, {7, 7, 7, 7, 7}, {7, 7, 7, 7, 7}};
    std::size_t count = 9;
    Standing standing[2] = {{7, 7, 7, 7, NASHIRUDDER_BUSY}, {7, 7, 7, 7, NASHIRUDDER_BUSY}};
    CHECK(nashirudder_queue(&held, 1, list, 4, &count) == NASHIRUDDER_NO_ROBOT && count == 9);
    CHECK(nashirudder_open_errands(&held, 1, list, 4, &count) == NASHIRUDDER_NO_CLIENT && count == 9);
    CHECK(nashirudder_queue(&held, 0, list, 2, &count) == NASHIRUDDER_WRONG_LENGTH && count == 3 && list[0].cell == 7);
    count = 9;
    CHECK(nashirudder_open_errands(&held, 0, nullptr, 0, &count) == NASHIRUDDER_WRONG_LENGTH && count == 3);
    CHECK(nashirudder_queue(&held, 0, nullptr, 0, &count) == NASHIRUDDER_WRONG_LENGTH && count == 3);
    CHECK(nashirudder_queue(&held, 0, nullptr, 4, &count) == NASHIRUDDER_NULL_POINTER && nashirudder_queue(&held, 0, list, 4, nullptr) == NASHIRUDDER_NULL_POINTER);
    CHECK(nashirudder_open_errands(nullptr, 0, list, 4, &count) == NASHIRUDDER_NULL_POINTER && nashirudder_standings(nullptr, standing, 1) == NASHIRUDDER_NULL_POINTER);
    count = 9;
    CHECK(nashirudder_queue(&held, 0, list, 4, &count) == NASHIRUDDER_DONE && count == 3 && list[2].cell == 3 && list[2].place == 3 && list[3].cell == 7);
    list[2].cell = 7;
    CHECK(nashirudder_open_errands(&held, 0, list, 3, &count) == NASHIRUDDER_DONE && count == 3 && list[2].cell == 3 && list[3].cell == 7);
    for (std::size_t length : {0, 2}) CHECK(nashirudder_standings(&held, standing, length) == NASHIRUDDER_WRONG_LENGTH && standing[0].cell == 7);
    CHECK(nashirudder_standings(&held, standing, 1) == NASHIRUDDER_DONE && stands(standing[0], State::busy, 0, 1, 3, 0) && standing[1].cell == 7);
    nashirudder_close(&held);
}

/* Several threads look at one fleet at once, many times, and each sees the same. The thread sanitizer is to find nothing. */
static void lookers(int looks) {
    Fleet made(RING, {{.cell = 0, .ranks = {}}, {.cell = 3, .ranks = {}}});
    CHECK(made.go(0, 0, 11).verdict == NASHIRUDDER_ACCEPTED);
    made.tick();
    const Fleet &fleet = made;
    const std::string trace = fleet.trace();
    std::atomic<bool> same = true;
    std::vector<std::thread> threads;
    for (int at = 0; at < 4; at++) {
        threads.emplace_back([&, looks] {
            for (int look = 0; look < looks; look++) {
                bool good = fleet.clock() == 1 && fleet.placement() == std::vector<std::uint32_t>{1, 3} && fleet.trace() == trace;
                good = good && fleet.wait_of(0) == 1 && fleet.eldest() == 0 && fleet.longest_wait() == 1 && !fleet.is_idle() && fleet.is_bridgeless();
                good = good && fleet.idle_within().has_value() && fleet.wait_limit() == 20 && fleet.peek(0).value().seq == 1 && fleet.pending_count(0) == 1;
                good = good && fleet.queue(0).at(0).cell == 11 && fleet.open_errands(0).size() == 1 && stands(fleet.standings()[0], State::busy, 1, 11, 1, 1);
                if (!good || fleet.clients() != 1 || fleet.limits().queue != 16) same = false;
            }
        });
    }
    for (std::thread &thread : threads) thread.join();
    CHECK(same);
}

/* A fleet moves, within a thread and into another one. */
static void moves() {
    Fleet fleet(ROW, {{.cell = 0, .ranks = {}}});
    Fleet moved = std::move(fleet);
    CHECK(is(refusal_of([&] { fleet.tick(); }), NASHIRUDDER_NOT_OPEN));
    CHECK(moved.go(0, 0, 2).verdict == NASHIRUDDER_ACCEPTED);
    std::thread elsewhere([&moved] { CHECK(moved.tick().tick == 1); });
    elsewhere.join();
    CHECK(moved.tick().arrived == 1);
    moved = Fleet(RING, {{.cell = 7, .ranks = {}}});
    CHECK(moved.placement() == std::vector<std::uint32_t>{7});
    Fleet other(RING, {{.cell = 6, .ranks = {}}});
    std::swap(moved, other);
    CHECK(moved.placement().at(0) == 6 && other.placement().at(0) == 7);
}

/* Steps, bridges and distances on a map alone. */
static void maps() {
    auto step = [](std::vector<std::uint32_t> from, std::vector<std::uint32_t> to) {
        return check_step(RING, from, to).value_or(Fault{0, 0, NASHIRUDDER_DONE});
    };
    CHECK(is(step({0, 3}, {1, 2}), NASHIRUDDER_DONE));
    CHECK(is(step({}, {}), NASHIRUDDER_DONE));
    CHECK(is(step(std::vector<std::uint32_t>(13), {}), NASHIRUDDER_TOO_MANY));
    CHECK(is(step({0, 12}, {0, 1}), NASHIRUDDER_FROM_BLOCKED, 1));
    CHECK(is(step({0, 1, 0}, {0, 1, 4}), NASHIRUDDER_FROM_SHARED, 0, 2));
    CHECK(is(step({0, 1}, {0}), NASHIRUDDER_TO_LENGTH));
    CHECK(is(step({0, 4}, {0, 5}), NASHIRUDDER_OFF_FLOOR, 1));
    CHECK(is(step({3, 0}, {4, 1}), NASHIRUDDER_NOT_ADJACENT, 0));
    CHECK(is(step({8, 1, 3}, {8, 2, 2}), NASHIRUDDER_VERTEX_CONFLICT, 1, 2));
    CHECK(is(step({8, 1, 2}, {8, 2, 1}), NASHIRUDDER_SWAPPING_CONFLICT, 1, 2));
    CHECK(!check_step(ROW, std::vector<std::uint32_t>{0, 1, 2}, std::vector<std::uint32_t>{0, 1, 2}));

    CHECK(!first_bridge(RING));
    Edge edge = first_bridge("type octile\nheight 2\nwidth 3\nmap\n..@\n...\n").value();
    CHECK(edge.lower == 4 && edge.upper == 5);
    CHECK(is(refusal_of([] { (void)first_bridge("type octile\n"); }), NASHIRUDDER_MAP_HEADER, 2));

    using Cells = std::vector<std::uint32_t>;
    const std::uint32_t far = NASHIRUDDER_FAR;
    CHECK(distances(RING, 4, 12) == (Cells{1, 2, 3, 4, 0, far, 4, 5, 1, 2, 3, 4}));
    CHECK(distances(APART, 2, 3) == (Cells{far, far, 0}));
    CHECK(is(refusal_of([] { (void)distances(RING, 4, 11); }), NASHIRUDDER_WRONG_LENGTH));
    CHECK(is(refusal_of([] { (void)distances(RING, 5, 12); }), NASHIRUDDER_GOAL_BLOCKED));
    CHECK(is(refusal_of([] { (void)distances(RING, 99, 12); }), NASHIRUDDER_GOAL_BLOCKED));
}

/* The same on a map that is read once. */
static void opened_maps() {
    using Cells = std::vector<std::uint32_t>;
    const std::uint32_t far = NASHIRUDDER_FAR;
    const Map ring(RING), apart(APART);
    Shape shape = ring.shape();
    // One of the twelve cells is a wall. Seven edges lie in rows, three, one and three; six in columns, two, none, two and two.
    CHECK(shape.height == 3 && shape.width == 4 && shape.cells == 12 && shape.floor == 11 && shape.edges == 13);
    CHECK(ring.joins(0, 11) && !ring.joins(0, 5) && !ring.joins(0, 12) && !apart.joins(0, 2) && apart.joins(2, 2));
    CHECK(!ring.check_step(Cells{0, 3}, Cells{1, 2}) && is(ring.check_step(Cells{8, 1, 2}, Cells{8, 2, 1}).value(), NASHIRUDDER_SWAPPING_CONFLICT, 1, 2));
    CHECK(is(ring.check_step(Cells{0, 12}, Cells{0, 1}).value(), NASHIRUDDER_FROM_BLOCKED, 1));
    CHECK(!ring.first_bridge() && Map(ROW).first_bridge().value().upper == 1);
    CHECK(ring.distances(4) == (Cells{1, 2, 3, 4, 0, far, 4, 5, 1, 2, 3, 4}) && apart.distances(2) == (Cells{far, far, 0}));
    CHECK(is(refusal_of([&] { (void)ring.distances(5); }), NASHIRUDDER_GOAL_BLOCKED));
    Cells eleven(11, 7);
    CHECK(is(refusal_of([&] { ring.distances(4, eleven); }), NASHIRUDDER_WRONG_LENGTH) && eleven == Cells(11, 7));
    CHECK(is(refusal_of([] { Map("type octile\n"); }), NASHIRUDDER_MAP_HEADER, 2));
    Map moved(ROW), other = std::move(moved);
    CHECK(is(refusal_of([&] { (void)moved.shape(); }), NASHIRUDDER_NOT_OPEN) && other.shape().cells == 3);

    nashirudder_map map = NASHIRUDDER_CLOSED;
    nashirudder_fault fault{7, 7, NASHIRUDDER_IDLE};
    nashirudder_edge edge{9, 9};
    bool yes = true;
    std::uint32_t cells[3] = {0, 1, 2};
    CHECK(nashirudder_map_check_step(&map, cells, 1, cells, 1, &fault) == NASHIRUDDER_NOT_OPEN && is(fault, NASHIRUDDER_IDLE, 7, 7));
    CHECK(nashirudder_map_first_bridge(&map, &edge) == NASHIRUDDER_NOT_OPEN && edge.lower == 9);
    CHECK(nashirudder_map_distances(&map, 0, cells, 3) == NASHIRUDDER_NOT_OPEN && cells[1] == 1);
    CHECK(nashirudder_map_joins(&map, 0, 0, &yes) == NASHIRUDDER_NOT_OPEN && yes);
    const std::uint8_t *row = reinterpret_cast<const std::uint8_t *>(ROW);
    CHECK(nashirudder_map_open(row, std::strlen(ROW), &map, &fault) == NASHIRUDDER_DONE);
    CHECK(nashirudder_map_open(row, std::strlen(ROW), &map, &fault) == NASHIRUDDER_ALREADY_OPEN && is(fault, NASHIRUDDER_IDLE, 7, 7));
    CHECK(nashirudder_map_open(nullptr, 0, nullptr, nullptr) == NASHIRUDDER_NULL_POINTER);
    nashirudder_map_close(&map);
    nashirudder_map_close(&map);
    nashirudder_map_close(nullptr);
    CHECK(!map.is_open);
}

/* A fleet that takes no errand to a cell that is not roomy for its robots. */
static void roomy() {
    using Cells = std::vector<std::uint32_t>;
    const Cells floor = {0, 1, 2, 6, 7, 8, 9, 10, 11, 12, 13, 14};
    const Map stub(STUB);
    // For as many robots as these, and for 1, 2, 3 and 4: a side of k cells is too small for k + 1 robots.
    const Cells none_of_four[4] = {{}, {11}, {10, 11}, {9, 10, 11}};
    CHECK(stub.floor() == floor && Map("type octile\nheight 1\nwidth 2\nmap\n@@\n").floor().empty());
    Cells places(13, 99);
    CHECK(stub.floor(places) == 12 && places[11] == 14 && places[12] == 99);
    Cells few(11, 99);
    CHECK(is(refusal_of([&] { stub.floor(few); }), NASHIRUDDER_WRONG_LENGTH) && few == Cells(11, 99));
    CHECK(stub.served_for() == 9 && Map(RING).served_for() == 11);
    CHECK(stub.unroomy(0).empty() && stub.unroomy(9) == none_of_four[3] && stub.unroomy(10) == floor && Map(RING).unroomy(512).empty());
    for (std::uint32_t robots = 1; robots <= 4; robots++) {
        const Cells &refused = none_of_four[robots - 1];
        CHECK(stub.unroomy(robots) == refused);
        std::vector<Robot> starts;
        for (std::uint32_t robot = 0; robot < robots; robot++) starts.push_back({floor[robot], {0, 0, 0, 0}});
        Setup setup = default_setup(2);
        Fleet fleet = Fleet::open_roomy(STUB, starts, setup), other(STUB, starts, setup);
        std::uint64_t taken = 0;
        for (std::uint32_t cell = 0; cell < 20; cell++) {
            bool is_refused = std::find(refused.begin(), refused.end(), cell) != refused.end();
            const std::uint64_t notices = fleet.pending_count(0);
            Fault why = refusal_of([&] { taken += fleet.go(0, 0, cell).verdict == NASHIRUDDER_ACCEPTED; });
            CHECK(is(why, is_refused ? NASHIRUDDER_NO_ROOM : NASHIRUDDER_DONE) && fleet.pending_count(0) == notices + !is_refused);
            CHECK(is(refusal_of([&] { (void)fleet.go(2, 0, cell); }), NASHIRUDDER_NO_CLIENT));
            CHECK(is(refusal_of([&] { (void)other.go(0, 0, cell); }), NASHIRUDDER_DONE));
        }
        CHECK(taken == 12 - refused.size());
        // What is no errand to such a cell is taken, also after a tick and in the next chapter.
        fleet.tick();
        fleet.next_chapter();
        if (robots == 2) {
            std::vector<Order> orders = {order_go(0, 1, 10), order_withdraw(0, 11), order_go(1, 1, 11), order_go(1, 1, 10)};
            std::vector<Judgement> judged(4, Judgement{9, NASHIRUDDER_NO_VERDICT});
            Taken many = fleet.take_many(orders, judged);
            CHECK(many.count == 2 && many.stopped == Code::no_room && judged[0].verdict == NASHIRUDDER_ACCEPTED && judged[2].number == 9);
            CHECK(is(refusal_of([&] { (void)fleet.go(0, 5, 11); }), NASHIRUDDER_NO_ROOM) && fleet.close_client(1).verdict == NASHIRUDDER_CLOSING);
        }
    }

    // Robots at 0 and 2 of which one goes to the dead end's last cell, or to the one before it.
    const std::vector<Robot> two = {{0, {0, 0, 0, 0}}, {2, {0, 0, 0, 0}}};
    for (std::uint32_t cell : {10u, 11u}) {
        Fleet first(STUB, two);
        CHECK(first.go(0, 1, cell).number == 1);
        const std::string kept = first.trace();
        Fault why = refusal_of([&] {
            Fleet next = Fleet::reopen_roomy(STUB, kept, two);
            CHECK(is(refusal_of([&] { (void)next.go(0, 0, 11); }), NASHIRUDDER_NO_ROOM) && next.go(0, 0, 10).number == 2);
        });
        CHECK(is(why, cell == 11 ? NASHIRUDDER_NO_ROOM : NASHIRUDDER_DONE));
        CHECK(Fleet::reopen(STUB, kept, two).go(0, 0, 11).number == 2);
        CHECK(is(refusal_of([&] { (void)Fleet::reopen_roomy(STUB, "{}", two); }), NASHIRUDDER_TRACE_SHAPE));
    }
    CHECK(is(refusal_of([] { (void)Fleet::open_roomy(RING, {{5, {0, 0, 0, 0}}}); }), NASHIRUDDER_START_BLOCKED));
    CHECK(is(refusal_of([] { (void)Fleet::open_roomy("", {{0, {0, 0, 0, 0}}}); }), NASHIRUDDER_MAP_HEADER, 1));
    CHECK(is(refusal_of([] { (void)Fleet::open_roomy(RING, {}); }), NASHIRUDDER_ROBOT_COUNT));

    nashirudder_map map = NASHIRUDDER_CLOSED;
    std::uint32_t cells[4] = {9, 9, 9, 9};
    std::size_t count = 7;
    CHECK(nashirudder_map_unroomy(&map, 2, cells, 4, &count) == NASHIRUDDER_NOT_OPEN && count == 7);
    CHECK(nashirudder_map_served_for(&map, cells) == NASHIRUDDER_NOT_OPEN && cells[0] == 9);
    CHECK(nashirudder_map_floor(&map, cells, 4, &count) == NASHIRUDDER_NOT_OPEN && count == 7 && cells[0] == 9);
    CHECK(nashirudder_map_open((const std::uint8_t *)STUB, std::strlen(STUB), &map, nullptr) == NASHIRUDDER_DONE);
    CHECK(nashirudder_map_unroomy(&map, 4, cells, 2, &count) == NASHIRUDDER_WRONG_LENGTH && count == 3 && cells[0] == 9);
    CHECK(nashirudder_map_unroomy(&map, 3, cells, 4, &count) == NASHIRUDDER_DONE && count == 2 && cells[0] == 10 && cells[1] == 11 && cells[2] == 9);
    CHECK(nashirudder_map_unroomy(&map, 3, nullptr, 0, &count) == NASHIRUDDER_WRONG_LENGTH && count == 2);
    CHECK(nashirudder_map_unroomy(&map, 3, nullptr, 4, &count) == NASHIRUDDER_NULL_POINTER && nashirudder_map_unroomy(nullptr, 3, cells, 4, &count) == NASHIRUDDER_NULL_POINTER);
    CHECK(nashirudder_map_unroomy(&map, 3, cells, 4, nullptr) == NASHIRUDDER_NULL_POINTER);
    std::uint32_t all[14];
    std::fill(std::begin(all), std::end(all), 9u);
    CHECK(nashirudder_map_floor(&map, all, 11, &count) == NASHIRUDDER_WRONG_LENGTH && count == 12 && all[0] == 9);
    CHECK(nashirudder_map_floor(&map, nullptr, 0, &count) == NASHIRUDDER_WRONG_LENGTH && count == 12);
    CHECK(nashirudder_map_floor(&map, all, 14, &count) == NASHIRUDDER_DONE && count == 12 && all[2] == 2 && all[3] == 6 && all[11] == 14 && all[12] == 9 && all[13] == 9);
    CHECK(nashirudder_map_floor(&map, nullptr, 4, &count) == NASHIRUDDER_NULL_POINTER && nashirudder_map_floor(nullptr, all, 14, &count) == NASHIRUDDER_NULL_POINTER);
    CHECK(nashirudder_map_floor(&map, all, 14, nullptr) == NASHIRUDDER_NULL_POINTER);
    std::uint32_t served = 7;
    CHECK(nashirudder_map_served_for(nullptr, &served) == NASHIRUDDER_NULL_POINTER && nashirudder_map_served_for(&map, nullptr) == NASHIRUDDER_NULL_POINTER && served == 7);
    CHECK(nashirudder_map_served_for(&map, &served) == NASHIRUDDER_DONE && served == 9);
    nashirudder_map_close(&map);

    Setup setup = default_setup();
    nashirudder_fleet fleet = NASHIRUDDER_CLOSED;
    nashirudder_fault fault{7, 7, NASHIRUDDER_IDLE};
    const std::uint8_t *text = reinterpret_cast<const std::uint8_t *>(STUB);
    const std::size_t length = std::strlen(STUB);
    CHECK(nashirudder_open_roomy(text, length, two.data(), 2, &setup, nullptr, &fault) == NASHIRUDDER_NULL_POINTER);
    CHECK(nashirudder_reopen_roomy(text, length, nullptr, 1, two.data(), 2, &setup, &fleet, &fault) == NASHIRUDDER_NULL_POINTER);
    CHECK(nashirudder_open_roomy(text, length, two.data(), 2, &setup, &fleet, &fault) == NASHIRUDDER_DONE);
    CHECK(nashirudder_open_roomy(text, length, two.data(), 2, &setup, &fleet, &fault) == NASHIRUDDER_ALREADY_OPEN && is(fault, NASHIRUDDER_IDLE, 7, 7));
    CHECK(nashirudder_reopen_roomy(text, length, text, 2, two.data(), 2, &setup, &fleet, &fault) == NASHIRUDDER_ALREADY_OPEN);
    nashirudder_close(&fleet);
}

/* With a word: the threads alone, for a tool that takes long. */
/* Robots that take turns: one before a dead end, which is to go to its last cell, and one on that cell, which is to go out. */
static void turns() {
    const std::vector<Robot> two = {{8, {0, 0, 0, 0}}, {11, {0, 0, 0, 0}}};
    for (bool take : {false, true}) {
        Fleet fleet(STUB, two);
        if (take) fleet.take_turns();
        CHECK(fleet.go(0, 0, 11).number == 1 && fleet.go(0, 1, 0).number == 2);
        CHECK(is(refusal_of([&] { fleet.take_turns(); }), NASHIRUDDER_CHAPTER_BEGUN));
        std::uint32_t arrived[8] = {};
        for (std::uint32_t tick = 1; tick < 8; tick++) arrived[tick] = fleet.tick().arrived;
        // Without turns they stand before each other for ever, at 10 and 11.
        const std::vector<std::uint32_t> cells = take ? std::vector<std::uint32_t>{11, 0} : std::vector<std::uint32_t>{10, 11};
        CHECK(arrived[6] == take && arrived[7] == take && fleet.placement() == cells && fleet.is_idle() == take);
        // The next chapter goes on so; a fleet that goes on from the chapter is asked again.
        Fleet next = Fleet::reopen(STUB, fleet.trace(), two);
        next.take_turns();
        fleet.next_chapter();
        fleet.take_turns();
        for (int tick = 0; tick < 9; tick++) (void)next.tick();
        CHECK(next.is_idle() && next.placement()[0] == 11);
    }
    nashirudder_fleet closed = NASHIRUDDER_CLOSED;
    CHECK(nashirudder_take_turns(&closed) == NASHIRUDDER_NOT_OPEN && nashirudder_take_turns(nullptr) == NASHIRUDDER_NULL_POINTER);
    Fleet ring(RING, {{0, {0, 0, 0, 0}}});
    ring.take_turns();
    CHECK(ring.go(0, 0, 11).number == 1);
}

/* Two robots in two rows: each goes straight along its own, so that one search finds its way. */
static void searches() {
    static const char *const ROWS = "type octile\nheight 2\nwidth 5\nmap\n.....\n.....\n";
    using Clock = std::chrono::steady_clock;
    const std::vector<Robot> two = {{0, {0, 0, 0, 0}}, {5, {0, 0, 0, 0}}};
    Fleet plain(ROWS, two), ahead(ROWS, two);
    CHECK(ahead.missing() == 0 && ahead.search_one() == 0);
    for (Fleet *fleet : {&plain, &ahead}) CHECK(fleet->go(0, 0, 4).number == 1 && fleet->go(0, 1, 9).number == 2);
    CHECK(ahead.missing() == 2 && ahead.search_until(Clock::time_point::min()) == 2);
    CHECK(ahead.search_one() == 1 && ahead.missing() == 1 && plain.missing() == 2);
    CHECK(ahead.search_until(Clock::time_point::max()) == 0 && ahead.search_one() == 0);
    for (int tick = 1; tick <= 4; tick++) {
        CHECK(plain.tick().arrived == ahead.tick().arrived && ahead.missing() == 0);
    }
    const std::vector<std::uint32_t> ends = {4, 9};
    CHECK(ahead.is_idle() && ahead.placement() == ends && plain.trace() == ahead.trace());
    nashirudder_fleet closed = NASHIRUDDER_CLOSED;
    std::size_t left = 7;
    CHECK(nashirudder_search_one(&closed, &left) == NASHIRUDDER_NOT_OPEN && nashirudder_missing(&closed, &left) == NASHIRUDDER_NOT_OPEN && left == 7);
    CHECK(nashirudder_search_one(nullptr, &left) == NASHIRUDDER_NULL_POINTER && nashirudder_missing(&closed, nullptr) == NASHIRUDDER_NULL_POINTER);
}

int main(int count, char **) {
    if (count > 1) {
        lookers(5);
        return 0;
    }
    closed();
    openings();
    orders();
    names();
    messages();
    nulls();
    batches();
    ticks();
    ranks();
    bounds();
    chapters();
    handed_out();
    keeper_fails();
    keeper_calls_its_fleet();
    compared();
    judges();
    reopenings();
    limits();
    errands();
    lookers(500);
    moves();
    maps();
    opened_maps();
    roomy();
    turns();
    searches();
    std::printf("bindings/cpp/tests.cpp: all pass\n");
}
