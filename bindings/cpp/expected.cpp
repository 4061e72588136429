/* The calls that throw nothing, and what is new to loops: compiled as C++17 without exceptions, as C++20 and as C++23. */
#include "nashirudder.hpp"

#include <cstdio>
#include <cstdlib>
#include <type_traits>

#define CHECK(holds)                                                                  \
    do {                                                                              \
        if (!(holds)) {                                                               \
            std::printf("%s:%d: %s\n", __FILE__, __LINE__, #holds);                   \
            std::exit(1);                                                             \
        }                                                                             \
    } while (0)

/* A program's own names stay its own: the header has no macro of the library's functions. */
namespace game {
inline int nashirudder_open() { return 7; }
inline int nashirudder_tick() { return 8; }
} // namespace game
#if defined(nashirudder_open) || defined(nashirudder_tick) || defined(nashirudder_close)
#error "the header renames a program's own names"
#endif

using namespace nashirudder;

#if defined(__cpp_lib_expected)
static_assert(std::is_same_v<Expected<Report>, std::expected<Report, Fault>>);
#endif
static_assert(std::is_same_v<std::iterator_traits<Notices::Iterator>::value_type, Note>);

static const char *const RING = "type octile\nheight 3\nwidth 4\nmap\n....\n.@..\n....\n";
static const char *const STUB = "type octile\nheight 3\nwidth 6\nmap\n...@@@\n......\n...@@@\n";

/* Refusals are values, and the fleet is as it was. */
static void refusals() {
    const Robot robots[2] = {{0, {}}, {5, {}}}, good[2] = {{0, {}}, {3, {}}};
    auto none = Fleet::try_open(RING, robots);
    CHECK(!none && none.error().code == Code::start_blocked && none.error().first == 1);
    CHECK(message_of(none.error()) == "robot 1 starts on a cell that is no floor");
    CHECK(!Fleet::try_reopen(RING, "{}", good) && Fleet::try_reopen(RING, "{}", good).error().code == Code::trace_shape);
    CHECK(Map::try_open("type octile\n").error().code == Code::map_header && Map::try_open(RING)->shape().floor == 11);

    Setup setup = endless_setup();
    setup.chapter = 2;
    setup.chapters = 2;
    auto opened = Fleet::try_open(RING, good, setup);
    CHECK(opened.has_value());
    Fleet fleet = *std::move(opened);
    CHECK(fleet.try_go(0, 0, 1)->verdict == Verdict::accepted && fleet.try_go(1, 0, 1).error().code == Code::no_client);
    CHECK(fleet.try_tick()->arrived == 1 && fleet.try_tick().error().code == Code::chapter_full && fleet.clock() == 1);
    CHECK(fleet.try_shut(7).error().code == Code::no_robot && !fleet.try_withdraw(0, 1) && !fleet.try_close_client(0));
    const std::string full = *fleet.try_trace();
    auto ended = fleet.try_hand_out();
    CHECK(ended && ended->trace() == full && *ended->try_trace() == full);
    CHECK(fleet.try_next_chapter().error().code == Code::book_spent && fleet.try_hand_out().error().code == Code::book_spent);
    CHECK(*fleet.try_shut(1) && fleet.try_shut(1).error().code == Code::already_shut);
    Shown shown;
    CHECK(fleet.try_tick_into(shown)->tick == 2 && shown.cells.size() == 2 && shown.arrivals.empty());
    CHECK(fleet.try_tick_into(shown).error().code == Code::chapter_full && shown.arrivals.empty() && shown.farewells.empty());
    CHECK((*fleet.try_give(0))->verdict == Verdict::accepted && fleet.try_give(3).error().code == Code::no_client);
    auto goes_on = Fleet::try_reopen(RING, full, good, endless_setup());
    CHECK(goes_on && goes_on->clock() == 1 && goes_on->try_next_chapter());

    // In a dead end of three cells two robots may block one another.
    const Robot two[2] = {{0, {}}, {2, {}}};
    auto roomy = Fleet::try_open_roomy(STUB, two);
    CHECK(roomy && roomy->try_go(0, 0, 11).error().code == Code::no_room && roomy->try_go(0, 0, 9)->verdict == Verdict::accepted);
    CHECK(Fleet::try_reopen_roomy(STUB, roomy->trace(), two).has_value());
}

/* A keeper that fails is a refusal here too. */
static void keepers() {
    Setup setup = endless_setup();
    setup.chapter = 1;
    Fleet fleet(RING, {{0, {}}}, setup);
    bool is_full = true;
    std::string kept;
    fleet.roll([&](const Chapter &chapter) {
        auto text = chapter.try_trace();
        if (is_full || !text) return false;
        kept = *text;
        return true;
    });
    CHECK(fleet.try_tick()->tick == 1);
    const std::string first = fleet.trace();
    CHECK(fleet.try_tick().error().code == Code::chapter_full && fleet.trace() == first && fleet.clock() == 1);
    is_full = false;
    CHECK(fleet.try_tick()->tick == 2 && kept == first);
    is_full = true;
    CHECK(fleet.try_tick().value_or(Report{7, 0, 0}).tick == 7 && fleet.try_trace().value_or("") == fleet.trace());
}

/* Notices and floor cells, by loops. */
static void loops() {
    Fleet fleet(RING, {{0, {}}, {3, {}}});
    CHECK(fleet.go(0, 0, 1).verdict == Verdict::accepted && fleet.go(0, 1, 5).verdict == Verdict::blocked);
    fleet.tick();
    std::uint64_t seqs = 0;
    int arrived = 0;
    for (const Note &note : fleet.notices(0)) {
        seqs = seqs * 10 + note.seq;
        arrived += note.verdict == Verdict::no_verdict && note.cell == 1;
    }
    CHECK(seqs == 123 && arrived == 1 && fleet.pending_count(0) == 0);
    auto none = fleet.notices(0);
    CHECK(none.begin() == none.end());
    CHECK((Map(RING).floor() == std::vector<std::uint32_t>{0, 1, 2, 3, 4, 6, 7, 8, 9, 10, 11}));
    CHECK(game::nashirudder_open() + game::nashirudder_tick() == 15);
}

/* Three hundred robots, each with an errand of the one client, need no word. */
static void fits() {
    std::string map = "type octile\nheight 30\nwidth 20\nmap\n";
    for (int row = 0; row < 30; row++) map += "....................\n";
    for (std::uint32_t robots : {1u, 31u, 32u, 300u, 512u}) {
        std::vector<Robot> starts;
        for (std::uint32_t robot = 0; robot < robots; robot++) starts.push_back({robot, {}});
        Fleet fleet(map, starts);
        for (std::uint32_t robot = 0; robot < robots; robot++) CHECK(fleet.go(0, robot, robot + 1).verdict == Verdict::accepted);
        const Setup told = fleet.limits();
        const std::uint32_t room = robots < 32 ? 64 : 2 * robots + 2;
        CHECK(told.mailbox == room && told.lane == room && told.outlet == room && fleet.account_of(0).room == room);
        CHECK(Fleet::reopen(map, fleet.trace(), starts).limits().mailbox == room);
    }
    Setup few = default_setup();
    CHECK(few.mailbox == 0 && few.lane == 0 && few.outlet == 0);
    few.mailbox = 2;
    CHECK(Fleet(map, {{0, {}}}, few).limits().mailbox == 2 && Fleet(map, {{0, {}}}, few).limits().lane == 64);
}

/* The same state and the same orders give the same bytes: for a second fleet, and for one that was saved and loaded. */
static std::string deterministic() {
    const Robot robots[3] = {{0, {}}, {3, {}}, {8, {}}};
    auto play = [](Fleet &fleet, std::uint32_t draw) {
        for (int turn = 0; turn < 200; turn++) {
            draw = draw * 1103515245u + 12345u;
            (void)fleet.go(draw >> 16 & 1, draw >> 17 & 3, (draw >> 19) % 12);
            fleet.tick();
            for (std::uint32_t client = 0; client < 2; client++) (void)fleet.give_all(client);
        }
    };
    Fleet one(RING, robots, endless_setup(2)), other(RING, robots, endless_setup(2));
    play(one, 1);
    play(other, 1);
    CHECK(one.trace() == other.trace());
    const std::string first = one.trace();
    Fleet loaded = Fleet::reopen(RING, one.trace(), robots, endless_setup(2));
    one.next_chapter();
    play(one, 2);
    play(loaded, 2);
    CHECK(one.trace() == loaded.trace());
    return first;
}

/* The state as a value: kept, gone back to, changed, and gone on from. */
static void openings() {
    const Robot robots[2] = {{0, {}}, {3, {}}}, three[3] = {{0, {}}, {0, {}}, {0, {}}};
    Fleet fleet(RING, robots);
    CHECK(fleet.go(0, 0, 11).number == 1 && fleet.go(0, 0, 2).number == 2 && fleet.go(0, 1, 8).number == 3);
    fleet.tick();
    CHECK(fleet.opening().tick == 0);
    fleet.next_chapter();
    Opening state = fleet.opening();
    const std::string text = fleet.trace();
    CHECK(state.trace() == text && Opening::of(text) == state && Opening::of(text).trace() == text && state.tick == 1 && state.chapter == 1 && state.queue == 16);
    auto play = [](Fleet &of) {
        for (std::uint32_t tick = 0; tick < 30; tick++) {
            (void)of.go(0, tick % 2, 7 * tick % 12);
            of.tick();
            (void)of.give_all(0);
        }
        return of.trace();
    };
    fleet.next_chapter();
    const std::string onwards = play(fleet);
    Fleet again = Fleet::reopen(RING, state.trace(), robots);
    CHECK(play(again) == onwards && Opening::of(onwards).robots[0].cell == 1);

    // A wall is built on cell 6, robot 1 is moved, a robot comes, and one loses the errand that it heads for.
    const std::string wall = "type octile\nheight 3\nwidth 4\nmap\n....\n.@@.\n....\n";
    CHECK(state.robots[0].cancel(1)->cell == 11 && state.robots[0].wait == 0 && !state.robots[0].cancel(2) && !state.robots[0].cancel(0));
    state.robots[1].move_to(4);
    CHECK(Opening::of(text) != state);
    state.robots.emplace_back().cell = 10;
    Fleet next = Fleet::reopen(wall, state.trace(), three);
    CHECK((next.placement() == std::vector<std::uint32_t>{1, 4, 10}) && next.queue(0).size() == 1);
    while (!next.is_idle()) next.tick();
    CHECK(next.placement()[0] == 2 && next.placement()[1] == 8);
    // What is wrong on a map is said in a sentence, of the first robot.
    const Map ring(RING), walled(wall);
    CHECK(!state.fault_on(ring) && !state.fault_on(walled));
    state.robots[2].move_to(6);
    CHECK(!state.fault_on(ring) && state.fault_on(walled) == "robot 2 is on cell 6, which is no floor");
    state.robots[2].move_to(4);
    CHECK(state.fault_on(ring) == "robots 1 and 2 are both on cell 4" && !Fleet::try_reopen(RING, state.trace(), three));
    state.robots[2].move_to(10);
    state.robots[1].errands[0].cell = 5;
    CHECK(state.fault_on(ring) == "no walk leads robot 1 from cell 4 to cell 5, where its errand 3 of client 0 goes");
    for (std::size_t end = 0; end < text.size(); end++) CHECK(Opening::try_of(std::string_view(text).substr(0, end)).error().code == Code::trace_shape);
    std::string great = text;
    great.replace(great.find("\"tick\":1"), 8, "\"tick\":18446744073709551616");
    CHECK(!Opening::try_of(great) && !Opening::try_of(text + " "));
}

/* A fleet that goes on from another state, in its own manner. */
static void going_on() {
    Setup setup = endless_setup();
    setup.chapter = 2;
    const Robot ranked[2] = {{0, {1, 2, 3, 4}}, {3, {4, 3, 2, 1}}};
    Fleet fleet(RING, ranked, setup);
    std::size_t kept = 0;
    fleet.roll([&](const Chapter &) { kept++; });
    fleet.keep(0);
    CHECK(fleet.go(0, 0, 11).number == 1);
    fleet.next_chapter();
    const Opening before = fleet.opening();
    auto play = [&] {
        for (int tick = 0; tick < 5; tick++) fleet.tick();
        (void)fleet.give_all(0);
        return fleet.trace();
    };
    const std::string once = play();
    const std::size_t rolled = kept;
    // Back, and the same again. A new state begins a chapter: the next one of those that this fleet had then.
    CHECK(fleet.clock() == 5 && rolled == 2);
    fleet.go_on(RING, before, ranked);
    CHECK(fleet.clock() == 0 && fleet.opening().chapter == before.chapter + 1 && fleet.limits().chapter == 2);
    const std::string twice = play();
    CHECK(kept == 2 * rolled && Opening::of(twice).robots[0].cell == Opening::of(once).robots[0].cell && fleet.placement()[0] == 11);
    // A robot more, on another map; what a map does not suit is refused, and nothing changes.
    Opening more = before;
    more.robots.emplace_back().cell = 6;
    const std::string wall = "type octile\nheight 3\nwidth 4\nmap\n....\n.@@.\n....\n", now = fleet.trace();
    CHECK(fleet.try_go_on(wall, more).error().code == Code::chapter_illegal && fleet.trace() == now && fleet.robots() == 2);
    CHECK(fleet.try_go_on(RING, more, ranked).error().code == Code::laws_differ);
    fleet.go_on(RING, more);
    CHECK(fleet.robots() == 3 && fleet.placement()[2] == 6 && fleet.limits().mailbox == 64);
    more.queue = 3;
    fleet.go_on(RING, more);
    CHECK(fleet.limits().queue == 3);
    more.queue = std::uint64_t{1} << 40;
    CHECK(!fleet.try_go_on(RING, more) && fleet.limits().queue == 3);
    Fleet moved = std::move(fleet);
    CHECK(fleet.try_go_on(RING, before).error().code == Code::not_open && moved.try_go_on(RING, before));

    // Roomy cells and turns are asked for again.
    const Robot two[2] = {{8, {}}, {11, {}}};
    Fleet roomy = Fleet::open_roomy(STUB, two), turning(STUB, two);
    roomy.go_on(STUB, roomy.opening());
    CHECK(roomy.try_go(0, 0, 11).error().code == Code::no_room);
    turning.take_turns();
    turning.go_on(STUB, turning.opening());
    CHECK(turning.go(0, 0, 11).verdict == Verdict::accepted && turning.go(0, 1, 0).verdict == Verdict::accepted);
    for (int tick = 0; tick < 60; tick++) turning.tick();
    CHECK(turning.is_idle());
}

/* With a word: prints the trace that each binding makes of the same orders. */
int main(int count, char **) {
    if (count > 1) {
        std::printf("%s", deterministic().c_str());
        return 0;
    }
    refusals();
    keepers();
    loops();
    fits();
    openings();
    going_on();
    (void)deterministic();
#if defined(__cpp_lib_expected)
    std::printf("bindings/cpp/expected.cpp: all pass, with std::expected\n");
#else
    std::printf("bindings/cpp/expected.cpp: all pass, without std::expected\n");
#endif
}
