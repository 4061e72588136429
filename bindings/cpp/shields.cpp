/* Tests of shields from C++, and by the calls of nashirudder.h. What is wanted is worked out by hand, or by tools/shield/model.py
   where it says so. */
#include "nashirudder.hpp"

#include <cstdio>
#include <cstdlib>
#include <set>
#include <vector>

using nashirudder::Code;
using nashirudder::Fault;
using nashirudder::Map;
using nashirudder::Shield;
using Cells = std::vector<std::uint32_t>;

#define CHECK(what)                                                                        \
    do {                                                                                    \
        if (!(what)) {                                                                      \
            std::printf("%s:%d: this does not hold: %s\n", __FILE__, __LINE__, #what);      \
            std::exit(1);                                                                   \
        }                                                                                   \
    } while (0)

/* 0 1 2 3 4
   5 6 # 8 9 */
static const char *const TEXT = "type octile\nheight 2\nwidth 5\nmap\n.....\n..@..\n";

static Cells stepped(const Cells &from, const Cells &order, std::uint16_t each, const Cells &preferences) {
    Shield shield(Map(TEXT), static_cast<std::uint32_t>(from.size()));
    Cells to(from.size(), 77);
    shield.step(from, order, each, preferences, to);
    return to;
}

static Fault refused(const Cells &from, const Cells &order, std::uint16_t each, const Cells &preferences, std::size_t places = 2) {
    Shield shield(Map(TEXT), 2);
    Cells to(places, 77);
    const auto told = shield.try_step(from, order, each, preferences, to);
    CHECK(!told && to == Cells(places, 77));
    try {
        shield.step(from, order, each, preferences, to);
    } catch (const nashirudder::Refused &why) {
        CHECK(why.fault == told.error());
    }
    return told.error();
}

static bool is(const Fault &fault, Code code, std::uint64_t first, std::uint64_t second) {
    return nashirudder::code_of(fault) == code && fault.first == first && fault.second == second;
}

/* A closed handle of either kind is refused, and what the results lead to stays; and so is a map of another size. */
static void handles() {
    nashirudder_map map = NASHIRUDDER_CLOSED, other = NASHIRUDDER_CLOSED;
    nashirudder_shield shield = NASHIRUDDER_CLOSED;
    nashirudder_fault fault{7, 7, NASHIRUDDER_DONE};
    const std::uint32_t from[2] = {0, 2}, order[2] = {1, 0}, wanted[2] = {1, 1};
    std::uint32_t to[2] = {77, 78};
    const std::string text(TEXT), small("type octile\nheight 1\nwidth 3\nmap\n...\n");
    auto step = [&](const nashirudder_map &on) { return nashirudder_shield_step(&on, &shield, from, 2, order, 2, 1, wanted, 2, to, 2, &fault); };
    auto stays = [&] { return to[0] == 77 && to[1] == 78 && fault == (Fault{7, 7, NASHIRUDDER_DONE}); };
    CHECK(nashirudder_shield_open(&map, 2, &shield) == NASHIRUDDER_NOT_OPEN && !shield.is_open);
    nashirudder_fault read{};
    CHECK(nashirudder_map_open(reinterpret_cast<const std::uint8_t *>(text.data()), text.size(), &map, &read) == NASHIRUDDER_DONE);
    CHECK(nashirudder_map_open(reinterpret_cast<const std::uint8_t *>(small.data()), small.size(), &other, &read) == NASHIRUDDER_DONE);
    CHECK(step(map) == NASHIRUDDER_NOT_OPEN && stays());
    CHECK(nashirudder_shield_open(&map, 2, &shield) == NASHIRUDDER_DONE && nashirudder_shield_open(&map, 2, &shield) == NASHIRUDDER_ALREADY_OPEN);
    CHECK(step(map) == NASHIRUDDER_DONE && to[0] == 0 && to[1] == 1 && fault == (Fault{7, 7, NASHIRUDDER_DONE}));
    to[0] = 77, to[1] = 78;
    CHECK(step(other) == NASHIRUDDER_SHIELD_MAP && fault == (Fault{0, 0, NASHIRUDDER_SHIELD_MAP}) && to[0] == 77 && to[1] == 78);
    nashirudder_map_close(&other);
    fault = {7, 7, NASHIRUDDER_DONE};
    CHECK(step(other) == NASHIRUDDER_NOT_OPEN && stays() && shield.is_open);
    nashirudder_shield_close(&shield);
    CHECK(!shield.is_open && !shield.at && step(map) == NASHIRUDDER_NOT_OPEN && stays());
    nashirudder_shield_close(&shield);
    nashirudder_map_close(&map);
}

static void nulls() {
    nashirudder_map map = NASHIRUDDER_CLOSED;
    nashirudder_shield shield = NASHIRUDDER_CLOSED;
    nashirudder_fault read{};
    const std::string text(TEXT);
    CHECK(nashirudder_map_open(reinterpret_cast<const std::uint8_t *>(text.data()), text.size(), &map, &read) == NASHIRUDDER_DONE);
    CHECK(nashirudder_shield_open(nullptr, 0, &shield) == NASHIRUDDER_NULL_POINTER && nashirudder_shield_open(&map, 0, nullptr) == NASHIRUDDER_NULL_POINTER);
    nashirudder_shield_close(nullptr);
    // Nobody: the lists are empty, and their addresses may be null.
    CHECK(nashirudder_shield_open(&map, 0, &shield) == NASHIRUDDER_DONE);
    CHECK(nashirudder_shield_step(&map, &shield, nullptr, 0, nullptr, 0, 5, nullptr, 0, nullptr, 0, nullptr) == NASHIRUDDER_DONE);
    CHECK(nashirudder_shield_step(&map, &shield, nullptr, 1, nullptr, 0, 5, nullptr, 0, nullptr, 0, nullptr) == NASHIRUDDER_NULL_POINTER);
    CHECK(nashirudder_shield_step(&map, &shield, nullptr, 0, nullptr, 1, 5, nullptr, 0, nullptr, 0, nullptr) == NASHIRUDDER_NULL_POINTER);
    CHECK(nashirudder_shield_step(&map, &shield, nullptr, 0, nullptr, 0, 5, nullptr, 1, nullptr, 0, nullptr) == NASHIRUDDER_NULL_POINTER);
    CHECK(nashirudder_shield_step(&map, &shield, nullptr, 0, nullptr, 0, 5, nullptr, 0, nullptr, 1, nullptr) == NASHIRUDDER_NULL_POINTER);
    CHECK(nashirudder_shield_step(nullptr, &shield, nullptr, 0, nullptr, 0, 5, nullptr, 0, nullptr, 0, nullptr) == NASHIRUDDER_NULL_POINTER);
    CHECK(nashirudder_shield_step(&map, nullptr, nullptr, 0, nullptr, 0, 5, nullptr, 0, nullptr, 0, nullptr) == NASHIRUDDER_NULL_POINTER);
    const std::uint32_t one[1] = {0};
    // A fault that is not wanted.
    CHECK(nashirudder_shield_step(&map, &shield, one, 1, nullptr, 0, 5, nullptr, 0, nullptr, 0, nullptr) == NASHIRUDDER_SHIELD_LENGTH);
    nashirudder_shield_close(&shield);
    nashirudder_map_close(&map);
}

static void steps() {
    // Both want the cell between them: the first in order gets it.
    CHECK(stepped({0, 2}, {1, 0}, 1, {1, 1}) == Cells({0, 1}) && stepped({0, 2}, {0, 1}, 1, {1, 1}) == Cells({1, 2}));
    // One is pushed on; two do not exchange their cells, and the one that is pushed makes way.
    CHECK(stepped({0, 1}, {0, 1}, 1, {1, 2}) == Cells({1, 2}) && stepped({0, 1}, {0, 1}, 1, {1, 0}) == Cells({0, 1}));
    CHECK(stepped({0, 1}, {0, 1}, 2, {1, 0, 0, 6}) == Cells({1, 6}));
    // Four turn on a block of four cells; and whoever prefers nothing stays.
    CHECK(stepped({0, 1, 6, 5}, {2, 0, 3, 1}, 1, {1, 6, 5, 0}) == Cells({1, 6, 5, 0}) && stepped({3, 9}, {0, 1}, 0, {}) == Cells({3, 9}));
    // By tools/shield/model.py.
    CHECK(stepped({6, 0, 8}, {2, 0, 1}, 2, {6, 1, 0, 5, 3, 3}) == Cells({6, 0, 3}));
    CHECK(stepped({8, 9, 0, 6, 2, 3}, {5, 0, 4, 2, 1, 3}, 3, {9, 8, 9, 9, 8, 4, 1, 1, 5, 6, 1, 5, 1, 1, 3, 2, 2, 3}) == Cells({9, 4, 5, 6, 1, 2}));
    CHECK(stepped({1, 2, 3, 6, 4, 8, 0, 9}, {4, 5, 3, 2, 6, 0, 7, 1}, 2, {0, 0, 1, 2, 2, 8, 5, 6, 9, 3, 9, 3, 5, 1, 9, 8}) == Cells({0, 1, 2, 6, 9, 3, 5, 8}));
}

static void refusals() {
    CHECK(is(refused({0, 2}, {0, 1}, 1, {1, 1}, 1), Code::shield_length, 0, 0) && is(refused({0, 2, 4}, {0, 1}, 1, {1, 1}), Code::shield_length, 0, 0));
    CHECK(is(refused({0, 2}, {0}, 1, {1, 1}), Code::shield_length, 0, 0) && is(refused({0, 2}, {0, 1}, 2, {1, 1}), Code::shield_length, 0, 0));
    CHECK(is(refused({0, 10}, {0, 1}, 1, {1, 9}), Code::shield_outside, 1, 0) && is(refused({7, 0}, {2, 2}, 1, {1, 1}), Code::shield_wall, 0, 0));
    CHECK(is(refused({1, 1}, {2, 1}, 1, {1, 1}), Code::shield_shared, 0, 1) && is(refused({0, 2}, {0, 2}, 1, {9, 1}), Code::shield_unknown, 1, 0));
    CHECK(is(refused({0, 2}, {1, 1}, 1, {9, 1}), Code::shield_twice, 1, 0) && is(refused({0, 3}, {0, 1}, 2, {0, 1, 3, 9}), Code::shield_far, 1, 1));
    CHECK(is(refused({2, 3}, {0, 1}, 1, {7, 3}), Code::shield_far, 0, 0));
    CHECK(nashirudder::message_of(Fault{1, 4, NASHIRUDDER_SHIELD_FAR}) == "preference 4 of robot 1 is neither its cell nor next to it");
    CHECK(nashirudder::message_of(Fault{0, 1, NASHIRUDDER_SHIELD_SHARED}) == "robots 0 and 1 stand on one cell");
    CHECK(nashirudder::message_of(Fault{0, 0, nashirudder_code(78)}) == "there is no such code");
}

/* A shield that is moved, and two on one map. */
static void owners() {
    const auto map = std::make_shared<const Map>(TEXT);
    Shield shield(map, 2), other = *Shield::try_open(map, 1);
    const Cells from{0, 2}, order{1, 0}, wanted{1, 1};
    Cells to(2), one(1);
    Shield moved = std::move(shield);
    moved.step(from, order, 1, wanted, to);
    CHECK(to == Cells({0, 1}) && moved.map().shape().cells == 10);
    CHECK(shield.try_step(from, order, 1, wanted, to).error().code == Code::not_open);
    other.step(Cells{9}, Cells{0}, 1, Cells{4}, one);
    CHECK(one == Cells{4});
    moved = std::move(other);
    moved.step(Cells{4}, Cells{0}, 1, Cells{3}, one);
    CHECK(one == Cells{3});
    CHECK(Shield::try_open(nullptr, 1).error().code == Code::not_open);
}

/* A crowd without rank or sense: no two ever meet. */
static void crowd() {
    constexpr std::uint32_t SIDE = 20, ROBOTS = 300;
    std::string text = "type octile\nheight 20\nwidth 20\nmap\n";
    for (std::uint32_t row = 0; row < SIDE; row++) text += std::string(SIDE, '.') + "\n";
    Shield shield(Map(text), ROBOTS);
    Cells from(ROBOTS), order(ROBOTS), wanted(ROBOTS), to(ROBOTS);
    for (std::uint32_t it = 0; it < ROBOTS; it++) from[it] = order[it] = it;
    std::uint32_t draw = 1, made = 0;
    for (int step = 0; step < 200; step++) {
        for (std::uint32_t it = 0; it < ROBOTS; it++) {
            draw = draw * 1664525 + 1013904223;
            const std::uint32_t cell = from[it], way = draw >> 30;
            wanted[it] = way == 0 && cell % SIDE > 0 ? cell - 1 : way == 1 && cell % SIDE + 1 < SIDE ? cell + 1 : way == 2 && cell >= SIDE ? cell - SIDE : way == 3 && cell + SIDE < SIDE * SIDE ? cell + SIDE : cell;
            std::swap(order[it], order[draw % ROBOTS]);
        }
        shield.step(from, order, 1, wanted, to);
        std::set<std::uint32_t> taken(to.begin(), to.end());
        std::set<std::pair<std::uint32_t, std::uint32_t>> ways;
        for (std::uint32_t it = 0; it < ROBOTS; it++) {
            if (to[it] == from[it]) continue;
            CHECK(to[it] == wanted[it] && !ways.count({to[it], from[it]}));
            ways.insert({from[it], to[it]});
            made++;
        }
        CHECK(taken.size() == ROBOTS);
        from.swap(to);
    }
    CHECK(made > 0);
}

int main() {
    handles();
    nulls();
    steps();
    refusals();
    owners();
    crowd();
    std::printf("bindings/cpp/shields.cpp: the calls of shields do what is worked out by hand\n");
}
