/*
** Nashirudder from C++17 or later: a fleet as an object that is moved and never copied. nashirudder.h says what each call does, what
** memory it takes, and what holds of threads; this header needs no library of its own.
**
**     nashirudder::Fleet fleet(map, {{0, {}}, {11, {}}});     // the robots' cells and ranks
**     if (fleet.go(0, 1, 4).verdict != nashirudder::Verdict::accepted) return 1;
**     for (auto left = fleet.idle_within().value(); left > 0 && !fleet.is_idle(); left--) fleet.tick();
**
** On a map with a bridge idle_within has no value, and a loop that ticks until the fleet is idle may never end. A fleet that
** runs for long has the limits of endless_setup, rolls its chapters, and gives clients their notices:
** bindings/cpp/controller.cpp.
**
** Where the library refuses a call, nashirudder::Refused is thrown, and std::bad_alloc where memory was refused. The fleet
** is then as it was before the call. What is no refusal but an answer, as that a client has no notice, is an empty optional.
**
** A call whose name begins with `try_` throws none of these, and returns an Expected: the value, or a Fault with the code. That
** is std::expected where the standard has it (C++23), and before a class with its most used names. Without exceptions
** (-fno-exceptions) a refusal of the other calls ends the program.
**
** Any number of threads may call the const methods of one fleet at once; every other call has to be the only one on it.
*/
#ifndef NASHIRUDDER_HPP
#define NASHIRUDDER_HPP

#include "nashirudder.h"

#include <cstdint>
#include <cstddef>
#include <functional>
#include <initializer_list>
#include <iterator>
#include <memory>
#include <new>
#include <optional>
#include <stdexcept>
#include <string>
#include <string_view>
#include <tuple>
#include <type_traits>
#include <utility>
#include <vector>

#if __cplusplus >= 202002L
#include <span>
#endif
#if __cplusplus > 202002L && __has_include(<expected>)
#include <expected>
#endif

#if defined(__cpp_exceptions)
#define NASHIRUDDER_THROW(why) throw why
#else
#include <cstdlib>
#define NASHIRUDDER_THROW(why) ((void)(why), std::abort())
#endif

namespace nashirudder {

#if __cplusplus >= 202002L
template <typename T> using Span = std::span<T>;
#else
/* A list that somebody else owns, as std::span has it from C++20 on. */
template <typename T> class Span {
public:
    Span() = default;
    Span(T *begin, std::size_t size_of) : first(begin), count(size_of) {}
    template <std::size_t Count> Span(T (&list)[Count]) : first(list), count(Count) {}
    template <typename List, typename = std::enable_if_t<std::is_convertible_v<decltype(std::declval<List &>().data()), T *>>>
    Span(List &&list) : first(list.data()), count(list.size()) {}

    [[nodiscard]] T *data() const { return first; }
    [[nodiscard]] std::size_t size() const { return count; }
    [[nodiscard]] bool empty() const { return count == 0; }

private:
    T *first = nullptr;
    std::size_t count = 0;
};
#endif

using Robot = nashirudder_robot;
using Setup = nashirudder_setup;
using Fault = nashirudder_fault;
using Judgement = nashirudder_judgement;
using Report = nashirudder_report;
using Note = nashirudder_note;
using Edge = nashirudder_edge;
using Order = nashirudder_order;
using Arrival = nashirudder_arrival;
using Shape = nashirudder_shape;
using Errand = nashirudder_errand;
using Standing = nashirudder_standing;
using Account = nashirudder_account;
using Move = nashirudder_move;
using Whereabouts = nashirudder_whereabouts;
using Progress = nashirudder_progress;

/* What a call answers, as by nashirudder.h. */
enum class Code : std::uint32_t {
    done = NASHIRUDDER_DONE, no_memory = NASHIRUDDER_NO_MEMORY, not_open = NASHIRUDDER_NOT_OPEN,
    already_open = NASHIRUDDER_ALREADY_OPEN, no_client = NASHIRUDDER_NO_CLIENT, no_robot = NASHIRUDDER_NO_ROBOT,
    mailbox_full = NASHIRUDDER_MAILBOX_FULL, chapter_full = NASHIRUDDER_CHAPTER_FULL, clock_spent = NASHIRUDDER_CLOCK_SPENT,
    already_shut = NASHIRUDDER_ALREADY_SHUT, book_spent = NASHIRUDDER_BOOK_SPENT, no_notice = NASHIRUDDER_NO_NOTICE,
    too_wide = NASHIRUDDER_TOO_WIDE, idle = NASHIRUDDER_IDLE, has_bridge = NASHIRUDDER_HAS_BRIDGE,
    wrong_length = NASHIRUDDER_WRONG_LENGTH, null_pointer = NASHIRUDDER_NULL_POINTER, bad_order = NASHIRUDDER_BAD_ORDER,
    no_room = NASHIRUDDER_NO_ROOM, chapter_begun = NASHIRUDDER_CHAPTER_BEGUN, no_turns = NASHIRUDDER_NO_TURNS,
    map_header = NASHIRUDDER_MAP_HEADER, map_size = NASHIRUDDER_MAP_SIZE, map_row = NASHIRUDDER_MAP_ROW,
    map_cell = NASHIRUDDER_MAP_CELL, map_trailing = NASHIRUDDER_MAP_TRAILING, bad_setup = NASHIRUDDER_BAD_SETUP,
    robot_count = NASHIRUDDER_ROBOT_COUNT, start_blocked = NASHIRUDDER_START_BLOCKED,
    start_shared = NASHIRUDDER_START_SHARED, wrong_size = NASHIRUDDER_WRONG_SIZE, too_many = NASHIRUDDER_TOO_MANY,
    from_blocked = NASHIRUDDER_FROM_BLOCKED, from_shared = NASHIRUDDER_FROM_SHARED, to_length = NASHIRUDDER_TO_LENGTH,
    off_floor = NASHIRUDDER_OFF_FLOOR, not_adjacent = NASHIRUDDER_NOT_ADJACENT,
    vertex_conflict = NASHIRUDDER_VERTEX_CONFLICT, swapping_conflict = NASHIRUDDER_SWAPPING_CONFLICT,
    no_bridge = NASHIRUDDER_NO_BRIDGE, goal_blocked = NASHIRUDDER_GOAL_BLOCKED, trace_not_json = NASHIRUDDER_TRACE_NOT_JSON,
    trace_version = NASHIRUDDER_TRACE_VERSION, trace_shape = NASHIRUDDER_TRACE_SHAPE,
    chapter_illegal = NASHIRUDDER_CHAPTER_ILLEGAL, laws_differ = NASHIRUDDER_LAWS_DIFFER,
    limits_differ = NASHIRUDDER_LIMITS_DIFFER, chapters_spent = NASHIRUDDER_CHAPTERS_SPENT,
    waited_too_long = NASHIRUDDER_WAITED_TOO_LONG, bad_clearance = NASHIRUDDER_BAD_CLEARANCE,
    bad_window = NASHIRUDDER_BAD_WINDOW, no_placement = NASHIRUDDER_NO_PLACEMENT, window_full = NASHIRUDDER_WINDOW_FULL,
    no_step = NASHIRUDDER_NO_STEP, no_move = NASHIRUDDER_NO_MOVE, not_under_way = NASHIRUDDER_NOT_UNDER_WAY,
    shield_map = NASHIRUDDER_SHIELD_MAP, shield_length = NASHIRUDDER_SHIELD_LENGTH, shield_outside = NASHIRUDDER_SHIELD_OUTSIDE,
    shield_wall = NASHIRUDDER_SHIELD_WALL, shield_shared = NASHIRUDDER_SHIELD_SHARED, shield_unknown = NASHIRUDDER_SHIELD_UNKNOWN,
    shield_twice = NASHIRUDDER_SHIELD_TWICE, shield_far = NASHIRUDDER_SHIELD_FAR,
};

/* What an order is answered. */
enum class Verdict : std::uint32_t {
    no_verdict = NASHIRUDDER_NO_VERDICT, accepted = NASHIRUDDER_ACCEPTED, closing = NASHIRUDDER_CLOSING,
    withdrawn = NASHIRUDDER_WITHDRAWN, client_closed = NASHIRUDDER_CLIENT_CLOSED, unknown_robot = NASHIRUDDER_UNKNOWN_ROBOT,
    robot_shut = NASHIRUDDER_ROBOT_SHUT, no_cell = NASHIRUDDER_NO_CELL, blocked = NASHIRUDDER_BLOCKED,
    unreachable = NASHIRUDDER_UNREACHABLE, queue_full = NASHIRUDDER_QUEUE_FULL, life_spent = NASHIRUDDER_LIFE_SPENT,
    no_errand = NASHIRUDDER_NO_ERRAND, too_late = NASHIRUDDER_TOO_LATE,
};

/* What a robot does. */
enum class State : std::uint32_t {
    free = NASHIRUDDER_FREE, busy = NASHIRUDDER_BUSY, shut = NASHIRUDDER_SHUT,
};

/* When a robot's stay on a cell ends, so that another one may begin to move there (nashirudder::Execution). */
enum class Clearance : std::uint32_t {
    arrived = NASHIRUDDER_CLEARANCE_ARRIVED, started = NASHIRUDDER_CLEARANCE_STARTED,
};

/* The library's structs have numbers; each is compared with the name of its enum class, and `switch (Verdict(told.verdict))`
   has names in its cases. */
inline bool operator==(std::uint32_t told, Code code) { return told == static_cast<std::uint32_t>(code); }
inline bool operator==(std::uint32_t told, Verdict verdict) { return told == static_cast<std::uint32_t>(verdict); }
inline bool operator==(std::uint32_t told, State state) { return told == static_cast<std::uint32_t>(state); }
#if __cplusplus < 202002L
template <typename Name, typename = std::enable_if_t<std::is_same_v<Name, Code> || std::is_same_v<Name, Verdict> || std::is_same_v<Name, State>>>
bool operator==(Name name, std::uint32_t told) { return told == name; }
template <typename Name, typename = std::enable_if_t<std::is_same_v<Name, Code> || std::is_same_v<Name, Verdict> || std::is_same_v<Name, State>>>
bool operator!=(Name name, std::uint32_t told) { return !(told == name); }
template <typename Name, typename = std::enable_if_t<std::is_same_v<Name, Code> || std::is_same_v<Name, Verdict> || std::is_same_v<Name, State>>>
bool operator!=(std::uint32_t told, Name name) { return !(told == name); }
#endif

namespace detail {

/* What two structs of the library are compared by. */
inline auto fields(const Robot &it) { return std::make_tuple(it.cell, it.ranks[0], it.ranks[1], it.ranks[2], it.ranks[3]); }
inline auto fields(const Setup &it) {
    return std::make_tuple(it.clients, it.life, it.orders, it.clock, it.lane, it.outlet, it.queue, it.mailbox, it.chapter, it.chapters);
}
inline auto fields(const Fault &it) { return std::make_tuple(it.code, it.first, it.second); }
inline auto fields(const Judgement &it) { return std::make_tuple(it.verdict, it.number); }
inline auto fields(const Report &it) { return std::make_tuple(it.tick, it.arrived, it.farewells); }
inline auto fields(const Note &it) { return std::make_tuple(it.seq, it.order, it.number, it.tick, it.verdict, it.robot, it.cell, it.stamp); }
inline auto fields(const Edge &it) { return std::make_tuple(it.lower, it.upper); }
inline auto fields(const Order &it) { return std::make_tuple(it.kind, it.client, it.robot, it.cell, it.number); }
inline auto fields(const Arrival &it) { return std::make_tuple(it.robot, it.client, it.number, it.cell, it.stamp); }
inline auto fields(const Shape &it) { return std::make_tuple(it.height, it.width, it.cells, it.floor, it.edges); }
inline auto fields(const Errand &it) { return std::make_tuple(it.client, it.number, it.robot, it.place, it.cell); }
inline auto fields(const Standing &it) { return std::make_tuple(it.cell, it.goal, it.state, it.wait, it.errands); }
inline auto fields(const Account &it) { return std::make_tuple(it.taken, it.owed, it.pending, it.room); }
inline auto fields(const Move &it) { return std::make_tuple(it.tick, it.robot, it.from, it.to); }
inline auto fields(const Whereabouts &it) { return std::make_tuple(it.cell, it.bound_for, it.left, it.is_under_way); }
inline auto fields(const Progress &it) { return std::make_tuple(it.steps, it.behind, it.has_room); }

} // namespace detail

inline Code code_of(const Fault &fault) { return static_cast<Code>(fault.code); }
inline Verdict verdict_of(const Judgement &judgement) { return static_cast<Verdict>(judgement.verdict); }
inline Verdict verdict_of(const Note &note) { return static_cast<Verdict>(note.verdict); }
inline State state_of(const Standing &standing) { return static_cast<State>(standing.state); }

/* The word for a code, and for a verdict. */
inline const char *name_of(std::uint32_t code) { return nashirudder_code_name(code); }
inline const char *name_of(Code code) { return nashirudder_code_name(static_cast<std::uint32_t>(code)); }
inline const char *name_of(State state) { return nashirudder_state_name(static_cast<std::uint32_t>(state)); }
inline const char *name_of(Verdict verdict) { return nashirudder_verdict_name(static_cast<std::uint32_t>(verdict)); }
inline const char *verdict_name(std::uint32_t verdict) { return nashirudder_verdict_name(verdict); }

/* One sentence about a fault, with the numbers that it names. */
inline std::string message_of(const Fault &fault) {
    std::string text(nashirudder_message(&fault, nullptr, 0) + 1, '\0');
    nashirudder_message(&fault, text.data(), text.size());
    text.pop_back();
    return text;
}

} // namespace nashirudder

/* The structs of the library are equal where all their fields are. */
template <typename Told, typename = decltype(nashirudder::detail::fields(std::declval<const Told &>()))>
bool operator==(const Told &one, const Told &other) { return nashirudder::detail::fields(one) == nashirudder::detail::fields(other); }
template <typename Told, typename = decltype(nashirudder::detail::fields(std::declval<const Told &>()))>
bool operator!=(const Told &one, const Told &other) { return !(one == other); }

namespace nashirudder {

/* A call was refused. `fault` has the code, and the numbers that it names; what() is its sentence. */
class Refused : public std::runtime_error {
public:
    explicit Refused(const Fault &why) : std::runtime_error(message_of(why)), fault(why) {}
    explicit Refused(nashirudder_code code) : Refused(Fault{0, 0, code}) {}

    [[nodiscard]] Code code() const { return code_of(fault); }

    Fault fault;
};

/* A keeper of chapters called its own fleet (Fleet::roll). */
class Reentered : public std::logic_error {
public:
    Reentered() : std::logic_error("nashirudder: a keeper of chapters called its own fleet") {}
};

#if defined(__cpp_lib_expected)
template <typename T> using Expected = std::expected<T, Fault>;
namespace detail {
using Unexpected = std::unexpected<Fault>;
}
#else
namespace detail {
struct Unexpected {
    explicit Unexpected(const Fault &why) : fault(why) {}
    Fault fault;
};
} // namespace detail

/* A value, or why there is none, as std::expected has it from C++23 on. */
template <typename T> class Expected {
public:
    Expected(T value) : held(std::move(value)) {}
    Expected(const detail::Unexpected &why) : fault(why.fault) {}

    [[nodiscard]] bool has_value() const noexcept { return held.has_value(); }
    explicit operator bool() const noexcept { return has_value(); }
    [[nodiscard]] T &operator*() & { return *held; }
    [[nodiscard]] const T &operator*() const & { return *held; }
    [[nodiscard]] T &&operator*() && { return std::move(*held); }
    [[nodiscard]] T *operator->() { return &*held; }
    [[nodiscard]] const T *operator->() const { return &*held; }
    template <typename Other> [[nodiscard]] T value_or(Other &&other) const & { return held.value_or(std::forward<Other>(other)); }
    [[nodiscard]] const Fault &error() const { return fault; }

private:
    std::optional<T> held;
    Fault fault{};
};

template <> class Expected<void> {
public:
    Expected() = default;
    Expected(const detail::Unexpected &why) : fault(why.fault) {}

    [[nodiscard]] bool has_value() const noexcept { return fault.code == NASHIRUDDER_DONE; }
    explicit operator bool() const noexcept { return has_value(); }
    void operator*() const {}
    [[nodiscard]] const Fault &error() const { return fault; }

private:
    Fault fault{};
};
#endif

/* Orders for a list of them. */
inline Order order_go(std::uint32_t client, std::uint32_t robot, std::uint32_t cell) { return {0, NASHIRUDDER_ORDER_GO, client, robot, cell}; }
inline Order order_close(std::uint32_t client) { return {0, NASHIRUDDER_ORDER_CLOSE, client, 0, 0}; }
inline Order order_withdraw(std::uint32_t client, std::uint64_t number) { return {number, NASHIRUDDER_ORDER_WITHDRAW, client, 0, 0}; }

/* How many orders of a list were taken, and what refused the next one: Code::done where all were taken. */
struct Taken {
    std::size_t count;
    Code stopped;
};

/* What a tick shows: where the robots stand after it, who arrived, by robot, and which robots said farewell. It can be used
   for tick after tick, and then takes no more memory. */
struct Shown {
    std::vector<std::uint32_t> cells;
    std::vector<Arrival> arrivals;
    std::vector<std::uint32_t> farewells;
};

/* Whether each function of the library was proved before it was built. */
inline bool is_proved() noexcept { return nashirudder_is_proved(); }

namespace detail {

/* A list's address. */
template <typename T> T *address(Span<T> list) { return list.data(); }

inline const std::uint8_t *address(std::string_view text) { return reinterpret_cast<const std::uint8_t *>(text.data()); }

/* Whether the library fits this header: it has the same major and minor version, and is not older. */
inline bool is_fitting() { return nashirudder_version() / 100 == NASHIRUDDER_VERSION / 100 && nashirudder_version() >= NASHIRUDDER_VERSION; }

/* Once, and before anything else. */
inline void check_version() {
    static const bool fits = is_fitting();
    if (!fits) {
        NASHIRUDDER_THROW(std::runtime_error("nashirudder: the library's version is " + std::to_string(nashirudder_version()) + ", the header's " +
                                             std::to_string(NASHIRUDDER_VERSION)));
    }
}

/* Throws what a fault says. */
[[noreturn]] inline void refuse(const Fault &fault) {
    if (fault.code == NASHIRUDDER_NO_MEMORY) NASHIRUDDER_THROW(std::bad_alloc());
    NASHIRUDDER_THROW(Refused(fault));
}

inline void check(nashirudder_code code) {
    if (code != NASHIRUDDER_DONE) refuse(Fault{0, 0, code});
}

/* The fault of a call that tells one: its numbers count where it was told. */
inline Fault fault_of(nashirudder_code code, const Fault &told) { return told.code == code ? told : Fault{0, 0, code}; }

inline void check(nashirudder_code code, const Fault &fault) {
    if (code != NASHIRUDDER_DONE) refuse(fault_of(code, fault));
}

/* The value, where the call was carried out. */
template <typename T> Expected<T> expected(nashirudder_code code, T &&value) {
    if (code != NASHIRUDDER_DONE) return Unexpected(Fault{0, 0, code});
    return std::forward<T>(value);
}

inline Expected<void> expected(nashirudder_code code) {
    if (code != NASHIRUDDER_DONE) return Unexpected(Fault{0, 0, code});
    return {};
}

/* The value; throws why there is none. */
template <typename T> T value_of(Expected<T> told) {
    if (!told) refuse(told.error());
    return *std::move(told);
}

/* Whether the call was carried out; false where it answered that there is nothing. */
inline bool is_there(nashirudder_code code, nashirudder_code nothing) {
    if (code == nothing) return false;
    check(code);
    return true;
}

} // namespace detail

/* The limits of a fleet that are taken where nothing is said, and the number of clients. */
inline Setup default_setup(std::uint32_t clients = 1) {
    Setup setup;
    nashirudder_setup_default(clients, &setup);
    return setup;
}

/* The limits of a fleet that never ends: no clock, no life and no number of chapters is ever spent. */
inline Setup endless_setup(std::uint32_t clients = 1) {
    Setup setup;
    nashirudder_setup_endless(clients, &setup);
    return setup;
}

namespace detail {

/* A chapter's text, by a call that says how long it is. */
template <typename Call> Expected<std::string> text_by(Call call) {
    std::string text(1024, '\0');
    std::size_t length = 0;
    nashirudder_code code = call(reinterpret_cast<std::uint8_t *>(text.data()), text.size(), &length);
    if (code == NASHIRUDDER_WRONG_LENGTH) {
        text.resize(length);
        code = call(reinterpret_cast<std::uint8_t *>(text.data()), text.size(), &length);
    }
    if (code == NASHIRUDDER_DONE) text.resize(length);
    return expected(code, std::move(text));
}

} // namespace detail

/* A chapter: one that a fleet handed out, whose text can be written in another thread while the fleet goes on; or the full one of
   a fleet that rolls, which its keeper reads before the next begins. */
class Chapter {
public:
    Chapter(const Chapter &) = delete;
    Chapter &operator=(const Chapter &) = delete;
    Chapter(Chapter &&other) noexcept : handle(std::exchange(other.handle, nashirudder_chapter NASHIRUDDER_CLOSED)), full(other.full) {}
    Chapter &operator=(Chapter &&other) noexcept {
        if (this != &other) {
            nashirudder_chapter_close(&handle);
            handle = std::exchange(other.handle, nashirudder_chapter NASHIRUDDER_CLOSED);
            full = other.full;
        }
        return *this;
    }
    ~Chapter() { nashirudder_chapter_close(&handle); }

    /* Its trace. */
    [[nodiscard]] std::string trace() const { return detail::value_of(try_trace()); }
    [[nodiscard]] Expected<std::string> try_trace() const {
        if (full) return detail::text_by([&](std::uint8_t *text, std::size_t size, std::size_t *length) { return nashirudder_trace(full, text, size, length); });
        return detail::text_by([&](std::uint8_t *text, std::size_t size, std::size_t *length) { return nashirudder_chapter_trace(&handle, text, size, length); });
    }

private:
    friend class Fleet;
    Chapter() = default;
    explicit Chapter(const nashirudder_fleet &fleet) : full(&fleet) {}

    nashirudder_chapter handle = NASHIRUDDER_CLOSED;
    const nashirudder_fleet *full = nullptr; // the fleet whose present chapter this is
};

class Map;

/* How a fleet stands at the beginning of a chapter, as a value (Fleet::opening). It may be kept, changed, and gone on from: on
   another map, with robots that were moved, added or removed, without an errand. Each robot has a floor cell of its own then,
   from which a walk leads to the cells of its errands. */
struct Opening {
    struct Errand {
        std::uint32_t client = 0;
        std::uint64_t number = 0;
        std::uint32_t cell = 0;
    };
    struct Robot {
        std::uint32_t cell = 0;
        bool shut = false;
        std::optional<std::uint64_t> wait{}; // nothing exactly where there are no errands
        std::vector<Errand> errands{};
        std::uint32_t laws[4] = {0, 0, 0, 0}; // the stamps of arrivals and of the farewell, from one to the other

        /* Puts the robot on another cell; it has waited no tick then. */
        void move_to(std::uint32_t where) {
            cell = where;
            wait_anew();
        }
        /* Takes the errand at this place of the queue, from 1, away, also the one that the robot heads for, and returns it. */
        std::optional<Errand> cancel(std::size_t place) {
            if (place == 0 || place > errands.size()) return std::nullopt;
            const Errand gone = errands[place - 1];
            errands.erase(errands.begin() + static_cast<std::ptrdiff_t>(place - 1));
            if (place == 1) wait_anew();
            return gone;
        }
        void wait_anew() { wait = errands.empty() ? std::nullopt : std::optional<std::uint64_t>(0); }
    };
    struct Client {
        std::uint64_t taken = 0, accepted = 0, noticed = 0;
        bool closed = false;
    };

    std::uint64_t chapter = 0, tick = 0, life = 0, queue = 0;
    std::vector<Client> clients{};
    std::vector<Robot> robots{};
    std::uint64_t version = 2;

    /* Of the text of a chapter, as the library writes it; else NASHIRUDDER_TRACE_SHAPE. */
    [[nodiscard]] static Expected<Opening> try_of(std::string_view trace);
    [[nodiscard]] static Opening of(std::string_view trace) { return detail::value_of(try_of(trace)); }
    /* The text of a chapter that begins so, and has no entries: for Fleet::reopen. */
    [[nodiscard]] std::string trace() const;
    /* What is wrong with the first such robot on this map, in a sentence; nothing if each stands on a floor cell of its own from
       which a walk leads to each of its errands. */
    [[nodiscard]] std::optional<std::string> fault_on(const Map &map) const;

    friend bool operator==(const Opening &one, const Opening &other) { return one.trace() == other.trace(); }
    friend bool operator!=(const Opening &one, const Opening &other) { return !(one == other); }
};

namespace detail {

/* Reads the text of a chapter as the library writes it; `good` until something else stands there. */
struct Reader {
    std::string_view rest;
    bool good = true;

    bool is(std::string_view word) {
        if (rest.substr(0, word.size()) != word) return false;
        rest.remove_prefix(word.size());
        return true;
    }
    void need(std::string_view word) { good = good && is(word); }
    template <typename Number> void number(Number &into, std::string_view before = {}) {
        need(before);
        std::uint64_t found = 0;
        std::size_t digits = 0;
        for (; digits < rest.size() && rest[digits] >= '0' && rest[digits] <= '9'; digits++) {
            const auto digit = static_cast<std::uint64_t>(rest[digits] - '0');
            good = good && found <= (UINT64_MAX - digit) / 10;
            found = found * 10 + digit;
        }
        rest.remove_prefix(digits);
        into = static_cast<Number>(found);
        good = good && digits > 0 && into == found;
    }
    void truth(bool &into, std::string_view before) {
        need(before);
        into = is("true");
        good = good && (into || is("false"));
    }
    template <typename Item, typename Read> void list(std::vector<Item> &into, std::string_view before, Read read) {
        need(before);
        need("[");
        if (!good || is("]")) return;
        do {
            read(into.emplace_back());
        } while (good && is(","));
        need("]");
    }
    /* Passes over a list, in whose strings there is no bracket. */
    void pass() {
        std::size_t depth = 0, at = 0;
        do {
            if (at == rest.size()) return void(good = false);
            depth += rest[at] == '[';
            depth -= rest[at] == ']';
        } while (rest[at++] != ']' || depth > 0);
        rest.remove_prefix(at);
    }
};

template <typename Item, typename Text> std::string listed(const std::vector<Item> &items, Text text) {
    std::string list = "[";
    for (const Item &item : items) list += (list.size() > 1 ? "," : "") + text(item);
    return list + "]";
}

} // namespace detail

inline Expected<Opening> Opening::try_of(std::string_view trace) {
    detail::Reader reader{trace};
    Opening it;
    reader.number(it.chapter, "{\"chapter\":");
    reader.need(",\"entries\":");
    reader.pass();
    reader.list(it.clients, ",\"opening\":{\"clients\":", [&](Client &one) {
        reader.number(one.taken, "[");
        reader.number(one.accepted, ",");
        reader.number(one.noticed, ",");
        reader.truth(one.closed, ",");
        reader.need("]");
    });
    reader.number(it.life, ",\"life\":");
    reader.number(it.queue, ",\"queue\":");
    reader.list(it.robots, ",\"robots\":", [&](Robot &one) {
        reader.number(one.cell, "[");
        reader.truth(one.shut, ",");
        if (!reader.is(",null")) reader.number(one.wait.emplace(), ",");
        reader.list(one.errands, ",", [&](Errand &errand) {
            reader.number(errand.client, "[");
            reader.number(errand.number, ",");
            reader.number(errand.cell, ",");
            reader.need("]");
        });
        for (int law = 0; law < 4; law++) reader.number(one.laws[law], law == 0 ? ",[" : law == 2 ? "],[" : ",");
        reader.need("]]");
    });
    reader.number(it.tick, ",\"tick\":");
    reader.number(it.version, "},\"version\":");
    reader.need("}");
    if (!reader.good || !reader.rest.empty()) return detail::Unexpected(Fault{0, 0, NASHIRUDDER_TRACE_SHAPE});
    return it;
}

inline std::string Opening::trace() const {
    using std::to_string;
    const auto truth = [](bool is) { return std::string(is ? "true" : "false"); };
    const std::string clients_told = detail::listed(clients, [&](const Client &one) {
        return "[" + to_string(one.taken) + "," + to_string(one.accepted) + "," + to_string(one.noticed) + "," + truth(one.closed) + "]";
    });
    const std::string robots_told = detail::listed(robots, [&](const Robot &one) {
        const std::string queued = detail::listed(one.errands, [](const Errand &errand) {
            return "[" + to_string(errand.client) + "," + to_string(errand.number) + "," + to_string(errand.cell) + "]";
        });
        return "[" + to_string(one.cell) + "," + truth(one.shut) + "," + (one.wait ? to_string(*one.wait) : "null") + "," + queued + ",[" +
               to_string(one.laws[0]) + "," + to_string(one.laws[1]) + "],[" + to_string(one.laws[2]) + "," + to_string(one.laws[3]) + "]]";
    });
    return "{\"chapter\":" + to_string(chapter) + ",\"entries\":[],\"opening\":{\"clients\":" + clients_told + ",\"life\":" + to_string(life) +
           ",\"queue\":" + to_string(queue) + ",\"robots\":" + robots_told + ",\"tick\":" + to_string(tick) + "},\"version\":" + to_string(version) + "}";
}

class Notices;

/* A fleet. One that was moved from has no robots, and every call on it that is not refused changes nothing. */
class Fleet {
public:
    Fleet(std::string_view map, Span<const Robot> robots, const Setup &setup = default_setup()) {
        open(nashirudder_open, map, robots, setup);
    }
    Fleet(std::string_view map, std::initializer_list<Robot> robots, const Setup &setup = default_setup())
        : Fleet(map, Span<const Robot>(robots.begin(), robots.size()), setup) {}
    /* The fleet that goes on from a chapter that was kept, whose trace is `text`. Of the robots only the ranks are read. */
    [[nodiscard]] static Fleet reopen(std::string_view map, std::string_view text, Span<const Robot> robots, const Setup &setup = default_setup()) {
        return Fleet(nashirudder_reopen, map, text, robots, setup);
    }
    /* The same two, of a fleet that takes no errand to a cell that is not roomy for its robots: Code::no_room refuses it, and a
       chapter with such an errand. */
    [[nodiscard]] static Fleet open_roomy(std::string_view map, Span<const Robot> robots, const Setup &setup = default_setup()) {
        Fleet fleet;
        fleet.open(nashirudder_open_roomy, map, robots, setup);
        return fleet;
    }
    [[nodiscard]] static Fleet open_roomy(std::string_view map, std::initializer_list<Robot> robots, const Setup &setup = default_setup()) {
        return open_roomy(map, Span<const Robot>(robots.begin(), robots.size()), setup);
    }
    [[nodiscard]] static Fleet reopen_roomy(std::string_view map, std::string_view text, Span<const Robot> robots, const Setup &setup = default_setup()) {
        return Fleet(nashirudder_reopen_roomy, map, text, robots, setup);
    }
    /* The same four, without exceptions. A library that does not fit the header is NASHIRUDDER_WRONG_SIZE. */
    [[nodiscard]] static Expected<Fleet> try_open(std::string_view map, Span<const Robot> robots, const Setup &setup = default_setup()) {
        return tried(nashirudder_open, map, robots, setup);
    }
    [[nodiscard]] static Expected<Fleet> try_reopen(std::string_view map, std::string_view text, Span<const Robot> robots, const Setup &setup = default_setup()) {
        return tried_again(nashirudder_reopen, map, text, robots, setup);
    }
    [[nodiscard]] static Expected<Fleet> try_open_roomy(std::string_view map, Span<const Robot> robots, const Setup &setup = default_setup()) {
        return tried(nashirudder_open_roomy, map, robots, setup);
    }
    [[nodiscard]] static Expected<Fleet> try_reopen_roomy(std::string_view map, std::string_view text, Span<const Robot> robots, const Setup &setup = default_setup()) {
        return tried_again(nashirudder_reopen_roomy, map, text, robots, setup);
    }
    Fleet(const Fleet &) = delete;
    Fleet &operator=(const Fleet &) = delete;
    Fleet(Fleet &&other) noexcept
        : handle(std::exchange(other.handle, nashirudder_fleet NASHIRUDDER_CLOSED)), count(std::exchange(other.count, 0)), number(other.number),
          manner(other.manner), rolls(other.rolls), keeper(std::move(other.keeper)) {}
    Fleet &operator=(Fleet &&other) noexcept {
        if (this != &other) {
            nashirudder_close(&handle);
            handle = std::exchange(other.handle, nashirudder_fleet NASHIRUDDER_CLOSED);
            count = std::exchange(other.count, 0);
            number = other.number;
            manner = other.manner;
            rolls = other.rolls;
            keeper = std::move(other.keeper);
        }
        return *this;
    }
    ~Fleet() { nashirudder_close(&handle); }

    [[nodiscard]] Judgement go(std::uint32_t client, std::uint32_t robot, std::uint32_t cell) { return detail::value_of(try_go(client, robot, cell)); }
    [[nodiscard]] Expected<Judgement> try_go(std::uint32_t client, std::uint32_t robot, std::uint32_t cell) {
        return judged([&](Judgement *told) { return nashirudder_go(&handle, client, robot, cell, told); });
    }
    [[nodiscard]] Judgement close_client(std::uint32_t client) { return detail::value_of(try_close_client(client)); }
    [[nodiscard]] Expected<Judgement> try_close_client(std::uint32_t client) {
        return judged([&](Judgement *told) { return nashirudder_close_client(&handle, client, told); });
    }
    [[nodiscard]] Judgement withdraw(std::uint32_t client, std::uint64_t errand) { return detail::value_of(try_withdraw(client, errand)); }
    [[nodiscard]] Expected<Judgement> try_withdraw(std::uint32_t client, std::uint64_t errand) {
        return judged([&](Judgement *told) { return nashirudder_withdraw(&handle, client, errand, told); });
    }
    Report tick() { return detail::value_of(try_tick()); }
    [[nodiscard]] Expected<Report> try_tick() {
        Report report{};
        return detail::expected(in_chapter([&] { return nashirudder_tick(&handle, &report); }), std::move(report));
    }
    /* The same, with what the tick shows. */
    Report tick_into(Shown &shown) { return detail::value_of(try_tick_into(shown)); }
    [[nodiscard]] Expected<Report> try_tick_into(Shown &shown) {
        shown.cells.resize(count);
        shown.arrivals.resize(count);
        shown.farewells.resize(count);
        auto told = try_tick_into(Span<std::uint32_t>(shown.cells), Span<Arrival>(shown.arrivals), Span<std::uint32_t>(shown.farewells));
        shown.arrivals.resize(told ? told->arrived : 0);
        shown.farewells.resize(told ? told->farewells : 0);
        return told;
    }
    /* The same, into lists that have one place a robot each; the report says how many of the last two are written. */
    Report tick_into(Span<std::uint32_t> cells, Span<Arrival> arrivals, Span<std::uint32_t> farewells) {
        return detail::value_of(try_tick_into(cells, arrivals, farewells));
    }
    [[nodiscard]] Expected<Report> try_tick_into(Span<std::uint32_t> cells, Span<Arrival> arrivals, Span<std::uint32_t> farewells) {
        Report report{};
        nashirudder_code code = in_chapter([&] {
            return nashirudder_tick_into(&handle, &report, cells.data(), cells.size(), arrivals.data(), arrivals.size(), farewells.data(), farewells.size());
        });
        return detail::expected(code, std::move(report));
    }
    /* Takes orders one after the other until one is refused, with a place for each judgement. */
    [[nodiscard]] Taken take_many(Span<const Order> orders, Span<Judgement> judgements) {
        std::size_t taken = 0, before = 0;
        nashirudder_code code;
        do {
            before = taken;
            code = in_chapter([&] {
                std::size_t more = 0;
                nashirudder_code answer = nashirudder_take_many(&handle, orders.data() + taken, orders.size() - taken, judgements.data() + taken,
                                                                judgements.size() - taken, &more);
                taken += more;
                return answer;
            });
        } while (code == NASHIRUDDER_CHAPTER_FULL && taken > before);
        if (code == NASHIRUDDER_NOT_OPEN || code == NASHIRUDDER_WRONG_LENGTH) NASHIRUDDER_THROW(Refused(code));
        return {taken, static_cast<Code>(code)};
    }
    /* Whether the robot had no errand, and so took its leave at once. */
    bool shut(std::uint32_t robot) { return detail::value_of(try_shut(robot)); }
    [[nodiscard]] Expected<bool> try_shut(std::uint32_t robot) {
        bool left = false;
        return detail::expected(in_chapter([&] { return nashirudder_shut(&handle, robot, &left); }), std::move(left));
    }
    /* Searches the field of one robot's goal as far as the next tick will need it. How many are still to be searched: after 0 the
    ** next tick is planned without a search. Nothing else changes. */
    std::size_t search_one() { return detail::value_of(try_search_one()); }
    [[nodiscard]] Expected<std::size_t> try_search_one() {
        std::size_t left = 0;
        return detail::expected(nashirudder_search_one(&handle, &left), std::move(left));
    }
    /* The same until none is left or this time of any clock has come, which is looked at before each search:
    ** fleet.search_until(std::chrono::steady_clock::now() + 2ms). How many are left. */
    template <class Time> std::size_t search_until(const Time &time) {
        std::size_t left = missing();
        while (left > 0 && Time::clock::now() < time) left = search_one();
        return left;
    }
    /* How many robots' fields are still to be searched before the next tick. */
    [[nodiscard]] std::size_t missing() const {
        std::size_t left = 0;
        detail::check(nashirudder_missing(&handle, &left));
        return left;
    }
    /* The client's next notice, or nothing. */
    [[nodiscard]] std::optional<Note> give(std::uint32_t client) { return detail::value_of(try_give(client)); }
    [[nodiscard]] Expected<std::optional<Note>> try_give(std::uint32_t client) {
        Note note{};
        nashirudder_code code = nashirudder_give(&handle, client, &note);
        if (code == NASHIRUDDER_NO_NOTICE) return std::optional<Note>();
        return detail::expected(code, std::optional<Note>(note));
    }
    /* The client's notices, each of which leaves the mailbox when a loop comes to it: for (const Note &note : fleet.notices(0)) */
    [[nodiscard]] Notices notices(std::uint32_t client);
    /* As many of the client's next notices as the list has places for; how many these are. */
    [[nodiscard]] std::size_t give_many(std::uint32_t client, Span<Note> notes) {
        std::size_t given = 0;
        detail::check(nashirudder_give_many(&handle, client, notes.data(), notes.size(), &given));
        return given;
    }
    /* All notices that the client was not given yet. */
    [[nodiscard]] std::vector<Note> give_all(std::uint32_t client) {
        std::vector<Note> notes(pending_count(client));
        notes.resize(give_many(client, notes));
        return notes;
    }
    /* The notice that `give` would give, which stays, or nothing. */
    [[nodiscard]] std::optional<Note> peek(std::uint32_t client) const {
        Note note{};
        if (!detail::is_there(nashirudder_peek(&handle, client, &note), NASHIRUDDER_NO_NOTICE)) return std::nullopt;
        return note;
    }
    [[nodiscard]] std::uint64_t pending_count(std::uint32_t client) const {
        std::uint64_t pending = 0;
        detail::check(nashirudder_pending_count(&handle, client, &pending));
        return pending;
    }
    /* How many orders of the client were taken, how many errands it has open, how many notices, and the room for both. */
    [[nodiscard]] Account account_of(std::uint32_t client) const {
        Account account{};
        detail::check(nashirudder_account_of(&handle, client, &account));
        return account;
    }
    /* Lets the robots take turns from now on, so that errands into dead ends arrive: before the first entry of a chapter. */
    void take_turns() {
        detail::check(nashirudder_take_turns(&handle));
        manner.turns = true;
    }
    void widen(std::uint32_t client, std::uint64_t extra) { detail::check(nashirudder_widen(&handle, client, extra)); }
    /* Where the robots stand, by number, into a list that has one place for each. */
    void placement(Span<std::uint32_t> cells) const { detail::check(nashirudder_placement(&handle, detail::address(cells), cells.size())); }
    [[nodiscard]] std::vector<std::uint32_t> placement() const {
        std::vector<std::uint32_t> cells(count);
        placement(Span<std::uint32_t>(cells));
        return cells;
    }
    /* How each robot stands, by number, into a list that has one place for each. */
    void standings(Span<Standing> told) const { detail::check(nashirudder_standings(&handle, told.data(), told.size())); }
    [[nodiscard]] std::vector<Standing> standings() const {
        std::vector<Standing> told(count);
        standings(Span<Standing>(told));
        return told;
    }
    /* The robot's errands, in the order of its queue. */
    [[nodiscard]] std::vector<Errand> queue(std::uint32_t robot) const {
        return listed([&](Errand *list, std::size_t length, std::size_t *told) { return nashirudder_queue(&handle, robot, list, length, told); });
    }
    /* The client's errands that are accepted, and neither done nor withdrawn: by robot, and then by place in its queue. */
    [[nodiscard]] std::vector<Errand> open_errands(std::uint32_t client) const {
        return listed([&](Errand *list, std::size_t length, std::size_t *told) { return nashirudder_open_errands(&handle, client, list, length, told); });
    }
    [[nodiscard]] std::uint64_t clock() const {
        std::uint64_t ticks = 0;
        detail::check(nashirudder_clock(&handle, &ticks));
        return ticks;
    }
    /* How long the robot has waited, or nothing where it has no errand. */
    [[nodiscard]] std::optional<std::uint64_t> wait_of(std::uint32_t robot) const {
        std::uint64_t ticks = 0;
        if (!detail::is_there(nashirudder_wait_of(&handle, robot, &ticks), NASHIRUDDER_IDLE)) return std::nullopt;
        return ticks;
    }
    /* The robot that has waited longest, or nothing where nobody has an errand. */
    [[nodiscard]] std::optional<std::uint32_t> eldest() const {
        std::uint32_t robot = 0;
        if (!detail::is_there(nashirudder_eldest(&handle, &robot), NASHIRUDDER_IDLE)) return std::nullopt;
        return robot;
    }
    /* How long that robot has waited, or nothing. */
    [[nodiscard]] std::optional<std::uint64_t> longest_wait() const {
        std::uint64_t ticks = 0;
        if (!detail::is_there(nashirudder_longest_wait(&handle, &ticks), NASHIRUDDER_IDLE)) return std::nullopt;
        return ticks;
    }
    /* A number of ticks that no wait reaches, or nothing on a map with a bridge. */
    [[nodiscard]] std::optional<std::uint64_t> wait_limit() const {
        std::uint64_t ticks = 0;
        if (!detail::is_there(nashirudder_wait_limit(&handle, &ticks), NASHIRUDDER_HAS_BRIDGE)) return std::nullopt;
        return ticks;
    }
    [[nodiscard]] bool is_idle() const {
        bool idle = false;
        detail::check(nashirudder_is_idle(&handle, &idle));
        return idle;
    }
    /* Within how many ticks nobody has an errand any more, or nothing on a map with a bridge. */
    [[nodiscard]] std::optional<std::uint64_t> idle_within() const {
        std::uint64_t ticks = 0;
        if (!detail::is_there(nashirudder_idle_within(&handle, &ticks), NASHIRUDDER_HAS_BRIDGE)) return std::nullopt;
        return ticks;
    }
    [[nodiscard]] bool is_bridgeless() const {
        bool bridgeless = false;
        detail::check(nashirudder_is_bridgeless(&handle, &bridgeless));
        return bridgeless;
    }
    /* The trace of the present chapter. */
    [[nodiscard]] std::string trace() const { return detail::value_of(try_trace()); }
    [[nodiscard]] Expected<std::string> try_trace() const {
        return detail::text_by([&](std::uint8_t *text, std::size_t size, std::size_t *length) { return nashirudder_trace(&handle, text, size, length); });
    }
    /* How the fleet stood at the beginning of the present chapter; after next_chapter or hand_out, how it stands now. */
    [[nodiscard]] Opening opening() const { return Opening::of(trace()); }
    /* Goes on from this state, on this map: what was changed in it is so then, and a state of before is gone back to. Limits, keeper
       of chapters, kept distances, roomy cells and turns are this fleet's, but `queue` and `life` the state's. Mailboxes are empty, so
       give all notices first. The ranks are those of `robots`, or zero where that is empty. Refused as `reopen`, and by Code::no_turns;
       then the fleet is as it was. */
    void go_on(std::string_view map, const Opening &state, Span<const Robot> robots = {}) { detail::value_of(try_go_on(map, state, robots)); }
    [[nodiscard]] Expected<void> try_go_on(std::string_view map, const Opening &state, Span<const Robot> robots = {}) {
        forbid_keeper();
        const std::vector<Robot> unranked(robots.empty() ? state.robots.size() : 0);
        Fleet next;
        const Fault fault = next.go_on_from(*this, map, state, robots.empty() ? Span<const Robot>(unranked) : robots);
        if (fault.code != NASHIRUDDER_DONE) return detail::Unexpected(fault);
        std::swap(handle, next.handle);
        std::swap(count, next.count);
        number = next.number;
        return {};
    }
    void next_chapter() { detail::value_of(try_next_chapter()); }
    [[nodiscard]] Expected<void> try_next_chapter() {
        forbid_keeper();
        nashirudder_code code = nashirudder_next_chapter(&handle);
        if (code == NASHIRUDDER_DONE) number++;
        return detail::expected(code);
    }
    /* The same, and hands out the chapter that ended. */
    [[nodiscard]] Chapter hand_out() { return detail::value_of(try_hand_out()); }
    [[nodiscard]] Expected<Chapter> try_hand_out() {
        forbid_keeper();
        Chapter ended;
        nashirudder_code code = nashirudder_next_chapter_into(&handle, &ended.handle);
        if (code == NASHIRUDDER_DONE) number++;
        return detail::expected(code, std::move(ended));
    }
    /* From now on an order, a tick or a shut that finds the chapter full is made in the next one. The full one is dropped. Only in
       the last of all chapters Code::chapter_full is thrown. */
    void roll() {
        forbid_keeper();
        rolls = true;
        keeper = nullptr;
    }
    /* The same, but the full chapter is shown to `keep` first: a function of a const Chapter & that returns whether it kept it, or
       nothing if it always does. Where it returns false, Code::chapter_full is thrown, and what it throws is thrown on: then fleet
       and chapter are as they were, and the next call shows the chapter again. The chapter is gone when `keep` returns: take its
       trace, or hand chapters out by yourself for another thread to write. Of this fleet `keep` may call what is const; a call
       that may find the chapter full is refused by Reentered, and it may not move the fleet. */
    template <typename Keep> void roll(Keep keep) {
        forbid_keeper();
        if constexpr (std::is_void_v<std::invoke_result_t<Keep &, const Chapter &>>) {
            keeper = std::make_shared<std::function<bool(const Chapter &)>>([keep = std::move(keep)](const Chapter &chapter) mutable {
                keep(chapter);
                return true;
            });
        } else {
            keeper = std::make_shared<std::function<bool(const Chapter &)>>(std::move(keep));
        }
        rolls = true;
    }
    void keep(std::size_t bytes) {
        detail::check(nashirudder_keep(&handle, bytes));
        manner.kept = bytes;
    }
    /* How many robots there are. */
    [[nodiscard]] std::size_t robots() const { return count; }
    [[nodiscard]] std::size_t clients() const {
        std::size_t clients = 0;
        detail::check(nashirudder_clients(&handle, &clients));
        return clients;
    }
    /* The limits, and the number of clients. */
    [[nodiscard]] Setup limits() const {
        Setup setup{};
        detail::check(nashirudder_limits(&handle, &setup));
        return setup;
    }

private:
    Fleet() = default;
    Fleet(decltype(&nashirudder_reopen) call, std::string_view map, std::string_view text, Span<const Robot> robots, const Setup &setup)
        : Fleet() {
        detail::check_version();
        refuse_if(reopen_by(call, map, text, robots, setup));
    }
    void open(decltype(&nashirudder_open) call, std::string_view map, Span<const Robot> robots, const Setup &setup) {
        detail::check_version();
        refuse_if(open_by(call, map, robots, setup));
    }
    static void refuse_if(const Fault &fault) {
        if (fault.code != NASHIRUDDER_DONE) detail::refuse(fault);
    }
    Fault open_by(decltype(&nashirudder_open) call, std::string_view map, Span<const Robot> robots, const Setup &setup) {
        Fault fault{};
        nashirudder_code code = call(detail::address(map), map.size(), robots.data(), robots.size(), &setup, &handle, &fault);
        if (code == NASHIRUDDER_DONE) count = robots.size();
        manner = {setup, call == nashirudder_open_roomy, false, std::nullopt};
        return detail::fault_of(code, fault);
    }
    Fault reopen_by(decltype(&nashirudder_reopen) call, std::string_view map, std::string_view text, Span<const Robot> robots, const Setup &setup) {
        Fault fault{};
        nashirudder_code code = call(detail::address(map), map.size(), detail::address(text), text.size(), robots.data(), robots.size(), &setup, &handle, &fault);
        if (code != NASHIRUDDER_DONE) return detail::fault_of(code, fault);
        count = robots.size();
        manner = {setup, call == nashirudder_reopen_roomy, false, std::nullopt};
        auto told = try_trace();
        if (!told) return told.error();
        number = number_in(*told);
        return {};
    }
    /* Opens a closed fleet that goes on from a state in the manner of another. */
    Fault go_on_from(const Fleet &other, std::string_view map, const Opening &state, Span<const Robot> robots) {
        Setup setup{};
        nashirudder_code code = nashirudder_limits(&other.handle, &setup);
        if (code != NASHIRUDDER_DONE) return {0, 0, code};
        setup = other.manner.setup;
        setup.queue = state.queue > UINT32_MAX ? UINT32_MAX : static_cast<std::uint32_t>(state.queue);
        setup.life = state.life;
        const Fault fault = reopen_by(other.manner.roomy ? nashirudder_reopen_roomy : nashirudder_reopen, map, state.trace(), robots, setup);
        if (fault.code != NASHIRUDDER_DONE) return fault;
        if (other.manner.turns) code = nashirudder_take_turns(&handle);
        if (code == NASHIRUDDER_DONE && other.manner.kept) code = nashirudder_keep(&handle, *other.manner.kept);
        return {0, 0, code};
    }
    static Expected<Fleet> tried(decltype(&nashirudder_open) call, std::string_view map, Span<const Robot> robots, const Setup &setup) {
        Fleet fleet;
        const Fault fault = detail::is_fitting() ? fleet.open_by(call, map, robots, setup) : Fault{0, 0, NASHIRUDDER_WRONG_SIZE};
        if (fault.code != NASHIRUDDER_DONE) return detail::Unexpected(fault);
        return fleet;
    }
    static Expected<Fleet> tried_again(decltype(&nashirudder_reopen) call, std::string_view map, std::string_view text, Span<const Robot> robots,
                                       const Setup &setup) {
        Fleet fleet;
        const Fault fault = detail::is_fitting() ? fleet.reopen_by(call, map, text, robots, setup) : Fault{0, 0, NASHIRUDDER_WRONG_SIZE};
        if (fault.code != NASHIRUDDER_DONE) return detail::Unexpected(fault);
        return fleet;
    }
    /* An order. */
    template <typename Call> Expected<Judgement> judged(Call call) {
        Judgement judgement{};
        return detail::expected(in_chapter([&] { return call(&judgement); }), std::move(judgement));
    }
    /* A call that may find the chapter full. */
    template <typename Call> nashirudder_code in_chapter(Call call) {
        forbid_keeper();
        nashirudder_code code = call();
        if (code != NASHIRUDDER_CHAPTER_FULL || !rolls || number + 1 >= limits().chapters || !is_kept()) return code;
        code = nashirudder_next_chapter(&handle);
        if (code != NASHIRUDDER_DONE) return code;
        number++;
        return call();
    }
    /* Whether the keeper kept the full chapter. */
    bool is_kept() {
        if (!keeper) return true;
        struct Busy {
            explicit Busy(bool &told) : flag(told) { flag = true; }
            ~Busy() { flag = false; }
            bool &flag;
        } busy(is_keeping);
        auto keep = keeper;
        return (*keep)(Chapter(handle));
    }
    void forbid_keeper() const {
        if (is_keeping) NASHIRUDDER_THROW(Reentered());
    }
    /* The number of a chapter, as its trace begins: {"chapter":N, */
    static std::uint64_t number_in(const std::string &text) {
        static constexpr std::string_view before = "{\"chapter\":";
        std::uint64_t found = 0;
        for (char digit : std::string_view(text).substr(before.size())) {
            if (digit < '0' || digit > '9') break;
            found = found * 10 + static_cast<std::uint64_t>(digit - '0');
        }
        return found;
    }
    /* A list of errands, by a call that says how many places it needs. */
    template <typename Call> static std::vector<Errand> listed(Call call) {
        std::vector<Errand> list(16);
        std::size_t told = 0;
        nashirudder_code code = call(list.data(), list.size(), &told);
        if (code == NASHIRUDDER_WRONG_LENGTH) {
            list.resize(told);
            code = call(list.data(), list.size(), &told);
        }
        detail::check(code);
        list.resize(told);
        return list;
    }

    /* How it was opened, and is to go on. */
    struct Manner {
        Setup setup{};
        bool roomy = false, turns = false;
        std::optional<std::size_t> kept{};
    };

    nashirudder_fleet handle = NASHIRUDDER_CLOSED;
    std::size_t count = 0;
    std::uint64_t number = 0; // of the present chapter
    Manner manner;
    bool rolls = false, is_keeping = false;
    std::shared_ptr<std::function<bool(const Chapter &)>> keeper;
};

/* What Fleet::notices returns: a range of the client's notices, which is read once. */
class Notices {
public:
    class Iterator {
    public:
        using iterator_category = std::input_iterator_tag;
        using value_type = Note;
        using difference_type = std::ptrdiff_t;
        using pointer = const Note *;
        using reference = const Note &;

        Iterator() = default;
        explicit Iterator(Notices *range) : of(range) { ++*this; }
        reference operator*() const { return *note; }
        pointer operator->() const { return &*note; }
        Iterator &operator++() {
            note = of->fleet->give(of->client);
            return *this;
        }
        void operator++(int) { ++*this; }
        /* Two are equal at the end alone. */
        friend bool operator==(const Iterator &one, const Iterator &other) { return !one.note && !other.note; }
        friend bool operator!=(const Iterator &one, const Iterator &other) { return !(one == other); }

    private:
        Notices *of = nullptr;
        std::optional<Note> note;
    };

    Iterator begin() { return Iterator(this); }
    Iterator end() { return {}; }

private:
    friend class Fleet;
    Notices(Fleet &of, std::uint32_t whose) : fleet(&of), client(whose) {}

    Fleet *fleet;
    std::uint32_t client;
};

inline Notices Fleet::notices(std::uint32_t client) { return Notices(*this, client); }

/* A map that is read once, for any number of questions. Any number of threads may ask at once. */
class Map {
public:
    explicit Map(std::string_view text) {
        detail::check_version();
        Fault fault{};
        detail::check(nashirudder_map_open(detail::address(text), text.size(), &handle, &fault), fault);
    }
    [[nodiscard]] static Expected<Map> try_open(std::string_view text) {
        Map map;
        Fault fault{};
        const nashirudder_code code = detail::is_fitting() ? nashirudder_map_open(detail::address(text), text.size(), &map.handle, &fault) : NASHIRUDDER_WRONG_SIZE;
        if (code != NASHIRUDDER_DONE) return detail::Unexpected(detail::fault_of(code, fault));
        return map;
    }
    Map(const Map &) = delete;
    Map &operator=(const Map &) = delete;
    Map(Map &&other) noexcept : handle(std::exchange(other.handle, nashirudder_map NASHIRUDDER_CLOSED)) {}
    Map &operator=(Map &&other) noexcept {
        if (this != &other) {
            nashirudder_map_close(&handle);
            handle = std::exchange(other.handle, nashirudder_map NASHIRUDDER_CLOSED);
        }
        return *this;
    }
    ~Map() { nashirudder_map_close(&handle); }

    [[nodiscard]] Shape shape() const {
        Shape shape{};
        detail::check(nashirudder_map_shape(&handle, &shape));
        return shape;
    }
    /* The cells that are floor, in their order, into a list that has a place for each; how many these are. */
    std::size_t floor(Span<std::uint32_t> cells) const {
        std::size_t told = 0;
        detail::check(nashirudder_map_floor(&handle, cells.data(), cells.size(), &told));
        return told;
    }
    [[nodiscard]] std::vector<std::uint32_t> floor() const {
        std::vector<std::uint32_t> cells(shape().floor);
        floor(cells);
        return cells;
    }
    /* Whether both cells are floor, and a walk joins them. */
    [[nodiscard]] bool joins(std::uint32_t a, std::uint32_t b) const {
        bool joins = false;
        detail::check(nashirudder_map_joins(&handle, a, b, &joins));
        return joins;
    }
    /* Nothing where the step is free of conflicts, else its first fault. */
    [[nodiscard]] std::optional<Fault> check_step(Span<const std::uint32_t> from, Span<const std::uint32_t> to) const {
        Fault fault{};
        nashirudder_code code = nashirudder_map_check_step(&handle, from.data(), from.size(), to.data(), to.size(), &fault);
        if (code == NASHIRUDDER_NO_MEMORY) NASHIRUDDER_THROW(std::bad_alloc());
        if (code == NASHIRUDDER_NOT_OPEN) NASHIRUDDER_THROW(Refused(code));
        if (code == NASHIRUDDER_DONE) return std::nullopt;
        return fault;
    }
    /* The first bridge, or nothing where there is none. */
    [[nodiscard]] std::optional<Edge> first_bridge() const {
        Edge edge{};
        if (!detail::is_there(nashirudder_map_first_bridge(&handle, &edge), NASHIRUDDER_NO_BRIDGE)) return std::nullopt;
        return edge;
    }
    /* The length of a shortest walk from each cell to the goal, NASHIRUDDER_FAR where there is none; into a list that has one
       place a cell. */
    void distances(std::uint32_t goal, Span<std::uint32_t> told) const {
        detail::check(nashirudder_map_distances(&handle, goal, told.data(), told.size()));
    }
    [[nodiscard]] std::vector<std::uint32_t> distances(std::uint32_t goal) const {
        std::vector<std::uint32_t> told(shape().cells);
        distances(goal, told);
        return told;
    }
    /* The floor cells that are not roomy for this many robots, in their order: errands there may block a fleet of them for ever. */
    [[nodiscard]] std::vector<std::uint32_t> unroomy(std::uint32_t robots) const {
        std::vector<std::uint32_t> cells(64);
        std::size_t told = 0;
        auto call = [&] { return nashirudder_map_unroomy(&handle, robots, cells.data(), cells.size(), &told); };
        nashirudder_code code = call();
        if (code == NASHIRUDDER_WRONG_LENGTH) {
            cells.resize(told);
            code = call();
        }
        detail::check(code);
        cells.resize(told);
        return cells;
    }
    /* The greatest number of robots for which errands to all floor cells arrive, if they take turns (Fleet::take_turns). */
    [[nodiscard]] std::uint32_t served_for() const {
        std::uint32_t robots = 0;
        detail::check(nashirudder_map_served_for(&handle, &robots));
        return robots;
    }

private:
    friend class Shield;
    Map() = default;

    nashirudder_map handle = NASHIRUDDER_CLOSED;
};

inline std::optional<std::string> Opening::fault_on(const Map &map) const {
    using std::to_string;
    for (std::size_t robot = 0; robot < robots.size(); robot++) {
        const Robot &of = robots[robot];
        if (!map.joins(of.cell, of.cell)) return "robot " + to_string(robot) + " is on cell " + to_string(of.cell) + ", which is no floor";
        for (std::size_t other = 0; other < robot; other++) {
            if (robots[other].cell == of.cell) return "robots " + to_string(other) + " and " + to_string(robot) + " are both on cell " + to_string(of.cell);
        }
        for (const Errand &errand : of.errands) {
            if (map.joins(of.cell, errand.cell)) continue;
            return "no walk leads robot " + to_string(robot) + " from cell " + to_string(of.cell) + " to cell " + to_string(errand.cell) +
                   ", where its errand " + to_string(errand.number) + " of client " + to_string(errand.client) + " goes";
        }
    }
    return std::nullopt;
}

/* A shield for any policy: one step of any number of robots without conflicts, from what each robot prefers. */
class Shield {
public:
    /* For this many robots on a map, which the shield keeps, alone or with others. Takes all its memory here. */
    Shield(std::shared_ptr<const Map> map, std::uint32_t robots) : floor(std::move(map)) {
        detail::check(nashirudder_shield_open(at(floor), robots, &handle));
    }
    Shield(Map map, std::uint32_t robots) : Shield(std::make_shared<const Map>(std::move(map)), robots) {}
    [[nodiscard]] static Expected<Shield> try_open(std::shared_ptr<const Map> map, std::uint32_t robots) {
        Shield shield;
        shield.floor = std::move(map);
        const nashirudder_code code = nashirudder_shield_open(at(shield.floor), robots, &shield.handle);
        if (code != NASHIRUDDER_DONE) return detail::Unexpected(Fault{0, 0, code});
        return shield;
    }
    Shield(const Shield &) = delete;
    Shield &operator=(const Shield &) = delete;
    Shield(Shield &&other) noexcept : floor(std::move(other.floor)), handle(std::exchange(other.handle, nashirudder_shield NASHIRUDDER_CLOSED)) {}
    Shield &operator=(Shield &&other) noexcept {
        if (this != &other) {
            nashirudder_shield_close(&handle);
            floor = std::move(other.floor);
            handle = std::exchange(other.handle, nashirudder_shield NASHIRUDDER_CLOSED);
        }
        return *this;
    }
    ~Shield() { nashirudder_shield_close(&handle); }

    /* Writes to `to` where each robot goes from its cell in `from`. `order` has each robot once, the first to be planned first;
       `preferences` has `each` cells for each robot, robot 0's first: its own cell and neighbours of it, the best first. Refused
       by the first fault of what is asked (Code::shield_map to Code::shield_far), and then `to` stays as it was. No two of the
       lists may overlap `to`. */
    void step(Span<const std::uint32_t> from, Span<const std::uint32_t> order, std::uint16_t each, Span<const std::uint32_t> preferences,
              Span<std::uint32_t> to) {
        Fault fault{};
        detail::check(call(from, order, each, preferences, to, fault), fault);
    }
    [[nodiscard]] Expected<void> try_step(Span<const std::uint32_t> from, Span<const std::uint32_t> order, std::uint16_t each,
                                          Span<const std::uint32_t> preferences, Span<std::uint32_t> to) {
        Fault fault{};
        const nashirudder_code code = call(from, order, each, preferences, to, fault);
        if (code != NASHIRUDDER_DONE) return detail::Unexpected(detail::fault_of(code, fault));
        return {};
    }
    [[nodiscard]] const Map &map() const { return *floor; }

private:
    Shield() = default;
    static const nashirudder_map *at(const std::shared_ptr<const Map> &map) {
        static const nashirudder_map closed = NASHIRUDDER_CLOSED;
        return map ? &map->handle : &closed;
    }
    nashirudder_code call(Span<const std::uint32_t> from, Span<const std::uint32_t> order, std::uint16_t each, Span<const std::uint32_t> preferences,
                          Span<std::uint32_t> to, Fault &fault) {
        return nashirudder_shield_step(at(floor), &handle, from.data(), from.size(), order.data(), order.size(), each,
                                       preferences.data(), preferences.size(), to.data(), to.size(), &fault);
    }

    std::shared_ptr<const Map> floor;
    nashirudder_shield handle = NASHIRUDDER_CLOSED;
};

/* The execution of a plan, of any planner, by robots that are not in step (docs/EXECUTION.md). */
class Execution {
public:
    /* Begins on the cells `placement`, by robot, on a map whose cells have the numbers below `cells`; at most `ahead` steps are
       planned that are not reached. Takes all its memory here. */
    Execution(std::uint32_t cells, Span<const std::uint32_t> placement, Clearance clearance = Clearance::arrived, std::uint32_t ahead = 10) {
        detail::check_version();
        detail::check(nashirudder_execution_open(cells, placement.data(), placement.size(), static_cast<std::uint32_t>(clearance), ahead, &handle));
    }
    [[nodiscard]] static Expected<Execution> try_open(std::uint32_t cells, Span<const std::uint32_t> placement, Clearance clearance = Clearance::arrived,
                                                      std::uint32_t ahead = 10) {
        Execution run;
        const nashirudder_code code = detail::is_fitting() ? nashirudder_execution_open(cells, placement.data(), placement.size(),
            static_cast<std::uint32_t>(clearance), ahead, &run.handle) : NASHIRUDDER_WRONG_SIZE;
        if (code != NASHIRUDDER_DONE) return detail::Unexpected(Fault{0, 0, code});
        return run;
    }
    Execution(const Execution &) = delete;
    Execution &operator=(const Execution &) = delete;
    Execution(Execution &&other) noexcept : handle(std::exchange(other.handle, nashirudder_execution NASHIRUDDER_CLOSED)) {}
    Execution &operator=(Execution &&other) noexcept {
        if (this != &other) {
            nashirudder_execution_close(&handle);
            handle = std::exchange(other.handle, nashirudder_execution NASHIRUDDER_CLOSED);
        }
        return *this;
    }
    ~Execution() { nashirudder_execution_close(&handle); }

    /* Plans a further step, to a cell for each robot. Refused where has_room is false (Code::window_full), and where it is no step
       free of conflicts (Code::no_step). */
    void plan(Span<const std::uint32_t> to) { detail::check(nashirudder_execution_plan(&handle, to.data(), to.size())); }
    [[nodiscard]] Expected<void> try_plan(Span<const std::uint32_t> to) { return detail::expected(nashirudder_execution_plan(&handle, to.data(), to.size())); }
    /* The next move that may begin, which begins with this call; nothing where none may. Each is returned once. */
    [[nodiscard]] std::optional<Move> begin() {
        Move move{};
        if (!detail::is_there(nashirudder_execution_begin(&handle, &move), NASHIRUDDER_NO_MOVE)) return std::nullopt;
        return move;
    }
    /* Takes the report that a robot has reached the cell of its move; nothing where it is not under way. */
    std::optional<Move> reached(std::uint32_t robot) {
        Move move{};
        if (!detail::is_there(nashirudder_execution_reached(&handle, robot, &move), NASHIRUDDER_NOT_UNDER_WAY)) return std::nullopt;
        return move;
    }
    /* Where a robot is; nothing where there is no robot of this number. */
    [[nodiscard]] std::optional<Whereabouts> whereabouts(std::uint32_t robot) const {
        Whereabouts found{};
        if (!detail::is_there(nashirudder_execution_whereabouts(&handle, robot, &found), NASHIRUDDER_NO_ROBOT)) return std::nullopt;
        return found;
    }
    /* How far it has come. */
    [[nodiscard]] Progress progress() const {
        Progress progress{};
        detail::check(nashirudder_execution_progress(&handle, &progress));
        return progress;
    }
    [[nodiscard]] bool has_room() const { return progress().has_room; }

private:
    Execution() = default;

    nashirudder_execution handle = NASHIRUDDER_CLOSED;
};

/* Nothing where the step is free of conflicts, else its first fault. */
[[nodiscard]] inline std::optional<Fault> check_step(std::string_view map, Span<const std::uint32_t> from, Span<const std::uint32_t> to) {
    Fault fault{};
    nashirudder_code code = nashirudder_check_step(detail::address(map), map.size(), detail::address(from), from.size(), detail::address(to), to.size(), &fault);
    if (code == NASHIRUDDER_NO_MEMORY) NASHIRUDDER_THROW(std::bad_alloc());
    if (code == NASHIRUDDER_DONE) return std::nullopt;
    return fault;
}

/* Nothing where the text is the trace of a chapter that is legal on the map, else why it is not. */
[[nodiscard]] inline std::optional<Fault> judge(std::string_view map, std::string_view text) {
    Fault fault{};
    nashirudder_code code = nashirudder_judge(detail::address(map), map.size(), detail::address(text), text.size(), &fault);
    if (code == NASHIRUDDER_NO_MEMORY) NASHIRUDDER_THROW(std::bad_alloc());
    if (code == NASHIRUDDER_DONE) return std::nullopt;
    return fault;
}

/* The map's first bridge, or nothing where it has none. */
[[nodiscard]] inline std::optional<Edge> first_bridge(std::string_view map) {
    Edge edge{};
    Fault fault{};
    nashirudder_code code = nashirudder_first_bridge(detail::address(map), map.size(), &edge, &fault);
    if (code == NASHIRUDDER_NO_BRIDGE) return std::nullopt;
    detail::check(code, fault);
    return edge;
}

/* The length of a shortest walk from each of the map's cells to the goal, NASHIRUDDER_FAR where there is none. */
[[nodiscard]] inline std::vector<std::uint32_t> distances(std::string_view map, std::uint32_t goal, std::size_t cells) {
    std::vector<std::uint32_t> told(cells);
    Fault fault{};
    detail::check(nashirudder_distances(detail::address(map), map.size(), goal, detail::address(Span<std::uint32_t>(told)), told.size(), &fault), fault);
    return told;
}

} // namespace nashirudder

#endif
