// The execution of a plan in plain C++, with the queues of fleet_execution, and the plan that both are measured with.
//
//   execution make > plan.bin     a plan of 10,000 robots and 1,000 steps on 160 x 160 cells, as 32-bit numbers: cells, robots, placements
//   execution run [started|arrived] < plan.bin     executes it: each move takes 1 to 3 ticks; prints nanoseconds a move
#include <algorithm>
#include <chrono>
#include <cstdint>
#include <cstdio>
#include <cstdlib>
#include <cstring>
#include <vector>

using u32 = uint32_t;
using u64 = uint64_t;
constexpr u32 NONE = 0xffffffffu;

struct Random {
    u64 state = 88172645463325252ull;
    u64 next() { state ^= state << 13; state ^= state >> 7; state ^= state << 17; return state; }
};

struct Move { u32 robot, from, to; u64 tick; };

class Execution {
    struct Robot { u32 cell, bound, last; u64 returned, reached, turned; };
    struct Leave { u32 robot; u64 step; };                    // robot NONE: nobody
    struct Planned { u32 to; Leave after; u32 follower; };
    bool arrived; u32 count, ahead; u64 steps = 0;
    std::vector<Robot> robots; std::vector<Planned> window; std::vector<u32> unreached; std::vector<Leave> leaves; std::vector<u32> marks;
    std::vector<u32> ring; std::vector<uint8_t> waits; u32 head = 0, queued = 0;
    bool turning = false; u64 turn_step = 0; u32 turn_first = 0, turn_next = 0;

    void add(u32 robot) {
        if (waits[robot]) return;
        waits[robot] = 1; u32 at = head + queued; if (at >= count) at -= count; ring[at] = robot; ++queued;
    }
    void drop_first() { waits[ring[head]] = 0; if (++head == count) head = 0; --queued; }
    Planned &planned(u32 robot, u64 step) { return window[(step % ahead) * count + robot]; }
    u64 next(u32 robot) {
        const Robot &s = robots[robot];
        u64 before = steps > ahead ? steps - ahead : 0;
        for (u64 step = std::max(s.returned, before); step < steps;) if (planned(robot, ++step).to != s.bound) return step;
        return 0;
    }
    u32 before(u32 robot, u64 step) { const Leave &l = planned(robot, step).after; return l.robot == NONE ? robot : l.robot; }
    u32 lap(u32 robot, u64 step) {
        u32 at = robot;
        for (u32 passed = 0; passed < count; ++passed) { at = before(at, step); if (at == robot) return passed + 1; if (robots[at].reached < step) return 0; }
        return 0;
    }
    bool is_free(u32 robot) {
        const Robot &s = robots[robot];
        if (s.returned != s.reached) return false;
        if (!arrived || s.turned != s.reached || s.reached == 0 || steps - s.reached >= ahead) return true;
        return lap(robot, s.reached) > 0;
    }
    bool has_ended(const Leave &l) { return l.step <= (arrived ? robots[l.robot].reached : robots[l.robot].returned); }
    bool may_turn(u32 robot, u64 step) {
        u32 at = robot;
        for (u32 passed = 0; passed < count; ++passed) {
            const Leave &l = planned(at, step).after;
            if (l.robot == NONE || l.step != step) return false;
            at = l.robot;
            if (at == robot) return true;
            if (next(at) != step || !is_free(at)) return false;
        }
        return false;
    }
    void wake(bool by, u32 robot, u64 step) {
        if (by != arrived) return;
        u32 f = planned(robot, step).follower;
        if (f < count) add(f);
    }
    Move give(u32 robot, u64 step, bool turns) {
        u32 to = planned(robot, step).to; Robot &s = robots[robot];
        s.returned = step; s.bound = to; if (turns) s.turned = step;
        return {robot, s.cell, to, step};
    }

public:
    Execution(u32 cells, const u32 *placement, u32 n, bool by_arrival, u32 window_steps)
        : arrived(by_arrival), count(n), ahead(window_steps), robots(n), window(size_t(n) * window_steps), unreached(window_steps), leaves(cells, {NONE, 0}), marks(cells), ring(n), waits(n) {
        for (u32 r = 0; r < n; ++r) robots[r] = {placement[r], placement[r], placement[r], 0, 0, 0};
    }
    bool has_room() const { return unreached[(steps + 1) % ahead] == 0; }
    bool is_step(const u32 *to, u32 n) {
        if (n != count) return false;
        for (u32 r = 0; r < n; ++r) {
            u32 c = to[r]; if (c >= marks.size()) return false;
            u32 m = marks[c]; if (m < r && to[m] == c) return false;
            marks[c] = r;
        }
        for (u32 r = 0; r < n; ++r) { u32 last = robots[r].last, q = marks[last]; if (q < n && q != r && to[q] == last && robots[q].last == to[r]) return false; }
        return true;
    }
    void plan(const u32 *to) {
        u64 step = steps + 1; Planned *row = &window[(step % ahead) * count]; u32 moves = 0;
        for (u32 r = 0; r < count; ++r) if (to[r] != robots[r].last) leaves[robots[r].last] = {r, step};
        for (u32 r = 0; r < count; ++r) row[r] = {to[r], leaves[to[r]], NONE};
        for (u32 r = 0; r < count; ++r) {
            Robot &s = robots[r];
            if (to[r] == s.last) continue;
            ++moves;
            const Leave &l = leaves[to[r]];
            if (l.robot != NONE && step - l.step < ahead) planned(l.robot, l.step).follower = r;
            if (s.returned == s.reached) add(r);
        }
        for (u32 r = 0; r < count; ++r) robots[r].last = to[r];
        unreached[step % ahead] = moves; steps = step;
    }
    bool begin(Move &m) {
        if (turning) {
            u32 robot = turn_next, then = before(robot, turn_step);
            if (then == turn_first) turning = false; else turn_next = then;
            m = give(robot, turn_step, true); return true;
        }
        for (; queued; drop_first()) {
            u32 robot = ring[head]; u64 step = next(robot);
            if (!step || !is_free(robot)) continue;
            const Leave &l = planned(robot, step).after;
            if (l.robot == NONE || has_ended(l)) { drop_first(); wake(false, robot, step); m = give(robot, step, false); return true; }
            if (may_turn(robot, step)) { drop_first(); turning = true; turn_step = step; turn_first = robot; turn_next = before(robot, step); m = give(robot, step, true); return true; }
        }
        return false;
    }
    bool reached(u32 robot, Move &m) {
        if (robot >= count) return false;
        Robot &s = robots[robot];
        if (s.returned == s.reached) return false;
        add(robot);
        if (s.turned != s.returned) wake(true, robot, s.returned);
        else if (arrived) { u32 size = lap(robot, s.returned), at = robot; for (u32 k = 0; k < size; ++k) { add(at); at = before(at, s.returned); } }
        --unreached[s.returned % ahead];
        m = {robot, s.cell, s.bound, s.returned};
        s.cell = s.bound; s.reached = s.returned; return true;
    }
};

static void make() {
    const u32 side = 160, cells = side * side, n = 10000, ticks = 1000;
    Random rng; std::vector<u32> at(n), to(n), on(cells, NONE), taken(cells, 0), out{cells, n};
    for (u32 r = 0; r < n; ++r) { at[r] = u32(u64(r) * 7919 % cells); on[at[r]] = r; }
    out.insert(out.end(), at.begin(), at.end());
    u64 moves = 0, turns = 0;
    for (u32 t = 1; t <= ticks; ++t) {
        to = at; std::vector<uint8_t> moved(n, 0);
        for (int k = 0; k < 300; ++k) {      // blocks of four turn
            u32 y = u32(rng.next() % (side - 1)), x = u32(rng.next() % (side - 1));
            u32 c[4] = {y * side + x, y * side + x + 1, (y + 1) * side + x + 1, (y + 1) * side + x}; bool all = true;
            for (u32 i : c) all = all && on[i] != NONE && !moved[on[i]] && taken[i] != t;
            if (all) { for (int i = 0; i < 4; ++i) { u32 r = on[c[i]]; to[r] = c[(i + 1) % 4]; moved[r] = 1; taken[c[(i + 1) % 4]] = t; } ++turns; }
        }
        for (u32 r = 0; r < n; ++r) {
            if (moved[r]) continue;
            u64 pick = rng.next(); u32 y = at[r] / side, x = at[r] % side, c = at[r];
            switch (pick % 4) { case 0: if (y) c -= side; break; case 1: if (x + 1 < side) ++c; break; case 2: if (y + 1 < side) c += side; break; default: if (x) --c; }
            if (c == at[r] || taken[c] == t) { taken[at[r]] = t; continue; }
            u32 q = on[c];
            if (q != NONE && (!moved[q] || to[q] == at[r])) { taken[at[r]] = t; continue; }      // follow only one that has left, and not into its cell
            if (taken[at[r]] == t && q != NONE) { continue; }
            to[r] = c; moved[r] = 1; taken[c] = t;
        }
        // who stays keeps its cell: undo moves onto cells of robots that stay
        for (bool again = true; again;) {
            again = false; std::vector<u32> who(cells, NONE);
            for (u32 r = 0; r < n; ++r) if (to[r] == at[r]) who[to[r]] = r;
            for (u32 r = 0; r < n; ++r) if (to[r] != at[r]) { if (who[to[r]] != NONE) { to[r] = at[r]; again = true; } else who[to[r]] = r; }
        }
        for (u32 r = 0; r < n; ++r) on[at[r]] = NONE;
        for (u32 r = 0; r < n; ++r) { moves += to[r] != at[r]; at[r] = to[r]; on[at[r]] = r; }
        out.insert(out.end(), at.begin(), at.end());
    }
    fprintf(stderr, "%llu moves, %llu turns tried\n", (unsigned long long)moves, (unsigned long long)turns);
    fwrite(out.data(), 4, out.size(), stdout);
}

static int run(bool arrived) {
    std::vector<u32> in; { static u32 buffer[1 << 16]; size_t got; while ((got = fread(buffer, 4, 1 << 16, stdin)) > 0) in.insert(in.end(), buffer, buffer + got); }
    u32 cells = in[0], n = in[1]; const u32 *places = in.data() + 2; u64 last = (in.size() - 2) / n - 1;
    Execution e(cells, places, n, arrived, 10);
    Random rng; std::vector<u32> due[3]; for (auto &d : due) d.reserve(n); std::vector<u32> now; now.reserve(n);
    u64 moves = 0, planned = 0, ticks = 0, sum = 0; Move m;
    auto start = std::chrono::steady_clock::now();
    for (;; ++ticks) {
        for (u32 r : now) e.reached(r, m);
        while (planned < last && e.has_room()) { const u32 *to = places + (planned + 1) * n; if (!e.is_step(to, n)) { puts("conflict"); return 1; } e.plan(to); ++planned; }
        while (e.begin(m)) { due[rng.next() % 3].push_back(m.robot); sum += m.to; ++moves; }
        now.clear(); std::swap(now, due[0]); std::swap(due[0], due[1]); std::swap(due[1], due[2]);
        if (now.empty() && due[0].empty() && due[1].empty()) break;
    }
    double ns = std::chrono::duration<double, std::nano>(std::chrono::steady_clock::now() - start).count();
    printf("execution clearance=%s robots=%u steps=%llu moves=%llu ticks=%llu sum=%llu move_ns=%.1f\n", arrived ? "arrived" : "started", n, (unsigned long long)planned, (unsigned long long)moves, (unsigned long long)ticks, (unsigned long long)sum, ns / moves);
    return 0;
}

int main(int count, char **words) {
    if (count > 1 && !strcmp(words[1], "make")) { make(); return 0; }
    return run(count > 2 && !strcmp(words[2], "arrived"));
}
