// The kernels of `bench` in plain C++, over the same maps, goals and starts: a search level by level over one u32 a cell, Tarjan's
// bridges without recursion, PIBT's step (five distances read a robot, each tie closure asked once for each floor neighbour), and
// long runs in which each robot always has two errands (the fields of stations are kept for ever). It prints the same lines.
#include "ground.hpp"
#include "stepper.hpp"

// the fields of 48 goals, over lists that are new for each, or kept
static Measure time_fields(const Map& map, u32 pad, bool kept, size_t& reached) {
    Grid g(map, pad);
    vector<u32> cells = part_of(map, g), dist, front, next;
    reached = cells.size();
    Random random{7};
    Measure m;
    for (int k = 0; k < 48; k++) {
        u32 goal = cells[random.below(cells.size())];
        if (!kept) vector<u32>().swap(dist);
        double start = now();
        if (kept)
            field_into(g, g.place(goal), dist, front, next);
        else
            dist = field(g, g.place(goal));
        m.with(now() - start);
        if (dist[g.place(goal)] != 0) printf("wrong\n");
    }
    return m;
}

// with rows as they are, and padded more: the better of both. Next to a compass is the field that a long run searches, over kept lists.
static void measure_field(const Map& map) {
    for (bool kept : {false, true}) {
        size_t cells;
        Measure plain = time_fields(map, 1, kept, cells), padded = time_fields(map, 17, kept, cells);
        line(kept ? "compass" : "field", map.name, 0, cells, plain.least < padded.least ? plain : padded);
    }
}

static void measure_fields(const Map& map) {
    Grid g(map, 1);
    vector<u32> cells = part_of(map, g), goals;
    Random random{7};
    for (int k = 0; k < 3000; k++) goals.push_back(cells[random.below(cells.size())]);
    {
        Measure m;
        double start = now();
        vector<vector<u32>> made;
        for (u32 goal : goals) made.push_back(field(g, g.place(goal)));
        m.with(now() - start);
        line("fields_in_turn", map.name, 0, cells.size() * 3000, m);
    }
    Measure m;
    double start = now();
    vector<vector<u32>> made(goals.size());
    unsigned threads = std::thread::hardware_concurrency();
    vector<std::thread> team;
    for (unsigned t = 0; t < threads; t++)
        team.emplace_back([&, t] {
            for (size_t k = t; k < goals.size(); k += threads) made[k] = field(g, g.place(goals[k]));
        });
    for (auto& t : team) t.join();
    m.with(now() - start);
    line("fields", map.name, 0, cells.size() * 3000, m);
}

// ---- the first bridge: Tarjan's low numbers, without recursion, over the whole map

static bool first_bridge(const Map& map, u32& a, u32& b) {
    u32 n = map.floor.size(), w = map.width, count = 0;
    vector<u32> number(n, 0), low(n, 0), up(n, FAR_AWAY);
    vector<u8> side(n, 0);
    vector<u32> stack;
    u32 best_a = FAR_AWAY, best_b = FAR_AWAY;
    for (u32 root = 0; root < n; root++) {
        if (!map.floor[root] || number[root]) continue;
        number[root] = low[root] = ++count;
        stack.push_back(root);
        while (!stack.empty()) {
            u32 c = stack.back();
            if (side[c] < 4) {
                u32 d = FAR_AWAY;
                switch (side[c]++) {
                    case 0: if (c >= w) d = c - w; break;
                    case 1: if (c % w + 1 < w) d = c + 1; break;
                    case 2: if (c + w < n) d = c + w; break;
                    default: if (c % w) d = c - 1; break;
                }
                if (d == FAR_AWAY || !map.floor[d] || d == up[c]) continue;
                if (number[d]) {
                    low[c] = std::min(low[c], number[d]);
                } else {
                    number[d] = low[d] = ++count;
                    up[d] = c;
                    stack.push_back(d);
                }
            } else {
                stack.pop_back();
                u32 p = up[c];
                if (p == FAR_AWAY) continue;
                low[p] = std::min(low[p], low[c]);
                if (low[c] > number[p]) {
                    u32 x = std::min(c, p), y = std::max(c, p);
                    if (x < best_a || (x == best_a && y < best_b)) best_a = x, best_b = y;
                }
            }
        }
    }
    a = best_a, b = best_b;
    return best_a != FAR_AWAY;
}

static void measure_bridge(const Map& map) {
    Measure m;
    u64 sum = 0;
    for (int k = 0; k < 8; k++) {
        u32 a, b;
        double start = now();
        sum += first_bridge(map, a, b) ? a : 0;
        m.with(now() - start);
    }
    if (sum == 1) printf("odd\n");
    line("bridge", map.name, 0, map.floor.size(), m);
}

// ---- PIBT's step

static void measure_step(const Map& map) {
    Grid g(map, pad_of(map));
    vector<u32> cells = part_of(map, g);
    Random random{11};
    vector<vector<u32>> fields;
    vector<u32> goals;
    for (int k = 0; k < 64; k++) {
        goals.push_back(cells[random.below(cells.size())]);
        fields.push_back(field(g, g.place(goals.back())));
    }
    vector<Tie> ties(512, plain);
    for (size_t robots : {16, 128, 512}) {
        Fleet f = fleet_of(map, cells, robots, fields.size(), random);
        Stepper stepper(map, g, f.from.size());
        Measure m;
        for (int k = 0; k < 100; k++) {
            double start = now();
            for (u64 tick = 0; tick < 20; tick++) {
                stepper.step(f, fields, ties, tick);
                for (size_t r = 0; r < f.from.size(); r++) {
                    if (goals[f.aims[r]] == f.from[r]) {
                        f.aims[r] = random.below(fields.size());
                        f.waits[r] = 0;
                    } else {
                        f.waits[r]++;
                    }
                }
            }
            m.with(now() - start);
        }
        line("step", map.name, f.from.size(), 20 * f.from.size(), m);
    }
}

// ---- the check of a step, by a table with a robot for each cell that is kept from step to step

struct Checker {
    const Map& map;
    vector<u32> seats;
    explicit Checker(const Map& map) : map(map), seats(map.floor.size(), 0) {}
    bool is_free(const vector<u32>& from, const vector<u32>& to) {
        u32 n = from.size(), w = map.width, cells = map.floor.size();
        if (to.size() != n) return false;
        for (u32 r = 0; r < n; r++) {
            u32 a = from[r], b = to[r], low = std::min(a, b), high = std::max(a, b);
            if (b >= cells || !map.floor[b]) return false;
            if (a != b && high - low != w && !(high - low == 1 && high % w != 0)) return false;
            u32 other = seats[b];
            if (other < r && to[other] == b) return false;
            seats[b] = r;
        }
        for (u32 r = 0; r < n; r++) {
            u32 other = seats[from[r]];
            if (other < n && other != r && to[other] == from[r] && from[other] == to[r]) return false;
        }
        return true;
    }
};

static void measure_check(const Map& map) {
    Grid g(map, pad_of(map));
    vector<u32> cells = part_of(map, g);
    Random random{11};
    vector<vector<u32>> fields;
    for (int k = 0; k < 64; k++) fields.push_back(field(g, g.place(cells[random.below(cells.size())])));
    vector<Tie> ties(512, plain);
    for (size_t robots : {16, 128, 512}) {
        Fleet f = fleet_of(map, cells, robots, fields.size(), random);
        Stepper stepper(map, g, f.from.size());
        stepper.step(f, fields, ties, 0);
        Checker checker(map);
        for (bool moves : {true, false}) {
            Measure m;
            u64 free = 0;
            for (int k = 0; k < 200; k++) {
                double start = now();
                free += checker.is_free(f.to, moves ? f.from : f.to);
                m.with(now() - start);
            }
            if (free != 200) printf("wrong\n");
            line(moves ? "check" : "check_still", map.name, f.from.size(), f.from.size(), m);
        }
    }
}

// ---- from a map to the first tick: the fields of all goals, searched one after another

static void measure_open(const Map& map) {
    Grid part_grid(map, pad_of(map));
    vector<u32> cells = part_of(map, part_grid), goals;
    Random thrown{13};
    for (int k = 0; k < 512; k++) goals.push_back(cells[thrown.below(cells.size())]);
    vector<Tie> ties(512, plain);
    Random random{11};
    Fleet f = fleet_of(map, cells, 512, 512, random);
    Measure m;
    double start = now();
    Grid g(map, pad_of(map));
    vector<vector<u32>> fields(goals.size());
    vector<u32> front, next;
    for (size_t k = 0; k < goals.size(); k++) field_into(g, g.place(goals[k]), fields[k], front, next);
    Stepper stepper(map, g, f.from.size());
    stepper.step(f, fields, ties, 0);
    m.with(now() - start);
    line("open", map.name, f.from.size(), f.from.size(), m);
}

// ---- long runs

struct Errands {
    const Grid& grid;
    const vector<u32>& goals;
    bool kept;
    vector<vector<u32>> fields;
    vector<size_t> front, second;
    vector<u32> now, next;
    Errands(const Grid& grid, const vector<u32>& goals, bool kept, size_t robots)
        : grid(grid), goals(goals), kept(kept), fields(kept ? goals.size() : robots), front(robots), second(robots) {}
    // the number of the robot's field, which is searched unless it is kept
    u32 aim(size_t r) {
        size_t k = kept ? front[r] : r;
        if (!kept || fields[k].empty()) field_into(grid, grid.place(goals[front[r]]), fields[k], now, next);
        return k;
    }
};

static void run_fleet(const char* name, const Map& map, const Grid& g, const vector<u32>& cells, const vector<u32>& goals, bool kept,
                      size_t robots, Random& random) {
    Fleet f = fleet_of(map, cells, robots, 1, random);
    robots = f.from.size();
    vector<Tie> ties(robots, plain);
    Stepper stepper(map, g, robots);
    Errands errands(g, goals, kept, robots);
    for (size_t r = 0; r < robots; r++) {
        errands.front[r] = random.below(goals.size());
        errands.second[r] = random.below(goals.size());
        f.aims[r] = errands.aim(r);
    }
    for (size_t k = 0; kept && k < goals.size(); k++) field_into(g, g.place(goals[k]), errands.fields[k], errands.now, errands.next);
    u64 ticks = 256000 / robots, arrivals = 0, greatest = 0;
    double all = 0, searches = 0;
    // the first half is not counted
    for (u64 tick = 0; tick < 2 * ticks; tick++) {
        if (tick == ticks) arrivals = greatest = all = searches = 0;
        double start = now();
        stepper.step(f, errands.fields, ties, tick);
        for (size_t r = 0; r < robots; r++) {
            if (goals[errands.front[r]] == f.from[r]) {
                arrivals++;
                f.waits[r] = 0;
                errands.front[r] = errands.second[r];
                errands.second[r] = random.below(goals.size());
                double from = now();
                f.aims[r] = errands.aim(r);
                searches += now() - from;
            } else {
                f.waits[r]++;
            }
        }
        all += now() - start;
        for (u64 wait : f.waits) greatest = std::max(greatest, wait);
    }
    printf("%s map=%s fleet=%zu ticks=%llu arrivals=%llu ticks_a_second=%.0f greatest_wait=%llu searching=%.3f least_ns=%.2f\n", name,
           map.name, robots, (unsigned long long)ticks, (unsigned long long)arrivals, ticks / all * 1e9, (unsigned long long)greatest,
           searches / all, all / ticks / robots);
    fflush(stdout);
}

static void measure_lifelong(const Map& map) {
    Grid g(map, pad_of(map));
    vector<u32> cells = part_of(map, g), stations;
    Random thrown{13};
    for (int k = 0; k < 400; k++) stations.push_back(cells[thrown.below(cells.size())]);
    Random random{11};
    for (size_t robots : {16, 128, 512}) run_fleet("lifelong_cells", map, g, cells, cells, false, robots, random);
    random = Random{11};
    for (size_t robots : {16, 128, 512}) run_fleet("lifelong_stations", map, g, cells, stations, true, robots, random);
}

int main(int words, char** word) {
    if (words < 2) return 0;
    std::string kernel = word[1];
    Map open("open", 1024, 1024), warehouse("warehouse", 164, 340), maze("maze", 512, 512), spiral("spiral", 511, 511),
        random("random", 512, 512);
    if (kernel == "field")
        for (const Map* map : {&open, &warehouse, &maze, &spiral, &random}) measure_field(*map);
    if (kernel == "fields") measure_fields(warehouse);
    if (kernel == "bridge")
        for (const Map* map : {&open, &warehouse, &maze, &spiral, &random}) measure_bridge(*map);
    if (kernel == "check")
        for (const Map* map : {&warehouse, &open}) measure_check(*map);
    if (kernel == "open") measure_open(open);
    if (kernel == "step")
        for (const Map* map : {&warehouse, &open}) measure_step(*map);
    if (kernel == "lifelong")
        for (const Map* map : {&warehouse, &open}) measure_lifelong(*map);
}
