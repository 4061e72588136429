// `fleet check` in plain C++, for plans as lines of cells and for plans of moves: reads a map and a plan and prints `valid STEPS ROBOTS` with the
// sum of costs and the makespan, or `invalid T`. It trusts the form of both texts, and keeps a table with a robot for each cell.
// usage: plans MAP PLAN · plans make MAP PLAN ROBOTS STEPS · plans moves MAP PLAN ROBOTS STEPS (write an open map and a plan on it)
#include <cstdint>
#include <cstdio>
#include <cstdlib>
#include <cstring>
#include <fstream>
#include <iterator>
#include <string>
#include <vector>

using u32 = uint32_t;
using std::string;
using std::vector;

static string file_text(const char *name) {
    std::ifstream in(name, std::ios::binary);
    return string(std::istreambuf_iterator<char>(in), {});
}

static const int dx[] = {0, 1, 1, 0}, dy[] = {0, 0, 1, 1};

static void make_map(const char *map) {
    FILE *out = fopen(map, "w");
    fprintf(out, "type octile\nheight 1024\nwidth 1024\nmap\n");
    for (int row = 0; row < 1024; row++) fprintf(out, "%s\n", string(1024, '.').c_str());
    fclose(out);
}

static void print_cells(FILE *out, int robots, int t) {
    for (int r = 0; r < robots; r++) {
        int block = r / 4, at = (r + t) % 4;
        fprintf(out, "(%d,%d),", block % 512 * 2 + dx[at], block / 512 * 2 + dy[at]);
    }
    fprintf(out, "\n");
}

// Robots walk round blocks of two cells by two on a map of 1,024 by 1,024, four to a block, all at once.
static int make(const char *plan, int robots, int steps) {
    FILE *out = fopen(plan, "w");
    fprintf(out, "solution=\n");
    for (int t = 0; t <= steps; t++) {
        fprintf(out, "%d:", t);
        print_cells(out, robots, t);
    }
    fclose(out);
    return 0;
}

// The same plan as lines of moves.
static int make_moves(const char *plan, int robots, int steps) {
    FILE *out = fopen(plan, "w");
    fprintf(out, "form=moves\nstarts=");
    print_cells(out, robots, 0);
    fprintf(out, "solution=\n");
    string line(steps, 'w');
    for (int r = 0; r < robots; r++) {
        for (int t = 0; t < steps; t++) line[t] = "rdlu"[(r + t) % 4];
        fprintf(out, "%s\n", line.c_str());
    }
    fclose(out);
    return 0;
}

struct Judge {
    u32 height = 0, width = 0, time = 0;
    vector<char> floor;
    vector<u32> seats, from, to, costs;

    explicit Judge(const string &map) {
        sscanf(map.c_str(), "type %*s\nheight %u\nwidth %u\n", &height, &width);
        const char *rows = strstr(map.c_str(), "map\n") + 4;
        floor.resize(height * width);
        for (u32 y = 0; y < height; y++)
            for (u32 x = 0; x < width; x++) floor[y * width + x] = strchr(".GS", rows[y * (width + 1) + x]) != nullptr;
        seats.assign(height * width, 0);
    }

    // Whether the next placement, `to`, is free of faults; its cells are on the floor.
    bool take() {
        if (time == 0) from = to, costs.assign(to.size(), 0);
        if (to.size() != from.size()) return false;
        for (u32 r = 0; r < to.size(); r++) {
            u32 a = from[r], b = to[r], low = a < b ? a : b, high = a < b ? b : a;
            if (a != b && high - low != width && !(high - low == 1 && high % width != 0)) return false;
            u32 other = seats[b];
            if (other < r && to[other] == b) return false;
            seats[b] = r;
            if (a != b) costs[r] = time;
        }
        for (u32 r = 0; r < to.size(); r++) {
            u32 other = seats[from[r]];
            if (other < r && to[other] == from[r] && from[other] == to[r]) return false;
        }
        from.swap(to);
        time++;
        return true;
    }

    int fail() const { return printf("invalid %u\n", time), 6; }

    int pass() const {
        uint64_t sum = 0;
        u32 most = 0;
        for (u32 cost : costs) sum += cost, most = cost > most ? cost : most;
        printf("valid %u %zu\nsum-of-costs %llu\nmakespan %u\n", time - 1, from.size(), (unsigned long long)sum, most);
        return 0;
    }
};

static u32 number(const char *&at) {
    u32 n = 0;
    while (*at >= '0' && *at <= '9') n = n * 10 + (*at++ - '0');
    return n;
}

// Reads a line of cells into `judge.to`; whether all are floor.
static bool read_cells(Judge &judge, const char *&at, const char *end) {
    judge.to.clear();
    while (at < end && *at == '(') {
        at++;
        u32 x = number(at);
        at++;
        u32 y = number(at);
        at += 2;
        if (x >= judge.width || y >= judge.height || !judge.floor[y * judge.width + x]) return false;
        judge.to.push_back(y * judge.width + x);
    }
    at++;
    return true;
}

static int judge_moves(Judge &judge, const char *starts, const char *at, const char *end) {
    if (!read_cells(judge, starts, end) || !judge.take()) return judge.fail();
    vector<const char *> lines;
    vector<u32> lengths;
    u32 steps = 0, width = judge.width, cells = judge.height * width;
    while (at < end) {
        const char *stop = static_cast<const char *>(memchr(at, '\n', end - at));
        lines.push_back(at), lengths.push_back(stop - at), at = stop + 1;
        if (lengths.back() > steps) steps = lengths.back();
    }
    judge.to.resize(lines.size());
    for (u32 t = 0; t < steps; t++) {
        for (u32 r = 0; r < lines.size(); r++) {
            u32 cell = judge.from[r], next = cell;
            switch (t < lengths[r] ? lines[r][t] : 'w') {
            case 'u': next = cell < width ? cells : cell - width; break;
            case 'd': next = cell + width; break;
            case 'l': next = cell % width == 0 ? cells : cell - 1; break;
            case 'r': next = (cell + 1) % width == 0 ? cells : cell + 1; break;
            }
            if (next >= cells || !judge.floor[next]) return judge.fail();
            judge.to[r] = next;
        }
        if (!judge.take()) return judge.fail();
    }
    return judge.pass();
}

int main(int count, char **words) {
    if (count == 6) {
        make_map(words[2]);
        return (strcmp(words[1], "moves") ? make : make_moves)(words[3], atoi(words[4]), atoi(words[5]));
    }
    string map = file_text(words[1]), plan = file_text(words[2]);
    Judge judge(map);
    const char *at = strstr(plan.c_str(), "solution=\n") + 10, *end = plan.c_str() + plan.size();
    if (plan.compare(0, 11, "form=moves\n") == 0) return judge_moves(judge, strstr(plan.c_str(), "starts=") + 7, at, end);
    while (at < end) {
        number(at);
        at++;
        if (!read_cells(judge, at, end) || !judge.take()) return judge.fail();
    }
    return judge.pass();
}
