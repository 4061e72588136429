// What the C++ programs next to `bench` share: its maps, its random numbers, the cells of the first floor cell's part, and the line
// that a measure prints.
#ifndef COMPARE_GROUND_HPP
#define COMPARE_GROUND_HPP

#include <algorithm>
#include <array>
#include <chrono>
#include <climits>
#include <cstdint>
#include <cstdio>
#include <cstring>
#include <string>
#include <thread>
#include <vector>

using u8 = uint8_t;
using u32 = uint32_t;
using u64 = uint64_t;
using std::vector;

static const u32 FAR_AWAY = 4294967295u, WALL = 4294967294u;

struct Random {
    u64 seed;
    size_t below(size_t bound) {
        seed = seed * 6364136223846793005ull + 1442695040888963407ull;
        return (seed >> 33) % bound;
    }
};

static double now() {
    return std::chrono::duration<double, std::nano>(std::chrono::steady_clock::now().time_since_epoch()).count();
}

struct Measure {
    u64 repeats = 0;
    double least = 1e300, all = 0;
    void with(double nanos) {
        repeats++;
        least = std::min(least, nanos);
        all += nanos;
    }
};

[[maybe_unused]] static void line(const char* kernel, const char* map, size_t fleet, u64 things, const Measure& m) {
    printf("%s map=%s fleet=%zu things=%llu repeats=%llu least_ns=%.2f mean_ns=%.2f\n", kernel, map, fleet,
           (unsigned long long)things, (unsigned long long)m.repeats, m.least / things, m.all / things / m.repeats);
    fflush(stdout);
}

// ---- maps

static u32 mixed(u32 row, u32 col) {
    u32 sum = row * 2654435761u + col * 2246822519u;
    return (sum ^ (sum >> 15)) * 3266489917u;
}

static bool joins_north(u32 row, u32 col) {
    if (row == 0 || row > 510) return false;
    return col == 0 || mixed(row, col) >> 31 == 1;
}

struct Map {
    const char* name;
    u32 height, width;
    vector<u8> floor;
    bool has_floor(u32 row, u32 col) const {
        if (!strcmp(name, "open")) return true;
        if (!strcmp(name, "warehouse")) {
            if (row == 0 || row == 163 || col == 0 || col == 339) return false;
            bool shelf = row >= 2 && row < 162 && col >= 50 && col < 290 && (row - 2) % 4 < 2 && (col - 50) % 12 < 10;
            return !shelf;
        }
        if (!strcmp(name, "maze")) {
            if (row % 2 == 0 && col % 2 == 0) return true;
            if (row % 2 == 1 && col % 2 == 0) return joins_north(row + 1, col);
            if (row % 2 == 0 && col % 2 == 1) return col < 511 && !joins_north(row, col + 1);
            return false;
        }
        if (!strcmp(name, "random")) return (mixed(row, col) >> 8) % 5 != 0;
        u32 ring = std::min(std::min(row, col), std::min(510 - row, 510 - col));
        bool turn = row == ring + 1 && col == ring;
        return (ring % 2 == 0) != turn;
    }
    Map(const char* name, u32 height, u32 width) : name(name), height(height), width(width), floor(height * width) {
        for (u32 c = 0; c < height * width; c++) floor[c] = has_floor(c / width, c % width);
    }
};

// ---- a field: distances level by level, over a list with walls round the map

struct Grid {
    const Map& map;
    u32 stride;
    vector<u32> blank;
    u32 place(u32 c) const { return (c / map.width + 1) * stride + c % map.width; }
    explicit Grid(const Map& map, u32 pad) : map(map), stride(map.width + pad), blank((map.height + 2) * stride, WALL) {
        for (u32 c = 0; c < map.floor.size(); c++)
            if (map.floor[c]) blank[place(c)] = FAR_AWAY;
    }
};

// rows as long as bench's, which are padded more where they would share cache lines
static u32 pad_of(const Map& map) {
    u32 row = map.width + 1;
    return row >= 1008 && row <= 1040 ? 1041 - map.width : 1;
}

static void field_into(const Grid& g, u32 goal, vector<u32>& dist, vector<u32>& front, vector<u32>& next) {
    dist = g.blank;
    front.assign(1, goal);
    u32 s = g.stride, level = 0;
    dist[goal] = 0;
    while (!front.empty()) {
        level++;
        next.clear();
        for (u32 c : front)
            for (u32 n : {c - s, c + 1, c + s, c - 1})
                if (dist[n] == FAR_AWAY) {
                    dist[n] = level;
                    next.push_back(n);
                }
        front.swap(next);
    }
}

static vector<u32> field(const Grid& g, u32 goal) {
    vector<u32> dist, front, next;
    field_into(g, goal, dist, front, next);
    return dist;
}

// the first floor cell's part
static vector<u32> part_of(const Map& map, const Grid& g) {
    u32 home = 0;
    while (!map.floor[home]) home++;
    vector<u32> dist = field(g, g.place(home)), cells;
    for (u32 c = 0; c < map.floor.size(); c++)
        if (map.floor[c] && dist[g.place(c)] < WALL) cells.push_back(c);
    return cells;
}

#endif
