// Maps, and searches on them by definition: what programs that drive fleets through the library for C know of a map (tools/roomy, tools/turns).
#pragma once

#include <algorithm>
#include <cstdint>
#include <deque>
#include <random>
#include <string>
#include <utility>
#include <vector>

constexpr int nowhere = -1;

/// By cell: a distance, or nowhere.
using Distances = std::vector<int>;

inline std::size_t size_of(const Distances &part) { return part.size() - static_cast<std::size_t>(std::count(part.begin(), part.end(), nowhere)); }

struct Site {
    int height = 0, width = 0;
    std::vector<bool> floor;
    /// the floor cells next to each one
    std::vector<std::vector<int>> near;

    /// The map of these letters: each `.` is floor.
    static Site of(const std::vector<std::string> &rows) {
        Site site{static_cast<int>(rows.size()), static_cast<int>(rows[0].size()), {}, {}};
        for (const std::string &row : rows)
            for (char letter : row) site.floor.push_back(letter == '.');
        site.join();
        return site;
    }

    int cells() const { return height * width; }

    std::vector<int> all() const {
        std::vector<int> floor_cells;
        for (int cell = 0; cell < cells(); cell++)
            if (floor[cell]) floor_cells.push_back(cell);
        return floor_cells;
    }

    /// The distances from a cell, without crossing one edge; no more than are known when `end` is reached.
    Distances search(int start, std::pair<int, int> shut = {nowhere, nowhere}, int end = nowhere) const {
        Distances away(floor.size(), nowhere);
        std::deque<int> queue{start};
        away[start] = 0;
        for (; !queue.empty() && (end == nowhere || away[end] == nowhere); queue.pop_front())
            for (int other : near[queue.front()])
                if (away[other] == nowhere && std::minmax(queue.front(), other) != std::minmax(shut.first, shut.second)) {
                    away[other] = away[queue.front()] + 1;
                    queue.push_back(other);
                }
        return away;
    }

    /// The distances from each floor cell.
    std::vector<Distances> searches() const {
        std::vector<Distances> away(floor.size());
        for (int cell : all()) away[cell] = search(cell);
        return away;
    }

    /// Leaves the largest part alone as floor, the first of those that are equally large.
    void keep_largest() {
        Distances largest(floor.size(), nowhere);
        std::vector<bool> seen(floor.size());
        for (int cell : all()) {
            if (seen[cell]) continue;
            const Distances part = search(cell);
            for (int other : all()) seen[other] = seen[other] || part[other] != nowhere;
            if (size_of(part) > size_of(largest)) largest = part;
        }
        for (int cell = 0; cell < cells(); cell++) floor[cell] = largest[cell] != nowhere;
        join();
    }

    std::string text() const {
        std::string rows = "type octile\nheight " + std::to_string(height) + "\nwidth " + std::to_string(width) + "\nmap\n";
        for (int cell = 0; cell < cells(); cell++) {
            rows += floor[cell] ? '.' : '@';
            if (cell % width == width - 1) rows += '\n';
        }
        return rows;
    }

    void join() {
        near.assign(floor.size(), {});
        for (int cell : all()) {
            const auto add = [&](bool is_there, int other) {
                if (is_there && floor[other]) near[cell].push_back(other);
            };
            add(cell >= width, cell - width);
            add(cell % width < width - 1, cell + 1);
            add(cell < (height - 1) * width, cell + width);
            add(cell % width > 0, cell - 1);
        }
    }
};

/// The greatest distance between two cells that a walk joins, and at least 1.
inline int reach_of(const std::vector<Distances> &away) {
    int reach = 1;
    for (const Distances &from : away)
        if (!from.empty()) reach = std::max(reach, *std::max_element(from.begin(), from.end()));
    return reach;
}

using Random = std::mt19937_64;

inline int below(Random &random, int count) { return static_cast<int>(random() % static_cast<std::uint64_t>(count)); }

inline bool happens(Random &random, double chance) { return std::uniform_real_distribution<>(0, 1)(random) < chance; }

inline int one_of(Random &random, const std::vector<int> &from) { return from[static_cast<std::size_t>(below(random, static_cast<int>(from.size())))]; }
