// Maps with dead ends: aisles, stubs, trees of rooms, mazes, and others; as rows of letters, where `.` is floor.
#pragma once

#include <string>
#include <vector>

#include "../roomy/site.hpp"

namespace maps {

using Rows = std::vector<std::string>;

inline Rows walls(int height, int width) { return Rows(static_cast<std::size_t>(height), std::string(static_cast<std::size_t>(width), '@')); }

inline int height_of(const Rows &rows) { return static_cast<int>(rows.size()); }
inline int width_of(const Rows &rows) { return static_cast<int>(rows[0].size()); }

inline bool is_floor(const Rows &rows, int row, int column) {
    return row >= 0 && column >= 0 && row < height_of(rows) && column < width_of(rows) && rows[row][column] == '.';
}

/// The cells to the north, east, south and west.
constexpr int down[] = {-1, 0, 1, 0}, right[] = {0, 1, 0, -1};

/// Makes walls of so many percent of the floor.
inline Rows scattered(Random &random, Rows rows, int percent) {
    for (std::string &row : rows)
        for (char &letter : row)
            if (letter == '.' && below(random, 100) < percent) letter = '@';
    return rows;
}

inline Rows open(int height, int width) { return Rows(static_cast<std::size_t>(height), std::string(static_cast<std::size_t>(width), '.')); }

/// A ring of road, two cells wide, and within it blind aisles, one cell wide, from the upper and the lower road.
inline Rows aisles(int columns, int depth) {
    const int width = 2 * columns + 5, height = 2 * depth + 7;
    Rows rows = walls(height, width);
    for (int row = 0; row < height; row++)
        for (int column = 0; column < width; column++)
            if (row < 2 || row >= height - 2 || column < 2 || column >= width - 2) rows[row][column] = '.';
    for (int aisle = 0; aisle < columns; aisle++)
        for (int row = 0; row < depth; row++) rows[2 + row][3 + 2 * aisle] = rows[height - 3 - row][3 + 2 * aisle] = '.';
    return rows;
}

/// A hall with stubs of one to three cells above and below it.
inline Rows stubs(Random &random, int height, int width) {
    Rows rows = walls(height + 6, width);
    for (int row = 3; row < height + 3; row++) rows[row].assign(static_cast<std::size_t>(width), '.');
    for (int column = below(random, 2); column < width; column += 2 + below(random, 2)) {
        for (int deep = below(random, 4); deep > 0; deep--) rows[3 - deep][column] = '.';
        for (int deep = below(random, 4); deep > 0; deep--) rows[height + 2 + deep][column] = '.';
    }
    return rows;
}

/// A row with teeth, all one cell wide.
inline Rows comb(int teeth, int depth) {
    Rows rows = walls(depth + 1, 2 * teeth - 1);
    for (char &letter : rows[0]) letter = '.';
    for (int tooth = 0; tooth < teeth; tooth++)
        for (int row = 1; row <= depth; row++) rows[row][2 * tooth] = '.';
    return rows;
}

/// Three arms, or four, of one cell's width, from one cell.
inline Rows star(int arm, int arms) {
    Rows rows = walls(2 * arm + 1, 2 * arm + 1);
    rows[arm][arm] = '.';
    for (int far = 1; far <= arm; far++) {
        rows[arm - far][arm] = rows[arm][arm + far] = rows[arm + far][arm] = '.';
        if (arms > 3) rows[arm][arm - far] = '.';
    }
    return rows;
}

/// A maze that is a tree, and so many percent of its other walls opened.
inline Rows maze(Random &random, int side, int opened) {
    Rows rows = walls(2 * side + 1, 2 * side + 1);
    std::vector<bool> seen(static_cast<std::size_t>(side * side));
    std::vector<int> way{0};
    seen[0] = true;
    rows[1][1] = '.';
    while (!way.empty()) {
        const int row = way.back() / side, column = way.back() % side;
        std::vector<int> sides;
        for (int to = 0; to < 4; to++) {
            const int next_row = row + down[to], next = column + right[to];
            if (next_row >= 0 && next >= 0 && next_row < side && next < side && !seen[next_row * side + next]) sides.push_back(to);
        }
        if (sides.empty()) {
            way.pop_back();
            continue;
        }
        const int to = one_of(random, sides), cell = (row + down[to]) * side + column + right[to];
        seen[cell] = true;
        rows[2 * (row + down[to]) + 1][2 * (column + right[to]) + 1] = rows[2 * row + down[to] + 1][2 * column + right[to] + 1] = '.';
        way.push_back(cell);
    }
    for (int row = 1; row < 2 * side; row++)
        for (int column = 1; column < 2 * side; column++)
            if (rows[row][column] == '@' && (row + column) % 2 != 0 && below(random, 100) < opened) rows[row][column] = '.';
    return rows;
}

/// An open core in the middle, and round it whatever grows as a tree.
inline Rows tree_round_core(Random &random, int height, int width, int core_height, int core_width) {
    Rows rows = walls(height, width);
    for (int row = 0; row < core_height; row++)
        for (int column = 0; column < core_width; column++) rows[(height - core_height) / 2 + row][(width - core_width) / 2 + column] = '.';
    for (int tries = height * width * 20; tries > 0; tries--) {
        const int row = below(random, height), column = below(random, width);
        if (rows[row][column] == '.') continue;
        int beside = 0;
        for (int to = 0; to < 4; to++) beside += is_floor(rows, row + down[to], column + right[to]);
        if (beside == 1) rows[row][column] = '.';
    }
    return rows;
}

/// Rooms in a raster, joined by corridors of one cell as a tree.
inline Rows rooms(Random &random, int side, int size) {
    const Rows tree = maze(random, side, 0);
    Rows rows = walls(side * (size + 1), side * (size + 1));
    for (int row = 0; row < side; row++)
        for (int column = 0; column < side; column++) {
            const int top = row * (size + 1), left = column * (size + 1);
            for (int at = 0; at < size * size; at++) rows[top + at / size][left + at % size] = '.';
            if (is_floor(tree, 2 * row + 1, 2 * column + 2)) rows[top + below(random, size)][left + size] = '.';
            if (is_floor(tree, 2 * row + 2, 2 * column + 1)) rows[top + size][left + below(random, size)] = '.';
        }
    return rows;
}

/// Roads around shelves of one cell: no bridge.
inline Rows lattice(int rows_of_shelves, int shelves) {
    Rows rows = open(2 * rows_of_shelves + 1, 2 * shelves + 1);
    for (int row = 1; row < height_of(rows); row += 2)
        for (int column = 1; column < width_of(rows); column += 2) rows[row][column] = '@';
    return rows;
}

}  // namespace maps
