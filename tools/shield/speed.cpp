/* How long a step of a shield takes from C++, with five preferences for each robot, in any order, on open floor: the least of all
   steps and their median, in microseconds. At the top of the repository, after tools/build_c:

       g++ -std=c++20 -O2 -I bindings/c -I bindings/cpp tools/shield/speed.cpp build_c/libnashirudder.a -o speed && ./speed */
#include "nashirudder.hpp"

#include <algorithm>
#include <chrono>
#include <cstdio>
#include <random>
#include <vector>

using Cells = std::vector<std::uint32_t>;

/* Writes a robot's preferences; at the edge of the map its own cell is there in place of one that is not. */
static void prefer(std::uint32_t side, std::uint32_t cell, std::uint32_t *five, std::mt19937 &draw) {
    const std::uint32_t row = cell / side, column = cell % side;
    five[0] = row > 0 ? cell - side : cell;
    five[1] = column + 1 < side ? cell + 1 : cell;
    five[2] = row + 1 < side ? cell + side : cell;
    five[3] = column > 0 ? cell - 1 : cell;
    five[4] = cell;
    std::shuffle(five, five + 5, draw);
}

static void measure(std::uint32_t side, std::uint32_t robots, int steps) {
    std::string text = "type octile\nheight " + std::to_string(side) + "\nwidth " + std::to_string(side) + "\nmap\n";
    for (std::uint32_t row = 0; row < side; row++) text += std::string(side, '.') + "\n";
    nashirudder::Shield shield(nashirudder::Map(text), robots);
    std::mt19937 draw(1);
    Cells all(side * side), to(robots), order(robots), wanted(robots * 5);
    for (std::uint32_t cell = 0; cell < side * side; cell++) all[cell] = cell;
    std::shuffle(all.begin(), all.end(), draw);
    Cells from(all.begin(), all.begin() + robots);
    for (std::uint32_t robot = 0; robot < robots; robot++) order[robot] = robot;
    std::vector<double> spent;
    for (int step = 0; step < steps; step++) {
        std::shuffle(order.begin(), order.end(), draw);
        for (std::uint32_t robot = 0; robot < robots; robot++) prefer(side, from[robot], &wanted[robot * 5], draw);
        const auto begun = std::chrono::steady_clock::now();
        shield.step(from, order, 5, wanted, to);
        spent.push_back(std::chrono::duration<double, std::micro>(std::chrono::steady_clock::now() - begun).count());
        from.swap(to);
    }
    std::sort(spent.begin(), spent.end());
    std::printf("%u robots on %u x %u cells: least %.0f us, median %.0f us\n", robots, side, side, spent[0], spent[spent.size() / 2]);
}

int main() {
    measure(64, 500, 2000);
    measure(160, 10000, 300);
}
