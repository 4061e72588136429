/* What a frame costs: prints, for several maps and numbers of robots, how long calls take and how much memory a fleet has, as the
   rows of a table in docs/EMBEDDING.md; with EACH how long frames take in which no more first orders are made than that; with 0
   and MS how long they take where all are made at once, and then each frame searches for that many milliseconds before the first
   tick. Times are those of the processor. usage: frames [SIDE [ROBOTS [EACH [MS]]]] */
#include "nashirudder.hpp"

#include <algorithm>
#include <chrono>
#include <cstdio>
#include <cstdlib>
#include <ctime>
#include <malloc.h>
#include <numeric>
#include <random>
#include <string>
#include <utility>
#include <vector>

namespace ns = nashirudder;

/* Processor time in microseconds. */
static double now() {
    timespec time{};
    clock_gettime(CLOCK_PROCESS_CPUTIME_ID, &time);
    return static_cast<double>(time.tv_sec) * 1e6 + static_cast<double>(time.tv_nsec) / 1e3;
}

static double megabytes() {
    const auto heap = mallinfo2();
    return static_cast<double>(heap.uordblks + heap.hblkhd) / 1e6;
}

/* A square map, of whose cells this part in a hundred is blocked at random. */
static std::string square(std::uint32_t side, std::uint32_t blocked, std::mt19937 &draw) {
    std::string map = "type octile\nheight " + std::to_string(side) + "\nwidth " + std::to_string(side) + "\nmap\n";
    for (std::uint32_t row = 0; row < side; row++) {
        for (std::uint32_t column = 0; column < side; column++) map += draw() % 100 < blocked ? '@' : '.';
        map += '\n';
    }
    return map;
}

/* The cells of the largest part of the map. */
static std::vector<std::uint32_t> largest(const ns::Map &map) {
    std::vector<std::uint32_t> best;
    std::vector<bool> seen(map.shape().cells);
    for (std::uint32_t cell : map.floor()) {
        if (seen[cell]) continue;
        std::vector<std::uint32_t> part;
        const auto away = map.distances(cell);
        for (std::uint32_t other = 0; other < away.size(); other++) {
            if (away[other] == NASHIRUDDER_FAR) continue;
            seen[other] = true;
            part.push_back(other);
        }
        if (part.size() > best.size()) best = std::move(part);
        if (best.size() * 2 > map.shape().floor) break;
    }
    return best;
}

struct Run {
    ns::Fleet fleet;
    std::vector<std::uint32_t> cells;
    std::mt19937 draw;
    std::vector<bool> is_busy;
    double order = 0;
    std::size_t orders = 0;

    /* Sends robots that have no errand to a cell, as many as this. */
    void send(std::size_t most) {
        for (std::uint32_t robot = 0; robot < is_busy.size() && most > 0; robot++) {
            if (is_busy[robot]) continue;
            most--;
            const double begun = now();
            is_busy[robot] = fleet.go(0, robot, cells[draw() % cells.size()]).verdict == ns::Verdict::accepted;
            order += now() - begun;
            orders++;
        }
    }
    double tick() {
        ns::Shown shown;
        const double begun = now();
        fleet.tick_into(shown);
        const double took = now() - begun;
        for (const auto &arrival : shown.arrivals) is_busy[arrival.robot] = false;
        (void)fleet.give_all(0);
        return took;
    }
};

static double mean(const std::vector<double> &took) {
    return std::accumulate(took.begin(), took.end(), 0.0) / static_cast<double>(took.size());
}

/* A fleet of robots on random ones of these cells, and how long its opening took. */
static std::pair<Run, double> opened(const std::string &text, std::vector<std::uint32_t> cells, std::uint32_t robots, std::mt19937 &draw) {
    std::vector<ns::Robot> starts;
    std::vector<std::uint32_t> mixed = cells;
    std::shuffle(mixed.begin(), mixed.end(), draw);
    for (std::uint32_t robot = 0; robot < robots; robot++) starts.push_back({mixed[robot], {}});
    const double begun = now();
    ns::Fleet fleet(text, starts, ns::endless_setup());
    const double took = now() - begun;
    return {Run{std::move(fleet), std::move(cells), draw, std::vector<bool>(robots), 0, 0}, took};
}

/* The frames in which no more first orders are made than that. */
static void spread(Run run, std::size_t robots, std::uint32_t each) {
    std::vector<double> took;
    for (std::size_t sent = 0; sent < robots; sent += each) {
        const double frame = now();
        run.send(each);
        run.tick();
        took.push_back(now() - frame);
    }
    std::printf("%u first orders a frame: %zu frames, mean %.1f ms, most %.1f ms\n", each, took.size(), mean(took) / 1e3, *std::max_element(took.begin(), took.end()) / 1e3);
}

/* The frames that search, each for `most` milliseconds, until no field is missing. */
static std::vector<double> searches(Run &run, std::uint32_t most) {
    std::vector<double> took;
    while (run.fleet.missing() > 0) {
        const double frame = now();
        (void)run.fleet.search_until(std::chrono::steady_clock::now() + std::chrono::milliseconds(most));
        took.push_back(now() - frame);
    }
    return took;
}

/* All first orders are made at once, and each tick waits for the frames that search before it. */
static void searched(Run run, std::size_t robots, std::uint32_t most) {
    run.send(robots);
    const std::vector<double> before = searches(run, most);
    const double first = run.tick();
    std::vector<double> took, frames;
    for (int tick = 0; tick < 500; tick++) {
        run.send(robots);
        for (double frame : searches(run, most)) frames.push_back(frame);
        took.push_back(run.tick());
    }
    std::sort(took.begin(), took.end());
    std::printf("frames of %u ms: %zu before the first tick, mean %.1f ms, most %.1f ms; the first tick %.2f ms; %zu frames before 500 more ticks, of which the mean takes %.2f ms, 99 of 100 less than "
                "%.2f ms, and the longest %.2f ms\n", most, before.size(), mean(before) / 1e3, *std::max_element(before.begin(), before.end()) / 1e3, first / 1e3, frames.size(),
                mean(took) / 1e3, took[took.size() * 99 / 100] / 1e3, took.back() / 1e3);
}

static void row(std::uint32_t side, std::uint32_t blocked, std::uint32_t robots, std::uint32_t each, std::uint32_t most) {
    std::mt19937 draw(1);
    const std::string text = square(side, blocked, draw);
    std::vector<std::uint32_t> cells = largest(ns::Map(text));
    const double before = megabytes();
    auto [run, opening] = opened(text, std::move(cells), robots, draw);
    const double alone = megabytes() - before;
    if (each > 0) return spread(std::move(run), robots, each);
    if (most > 0) return searched(std::move(run), robots, most);
    run.send(robots);
    const double first = run.tick();
    run.order = 0;
    run.orders = 0;
    std::vector<double> took;
    for (int tick = 0; tick < 500; tick++) {
        run.send(robots);
        took.push_back(run.tick());
    }
    std::sort(took.begin(), took.end());
    std::printf("| %u x %u, %u%% | %u | %.1f ms | %.1f ms | %.0f us | %.0f us | %.0f us | %.1f MB | %.1f MB |\n", side, side, blocked, robots, opening / 1e3, first / 1e3,
                mean(took), took[took.size() * 99 / 100], run.orders ? run.order / static_cast<double>(run.orders) : 0, alone, megabytes() - before);
    std::fflush(stdout);
}

int main(int count, char **words) {
    const auto number = [&](int at) { return count > at ? static_cast<std::uint32_t>(std::strtoul(words[at], nullptr, 10)) : 0; };
    if (number(3) + number(4) == 0) std::printf("| Map, blocked | Robots | Opening | First tick | Tick, mean | Tick, 99%% | `go` | New | After |\n|---|---|---|---|---|---|---|---|---|\n");
    for (std::uint32_t side : {64u, 128u, 512u, 1024u}) {
        for (std::uint32_t robots : {50u, 300u, 512u}) {
            if ((number(1) == 0 || number(1) == side) && (number(2) == 0 || number(2) == robots)) row(side, side == 64 ? 0 : side == 128 ? 15 : 20, robots, number(3), number(4));
        }
    }
}
