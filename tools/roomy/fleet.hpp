// A fleet of the library for C, and what is known of it from its verdicts and arrivals alone.
#pragma once

#include <nashirudder.h>

#include <cstdio>
#include <cstdlib>
#include <deque>
#include <string>
#include <vector>

#include "site.hpp"

inline void need(nashirudder_code code, const char *what) {
    if (code == NASHIRUDDER_DONE) return;
    std::fprintf(stderr, "%s: %s\n", what, nashirudder_code_name(code));
    std::exit(2);
}

class Fleet {
public:
    const Site &site;
    std::vector<int> cells;
    /// the cells of each robot's accepted errands that have not arrived
    std::vector<std::deque<int>> queues;
    /// how many ticks each robot's front errand has been its front errand; 0 where it has none
    std::vector<long> waits;
    long arrived = 0;

    Fleet(const Site &site, const std::vector<nashirudder_robot> &robots, bool takes_turns) : site(site), queues(robots.size()), waits(robots.size()) {
        for (const nashirudder_robot &robot : robots) cells.push_back(static_cast<int>(robot.cell));
        const std::string text = site.text();
        nashirudder_setup setup;
        nashirudder_setup_endless(1, &setup);
        setup.mailbox = 65536;
        setup.chapter = 16777216;
        need(nashirudder_open(reinterpret_cast<const std::uint8_t *>(text.data()), text.size(), robots.data(), robots.size(), &setup, &handle, nullptr), "open");
        if (takes_turns) need(nashirudder_take_turns(&handle), "take_turns");
        before.resize(cells.size());
        to.resize(cells.size());
        farewells.resize(cells.size());
        arrivals.resize(cells.size());
        comes.assign(static_cast<std::size_t>(site.cells()), nowhere);
    }
    Fleet(const Fleet &) = delete;
    Fleet &operator=(const Fleet &) = delete;
    ~Fleet() { nashirudder_close(&handle); }

    int robots() const { return static_cast<int>(cells.size()); }

    bool is_busy(int robot) const { return !queues[robot].empty(); }

    void post(int robot, int cell) {
        nashirudder_judgement judgement;
        need(nashirudder_go(&handle, 0, static_cast<std::uint32_t>(robot), static_cast<std::uint32_t>(cell), &judgement), "go");
        if (judgement.verdict != NASHIRUDDER_ACCEPTED) return;
        if (queues[robot].empty()) waits[robot] = 0;
        queues[robot].push_back(cell);
    }

    void shut(int robot) {
        bool has_left;
        (void)!nashirudder_shut(&handle, static_cast<std::uint32_t>(robot), &has_left);
    }

    /// One tick; what was wrong with its step, or no text.
    std::string tick() {
        advance();
        return fault();
    }

    /// A tick of the library, and no more.
    void advance() { need(nashirudder_tick_into(&handle, &report, to.data(), to.size(), arrivals.data(), arrivals.size(), farewells.data(), farewells.size()), "tick"); }

    /// Learns what the tick showed; what was wrong with its step, or no text.
    std::string fault() {
        before = cells;
        for (int robot = 0; robot < robots(); robot++) {
            cells[robot] = static_cast<int>(to[robot]);
            waits[robot] = queues[robot].empty() ? 0 : waits[robot] + 1;
        }
        for (std::uint32_t one = 0; one < report.arrived; one++) {
            const nashirudder_arrival &arrival = arrivals[one];
            if (queues[arrival.robot].empty() || queues[arrival.robot].front() != cells[arrival.robot]) return "robot " + std::to_string(arrival.robot) + " arrived at no goal of its";
            queues[arrival.robot].pop_front();
            waits[arrival.robot] = 0;
        }
        arrived += report.arrived;
        nashirudder_note notes[64];
        std::size_t count = 64;
        while (count == 64) need(nashirudder_give_many(&handle, 0, notes, 64, &count), "give");
        return conflict();
    }

private:
    nashirudder_fleet handle = NASHIRUDDER_CLOSED;
    nashirudder_report report{};
    std::vector<int> before, comes;
    std::vector<std::uint32_t> to, farewells;
    std::vector<nashirudder_arrival> arrivals;

    std::string conflict() {
        std::string wrong;
        for (int robot = 0; robot < robots() && wrong.empty(); robot++) {
            const std::vector<int> &near = site.near[before[robot]];
            const bool is_step = before[robot] == cells[robot] || std::find(near.begin(), near.end(), cells[robot]) != near.end();
            if (!is_step || comes[cells[robot]] != nowhere) wrong = "robot " + std::to_string(robot) + " made no step, or comes where another one does";
            comes[cells[robot]] = robot;
        }
        for (int robot = 0; robot < robots() && wrong.empty(); robot++) {
            const int other = comes[before[robot]];
            if (other != nowhere && other != robot && before[other] == cells[robot]) wrong = "robots " + std::to_string(robot) + " and " + std::to_string(other) + " exchange their cells";
        }
        for (int cell : cells) comes[cell] = nowhere;
        return wrong;
    }
};

/// Robots on these cells, all of whose ranks of ways are zero.
inline std::vector<nashirudder_robot> robots_on(const std::vector<int> &cells) {
    std::vector<nashirudder_robot> robots(cells.size());
    for (std::size_t robot = 0; robot < cells.size(); robot++) robots[robot].cell = static_cast<std::uint32_t>(cells[robot]);
    return robots;
}
