// The kernel `tick` of `bench` through the library for C: the same maps, starts, goals and orders, each tick timed by itself. It prints the
// same lines. usage: face [into] (built with build_c/libnashirudder.a); `into`: each tick also tells the cells, the arrivals and the farewells
#include "ground.hpp"
#include "nashirudder.hpp"

static std::string text_of(const Map& map) {
    std::string text = "type octile\nheight " + std::to_string(map.height) + "\nwidth " + std::to_string(map.width) + "\nmap\n";
    for (u32 c = 0; c < map.floor.size(); c++) {
        text += map.floor[c] ? '.' : '@';
        if (c % map.width == map.width - 1) text += '\n';
    }
    return text;
}

// as many different cells as there are robots
static vector<nashirudder::Robot> starts_of(const Map& map, const vector<u32>& cells, size_t robots, Random& random) {
    vector<bool> taken(map.floor.size());
    vector<nashirudder::Robot> starts;
    for (size_t tries = 0; tries < 16 * robots && starts.size() < robots; tries++) {
        u32 cell = cells[random.below(cells.size())];
        if (taken[cell]) continue;
        taken[cell] = true;
        starts.push_back({.cell = cell, .ranks = {}});
    }
    return starts;
}

static void measure_tick(const Map& map, bool into) {
    Grid grid(map, pad_of(map));
    vector<u32> cells = part_of(map, grid), goals;
    Random random{11};
    for (int k = 0; k < 64; k++) goals.push_back(cells[random.below(cells.size())]);
    std::string text = text_of(map);
    for (size_t robots : {16, 128, 512}) {
        vector<nashirudder::Robot> starts = starts_of(map, cells, robots, random);
        nashirudder::Setup setup{};
        nashirudder_setup_default(1, &setup);
        setup.mailbox = 4096;
        setup.chapter = 1 << 20;
        nashirudder::Fleet fleet(text, starts, setup);
        fleet.keep(1 << 29);
        nashirudder::Shown shown;
        Measure found;
        for (int tick = 0; tick < 200; tick++) {
            for (u32 robot = 0; robot < 512; robot++) {
                u32 cell = goals[random.below(goals.size())];
                if (robot < starts.size() && !fleet.wait_of(robot)) (void)fleet.go(0, robot, cell);
            }
            double start = now();
            if (into) {
                fleet.tick_into(shown);
            } else {
                fleet.tick();
            }
            found.with(now() - start);
            while (fleet.give(0)) {}
        }
        line("tick", map.name, starts.size(), starts.size(), found);
    }
}

int main(int count, char** words) {
    bool into = count > 1 && std::string(words[1]) == "into";
    Map open("open", 1024, 1024), warehouse("warehouse", 164, 340);
    for (const Map* map : {&warehouse, &open}) measure_tick(*map, into);
}
