/* A fleet that runs for months: notices are read, refused orders are looked at, full chapters are stored, and no loop
   waits for an idle fleet. usage: controller MAP TICKS FOLDER */
#include "nashirudder.hpp"

#include <cstdio>
#include <cstdlib>
#include <fstream>
#include <iterator>
#include <random>
#include <string>

constexpr std::uint32_t ROBOTS = 4, CLIENTS = 2;
constexpr unsigned long long PATIENCE = 1000; // ticks after which an operator has to look at a robot

/* Limits that no fleet meets, but for the length of a chapter. */
nashirudder::Setup limits() {
    auto setup = nashirudder::endless_setup(CLIENTS);
    setup.chapter = 1000;                    // few entries, so that this example has many chapters; else 65,536
    return setup;
}

class Controller {
public:
    Controller(const std::string &map, const std::string &folder)
        : fleet(map, {{0, {}}, {1, {}}, {2, {}}, {3, {}}}, limits()), folder(folder) {
        // A chapter that is full is stored, and then the next one begins by itself. One that could not be stored stays.
        fleet.roll([this](const nashirudder::Chapter &chapter) { return store(chapter.trace()); });
    }

    /* One turn: each robot without an errand gets one, then all move, then all notices are read. */
    void turn(std::mt19937 &draw, std::uint32_t cells) {
        for (std::uint32_t robot = 0; robot < ROBOTS; robot++) {
            if (!fleet.wait_of(robot)) send(robot % CLIENTS, robot, static_cast<std::uint32_t>(draw() % cells));
        }
        fleet.tick();
        for (std::uint32_t client = 0; client < CLIENTS; client++) read_notices(client);
        watch();
    }

    void print() {
        std::printf("ticks %llu\n", static_cast<unsigned long long>(fleet.clock()));
        std::fprintf(stderr, "accepted %zu refused %zu arrived %zu chapters %zu\n", accepted, refused, arrived, chapters);
    }

    /* Stores the chapter that is not full. */
    [[nodiscard]] bool end() { return store(fleet.trace()); }

private:
    /* Writes the trace of a chapter; false where that fails. */
    bool store(const std::string &trace) {
        std::string name = folder + "/chapter-" + std::to_string(chapters) + ".json";
        std::ofstream file(name);
        file << trace << '\n';
        file.close();
        if (!file) {
            std::fprintf(stderr, "%s cannot be written\n", name.c_str());
            return false;
        }
        chapters++;
        return true;
    }

    /* An order. A refused order is no exception: the verdict says it, and has to be looked at. */
    void send(std::uint32_t client, std::uint32_t robot, std::uint32_t cell) {
        auto judged = fleet.go(client, robot, cell);
        if (judged.verdict == nashirudder::Verdict::accepted) {
            accepted++;
        } else {
            refused++;                       // a shelf (Verdict::blocked), say: the next turn tries another cell
        }
    }

    /* A client whose notices are not read gets no further order taken: Code::mailbox_full. */
    void read_notices(std::uint32_t client) {
        while (auto note = fleet.give(client)) {
            if (note->verdict == 0) arrived++;
        }
    }

    /* On a map with a bridge a robot may wait for ever. */
    void watch() {
        auto eldest = fleet.eldest();
        if (eldest && fleet.wait_of(*eldest) == PATIENCE) {
            std::printf("robot %u has waited %llu ticks\n", *eldest, PATIENCE);
        }
    }

    nashirudder::Fleet fleet;
    std::string folder;
    std::size_t accepted = 0, refused = 0, arrived = 0, chapters = 0;
};

int main(int count, char **words) try {
    if (count != 4) return 2;
    std::ifstream file(words[1]);
    std::string map{std::istreambuf_iterator<char>(file), {}};
    Controller controller(map, words[3]);
    std::mt19937 draw(1);
    for (long tick = std::strtol(words[2], nullptr, 10); tick > 0; tick--) controller.turn(draw, 45);
    if (!controller.end()) return 1;
    controller.print();
} catch (const nashirudder::Refused &refused) { // the map, an order, or a tick whose full chapter was not stored
    std::fprintf(stderr, "%s\n", refused.what());
    return 1;
}
