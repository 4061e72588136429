/* Plays the stored run of the program errands: the same events, and the same lines. */
#include "nashirudder.hpp"

#include <cstdio>

int main() {
    const char *map = "type octile\nheight 1\nwidth 3\nmap\n...\n";
    nashirudder::Fleet fleet(map, {{.cell = 0, .ranks = {0, 0, 0, 0}}});

    std::printf("posted 0 1\n");
    nashirudder::Judgement judged = fleet.go(0, 0, 2);
    if (judged.verdict != NASHIRUDDER_ACCEPTED) return 1;
    std::printf("took 0 1 accepted %llu\n", (unsigned long long)judged.number);

    for (int tick = 0; tick < 2; tick++) {
        nashirudder::Report report = fleet.tick();
        std::printf("tick %llu:", (unsigned long long)report.tick);
        for (std::uint32_t cell : fleet.placement()) std::printf(" %u", cell);
        std::printf("\n");
    }

    nashirudder::Note notes[2];
    for (nashirudder::Note &note : notes) {
        note = fleet.give(0).value();
        if (note.verdict == 0) {
            std::printf("arrived robot %u client 0 number %llu cell %u stamp %u\n", note.robot, (unsigned long long)note.number, note.cell, note.stamp);
        }
    }
    for (const nashirudder::Note &note : notes) std::printf("gave 0 %llu\n", (unsigned long long)note.seq);
    for (const nashirudder::Note &note : notes) {
        if (note.verdict == NASHIRUDDER_ACCEPTED) {
            std::printf("collected 0 %llu verdict %llu accepted %llu\n", (unsigned long long)note.seq, (unsigned long long)note.order, (unsigned long long)note.number);
        } else {
            std::printf("collected 0 %llu arrived %llu robot %u cell %u tick %llu stamp %u\n", (unsigned long long)note.seq,
                        (unsigned long long)note.number, note.robot, note.cell, (unsigned long long)note.tick, note.stamp);
        }
    }
}
