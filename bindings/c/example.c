/* Plays the stored run of the program errands: the same events, and the same lines. */
#include "nashirudder.h"

#include <inttypes.h>
#include <stdio.h>
#include <string.h>

int main(void) {
    const char *map = "type octile\nheight 1\nwidth 3\nmap\n...\n";
    nashirudder_robot robots[1] = {{0, {0, 0, 0, 0}}};
    nashirudder_setup setup;
    nashirudder_fleet fleet = NASHIRUDDER_CLOSED;
    nashirudder_fault fault;
    nashirudder_judgement judged;
    nashirudder_report report;
    nashirudder_note notes[2];
    uint32_t cells[1];

    nashirudder_setup_default(1, &setup);
    if (nashirudder_open((const uint8_t *)map, strlen(map), robots, 1, &setup, &fleet, &fault) != NASHIRUDDER_DONE) {
        printf("refused: %" PRIu32 "\n", fault.code);
        return 1;
    }

    printf("posted 0 1\n");
    if (nashirudder_go(&fleet, 0, 0, 2, &judged) != NASHIRUDDER_DONE || judged.verdict != NASHIRUDDER_ACCEPTED) return 1;
    printf("took 0 1 accepted %" PRIu64 "\n", judged.number);

    for (int tick = 0; tick < 2; tick++) {
        if (nashirudder_tick(&fleet, &report) != NASHIRUDDER_DONE) return 1;
        if (nashirudder_placement(&fleet, cells, 1) != NASHIRUDDER_DONE) return 1;
        printf("tick %" PRIu64 ": %" PRIu32 "\n", report.tick, cells[0]);
    }

    for (int i = 0; i < 2; i++) {
        if (nashirudder_give(&fleet, 0, &notes[i]) != NASHIRUDDER_DONE) return 1;
        if (notes[i].verdict == 0) {
            printf("arrived robot %" PRIu32 " client 0 number %" PRIu64 " cell %" PRIu32 " stamp %" PRIu32 "\n", notes[i].robot,
                   notes[i].number, notes[i].cell, notes[i].stamp);
        }
    }
    for (int i = 0; i < 2; i++) printf("gave 0 %" PRIu64 "\n", notes[i].seq);
    for (int i = 0; i < 2; i++) {
        if (notes[i].verdict == NASHIRUDDER_ACCEPTED) {
            printf("collected 0 %" PRIu64 " verdict %" PRIu64 " accepted %" PRIu64 "\n", notes[i].seq, notes[i].order, notes[i].number);
        } else {
            printf("collected 0 %" PRIu64 " arrived %" PRIu64 " robot %" PRIu32 " cell %" PRIu32 " tick %" PRIu64 " stamp %" PRIu32 "\n",
                   notes[i].seq, notes[i].number, notes[i].robot, notes[i].cell, notes[i].tick, notes[i].stamp);
        }
    }
    nashirudder_close(&fleet);
    return 0;
}
