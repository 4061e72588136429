/*
** Runs one fleet in a thread whose stack has the size that is given, in bytes, and prints how many robots moved at the first tick.
**
** The map is two rows of SIDE cells, all floor, with a robot on each cell: the longest push that a fleet may make, since the robot
** with an errand pushes the next one, this one the next, and so on round all robots. Ended by a signal where the stack is too small.
*/
#include <nashirudder.h>
#include <pthread.h>
#include <stdio.h>
#include <stdlib.h>
#include <string.h>

enum { SIDE = 256, ROBOTS = 2 * SIDE };

static char map[64 + 2 * (SIDE + 1)];

static void need(nashirudder_code code, const char *what) {
    if (code != NASHIRUDDER_DONE) {
        fprintf(stderr, "%s: %s\n", what, nashirudder_code_name(code));
        exit(1);
    }
}

static void *play(void *moved) {
    static nashirudder_robot robots[ROBOTS];
    static uint32_t cells[ROBOTS], farewells[ROBOTS];
    static nashirudder_arrival arrivals[ROBOTS];
    nashirudder_fleet fleet = NASHIRUDDER_CLOSED;
    nashirudder_setup setup;
    nashirudder_judgement judgement;
    nashirudder_report report;
    for (uint32_t robot = 0; robot < ROBOTS; robot++) robots[robot].cell = robot;
    nashirudder_setup_default(1, &setup);
    need(nashirudder_open((const uint8_t *)map, strlen(map), robots, ROBOTS, &setup, &fleet, NULL), "open");
    need(nashirudder_go(&fleet, 0, 0, 1, &judgement), "go");
    need(nashirudder_tick_into(&fleet, &report, cells, ROBOTS, arrivals, ROBOTS, farewells, ROBOTS), "tick");
    for (uint32_t robot = 0; robot < ROBOTS; robot++) *(int *)moved += cells[robot] != robot;
    nashirudder_close(&fleet);
    return NULL;
}

int main(int argc, char **argv) {
    pthread_attr_t kind;
    pthread_t thread;
    int moved = 0;
    size_t bytes = argc == 2 ? strtoul(argv[1], NULL, 10) : 0;
    int at = snprintf(map, sizeof map, "type octile\nheight 2\nwidth %d\nmap\n", SIDE);
    for (int row = 0; row < 2; row++) {
        memset(map + at, '.', SIDE);
        map[at + SIDE] = '\n';
        at += SIDE + 1;
    }
    if (pthread_attr_init(&kind) != 0 || pthread_attr_setstacksize(&kind, bytes) != 0 || pthread_create(&thread, &kind, play, &moved) != 0) {
        fprintf(stderr, "usage: push BYTES\n");
        return 2;
    }
    pthread_join(thread, NULL);
    printf("%d\n", moved);
    return 0;
}
