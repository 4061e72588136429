/* Each growth of memory refused in turn: no crash, nothing lost, the right code, and a refused call changes nothing. */
#include "nashirudder.h"

#include <stdio.h>
#include <stdlib.h>
#include <string.h>

static long left = -1, live = 0;

static bool refuses(void) { return left >= 0 && left-- == 0; }

void *__real_malloc(size_t size);
void *__real_realloc(void *at, size_t size);
void __real_free(void *at);

void *__wrap_malloc(size_t size) {
    if (refuses()) return NULL;
    void *at = __real_malloc(size);
    if (at) live++;
    return at;
}

void *__wrap_realloc(void *at, size_t size) {
    if (refuses()) return NULL;
    void *again = __real_realloc(at, size);
    if (!at && again) live++;
    return again;
}

void __wrap_free(void *at) {
    if (at) live--;
    __real_free(at);
}

static const char MAP[] = "type octile\nheight 3\nwidth 4\nmap\n....\n.@..\n....\n";

/* What C sees of a fleet: its trace, and the placement. */
static int seen(nashirudder_fleet *fleet, uint8_t *text, size_t *length, uint32_t *cells) {
    long asked = left;
    left = -1;
    int good = nashirudder_trace(fleet, text, 65536, length) == NASHIRUDDER_DONE && nashirudder_placement(fleet, cells, 2) == NASHIRUDDER_DONE;
    left = asked;
    return good;
}

static uint8_t before[65536], after[65536];

/* Makes a call again where it is refused, after a look at what it left. */
#define TRY(count, call)                                                                            \
    do {                                                                                            \
        size_t long_before, long_after;                                                             \
        uint32_t cells_before[2], cells_after[2];                                                   \
        if (!seen(&fleet, before, &long_before, cells_before)) return 1;                            \
        uint32_t code = (call);                                                                     \
        if (code != NASHIRUDDER_DONE) {                                                             \
            count++;                                                                                \
            if (code != NASHIRUDDER_NO_MEMORY || !seen(&fleet, after, &long_after, cells_after)) return 2; \
            if (long_before != long_after || memcmp(before, after, long_before)) return 3;          \
            if (memcmp(cells_before, cells_after, sizeof cells_before)) return 4;                   \
            left = -1;                                                                              \
            if ((call) != NASHIRUDDER_DONE) return 5;                                               \
        }                                                                                           \
    } while (0)

/* The calls on a map alone, each allocation refused in turn. */
static int maps(long *refused) {
    const uint8_t *map = (const uint8_t *)MAP;
    uint32_t from[2] = {0, 3}, to[2] = {1, 2}, far[12];
    nashirudder_edge edge;
    for (int which = 0; which < 3; which++) {
        for (long n = 0;; n++) {
            nashirudder_fault fault = {0, 0, 0};
            left = n;
            uint32_t code = which == 0   ? nashirudder_check_step(map, sizeof MAP - 1, from, 2, to, 2, &fault)
                            : which == 1 ? nashirudder_first_bridge(map, sizeof MAP - 1, &edge, &fault)
                                         : nashirudder_distances(map, sizeof MAP - 1, 0, far, 12, &fault);
            long rest = left;
            left = -1;
            if (live != 0) return 0;
            if (rest >= 0) {
                if (code != (which == 1 ? NASHIRUDDER_NO_BRIDGE : NASHIRUDDER_DONE)) return 0;
                break;
            }
            ++*refused;
            /* check_step does without its table where memory for it is refused: the step is free of conflicts all the same. */
            if (code == NASHIRUDDER_DONE && which == 0) continue;
            if (code != NASHIRUDDER_NO_MEMORY) return 0;
        }
    }
    return 1;
}

/* The openings, each allocation refused in turn: a fleet on the map, and then the one that goes on from its chapter. */
static int reopens(const nashirudder_robot *robots, const nashirudder_setup *setup, long *refused) {
    nashirudder_fleet ended = NASHIRUDDER_CLOSED, fleet = NASHIRUDDER_CLOSED;
    size_t length;
    if (nashirudder_open((const uint8_t *)MAP, sizeof MAP - 1, robots, 2, setup, &ended, NULL) != NASHIRUDDER_DONE) return 0;
    if (nashirudder_go(&ended, 0, 0, 11, NULL) != NASHIRUDDER_DONE || nashirudder_tick(&ended, NULL) != NASHIRUDDER_DONE) return 0;
    if (nashirudder_trace(&ended, before, sizeof before, &length) != NASHIRUDDER_DONE) return 0;
    nashirudder_close(&ended);
    for (long n = 0;; n++) {
        nashirudder_fault fault = {0, 0, NASHIRUDDER_DONE};
        left = n;
        nashirudder_code code = nashirudder_reopen((const uint8_t *)MAP, sizeof MAP - 1, before, length, robots, 2, setup, &fleet, &fault);
        long rest = left;
        left = -1;
        if (rest >= 0) {
            nashirudder_close(&fleet);
            return code == NASHIRUDDER_DONE && live == 0;
        }
        ++*refused;
        /* check_step does without its table where memory for it is refused, and so the judge may. */
        if (code == NASHIRUDDER_DONE) {
            nashirudder_close(&fleet);
        } else if (code != NASHIRUDDER_NO_MEMORY || fault.code != code || fleet.is_open) {
            return 0;
        }
        if (live != 0) return 0;
    }
}

/* Each growth of an execution's opening refused in turn; no other call of an execution takes memory. */
static int executions(long *refused) {
    static const uint32_t placement[2] = {0, 1}, to[2] = {1, 2};
    for (long n = 0;; n++) {
        nashirudder_execution run = NASHIRUDDER_CLOSED;
        nashirudder_move move;
        left = n;
        uint32_t code = nashirudder_execution_open(4, placement, 2, NASHIRUDDER_CLEARANCE_ARRIVED, 3, &run);
        bool is_last = left >= 0;
        if (code == NASHIRUDDER_DONE) {
            left = 0;
            if (nashirudder_execution_plan(&run, to, 2) != NASHIRUDDER_DONE || nashirudder_execution_begin(&run, &move) != NASHIRUDDER_DONE
                || nashirudder_execution_reached(&run, 1, &move) != NASHIRUDDER_DONE || left != 0) return 0;
        } else if (code != NASHIRUDDER_NO_MEMORY || run.is_open) {
            return 0;
        }
        left = -1;
        nashirudder_execution_close(&run);
        if (live != 0) return 0;
        if (is_last) return code == NASHIRUDDER_DONE;
        if (code == NASHIRUDDER_DONE) return 0;
        ++*refused;
    }
}

/* Each growth of a shield's opening refused in turn; a step takes no memory. */
static int shields(long *refused) {
    static const uint32_t from[2] = {0, 2}, order[2] = {1, 0}, wanted[2] = {1, 1};
    nashirudder_map map = NASHIRUDDER_CLOSED;
    nashirudder_fault fault;
    if (nashirudder_map_open((const uint8_t *)MAP, sizeof MAP - 1, &map, &fault) != NASHIRUDDER_DONE) return 0;
    long had = live;
    for (long n = 0;; n++) {
        nashirudder_shield shield = NASHIRUDDER_CLOSED;
        uint32_t to[2];
        left = n;
        uint32_t code = nashirudder_shield_open(&map, 2, &shield);
        bool is_last = left >= 0;
        if (code == NASHIRUDDER_DONE) {
            left = 0;
            if (nashirudder_shield_step(&map, &shield, from, 2, order, 2, 1, wanted, 2, to, 2, &fault) != NASHIRUDDER_DONE || left != 0) return 0;
        } else if (code != NASHIRUDDER_NO_MEMORY || shield.is_open) {
            return 0;
        }
        left = -1;
        nashirudder_shield_close(&shield);
        if (live != had) return 0;
        if (is_last) {
            nashirudder_map_close(&map);
            return code == NASHIRUDDER_DONE && live == 0;
        }
        if (code == NASHIRUDDER_DONE) return 0;
        ++*refused;
    }
}

int main(void) {
    long opens = 0, orders = 0, ticks = 0, others = 0, on_maps = 0, again = 0, on_executions = 0, on_shields = 0;
    if (!maps(&on_maps)) return 9;
    if (!executions(&on_executions)) return 11;
    if (!shields(&on_shields)) return 12;
    nashirudder_robot robots[2] = {{0, {0, 1, 0, 0}}, {3, {0, 0, 0, 0}}};
    nashirudder_setup setup;
    nashirudder_setup_default(1, &setup);
    if (!reopens(robots, &setup, &again)) return 10;
    for (long n = 0; n < 100000; n++) {
        nashirudder_fleet fleet = NASHIRUDDER_CLOSED;
        nashirudder_fault fault;
        nashirudder_judgement judgement;
        nashirudder_report report;
        nashirudder_arrival arrivals[2];
        nashirudder_standing standings[2];
        nashirudder_errand errands[2];
        size_t count;
        uint32_t cells[2], gone[2];
        bool shut;
        left = n;
        uint32_t code = nashirudder_open((const uint8_t *)MAP, sizeof MAP - 1, robots, 2, &setup, &fleet, &fault);
        if (code != NASHIRUDDER_DONE) {
            opens++;
            if (code != NASHIRUDDER_NO_MEMORY || fault.code != code || fleet.is_open) return 6;
        } else {
            TRY(others, nashirudder_take_turns(&fleet));
            TRY(orders, nashirudder_go(&fleet, 0, 0, 11, &judgement));
            TRY(orders, nashirudder_go(&fleet, 0, 1, 8, &judgement));
            for (int i = 0; i < 3; i++) TRY(others, nashirudder_search_one(&fleet, &count));
            if (count != 0) return 13;
            for (int i = 0; i < 3; i++) TRY(ticks, nashirudder_tick(&fleet, &report));
            for (int i = 0; i < 3; i++) TRY(ticks, nashirudder_tick_into(&fleet, &report, cells, 2, arrivals, 2, gone, 2));
            TRY(others, nashirudder_standings(&fleet, standings, 2));
            TRY(others, nashirudder_queue(&fleet, 0, errands, 2, &count));
            TRY(others, nashirudder_open_errands(&fleet, 0, errands, 2, &count));
            TRY(others, nashirudder_shut(&fleet, 0, &shut));
            nashirudder_chapter chapter = NASHIRUDDER_CLOSED;
            TRY(others, nashirudder_next_chapter_into(&fleet, &chapter));
            nashirudder_chapter_close(&chapter);
            TRY(others, nashirudder_next_chapter(&fleet));
            TRY(others, nashirudder_widen(&fleet, 0, 5));
        }
        long rest = left;
        left = -1;
        nashirudder_close(&fleet);
        if (live != 0) {
            printf("lost %ld at %ld\n", live, n);
            return 7;
        }
        if (rest > 0) {
            printf("bindings/c/refused.c: %ld growths refused in turn, at %ld openings, %ld orders, %ld ticks, %ld other calls, %ld at reopenings, %ld on maps, %ld at executions, and %ld at shields; nothing lost\n",
                   n, opens, orders, ticks, others, again, on_maps, on_executions, on_shields);
            return 0;
        }
    }
    return 8;
}
