/* A fleet that runs for months, in C: notices are read, refused orders are looked at, and a full chapter is stored before the
   next one begins, so that none is lost where the disk is full. usage: controller MAP TICKS FOLDER */
#include "nashirudder.h"

#include <inttypes.h>
#include <stdio.h>
#include <stdlib.h>

enum { ROBOTS = 4, CLIENTS = 2, CELLS = 45, PATIENCE = 1000 };

struct controller {
    nashirudder_fleet fleet;
    const char *folder;
    uint32_t draw;
    uint64_t accepted, refused, arrived, chapters;
};

/* Says what a code means; false if it is a refusal. */
static bool is_done(nashirudder_code code, const nashirudder_fault *told) {
    nashirudder_fault fault = {0, 0, code};
    char text[256];
    if (code == NASHIRUDDER_DONE) return true;
    nashirudder_message(told && told->code == code ? told : &fault, text, sizeof text);
    fprintf(stderr, "%s\n", text);
    return false;
}

/* Writes the present chapter into its file; false where that fails, and then the chapter is as it was. */
static bool store(struct controller *it) {
    char name[4096];
    size_t length = 0;
    nashirudder_code code = nashirudder_trace(&it->fleet, NULL, 0, &length);
    uint8_t *text = code == NASHIRUDDER_WRONG_LENGTH ? malloc(length) : NULL;
    if (!text) return is_done(code == NASHIRUDDER_WRONG_LENGTH ? NASHIRUDDER_NO_MEMORY : code, NULL);
    bool stored = false;
    if (is_done(nashirudder_trace(&it->fleet, text, length, &length), NULL)) {
        snprintf(name, sizeof name, "%s/chapter-%" PRIu64 ".json", it->folder, it->chapters);
        FILE *file = fopen(name, "wb");
        stored = file && fwrite(text, 1, length, file) == length && fputc('\n', file) != EOF;
        if (file && fclose(file) != 0) stored = false; /* what was buffered is written only now */
        if (!stored) fprintf(stderr, "%s cannot be written\n", name);
    }
    free(text);
    if (stored) it->chapters++;
    return stored;
}

/* Whether a call that found the chapter full may be made again: the chapter is stored, and the next one begun. */
static bool is_next(struct controller *it, nashirudder_code code) {
    return code == NASHIRUDDER_CHAPTER_FULL && store(it) && is_done(nashirudder_next_chapter(&it->fleet), NULL);
}

/* A refused order is a call that was carried out: the verdict says it, and has to be looked at. */
static bool send(struct controller *it, uint32_t robot) {
    nashirudder_judgement judged;
    it->draw = it->draw * 1103515245 + 12345;
    uint32_t cell = (it->draw >> 16) % CELLS;
    nashirudder_code code = nashirudder_go(&it->fleet, robot % CLIENTS, robot, cell, &judged);
    if (is_next(it, code)) code = nashirudder_go(&it->fleet, robot % CLIENTS, robot, cell, &judged);
    if (!is_done(code, NULL)) return false;
    if (judged.verdict == NASHIRUDDER_ACCEPTED) {
        it->accepted++;
    } else {
        it->refused++; /* a shelf (NASHIRUDDER_BLOCKED), say: the next turn tries another cell */
    }
    return true;
}

/* One turn: each robot without an errand gets one, then all move, then all notices are read. */
static bool turn(struct controller *it) {
    uint64_t wait;
    nashirudder_note note;
    for (uint32_t robot = 0; robot < ROBOTS; robot++) {
        nashirudder_code code = nashirudder_wait_of(&it->fleet, robot, &wait);
        if (code == NASHIRUDDER_IDLE ? !send(it, robot) : !is_done(code, NULL)) return false;
        /* On a map with a bridge a robot may wait for ever. */
        if (code == NASHIRUDDER_DONE && wait == PATIENCE) printf("robot %" PRIu32 " has waited %d ticks\n", robot, PATIENCE);
    }
    nashirudder_code code = nashirudder_tick(&it->fleet, NULL);
    if (is_next(it, code)) code = nashirudder_tick(&it->fleet, NULL);
    for (uint32_t client = 0; code == NASHIRUDDER_DONE && client < CLIENTS; client++) {
        while ((code = nashirudder_give(&it->fleet, client, &note)) == NASHIRUDDER_DONE) it->arrived += note.verdict == NASHIRUDDER_NO_VERDICT;
        if (code == NASHIRUDDER_NO_NOTICE) code = NASHIRUDDER_DONE;
    }
    return is_done(code, NULL);
}

/* The bytes of a file, of at most so many; their number is 0 where it cannot be read. */
static size_t bytes_of(const char *name, uint8_t *room, size_t most) {
    FILE *file = fopen(name, "rb");
    size_t length = file ? fread(room, 1, most, file) : 0;
    if (file) fclose(file);
    return length;
}

int main(int count, char **words) {
    static uint8_t map[1100000];
    if (count != 4) return 2;
    struct controller it = {.fleet = NASHIRUDDER_CLOSED, .folder = words[3], .draw = 1};
    const nashirudder_robot robots[ROBOTS] = {{0, {0}}, {1, {0}}, {2, {0}}, {3, {0}}};
    nashirudder_setup setup;
    nashirudder_fault fault;
    nashirudder_setup_endless(CLIENTS, &setup);
    setup.chapter = 1000; /* few entries, so that this example has many chapters; else 65,536 */
    nashirudder_code code = nashirudder_open(map, bytes_of(words[1], map, sizeof map), robots, ROBOTS, &setup, &it.fleet, &fault);
    bool good = is_done(code, &fault);
    for (long ticks = strtol(words[2], NULL, 10); good && ticks > 0; ticks--) good = turn(&it);
    good = good && store(&it); /* the chapter that is not full */
    if (good) {
        printf("ticks %s\n", words[2]);
        fprintf(stderr, "accepted %" PRIu64 " refused %" PRIu64 " arrived %" PRIu64 " chapters %" PRIu64 "\n", it.accepted, it.refused, it.arrived, it.chapters);
    }
    nashirudder_close(&it.fleet);
    return good ? 0 : 1;
}
