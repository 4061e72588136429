/*
** Nashirudder from C: fleets of robots on a map, with proofs.
**
** A fleet is a map, robots on its cells, and clients that send robots to cells. Each tick moves every robot by at most one
** cell; no two robots ever come to one cell or exchange their cells, and on a map without bridges every errand arrives
** within a bound. What a call does is proved of the library's code; docs/EMBEDDING.md says what that covers and what it does
** not.
**
** CELLS AND NUMBERS
**     The cell in row R and column C of a map of width W has the number R * W + C. Robots, clients, cells, rows, columns and
**     chapters count from 0; orders, errands, notices and ticks from 1. Any number may be passed: one that names nothing is
**     refused by a code.
**
** HANDLES
**     A fleet is kept behind a nashirudder_fleet, which the caller owns: 16 bytes that begin all zero (NASHIRUDDER_CLOSED),
**     are handed by address, and are neither read nor written but by the library. Never use two copies of one handle: move
**     it, and zero what was moved from. A handle that is open is closed by nashirudder_close, which frees what is behind
**     it. There are no globals: any number of fleets may be open at once.
**
** LISTS
**     A list is a pointer and then the number of its items. The pointer of an empty list may be null. The items of a list
**     that is written must not overlap those of another argument.
**
** NULL
**     A call whose fleet, setup or list is null answers NASHIRUDDER_NULL_POINTER and does nothing. A `judgement`, `report`,
**     `left` or `fault` that is not wanted may be null, and so may the move of a report.
**
** MEMORY
**     The library takes memory by malloc and realloc and gives it back by free. All that it took for a fleet is free after
**     nashirudder_close. Where memory is refused the call answers NASHIRUDDER_NO_MEMORY; no call ends the program.
**
** THREADS
**     The calls that only look take their handle as const, and write nothing there: any number of them may run at once on one
**     handle. Every other call has to be the only one on its handle. A handle may move from thread to thread, if a lock or the
**     start or end of a thread orders the calls, and calls on different handles may run side by side. No call starts a thread,
**     waits for a lock, or may be made from a signal handler.
**
** REFUSALS
**     Each call answers a code. It is NASHIRUDDER_DONE where the call was carried out; at every other code the fleet is as it
**     was before the call, and so is what the result's pointers lead to, unless a call says otherwise. Each call lists its
**     refusals in the order in which they are found.
*/
#ifndef NASHIRUDDER_H
#define NASHIRUDDER_H

#include <stdbool.h>
#include <stddef.h>
#include <stdint.h>

/* The version of this header. nashirudder_version is that of the library: a program should compare them once. A library fits
** if it has the same major version (before 1.0.0: the same minor version too), since another one has other structs and
** numbers; and if it is not older than the header, since an older one may lack calls. */
#define NASHIRUDDER_VERSION_MAJOR 0
#define NASHIRUDDER_VERSION_MINOR 1
#define NASHIRUDDER_VERSION_PATCH 0
#define NASHIRUDDER_VERSION (NASHIRUDDER_VERSION_MAJOR * 10000 + NASHIRUDDER_VERSION_MINOR * 100 + NASHIRUDDER_VERSION_PATCH)

#ifdef __cplusplus
extern "C" {
#endif

/* A call whose code is ignored gets a warning. */
#if defined(__GNUC__)
#define NASHIRUDDER_MUST_USE __attribute__((warn_unused_result))
#else
#define NASHIRUDDER_MUST_USE
#endif

/* An enum of 32 bits. */
#if defined(__cplusplus) || (defined(__STDC_VERSION__) && __STDC_VERSION__ >= 202311L)
#define NASHIRUDDER_ENUM(name) enum name : uint32_t
#else
#define NASHIRUDDER_ENUM(name) enum name
#endif

/* CODES: what calls answer. nashirudder_code_name has a word for each, and nashirudder_message a sentence. No verdict has the
** number of a code. */
typedef NASHIRUDDER_ENUM(nashirudder_code) {
    NASHIRUDDER_DONE = 0,                /* the call was carried out */
    NASHIRUDDER_NO_MEMORY = 1,           /* memory was refused */
    NASHIRUDDER_NOT_OPEN = 2,            /* the handle is closed */
    NASHIRUDDER_ALREADY_OPEN = 3,        /* the handle is open */
    NASHIRUDDER_NO_CLIENT = 4,           /* there is no client of this number */
    NASHIRUDDER_NO_ROBOT = 5,            /* there is no robot of this number */
    NASHIRUDDER_MAILBOX_FULL = 6,        /* the client's notices and unfinished errands leave no room for two more */
    NASHIRUDDER_CHAPTER_FULL = 7,        /* the chapter has all the entries that it may have: begin the next */
    NASHIRUDDER_CLOCK_SPENT = 8,         /* all the ticks were made that may be made */
    NASHIRUDDER_ALREADY_SHUT = 9,        /* the robot is shut already */
    NASHIRUDDER_BOOK_SPENT = 10,         /* this is the last chapter that there may be */
    NASHIRUDDER_NO_NOTICE = 11,          /* the client has no notice that it was not given */
    NASHIRUDDER_TOO_WIDE = 12,           /* the mailbox may not hold so much */
    NASHIRUDDER_IDLE = 13,               /* the robot, or each robot, has no errand */
    NASHIRUDDER_HAS_BRIDGE = 14,         /* the map has a bridge */
    NASHIRUDDER_WRONG_LENGTH = 15,       /* the list has not the length that is asked for */
    NASHIRUDDER_NULL_POINTER = 16,       /* a pointer is null */
    NASHIRUDDER_BAD_ORDER = 17,          /* there is no kind of orders of this number */
    NASHIRUDDER_NO_ROOM = 18,            /* the cell is not roomy for the fleet's robots (nashirudder_open_roomy) */
    NASHIRUDDER_CHAPTER_BEGUN = 19,      /* the chapter has an entry (nashirudder_take_turns) */

    /* a map's first fault; a nashirudder_fault has the numbers */
    NASHIRUDDER_MAP_HEADER = 20,         /* the line of the head, `first`, is missing or not in its form */
    NASHIRUDDER_MAP_SIZE = 21,           /* the height or the width is not from 1 to 1,024 */
    NASHIRUDDER_MAP_ROW = 22,            /* the row `first` is missing or not as long as the width */
    NASHIRUDDER_MAP_CELL = 23,           /* the byte in row `first`, column `second` is no letter of a map */
    NASHIRUDDER_MAP_TRAILING = 24,       /* the line `first`, after the rows, has more than blanks and tabs */

    /* why a fleet is not opened */
    NASHIRUDDER_BAD_SETUP = 30,          /* a limit or the number of clients is out of its range */
    NASHIRUDDER_ROBOT_COUNT = 31,        /* there are not 1 to 512 robots */
    NASHIRUDDER_START_BLOCKED = 32,      /* the robot `first` does not start on floor */
    NASHIRUDDER_START_SHARED = 33,       /* the robots `first` and `second` start on one cell */
    NASHIRUDDER_WRONG_SIZE = 34,         /* the setup has not the size that the library reads: it was made with another header */
    NASHIRUDDER_NO_TURNS = 35,           /* the rooms that were found on the map do not pass their checks (nashirudder_take_turns, _map_served_for) */

    /* what is said of a map alone */
    NASHIRUDDER_TOO_MANY = 40,           /* more robots are named than the map has cells */
    NASHIRUDDER_FROM_BLOCKED = 41,       /* before the step the robot `first` is not on floor */
    NASHIRUDDER_FROM_SHARED = 42,        /* before the step the robots `first` and `second` are on one cell */
    NASHIRUDDER_TO_LENGTH = 43,          /* the new cells are not as many as the old ones */
    NASHIRUDDER_OFF_FLOOR = 44,          /* the robot `first` leaves the floor */
    NASHIRUDDER_NOT_ADJACENT = 45,       /* the robot `first` neither stays nor crosses an edge */
    NASHIRUDDER_VERTEX_CONFLICT = 46,    /* the robots `first` and `second` come to one cell */
    NASHIRUDDER_SWAPPING_CONFLICT = 47,  /* the robots `first` and `second` exchange their cells */
    NASHIRUDDER_NO_BRIDGE = 48,          /* the map has no bridge */
    NASHIRUDDER_GOAL_BLOCKED = 49,       /* the goal is not floor */

    /* why a fleet does not go on from a kept chapter */
    NASHIRUDDER_TRACE_NOT_JSON = 50,     /* the text is not UTF-8, not JSON, or nested deeper than 127 */
    NASHIRUDDER_TRACE_VERSION = 51,      /* the number under `version` is not 1 or 2 */
    NASHIRUDDER_TRACE_SHAPE = 52,        /* the text is JSON, but not in the form of a trace */
    NASHIRUDDER_CHAPTER_ILLEGAL = 53,    /* the chapter is not legal on the map: the entry `first` breaks the rule `second` (docs/TRACE.md) */
    NASHIRUDDER_LAWS_DIFFER = 54,        /* the robots are not as many as the chapter's, or the chapter has stamps other than 0 */
    NASHIRUDDER_LIMITS_DIFFER = 55,      /* `queue` or `life` is not that of the chapter */
    NASHIRUDDER_CHAPTERS_SPENT = 56,     /* within the limits no chapter follows */
    NASHIRUDDER_WAITED_TOO_LONG = 57,    /* a robot has waited longer than it may on a map without bridges */

    /* what an execution refuses */
    NASHIRUDDER_BAD_CLEARANCE = 60,      /* there is no clearance of this number */
    NASHIRUDDER_BAD_WINDOW = 61,         /* the window has no step */
    NASHIRUDDER_NO_PLACEMENT = 62,       /* two robots stand on one cell, or one stands on no cell of the map */
    NASHIRUDDER_WINDOW_FULL = 63,        /* a move that lies a window of steps before the next step is not reached */
    NASHIRUDDER_NO_STEP = 64,            /* the cells are no step, free of conflicts, from the last planned placement */
    NASHIRUDDER_NO_MOVE = 65,            /* no move may begin */
    NASHIRUDDER_NOT_UNDER_WAY = 66,      /* the robot is not under way */

    /* what a shield refuses: the fault names robots and places of lists, from 0 */
    NASHIRUDDER_SHIELD_MAP = 70,         /* the map has another number of cells than the shield was made for */
    NASHIRUDDER_SHIELD_LENGTH = 71,      /* a list is not as long as the shield's number of robots asks */
    NASHIRUDDER_SHIELD_OUTSIDE = 72,     /* the robot `first` stands beyond the map's last cell */
    NASHIRUDDER_SHIELD_WALL = 73,        /* the robot `first` stands on a wall */
    NASHIRUDDER_SHIELD_SHARED = 74,      /* the robots `first` and `second` stand on one cell */
    NASHIRUDDER_SHIELD_UNKNOWN = 75,     /* the place `first` of the order names no robot */
    NASHIRUDDER_SHIELD_TWICE = 76,       /* the place `first` of the order names a robot that an earlier one names */
    NASHIRUDDER_SHIELD_FAR = 77          /* of the robot `first`, the preference `second` is neither its own cell nor next to it */
} nashirudder_code;

/* VERDICTS: what an order is answered once it is taken. The first three carry it out, the others refuse it for a reason; in
** either case it is an entry of the history, and the client is told. nashirudder_verdict_name has a word for each. */
typedef NASHIRUDDER_ENUM(nashirudder_verdict) {
    NASHIRUDDER_NO_VERDICT = 0,          /* of a notice that is an arrival */
    NASHIRUDDER_ACCEPTED = 101,          /* the errand joins its robot's queue */
    NASHIRUDDER_CLOSING = 102,           /* the client is closed from now on */
    NASHIRUDDER_WITHDRAWN = 103,         /* the errand has left its robot's queue */
    NASHIRUDDER_CLIENT_CLOSED = 104,     /* the client is closed */
    NASHIRUDDER_UNKNOWN_ROBOT = 105,     /* there is no robot of this number */
    NASHIRUDDER_ROBOT_SHUT = 106,        /* the robot takes no further errands */
    NASHIRUDDER_NO_CELL = 107,           /* the cell's number is not below height times width */
    NASHIRUDDER_BLOCKED = 108,           /* the cell is not floor */
    NASHIRUDDER_UNREACHABLE = 109,       /* the cell is in another part of the floor than the robot */
    NASHIRUDDER_QUEUE_FULL = 110,        /* the robot's queue is full */
    NASHIRUDDER_LIFE_SPENT = 111,        /* the client has had all the errands accepted that it may have */
    NASHIRUDDER_NO_ERRAND = 112,         /* no unfinished errand of the client has this number */
    NASHIRUDDER_TOO_LATE = 113           /* the errand is its robot's front */
} nashirudder_verdict;

/* KINDS of orders, in a list of them. */
typedef NASHIRUDDER_ENUM(nashirudder_kind) {
    NASHIRUDDER_ORDER_GO = 1,            /* a robot is to go to a cell */
    NASHIRUDDER_ORDER_CLOSE = 2,         /* the client's last order */
    NASHIRUDDER_ORDER_WITHDRAW = 3       /* an errand is given up */
} nashirudder_kind;

/* STATES of robots. */
typedef NASHIRUDDER_ENUM(nashirudder_state) {
    NASHIRUDDER_FREE = 1,                /* it has no errand */
    NASHIRUDDER_BUSY = 2,                /* it has errands */
    NASHIRUDDER_SHUT = 3                 /* it takes no further errands; it may still have some */
} nashirudder_state;

/* CLEARANCES of an execution: when a robot's stay on a cell ends, so that another one may begin to move there. */
typedef NASHIRUDDER_ENUM(nashirudder_clearance) {
    NASHIRUDDER_CLEARANCE_ARRIVED = 1,   /* when it has reached its next cell */
    NASHIRUDDER_CLEARANCE_STARTED = 2    /* when it has begun to move to its next cell */
} nashirudder_clearance;

/* The structs below have numbers of 32 bits in these types' places. */
typedef char nashirudder_enums_have_32_bits[sizeof(nashirudder_code) == 4 && sizeof(nashirudder_verdict) == 4 && sizeof(nashirudder_kind) == 4
                                            && sizeof(nashirudder_state) == 4 ? 1 : -1];

/* The word for a code; "unknown" for a number that is none. */
static inline const char *nashirudder_code_name(uint32_t code) {
    switch (code) {
    case NASHIRUDDER_DONE: return "done";
    case NASHIRUDDER_NO_MEMORY: return "no-memory";
    case NASHIRUDDER_NOT_OPEN: return "not-open";
    case NASHIRUDDER_ALREADY_OPEN: return "already-open";
    case NASHIRUDDER_NO_CLIENT: return "no-client";
    case NASHIRUDDER_NO_ROBOT: return "no-robot";
    case NASHIRUDDER_MAILBOX_FULL: return "mailbox-full";
    case NASHIRUDDER_CHAPTER_FULL: return "chapter-full";
    case NASHIRUDDER_CLOCK_SPENT: return "clock-spent";
    case NASHIRUDDER_ALREADY_SHUT: return "already-shut";
    case NASHIRUDDER_BOOK_SPENT: return "book-spent";
    case NASHIRUDDER_NO_NOTICE: return "no-notice";
    case NASHIRUDDER_TOO_WIDE: return "too-wide";
    case NASHIRUDDER_IDLE: return "idle";
    case NASHIRUDDER_HAS_BRIDGE: return "has-bridge";
    case NASHIRUDDER_WRONG_LENGTH: return "wrong-length";
    case NASHIRUDDER_NULL_POINTER: return "null-pointer";
    case NASHIRUDDER_BAD_ORDER: return "bad-order";
    case NASHIRUDDER_NO_ROOM: return "no-room";
    case NASHIRUDDER_CHAPTER_BEGUN: return "chapter-begun";
    case NASHIRUDDER_MAP_HEADER: return "map-header";
    case NASHIRUDDER_MAP_SIZE: return "map-size";
    case NASHIRUDDER_MAP_ROW: return "map-row";
    case NASHIRUDDER_MAP_CELL: return "map-cell";
    case NASHIRUDDER_MAP_TRAILING: return "map-trailing";
    case NASHIRUDDER_BAD_SETUP: return "bad-setup";
    case NASHIRUDDER_ROBOT_COUNT: return "robot-count";
    case NASHIRUDDER_START_BLOCKED: return "start-blocked";
    case NASHIRUDDER_START_SHARED: return "start-shared";
    case NASHIRUDDER_WRONG_SIZE: return "wrong-size";
    case NASHIRUDDER_NO_TURNS: return "no-turns";
    case NASHIRUDDER_TOO_MANY: return "too-many";
    case NASHIRUDDER_FROM_BLOCKED: return "from-blocked";
    case NASHIRUDDER_FROM_SHARED: return "from-shared";
    case NASHIRUDDER_TO_LENGTH: return "to-length";
    case NASHIRUDDER_OFF_FLOOR: return "off-floor";
    case NASHIRUDDER_NOT_ADJACENT: return "not-adjacent";
    case NASHIRUDDER_VERTEX_CONFLICT: return "vertex-conflict";
    case NASHIRUDDER_SWAPPING_CONFLICT: return "swapping-conflict";
    case NASHIRUDDER_NO_BRIDGE: return "no-bridge";
    case NASHIRUDDER_GOAL_BLOCKED: return "goal-blocked";
    case NASHIRUDDER_TRACE_NOT_JSON: return "trace-not-json";
    case NASHIRUDDER_TRACE_VERSION: return "trace-version";
    case NASHIRUDDER_TRACE_SHAPE: return "trace-shape";
    case NASHIRUDDER_CHAPTER_ILLEGAL: return "chapter-illegal";
    case NASHIRUDDER_LAWS_DIFFER: return "laws-differ";
    case NASHIRUDDER_LIMITS_DIFFER: return "limits-differ";
    case NASHIRUDDER_CHAPTERS_SPENT: return "chapters-spent";
    case NASHIRUDDER_WAITED_TOO_LONG: return "waited-too-long";
    case NASHIRUDDER_BAD_CLEARANCE: return "bad-clearance";
    case NASHIRUDDER_BAD_WINDOW: return "bad-window";
    case NASHIRUDDER_NO_PLACEMENT: return "no-placement";
    case NASHIRUDDER_WINDOW_FULL: return "window-full";
    case NASHIRUDDER_NO_STEP: return "no-step";
    case NASHIRUDDER_NO_MOVE: return "no-move";
    case NASHIRUDDER_NOT_UNDER_WAY: return "not-under-way";
    case NASHIRUDDER_SHIELD_MAP: return "shield-map";
    case NASHIRUDDER_SHIELD_LENGTH: return "shield-length";
    case NASHIRUDDER_SHIELD_OUTSIDE: return "shield-outside";
    case NASHIRUDDER_SHIELD_WALL: return "shield-wall";
    case NASHIRUDDER_SHIELD_SHARED: return "shield-shared";
    case NASHIRUDDER_SHIELD_UNKNOWN: return "shield-unknown";
    case NASHIRUDDER_SHIELD_TWICE: return "shield-twice";
    case NASHIRUDDER_SHIELD_FAR: return "shield-far";
    default: return "unknown";
    }
}

/* The word for a verdict; "unknown" for a number that is none. */
static inline const char *nashirudder_verdict_name(uint32_t verdict) {
    switch (verdict) {
    case NASHIRUDDER_ACCEPTED: return "accepted";
    case NASHIRUDDER_CLOSING: return "closed";
    case NASHIRUDDER_WITHDRAWN: return "withdrawn";
    case NASHIRUDDER_CLIENT_CLOSED: return "client-closed";
    case NASHIRUDDER_UNKNOWN_ROBOT: return "no-robot";
    case NASHIRUDDER_ROBOT_SHUT: return "robot-shut";
    case NASHIRUDDER_NO_CELL: return "no-cell";
    case NASHIRUDDER_BLOCKED: return "blocked";
    case NASHIRUDDER_UNREACHABLE: return "unreachable";
    case NASHIRUDDER_QUEUE_FULL: return "queue-full";
    case NASHIRUDDER_LIFE_SPENT: return "life-spent";
    case NASHIRUDDER_NO_ERRAND: return "no-errand";
    case NASHIRUDDER_TOO_LATE: return "too-late";
    default: return "unknown";
    }
}

/* What stands for a cell from which no walk leads to the goal. */
#define NASHIRUDDER_FAR 4294967295

/* The goal of a robot that has no errand. */
#define NASHIRUDDER_NOWHERE 4294967295

/* The word for a state; "unknown" for a number that is none. */
static inline const char *nashirudder_state_name(uint32_t state) {
    switch (state) {
    case NASHIRUDDER_FREE: return "free";
    case NASHIRUDDER_BUSY: return "busy";
    case NASHIRUDDER_SHUT: return "shut";
    default: return "unknown";
    }
}

/* A handle to a fleet. Begin with NASHIRUDDER_CLOSED, or with all bytes zero. */
typedef struct nashirudder_fleet {
    void *at;
    bool is_open;
} nashirudder_fleet;
#define NASHIRUDDER_CLOSED {0, false}

/* A handle to a map that was read once. As with a fleet's, the caller owns its 16 bytes, which begin all zero. */
typedef struct nashirudder_map {
    void *at;
    bool is_open;
} nashirudder_map;

/* A handle to a chapter that was handed out. As with a fleet's, the caller owns its 16 bytes, which begin all zero. */
typedef struct nashirudder_chapter {
    void *at;
    bool is_open;
} nashirudder_chapter;

/* A handle to the execution of a plan. As with a fleet's, the caller owns its 16 bytes, which begin all zero. */
typedef struct nashirudder_execution {
    void *at;
    bool is_open;
} nashirudder_execution;

/* A handle to a shield. As with a fleet's, the caller owns its 16 bytes, which begin all zero. */
typedef struct nashirudder_shield {
    void *at;
    bool is_open;
} nashirudder_shield;

/* The number of clients and the limits of a fleet. nashirudder_setup_default fills it in; it begins with its size, so that a
** library that reads another form of it refuses it (NASHIRUDDER_WRONG_SIZE). A lane, outlet or mailbox of 0 fits the robots:
** 2 for each of them and 2 more, and at least 64. So one client can send an errand to each robot, and another one after it. */
typedef struct nashirudder_setup {
    uint32_t size;      /* sizeof(nashirudder_setup) */
    uint32_t clients;   /* 1 to 64 */
    uint64_t life;      /* errands that a client may have accepted in all, 1 to 2^40 */
    uint64_t orders;    /* orders that a client may send in all, 2 to 2^62; takes effect in an office alone */
    uint64_t clock;     /* ticks in all, 1 to 2^48 */
    uint32_t lane;      /* orders that a client's lane holds, 1 to 65,536, or 0; takes effect in an office alone */
    uint32_t outlet;    /* notices that a client's outlet holds, 1 to 65,536, or 0; takes effect in an office alone */
    uint32_t queue;     /* errands that a robot's queue holds, 1 to 65,536 */
    uint32_t mailbox;   /* notices and unfinished errands of a client together, 2 to 65,536, or 0 */
    uint32_t chapter;   /* entries of a chapter of the history, 1 to 16,777,216 */
    uint32_t chapters;  /* chapters in all, 1 to 4,294,967,295 */
} nashirudder_setup;

/* A robot at the opening: the cell where it starts, and its ranks of the ways north, east, south and west. Of two
** neighbours of its cell that are equally near to its goal it tries the one of less rank first, and of equal ranks the one
** that comes first of north, east, south, west. So all zero ranks will do. */
typedef struct nashirudder_robot {
    uint32_t cell;
    uint8_t ranks[4];
} nashirudder_robot;

/* Why a call that reads a map was refused. */
typedef struct nashirudder_fault {
    uint64_t first;     /* the first number that the refusal names, a line, row, robot or entry, else 0 */
    uint64_t second;    /* the second number that it names, a column, robot or rule, else 0 */
    nashirudder_code code; /* the same as the call's answer */
} nashirudder_fault;

/* The verdict of an order that was taken. */
typedef struct nashirudder_judgement {
    uint64_t number;    /* of NASHIRUDDER_ACCEPTED: the errand's number among the client's accepted errands; else 0 */
    nashirudder_verdict verdict;
} nashirudder_judgement;

/* What a tick did. */
typedef struct nashirudder_report {
    uint64_t tick;      /* the ticks made so far, with this one */
    uint32_t arrived;   /* how many robots arrived */
    uint32_t farewells; /* how many shut robots did their last errand */
} nashirudder_report;

/* A notice to a client: the verdict of an order, or an arrival, where `verdict` is 0. */
typedef struct nashirudder_note {
    uint64_t seq;       /* counts the client's notices */
    uint64_t order;     /* of a verdict: the client's order; of an arrival: 0 */
    uint64_t number;    /* the errand's number, of an arrival and of an order that was accepted; else 0 */
    uint64_t tick;      /* of an arrival: the tick after which the robot stood on the cell; else 0 */
    nashirudder_verdict verdict; /* of an arrival: NASHIRUDDER_NO_VERDICT */
    uint32_t robot;     /* of an arrival, else 0 */
    uint32_t cell;      /* of an arrival, else 0 */
    uint32_t stamp;     /* of an arrival: 0, since fleets opened from C stamp 0; else 0 */
} nashirudder_note;

/* An order in a list of orders. What its kind does not need is not read. */
typedef struct nashirudder_order {
    uint64_t number;    /* of NASHIRUDDER_ORDER_WITHDRAW: the errand */
    nashirudder_kind kind;
    uint32_t client;
    uint32_t robot;     /* of NASHIRUDDER_ORDER_GO */
    uint32_t cell;      /* of NASHIRUDDER_ORDER_GO */
} nashirudder_order;

/* An arrival that a tick shows. */
typedef struct nashirudder_arrival {
    uint64_t number;    /* the errand's number among the client's accepted errands */
    uint32_t robot;
    uint32_t client;
    uint32_t cell;      /* the robot's cell after the tick */
    uint32_t stamp;     /* 0, since fleets opened from C stamp 0 */
} nashirudder_arrival;

/* An errand that is accepted, and neither done nor withdrawn, and where it stands. */
typedef struct nashirudder_errand {
    uint64_t number;    /* its number among the client's accepted errands */
    uint64_t place;     /* its place in the robot's queue, from 1: at place 1 the robot is on its way to the cell */
    uint32_t client;
    uint32_t robot;     /* in whose queue it is */
    uint32_t cell;      /* where the robot is sent to */
} nashirudder_errand;

/* How a robot stands. */
typedef struct nashirudder_standing {
    uint64_t wait;      /* how many ticks it has waited for the arrival at its goal; 0 where it has no errand */
    uint64_t errands;   /* how many errands it has */
    uint32_t cell;
    uint32_t goal;      /* the cell of its front errand; NASHIRUDDER_NOWHERE where it has none */
    nashirudder_state state;
} nashirudder_standing;

/* What a client has, and had. */
typedef struct nashirudder_account {
    uint64_t taken;     /* the orders that were taken, in all chapters */
    uint64_t owed;      /* the errands that are accepted, and neither done nor withdrawn */
    uint64_t pending;   /* the notices that it was not given yet */
    uint64_t room;      /* the notices and unfinished errands that its mailbox can hold */
} nashirudder_account;

/* An edge of a map, the cell of less number first. */
typedef struct nashirudder_edge {
    uint32_t lower;
    uint32_t upper;
} nashirudder_edge;

/* How large a map is. */
typedef struct nashirudder_shape {
    uint32_t height;
    uint32_t width;
    uint32_t cells;     /* height times width */
    uint32_t floor;     /* the cells that are floor */
    uint32_t edges;     /* the pairs of floor cells that share a side */
} nashirudder_shape;

/* A move of an execution: a step of the plan in which a robot changes its cell. */
typedef struct nashirudder_move {
    uint64_t tick;      /* the step, from 1 */
    uint32_t robot;
    uint32_t from;      /* the cell that it leaves */
    uint32_t to;        /* the cell to which it moves */
} nashirudder_move;

/* Where a robot of an execution is. */
typedef struct nashirudder_whereabouts {
    uint32_t cell;      /* the cell that it reached last: it stands there, or is leaving it */
    uint32_t bound_for; /* the cell to which it is under way; `cell` if it is not */
    uint32_t left;      /* how many planned moves it has still to begin */
    bool is_under_way;
} nashirudder_whereabouts;

/* How far an execution has come. */
typedef struct nashirudder_progress {
    uint64_t steps;     /* the steps that were planned */
    uint32_t behind;    /* how many planned steps there are from the first with a move that is not reached; 0 if all are reached */
    bool has_room;      /* whether a further step may be planned */
} nashirudder_progress;

/* ---- version and messages ---- */

/* The version of the library, as NASHIRUDDER_VERSION is that of this header. */
uint32_t nashirudder_version(void);

/* Whether each function of the library was proved before it was built. False of a library that `tools/build_c --quick`
** built, which has run-time checks in the place of proofs. */
bool nashirudder_is_proved(void);

/* One sentence in ASCII about a fault, with the numbers that it names and a zero at its end. Of a sentence that does not fit
** into `length` bytes, as much is written as fits. Returns how many bytes the whole sentence has, without the zero; so with a
** length of 0 it only says that. Of a code alone: put it into a fault whose numbers are 0. */
size_t nashirudder_message(const nashirudder_fault *fault, char *text, size_t text_length);

/* ---- opening and closing ---- */

/* Fills in a setup: this many clients, and the limits that the program `errands` takes where a script says nothing (life,
** orders and clock 1,000,000, queue 16, chapter 65,536, chapters 1,000); but lane, outlet and mailbox are 0, which fits the
** robots. No number is refused here. */
void nashirudder_setup_default(uint32_t clients, nashirudder_setup *setup);

/* The same for a fleet that never ends: life 2^40, orders 2^62, clock 2^48 and chapters 2^32 - 1, which no fleet meets. Its
** chapters become full all the same: begin the next (nashirudder_next_chapter_into, nashirudder_next_chapter). */
void nashirudder_setup_endless(uint32_t clients, nashirudder_setup *setup);

/* Opens a closed handle: a fleet on the map, each robot on its start. The map is a text of the MovingAI benchmarks (.map);
** neither it nor the other lists are needed after the call.
**
** Refused: NASHIRUDDER_ALREADY_OPEN, where `fault` stays as it was; NASHIRUDDER_WRONG_SIZE; a map's first fault;
** NASHIRUDDER_BAD_SETUP; NASHIRUDDER_ROBOT_COUNT; NASHIRUDDER_START_BLOCKED; NASHIRUDDER_START_SHARED; and NASHIRUDDER_NO_MEMORY at any time. */
NASHIRUDDER_MUST_USE nashirudder_code nashirudder_open(const uint8_t *map, size_t map_length, const nashirudder_robot *robots, size_t robots_length,
                          const nashirudder_setup *setup, nashirudder_fleet *fleet, nashirudder_fault *fault);

/* Opens a closed handle: the fleet that goes on from a chapter that was kept. `text` is what nashirudder_trace wrote at the
** chapter's end. The fleet's own chapter has the next number, and begins where that one ends. Robots, clients and errands are
** those of the chapter; the mailboxes are empty, each with room for `mailbox` or for what its client is owed. Of `robots` only
** the ranks are read, which are not kept in a chapter, and of the setup all but `clients`.
**
** Refused: NASHIRUDDER_ALREADY_OPEN, where `fault` stays as it was; NASHIRUDDER_WRONG_SIZE; a map's first fault;
** NASHIRUDDER_TRACE_NOT_JSON; NASHIRUDDER_TRACE_VERSION; NASHIRUDDER_TRACE_SHAPE; NASHIRUDDER_BAD_SETUP;
** NASHIRUDDER_CHAPTER_ILLEGAL; NASHIRUDDER_LAWS_DIFFER; NASHIRUDDER_LIMITS_DIFFER; NASHIRUDDER_CHAPTERS_SPENT;
** NASHIRUDDER_WAITED_TOO_LONG; and NASHIRUDDER_NO_MEMORY at any time. */
NASHIRUDDER_MUST_USE nashirudder_code nashirudder_reopen(const uint8_t *map, size_t map_length, const uint8_t *text, size_t text_length,
                          const nashirudder_robot *robots, size_t robots_length, const nashirudder_setup *setup,
                          nashirudder_fleet *fleet, nashirudder_fault *fault);

/* The same two, of a fleet that takes no errand to a floor cell that is not roomy for its robots. A cell is roomy if each side
** of each bridge that has the cell has at least as many cells as the fleet has robots; an errand to another one may block all
** robots for ever, and where there is none, every wait is below a bound, on every map (docs/PROMISES.md). Such an order is
** refused with NASHIRUDDER_NO_ROOM before it is taken: it has no number and no verdict. All else is as by nashirudder_open and
** nashirudder_reopen. nashirudder_map_unroomy says which cells these are.
**
** Refused as nashirudder_open and nashirudder_reopen; a fleet does not go on, with NASHIRUDDER_NO_ROOM, if an unfinished errand
** of the chapter goes to such a cell. */
NASHIRUDDER_MUST_USE nashirudder_code nashirudder_open_roomy(const uint8_t *map, size_t map_length, const nashirudder_robot *robots, size_t robots_length,
                          const nashirudder_setup *setup, nashirudder_fleet *fleet, nashirudder_fault *fault);
NASHIRUDDER_MUST_USE nashirudder_code nashirudder_reopen_roomy(const uint8_t *map, size_t map_length, const uint8_t *text, size_t text_length,
                          const nashirudder_robot *robots, size_t robots_length, const nashirudder_setup *setup,
                          nashirudder_fleet *fleet, nashirudder_fault *fault);

/* Lets the robots take turns from now on: a robot that is to go into a dead end where others are lends them its turn, until they
** are out. So each errand to a cell that is served arrives (docs/PROTOCOL.md, "Turns"), where it might block all robots for ever otherwise. On
** a map without bridges nothing changes. The chapters that follow are planned so too; a fleet that goes on from a kept chapter is
** asked again. Call it before the first order, tick or shut of a chapter.
**
** Refused: NASHIRUDDER_NOT_OPEN, NASHIRUDDER_CHAPTER_BEGUN, NASHIRUDDER_NO_TURNS, NASHIRUDDER_NO_MEMORY. */
NASHIRUDDER_MUST_USE nashirudder_code nashirudder_take_turns(nashirudder_fleet *fleet);

/* Closes a handle: frees what an open one owns. A closed one stays closed. */
void nashirudder_close(nashirudder_fleet *fleet);

/* ---- orders ---- */

/* A client orders a robot to a cell. The order is taken and judged at once, and `judgement` says how.
**
** Refused: NASHIRUDDER_NOT_OPEN, NASHIRUDDER_NO_CLIENT, of a fleet that was opened so NASHIRUDDER_NO_ROOM (nashirudder_open_roomy),
** NASHIRUDDER_MAILBOX_FULL, NASHIRUDDER_CHAPTER_FULL, NASHIRUDDER_NO_MEMORY. */
NASHIRUDDER_MUST_USE nashirudder_code nashirudder_go(nashirudder_fleet *fleet, uint32_t client, uint32_t robot, uint32_t cell,
                        nashirudder_judgement *judgement);

/* A client's last order: all that it orders later gets the verdict NASHIRUDDER_CLIENT_CLOSED. Refused as nashirudder_go. */
NASHIRUDDER_MUST_USE nashirudder_code nashirudder_close_client(nashirudder_fleet *fleet, uint32_t client, nashirudder_judgement *judgement);

/* A client gives up its accepted errand of that number, if it stands in its robot's queue and not in front. Refused as
** nashirudder_go. */
NASHIRUDDER_MUST_USE nashirudder_code nashirudder_withdraw(nashirudder_fleet *fleet, uint32_t client, uint64_t number,
                              nashirudder_judgement *judgement);

/* Takes orders one after the other, each as by nashirudder_go and its like, until one is refused; there is one place for a
** judgement for each. `count` says how many were taken: that many judgements are written, and the others stay as they
** were. What the answer refuses is the order of that place, the others after it were not tried.
**
** Refused: NASHIRUDDER_NOT_OPEN and NASHIRUDDER_WRONG_LENGTH, where `count` stays as it was; NASHIRUDDER_BAD_ORDER, or as
** nashirudder_go, by one of the orders. */
NASHIRUDDER_MUST_USE nashirudder_code nashirudder_take_many(nashirudder_fleet *fleet, const nashirudder_order *orders, size_t orders_length,
                               nashirudder_judgement *judgements, size_t judgements_length, size_t *count);

/* ---- ticks and shuts ---- */

/* Moves all robots by one step.
**
** Refused: NASHIRUDDER_NOT_OPEN, NASHIRUDDER_CLOCK_SPENT, NASHIRUDDER_CHAPTER_FULL, NASHIRUDDER_NO_MEMORY. */
NASHIRUDDER_MUST_USE nashirudder_code nashirudder_tick(nashirudder_fleet *fleet, nashirudder_report *report);

/* The same, and writes where the robots stand after the tick, the arrivals by robot (`report.arrived` of them), and the
** robots that said farewell (`report.farewells` of them). Each list has one place a robot; the places after what is written
** stay as they were.
**
** Refused: NASHIRUDDER_NOT_OPEN, NASHIRUDDER_WRONG_LENGTH, and then as nashirudder_tick. A tick that is refused writes
** nothing. */
NASHIRUDDER_MUST_USE nashirudder_code nashirudder_tick_into(nashirudder_fleet *fleet, nashirudder_report *report, uint32_t *cells, size_t cells_length,
                               nashirudder_arrival *arrivals, size_t arrivals_length, uint32_t *farewells, size_t farewells_length);

/* Shuts a robot: it finishes its errands and gets no more. `left` says whether it has none, and so took its leave at once.
**
** Refused: NASHIRUDDER_NOT_OPEN, NASHIRUDDER_NO_ROBOT, NASHIRUDDER_ALREADY_SHUT, NASHIRUDDER_CHAPTER_FULL,
** NASHIRUDDER_NO_MEMORY. */
NASHIRUDDER_MUST_USE nashirudder_code nashirudder_shut(nashirudder_fleet *fleet, uint32_t robot, bool *left);

/* Searches the field of one robot's goal as far as the next tick will need it, and sets `missing` to how many robots' fields are
** still to be searched: after 0 the next tick is planned without a search. On a large map the searches take most of the time of
** the tick after a goal is new, and a program with frames spreads them so. Nothing else changes: with searches and without, the
** same orders and ticks give the same bytes.
**
** Refused: NASHIRUDDER_NOT_OPEN, NASHIRUDDER_NO_MEMORY; what was searched by then is not searched again. */
NASHIRUDDER_MUST_USE nashirudder_code nashirudder_search_one(nashirudder_fleet *fleet, size_t *missing);

/* ---- mailboxes ---- */

/* Gives a client the first of its notices that it was not given; the notice leaves the mailbox.
**
** Refused: NASHIRUDDER_NOT_OPEN, NASHIRUDDER_NO_CLIENT, NASHIRUDDER_NO_NOTICE. */
NASHIRUDDER_MUST_USE nashirudder_code nashirudder_give(nashirudder_fleet *fleet, uint32_t client, nashirudder_note *note);

/* Gives a client its next notices, as many as there are places for, and says how many these are; they leave the mailbox. The
** places after them stay as they were.
**
** Refused: NASHIRUDDER_NOT_OPEN, NASHIRUDDER_NO_CLIENT. */
NASHIRUDDER_MUST_USE nashirudder_code nashirudder_give_many(nashirudder_fleet *fleet, uint32_t client, nashirudder_note *notes, size_t notes_length,
                               size_t *count);

/* The notice that nashirudder_give would give, which stays in the mailbox. A program that stores notices peeks at one, stores
** it, and then takes it: so it loses none if it is killed between.
**
** Refused: NASHIRUDDER_NOT_OPEN, NASHIRUDDER_NO_CLIENT, NASHIRUDDER_NO_NOTICE. */
NASHIRUDDER_MUST_USE nashirudder_code nashirudder_peek(const nashirudder_fleet *fleet, uint32_t client, nashirudder_note *note);

/* How many notices a client was not given yet.
**
** Refused: NASHIRUDDER_NOT_OPEN, NASHIRUDDER_NO_CLIENT. */
NASHIRUDDER_MUST_USE nashirudder_code nashirudder_pending_count(const nashirudder_fleet *fleet, uint32_t client, uint64_t *count);

/* How many orders of a client were taken, how many errands it has open, how many notices it was not given yet, and how many
** of the last two together its mailbox can hold: an order is taken where they leave room for two more.
**
** Refused: NASHIRUDDER_NOT_OPEN, NASHIRUDDER_NO_CLIENT. */
NASHIRUDDER_MUST_USE nashirudder_code nashirudder_account_of(const nashirudder_fleet *fleet, uint32_t client, nashirudder_account *account);

/* Lets a client's mailbox hold this many more notices and unfinished errands, and takes the memory for them at once.
**
** Refused: NASHIRUDDER_NOT_OPEN, NASHIRUDDER_NO_CLIENT, NASHIRUDDER_TOO_WIDE where it would hold more than 2^60,
** NASHIRUDDER_NO_MEMORY. */
NASHIRUDDER_MUST_USE nashirudder_code nashirudder_widen(nashirudder_fleet *fleet, uint32_t client, uint64_t extra);

/* ---- views: no call here changes the fleet ---- */

/* How many robots, and how many clients, there are. Refused: NASHIRUDDER_NOT_OPEN. */
NASHIRUDDER_MUST_USE nashirudder_code nashirudder_robots(const nashirudder_fleet *fleet, size_t *count);
NASHIRUDDER_MUST_USE nashirudder_code nashirudder_clients(const nashirudder_fleet *fleet, size_t *count);

/* How many robots' fields are still to be searched before the next tick (nashirudder_search_one), at most one for each robot that
** has an errand. Refused: NASHIRUDDER_NOT_OPEN. */
NASHIRUDDER_MUST_USE nashirudder_code nashirudder_missing(const nashirudder_fleet *fleet, size_t *missing);

/* The limits, and the number of clients. Refused: NASHIRUDDER_NOT_OPEN. */
NASHIRUDDER_MUST_USE nashirudder_code nashirudder_limits(const nashirudder_fleet *fleet, nashirudder_setup *setup);

/* Where the robots stand, by number. The list has one place a robot.
**
** Refused: NASHIRUDDER_NOT_OPEN, NASHIRUDDER_WRONG_LENGTH. */
NASHIRUDDER_MUST_USE nashirudder_code nashirudder_placement(const nashirudder_fleet *fleet, uint32_t *cells, size_t cells_length);

/* How each robot stands, by number. The list has one place a robot. The time that this takes grows with the errands of all
** robots, and with the entries of the present chapter, among which it looks for shuts.
**
** Refused: NASHIRUDDER_NOT_OPEN, NASHIRUDDER_WRONG_LENGTH, NASHIRUDDER_NO_MEMORY. */
NASHIRUDDER_MUST_USE nashirudder_code nashirudder_standings(const nashirudder_fleet *fleet, nashirudder_standing *standings, size_t standings_length);

/* A robot's errands, in the order of its queue, the front first; and a client's errands that are accepted, and neither done
** nor withdrawn, by robot and then by place. `count` is how many these are, and the places after them stay as they were.
** Where the list has fewer places only `count` is told, and the call answers NASHIRUDDER_WRONG_LENGTH: ask again with a list
** of that many. A list of no places asks for the number.
**
** Refused: NASHIRUDDER_NOT_OPEN, NASHIRUDDER_NO_ROBOT or NASHIRUDDER_NO_CLIENT, NASHIRUDDER_NO_MEMORY,
** NASHIRUDDER_WRONG_LENGTH; `count` stays as it was unless it is the last of these. */
NASHIRUDDER_MUST_USE nashirudder_code nashirudder_queue(const nashirudder_fleet *fleet, uint32_t robot, nashirudder_errand *errands, size_t errands_length,
                           size_t *count);
NASHIRUDDER_MUST_USE nashirudder_code nashirudder_open_errands(const nashirudder_fleet *fleet, uint32_t client, nashirudder_errand *errands,
                           size_t errands_length, size_t *count);

/* The ticks made so far. Refused: NASHIRUDDER_NOT_OPEN. */
NASHIRUDDER_MUST_USE nashirudder_code nashirudder_clock(const nashirudder_fleet *fleet, uint64_t *ticks);

/* How many ticks a robot has waited for the arrival at the cell of its front errand. On a map without bridges there is a
** bound on it, whatever is ordered meanwhile (docs/PROMISES.md).
**
** Refused: NASHIRUDDER_NOT_OPEN, NASHIRUDDER_NO_ROBOT, NASHIRUDDER_IDLE where it has no errand. */
NASHIRUDDER_MUST_USE nashirudder_code nashirudder_wait_of(const nashirudder_fleet *fleet, uint32_t robot, uint64_t *ticks);

/* The robot that has waited longest, the least number on a tie.
**
** Refused: NASHIRUDDER_NOT_OPEN, NASHIRUDDER_IDLE where nobody has an errand. */
NASHIRUDDER_MUST_USE nashirudder_code nashirudder_eldest(const nashirudder_fleet *fleet, uint32_t *robot);

/* How many ticks that robot has waited. Refused: NASHIRUDDER_NOT_OPEN, NASHIRUDDER_IDLE where nobody has an errand. */
NASHIRUDDER_MUST_USE nashirudder_code nashirudder_longest_wait(const nashirudder_fleet *fleet, uint64_t *ticks);

/* A number of ticks that no wait reaches, whatever is ordered. Refused: NASHIRUDDER_NOT_OPEN, NASHIRUDDER_HAS_BRIDGE. */
NASHIRUDDER_MUST_USE nashirudder_code nashirudder_wait_limit(const nashirudder_fleet *fleet, uint64_t *ticks);

/* Whether nobody has an errand. Refused: NASHIRUDDER_NOT_OPEN. */
NASHIRUDDER_MUST_USE nashirudder_code nashirudder_is_idle(const nashirudder_fleet *fleet, bool *is_idle);

/* Within how many ticks nobody has an errand any more, where no order is taken meanwhile.
**
** Refused: NASHIRUDDER_NOT_OPEN, NASHIRUDDER_HAS_BRIDGE. */
NASHIRUDDER_MUST_USE nashirudder_code nashirudder_idle_within(const nashirudder_fleet *fleet, uint64_t *ticks);

/* Whether the map has no bridge: an edge whose removal separates its two cells. Refused: NASHIRUDDER_NOT_OPEN. */
NASHIRUDDER_MUST_USE nashirudder_code nashirudder_is_bridgeless(const nashirudder_fleet *fleet, bool *is_bridgeless);

/* ---- chapters ---- */

/* Writes the trace of the present chapter (docs/TRACE.md), with no zero at its end, and its length. Where the list has no
** room for the text, only the length is told, and the call answers NASHIRUDDER_WRONG_LENGTH: ask again with a list of that
** many bytes.
**
** Refused: NASHIRUDDER_NOT_OPEN, NASHIRUDDER_NO_MEMORY, NASHIRUDDER_WRONG_LENGTH. */
NASHIRUDDER_MUST_USE nashirudder_code nashirudder_trace(const nashirudder_fleet *fleet, uint8_t *text, size_t text_length, size_t *length);

/* Begins the next chapter of the history, whose opening is the state now. The entries of the present one are let go: take
** its trace before, where it is wanted. Mailboxes stay.
**
** Refused: NASHIRUDDER_NOT_OPEN, NASHIRUDDER_BOOK_SPENT, NASHIRUDDER_NO_MEMORY. */
NASHIRUDDER_MUST_USE nashirudder_code nashirudder_next_chapter(nashirudder_fleet *fleet);

/* The same, and hands out the chapter that ended: opens a closed handle to it. So a program can write the chapter's text, in
** another thread if it likes, while the fleet goes on.
**
** Refused: NASHIRUDDER_NOT_OPEN; NASHIRUDDER_ALREADY_OPEN, if the handle to a chapter is open; NASHIRUDDER_BOOK_SPENT;
** NASHIRUDDER_NO_MEMORY. Then no chapter is handed out, and none begins. */
NASHIRUDDER_MUST_USE nashirudder_code nashirudder_next_chapter_into(nashirudder_fleet *fleet, nashirudder_chapter *chapter);

/* Writes the trace of a chapter that was handed out, as nashirudder_trace does. It only looks at the chapter.
**
** Refused: NASHIRUDDER_NOT_OPEN, NASHIRUDDER_NO_MEMORY, NASHIRUDDER_WRONG_LENGTH. */
NASHIRUDDER_MUST_USE nashirudder_code nashirudder_chapter_trace(const nashirudder_chapter *chapter, uint8_t *text, size_t text_length, size_t *length);

/* Closes a handle to a chapter: frees what an open one owns. A closed one stays closed. */
void nashirudder_chapter_close(nashirudder_chapter *chapter);

/* Keeps distances to goals that no robot has any more, up to this many bytes; 256 MiB where nothing is said. What is kept
** shows in nothing but the time and the memory that later calls need. Refused: NASHIRUDDER_NOT_OPEN. */
NASHIRUDDER_MUST_USE nashirudder_code nashirudder_keep(nashirudder_fleet *fleet, size_t bytes);

/* ---- maps, without a handle ---- */

/* Whether a step is free of conflicts: each robot stays or crosses an edge, no two come to one cell, and no two exchange
** their cells. `from` and `to` have the cells before and after, by robot. NASHIRUDDER_DONE says that it is.
**
** Refused, and told in `fault`: a map's first fault; NASHIRUDDER_TOO_MANY; NASHIRUDDER_FROM_BLOCKED;
** NASHIRUDDER_FROM_SHARED; NASHIRUDDER_TO_LENGTH; NASHIRUDDER_OFF_FLOOR; NASHIRUDDER_NOT_ADJACENT;
** NASHIRUDDER_VERTEX_CONFLICT; NASHIRUDDER_SWAPPING_CONFLICT; and NASHIRUDDER_NO_MEMORY at any time. */
NASHIRUDDER_MUST_USE nashirudder_code nashirudder_check_step(const uint8_t *map, size_t map_length, const uint32_t *from, size_t from_length,
                                const uint32_t *to, size_t to_length, nashirudder_fault *fault);

/* The bridge of a map whose lower cell is least, and among those the one whose upper cell is least.
**
** Refused: a map's first fault, told in `fault`; NASHIRUDDER_NO_BRIDGE and NASHIRUDDER_NO_MEMORY, at which `fault` may stay
** as it was. */
NASHIRUDDER_MUST_USE nashirudder_code nashirudder_first_bridge(const uint8_t *map, size_t map_length, nashirudder_edge *edge, nashirudder_fault *fault);

/* The least number of edges of a walk from each cell to the goal, NASHIRUDDER_FAR where no walk leads there. The list has
** one place a cell.
**
** Refused: a map's first fault, told in `fault`; NASHIRUDDER_WRONG_LENGTH, NASHIRUDDER_GOAL_BLOCKED and
** NASHIRUDDER_NO_MEMORY, at which `fault` may stay as it was. */
NASHIRUDDER_MUST_USE nashirudder_code nashirudder_distances(const uint8_t *map, size_t map_length, uint32_t goal, uint32_t *distances,
                               size_t distances_length, nashirudder_fault *fault);

/* Whether a text is the trace of a chapter that is legal on the map: that each entry is what the rules make of those before it
** (docs/TRACE.md). NASHIRUDDER_DONE says that it is.
**
** Refused, and told in `fault`: a map's first fault; NASHIRUDDER_TRACE_NOT_JSON; NASHIRUDDER_TRACE_VERSION;
** NASHIRUDDER_TRACE_SHAPE; NASHIRUDDER_CHAPTER_ILLEGAL with the first entry that breaks a rule, from 1 (the opening is 0), and the
** first rule that it breaks; and NASHIRUDDER_NO_MEMORY at any time. */
NASHIRUDDER_MUST_USE nashirudder_code nashirudder_judge(const uint8_t *map, size_t map_length, const uint8_t *text, size_t text_length,
                           nashirudder_fault *fault);

/* ---- a map that is read once ---- */

/* Opens a closed handle to a map: reads its text once, for any number of calls. The text is not needed after the call.
**
** Refused: NASHIRUDDER_ALREADY_OPEN, where `fault` stays as it was; a map's first fault; and NASHIRUDDER_NO_MEMORY at any time. */
NASHIRUDDER_MUST_USE nashirudder_code nashirudder_map_open(const uint8_t *text, size_t text_length, nashirudder_map *map, nashirudder_fault *fault);

/* Closes a handle to a map: frees what an open one owns. A closed one stays closed. */
void nashirudder_map_close(nashirudder_map *map);

/* How large the map is: a list of distances has `cells` places. Refused: NASHIRUDDER_NOT_OPEN. */
NASHIRUDDER_MUST_USE nashirudder_code nashirudder_map_shape(const nashirudder_map *map, nashirudder_shape *shape);

/* Whether both cells are floor, and a walk joins them. Refused: NASHIRUDDER_NOT_OPEN. */
NASHIRUDDER_MUST_USE nashirudder_code nashirudder_map_joins(const nashirudder_map *map, uint32_t a, uint32_t b, bool *joins);

/* The cells that are floor, in their order. `count` is how many these are (the shape's `floor`), and the places after them stay as
** they were. Where the list has fewer places only `count` is told, and the call answers NASHIRUDDER_WRONG_LENGTH. No memory is taken.
**
** Refused: NASHIRUDDER_NOT_OPEN, where `count` stays as it was; NASHIRUDDER_WRONG_LENGTH. */
NASHIRUDDER_MUST_USE nashirudder_code nashirudder_map_floor(const nashirudder_map *map, uint32_t *cells, size_t cells_length, size_t *count);

/* As nashirudder_check_step, nashirudder_first_bridge and nashirudder_distances, without reading the map again. Refused as
** these, but by NASHIRUDDER_NOT_OPEN in the place of a map's fault. */
NASHIRUDDER_MUST_USE nashirudder_code nashirudder_map_check_step(const nashirudder_map *map, const uint32_t *from, size_t from_length,
                               const uint32_t *to, size_t to_length, nashirudder_fault *fault);
NASHIRUDDER_MUST_USE nashirudder_code nashirudder_map_first_bridge(const nashirudder_map *map, nashirudder_edge *edge);
NASHIRUDDER_MUST_USE nashirudder_code nashirudder_map_distances(const nashirudder_map *map, uint32_t goal, uint32_t *distances,
                               size_t distances_length);

/* The floor cells that are not roomy for this many robots, in their order: errands there may block a fleet of them for ever
** (nashirudder_open_roomy). `count` is how many these are, and the places after them stay as they were. Where the list has fewer
** places only `count` is told, and the call answers NASHIRUDDER_WRONG_LENGTH. A list of no places asks for the number.
**
** Refused: NASHIRUDDER_NOT_OPEN, NASHIRUDDER_NO_MEMORY, NASHIRUDDER_WRONG_LENGTH; `count` stays as it was unless it is the last of
** these. */
NASHIRUDDER_MUST_USE nashirudder_code nashirudder_map_unroomy(const nashirudder_map *map, uint32_t robots, uint32_t *cells, size_t cells_length,
                                 size_t *count);

/* The greatest number of robots for which errands to all floor cells of the map arrive, if they take turns (nashirudder_take_turns);
** UINT32_MAX if the map has no floor.
**
** Refused: NASHIRUDDER_NOT_OPEN, NASHIRUDDER_NO_TURNS, NASHIRUDDER_NO_MEMORY; `robots` stays as it was. */
NASHIRUDDER_MUST_USE nashirudder_code nashirudder_map_served_for(const nashirudder_map *map, uint32_t *robots);

/* ---- the execution of a plan by robots that are not in step ---- */

/* A tick of a plan moves all robots at once; real robots are late. An execution says which move may begin, so that a late robot
** holds up only those that need its cells (docs/EXECUTION.md). It is not tied to a fleet of this library: the plan may be any
** planner's, and an execution knows no map, only cells by number.
**
** A robot may begin its next move if it has reached its cell, and each stay that the plan has on the new cell before has ended,
** as the clearance says. Robots of which each enters the cell that the next one leaves, in one step of the plan, turn in a cycle
** and begin together. In whatever order robots report, each cell is visited in the order of the plan, robots are always bound
** for different cells, no two exchange theirs, and while a planned move has not begun, a robot is under way or a move may begin.
**
** Opens a closed handle to the execution of a plan that begins with this placement, which has the cell of each robot, on a map
** whose cells have the numbers below `cells`. At most `ahead` steps are planned that are not reached. All memory is taken here:
** 28 bytes for each cell, 40 for each robot and step of the window, and 45 for each robot.
**
** Refused: NASHIRUDDER_ALREADY_OPEN; NASHIRUDDER_BAD_CLEARANCE; NASHIRUDDER_BAD_WINDOW if `ahead` is 0; NASHIRUDDER_NO_PLACEMENT;
** and NASHIRUDDER_NO_MEMORY at any time. */
NASHIRUDDER_MUST_USE nashirudder_code nashirudder_execution_open(uint32_t cells, const uint32_t *placement, size_t placement_length,
                               uint32_t clearance, uint32_t ahead, nashirudder_execution *execution);

/* Closes a handle to an execution: frees what an open one owns. A closed one stays closed. */
void nashirudder_execution_close(nashirudder_execution *execution);

/* Plans a further step: `to` has the cell of each robot after it. It is from the placement that was planned last, and free of
** conflicts: no two robots come to one cell, and no two exchange their cells. That the cells are next to each other is not asked.
**
** Refused: NASHIRUDDER_NOT_OPEN; NASHIRUDDER_WINDOW_FULL; NASHIRUDDER_NO_STEP, also if the list has not one cell for each robot. */
NASHIRUDDER_MUST_USE nashirudder_code nashirudder_execution_plan(nashirudder_execution *execution, const uint32_t *to, size_t to_length);

/* The next move that may begin; it begins with this call, and so do the moves of all that turn with the robot in a cycle, which
** the next calls return. Each move is returned once. Call it after each step that is planned and each report, until no move
** may begin.
**
** Refused: NASHIRUDDER_NOT_OPEN, NASHIRUDDER_NO_MOVE. */
NASHIRUDDER_MUST_USE nashirudder_code nashirudder_execution_begin(nashirudder_execution *execution, nashirudder_move *begun);

/* Takes the report that a robot has reached the cell to which it is under way. `ended` is its move; it may be null.
**
** Refused: NASHIRUDDER_NOT_OPEN; NASHIRUDDER_NOT_UNDER_WAY, also if there is no robot of this number. */
NASHIRUDDER_MUST_USE nashirudder_code nashirudder_execution_reached(nashirudder_execution *execution, uint32_t robot, nashirudder_move *ended);

/* Where a robot is, and how many planned moves it has still to begin. Refused: NASHIRUDDER_NOT_OPEN, NASHIRUDDER_NO_ROBOT. */
NASHIRUDDER_MUST_USE nashirudder_code nashirudder_execution_whereabouts(const nashirudder_execution *execution, uint32_t robot,
                               nashirudder_whereabouts *whereabouts);

/* How many steps were planned, how far behind them the robots are, and whether a further step may be planned. Refused:
** NASHIRUDDER_NOT_OPEN. */
NASHIRUDDER_MUST_USE nashirudder_code nashirudder_execution_progress(const nashirudder_execution *execution, nashirudder_progress *progress);

/* ---- a shield for any policy: one step without conflicts, from what each robot prefers ---- */

/* A policy, of whatever kind, says which cells each robot would like to go to, the best first. A step of the shield moves the
** robots by these wishes so that no two come to one cell, no two exchange their cells, and each stays or goes to a neighbour,
** whatever the policy says: by priority inheritance with backtracking (PIBT). It is not tied to a fleet, and there is no limit
** of 512 robots.
**
** Opens a closed handle to a shield for this many robots on a map. All memory is taken here: 8 bytes for each cell of the map
** and 4 for each robot. The shield does not own the map: each step is handed it again.
**
** Refused: NASHIRUDDER_ALREADY_OPEN if the shield's handle is open, NASHIRUDDER_NOT_OPEN if the map's is closed,
** NASHIRUDDER_NO_MEMORY. */
NASHIRUDDER_MUST_USE nashirudder_code nashirudder_shield_open(const nashirudder_map *map, uint32_t robots, nashirudder_shield *shield);

/* Closes a handle to a shield: frees what an open one owns. A closed one stays closed. */
void nashirudder_shield_close(nashirudder_shield *shield);

/* Writes to `to` where each robot goes from its cell in `from`. `order` has the number of each robot once, the first to be
** planned first; another one in each step lets no robot wait for ever for want of rank. `preferences` has `each` cells for each
** robot, robot 0's first: neighbours of its cell and its own cell, in any order, the best first. Not all have to be there, and
** one may be there twice: a shorter list is filled up with the robot's own cell, which each robot tries last anyway.
**
** Each robot goes to a cell of its list, or stays. The first of the order gets its first preference if any step free of
** conflicts that keeps to the lists would give it. A cell that a robot prefers to its new one is taken by another robot, or its
** robot comes to this one's cell, or this robot stays since the robot there wanted to come to its cell and could not.
**
** Refused, with nothing written to `to`: NASHIRUDDER_NOT_OPEN if either handle is closed, where `fault` stays as it was; and the
** first of NASHIRUDDER_SHIELD_MAP to NASHIRUDDER_SHIELD_FAR, in the order of their numbers, which `fault` tells: first each
** robot's cell, then the order, then the preferences. */
NASHIRUDDER_MUST_USE nashirudder_code nashirudder_shield_step(const nashirudder_map *map, nashirudder_shield *shield,
                               const uint32_t *from, size_t from_length, const uint32_t *order, size_t order_length,
                               uint16_t each, const uint32_t *preferences, size_t preferences_length,
                               uint32_t *to, size_t to_length, nashirudder_fault *fault);

#ifdef __cplusplus
}
#endif

#endif
