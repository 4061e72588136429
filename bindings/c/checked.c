/*
** The functions of nashirudder.h, as a program calls them. Each one calls the export of crates/fleet_c of the same name, which
** tools/build_c renames to raw_.. and hides. What it does besides:
**
** - it answers nulls, which the exports are never given: NASHIRUDDER_NULL_POINTER, or a place of its own for a result that is
**   not wanted and for an empty list;
** - it gives an export that only looks a copy of the handle. Such an export takes the handle for itself during the call and puts
**   back what it found; with a copy nothing of the caller's is written, and any number of threads may look at once;
** - a lane, outlet or mailbox of 0 fits the robots (fitted).
*/
#include "nashirudder.h"

/* Which tools/build_c has made of the exports: the types are the same, but that an export may write what it is given as const. */
#define RAW(name) extern __typeof__(nashirudder_##name) raw_nashirudder_##name
RAW(message);
RAW(setup_default);
RAW(setup_endless);
RAW(open);
RAW(open_roomy);
RAW(reopen);
RAW(reopen_roomy);
RAW(take_turns);
RAW(close);
RAW(go);
RAW(close_client);
RAW(withdraw);
RAW(take_many);
RAW(tick);
RAW(tick_into);
RAW(shut);
RAW(search_one);
RAW(give);
RAW(give_many);
RAW(peek);
RAW(pending_count);
RAW(account_of);
RAW(widen);
RAW(robots);
RAW(missing);
RAW(clients);
RAW(limits);
RAW(placement);
RAW(standings);
RAW(queue);
RAW(open_errands);
RAW(clock);
RAW(wait_of);
RAW(eldest);
RAW(longest_wait);
RAW(wait_limit);
RAW(is_idle);
RAW(idle_within);
RAW(is_bridgeless);
RAW(trace);
RAW(next_chapter);
RAW(next_chapter_into);
RAW(chapter_trace);
RAW(chapter_close);
RAW(keep);
RAW(check_step);
RAW(first_bridge);
RAW(distances);
RAW(judge);
RAW(map_open);
RAW(map_close);
RAW(map_shape);
RAW(map_joins);
RAW(map_floor);
RAW(map_check_step);
RAW(map_first_bridge);
RAW(map_distances);
RAW(map_unroomy);
RAW(map_served_for);
RAW(execution_open);
RAW(execution_close);
RAW(execution_plan);
RAW(execution_begin);
RAW(execution_reached);
RAW(execution_whereabouts);
RAW(execution_progress);
RAW(shield_open);
RAW(shield_close);
RAW(shield_step);

/* The address of a list, which is null only if the list is empty; then it is another address, which nobody reads. */
#define LIST(type, list) ((list) ? (list) : (type *)(void *)nothing)

static uint64_t nothing[1];

/* Room for an errand to each robot and a further one to be judged, and for as much as small fleets have in any case. */
static uint32_t fitting(size_t robots) {
    if (robots <= 31) return 64;
    return robots >= 32767 ? 65536 : (uint32_t)(2 * robots + 2);
}

/* The setup, or, where it has a lane, outlet or mailbox of 0, a copy of it at `room` in which these fit the robots. */
static const nashirudder_setup *fitted(const nashirudder_setup *setup, size_t robots, nashirudder_setup *room) {
    if (setup->size != sizeof *setup || (setup->lane && setup->outlet && setup->mailbox)) return setup;
    *room = *setup;
    if (!room->lane) room->lane = fitting(robots);
    if (!room->outlet) room->outlet = fitting(robots);
    if (!room->mailbox) room->mailbox = fitting(robots);
    return room;
}

size_t nashirudder_message(const nashirudder_fault *fault, char *text, size_t text_length) {
    if (!fault || (!text && text_length)) return 0;
    return raw_nashirudder_message(fault, LIST(char, text), text_length);
}

void nashirudder_setup_default(uint32_t clients, nashirudder_setup *setup) {
    if (!setup) return;
    raw_nashirudder_setup_default(clients, setup);
    setup->lane = setup->outlet = setup->mailbox = 0;
}

void nashirudder_setup_endless(uint32_t clients, nashirudder_setup *setup) {
    if (!setup) return;
    raw_nashirudder_setup_endless(clients, setup);
    setup->lane = setup->outlet = setup->mailbox = 0;
}

nashirudder_code nashirudder_open(const uint8_t *map, size_t map_length,
        const nashirudder_robot *robots, size_t robots_length, const nashirudder_setup *setup, nashirudder_fleet *fleet,
        nashirudder_fault *fault) {
    nashirudder_fault unread_fault;
    nashirudder_setup room;
    if ((!map && map_length) || (!robots && robots_length) || !setup || !fleet) return NASHIRUDDER_NULL_POINTER;
    return raw_nashirudder_open(LIST(const uint8_t, map), map_length, LIST(const nashirudder_robot,
        robots), robots_length, fitted(setup, robots_length, &room), fleet, fault ? fault : &unread_fault);
}

nashirudder_code nashirudder_open_roomy(const uint8_t *map, size_t map_length,
        const nashirudder_robot *robots, size_t robots_length, const nashirudder_setup *setup, nashirudder_fleet *fleet,
        nashirudder_fault *fault) {
    nashirudder_fault unread_fault;
    nashirudder_setup room;
    if ((!map && map_length) || (!robots && robots_length) || !setup || !fleet) return NASHIRUDDER_NULL_POINTER;
    return raw_nashirudder_open_roomy(LIST(const uint8_t, map), map_length, LIST(const nashirudder_robot,
        robots), robots_length, fitted(setup, robots_length, &room), fleet, fault ? fault : &unread_fault);
}

nashirudder_code nashirudder_reopen(const uint8_t *map, size_t map_length,
        const uint8_t *text, size_t text_length, const nashirudder_robot *robots, size_t robots_length,
        const nashirudder_setup *setup, nashirudder_fleet *fleet, nashirudder_fault *fault) {
    nashirudder_fault unread_fault;
    nashirudder_setup room;
    if ((!map && map_length) || (!text && text_length) || (!robots && robots_length) || !setup
        || !fleet) return NASHIRUDDER_NULL_POINTER;
    return raw_nashirudder_reopen(LIST(const uint8_t, map), map_length, LIST(const uint8_t, text),
        text_length, LIST(const nashirudder_robot, robots), robots_length, fitted(setup, robots_length, &room), fleet,
        fault ? fault : &unread_fault);
}

nashirudder_code nashirudder_reopen_roomy(const uint8_t *map, size_t map_length,
        const uint8_t *text, size_t text_length, const nashirudder_robot *robots, size_t robots_length,
        const nashirudder_setup *setup, nashirudder_fleet *fleet, nashirudder_fault *fault) {
    nashirudder_fault unread_fault;
    nashirudder_setup room;
    if ((!map && map_length) || (!text && text_length) || (!robots && robots_length) || !setup
        || !fleet) return NASHIRUDDER_NULL_POINTER;
    return raw_nashirudder_reopen_roomy(LIST(const uint8_t, map), map_length, LIST(const uint8_t, text),
        text_length, LIST(const nashirudder_robot, robots), robots_length, fitted(setup, robots_length, &room), fleet,
        fault ? fault : &unread_fault);
}

void nashirudder_close(nashirudder_fleet *fleet) {
    if (!fleet) return;
    raw_nashirudder_close(fleet);
}

nashirudder_code nashirudder_go(nashirudder_fleet *fleet, uint32_t client,
        uint32_t robot, uint32_t cell, nashirudder_judgement *judgement) {
    nashirudder_judgement unread_judgement;
    if (!fleet) return NASHIRUDDER_NULL_POINTER;
    return raw_nashirudder_go(fleet, client, robot, cell, judgement ? judgement : &unread_judgement);
}

nashirudder_code nashirudder_close_client(nashirudder_fleet *fleet,
        uint32_t client, nashirudder_judgement *judgement) {
    nashirudder_judgement unread_judgement;
    if (!fleet) return NASHIRUDDER_NULL_POINTER;
    return raw_nashirudder_close_client(fleet, client, judgement ? judgement : &unread_judgement);
}

nashirudder_code nashirudder_withdraw(nashirudder_fleet *fleet, uint32_t client,
        uint64_t number, nashirudder_judgement *judgement) {
    nashirudder_judgement unread_judgement;
    if (!fleet) return NASHIRUDDER_NULL_POINTER;
    return raw_nashirudder_withdraw(fleet, client, number, judgement ? judgement : &unread_judgement);
}

nashirudder_code nashirudder_take_many(nashirudder_fleet *fleet,
        const nashirudder_order *orders, size_t orders_length, nashirudder_judgement *judgements, size_t judgements_length,
        size_t *count) {
    if (!fleet || (!orders && orders_length) || (!judgements && judgements_length)
        || !count) return NASHIRUDDER_NULL_POINTER;
    return raw_nashirudder_take_many(fleet, LIST(const nashirudder_order, orders), orders_length,
        LIST(nashirudder_judgement, judgements), judgements_length, count);
}

nashirudder_code nashirudder_tick(nashirudder_fleet *fleet,
        nashirudder_report *report) {
    nashirudder_report unread_report;
    if (!fleet) return NASHIRUDDER_NULL_POINTER;
    return raw_nashirudder_tick(fleet, report ? report : &unread_report);
}

nashirudder_code nashirudder_tick_into(nashirudder_fleet *fleet,
        nashirudder_report *report, uint32_t *cells, size_t cells_length, nashirudder_arrival *arrivals,
        size_t arrivals_length, uint32_t *farewells, size_t farewells_length) {
    nashirudder_report unread_report;
    if (!fleet || (!cells && cells_length) || (!arrivals && arrivals_length)
        || (!farewells && farewells_length)) return NASHIRUDDER_NULL_POINTER;
    return raw_nashirudder_tick_into(fleet, report ? report : &unread_report, LIST(uint32_t, cells),
        cells_length, LIST(nashirudder_arrival, arrivals), arrivals_length,
        LIST(uint32_t, farewells), farewells_length);
}

nashirudder_code nashirudder_shut(nashirudder_fleet *fleet, uint32_t robot,
        bool *left) {
    bool unread_left;
    if (!fleet) return NASHIRUDDER_NULL_POINTER;
    return raw_nashirudder_shut(fleet, robot, left ? left : &unread_left);
}

nashirudder_code nashirudder_search_one(nashirudder_fleet *fleet,
        size_t *missing) {
    size_t unread_missing;
    if (!fleet) return NASHIRUDDER_NULL_POINTER;
    return raw_nashirudder_search_one(fleet, missing ? missing : &unread_missing);
}

nashirudder_code nashirudder_give(nashirudder_fleet *fleet, uint32_t client,
        nashirudder_note *note) {
    if (!fleet || !note) return NASHIRUDDER_NULL_POINTER;
    return raw_nashirudder_give(fleet, client, note);
}

nashirudder_code nashirudder_give_many(nashirudder_fleet *fleet,
        uint32_t client, nashirudder_note *notes, size_t notes_length, size_t *count) {
    if (!fleet || (!notes && notes_length) || !count) return NASHIRUDDER_NULL_POINTER;
    return raw_nashirudder_give_many(fleet, client, LIST(nashirudder_note, notes), notes_length, count);
}

nashirudder_code nashirudder_peek(const nashirudder_fleet *fleet,
        uint32_t client, nashirudder_note *note) {
    if (!fleet || !note) return NASHIRUDDER_NULL_POINTER;
    nashirudder_fleet seen = *fleet;
    return raw_nashirudder_peek(&seen, client, note);
}

nashirudder_code nashirudder_pending_count(const nashirudder_fleet *fleet,
        uint32_t client, uint64_t *count) {
    if (!fleet || !count) return NASHIRUDDER_NULL_POINTER;
    nashirudder_fleet seen = *fleet;
    return raw_nashirudder_pending_count(&seen, client, count);
}

nashirudder_code nashirudder_account_of(const nashirudder_fleet *fleet,
        uint32_t client, nashirudder_account *account) {
    if (!fleet || !account) return NASHIRUDDER_NULL_POINTER;
    nashirudder_fleet seen = *fleet;
    return raw_nashirudder_account_of(&seen, client, account);
}

nashirudder_code nashirudder_take_turns(nashirudder_fleet *fleet) {
    if (!fleet) return NASHIRUDDER_NULL_POINTER;
    return raw_nashirudder_take_turns(fleet);
}

nashirudder_code nashirudder_widen(nashirudder_fleet *fleet, uint32_t client,
        uint64_t extra) {
    if (!fleet) return NASHIRUDDER_NULL_POINTER;
    return raw_nashirudder_widen(fleet, client, extra);
}

nashirudder_code nashirudder_robots(const nashirudder_fleet *fleet,
        size_t *count) {
    if (!fleet || !count) return NASHIRUDDER_NULL_POINTER;
    nashirudder_fleet seen = *fleet;
    return raw_nashirudder_robots(&seen, count);
}

nashirudder_code nashirudder_missing(const nashirudder_fleet *fleet,
        size_t *missing) {
    if (!fleet || !missing) return NASHIRUDDER_NULL_POINTER;
    nashirudder_fleet seen = *fleet;
    return raw_nashirudder_missing(&seen, missing);
}

nashirudder_code nashirudder_clients(const nashirudder_fleet *fleet,
        size_t *count) {
    if (!fleet || !count) return NASHIRUDDER_NULL_POINTER;
    nashirudder_fleet seen = *fleet;
    return raw_nashirudder_clients(&seen, count);
}

nashirudder_code nashirudder_limits(const nashirudder_fleet *fleet,
        nashirudder_setup *setup) {
    if (!fleet || !setup) return NASHIRUDDER_NULL_POINTER;
    nashirudder_fleet seen = *fleet;
    return raw_nashirudder_limits(&seen, setup);
}

nashirudder_code nashirudder_placement(const nashirudder_fleet *fleet,
        uint32_t *cells, size_t cells_length) {
    if (!fleet || (!cells && cells_length)) return NASHIRUDDER_NULL_POINTER;
    nashirudder_fleet seen = *fleet;
    return raw_nashirudder_placement(&seen, LIST(uint32_t, cells), cells_length);
}

nashirudder_code nashirudder_standings(const nashirudder_fleet *fleet,
        nashirudder_standing *standings, size_t standings_length) {
    if (!fleet || (!standings && standings_length)) return NASHIRUDDER_NULL_POINTER;
    nashirudder_fleet seen = *fleet;
    return raw_nashirudder_standings(&seen, LIST(nashirudder_standing, standings), standings_length);
}

nashirudder_code nashirudder_queue(const nashirudder_fleet *fleet,
        uint32_t robot, nashirudder_errand *errands, size_t errands_length, size_t *count) {
    if (!fleet || (!errands && errands_length) || !count) return NASHIRUDDER_NULL_POINTER;
    nashirudder_fleet seen = *fleet;
    return raw_nashirudder_queue(&seen, robot, LIST(nashirudder_errand, errands), errands_length, count);
}

nashirudder_code nashirudder_open_errands(const nashirudder_fleet *fleet,
        uint32_t client, nashirudder_errand *errands, size_t errands_length, size_t *count) {
    if (!fleet || (!errands && errands_length) || !count) return NASHIRUDDER_NULL_POINTER;
    nashirudder_fleet seen = *fleet;
    return raw_nashirudder_open_errands(&seen, client, LIST(nashirudder_errand, errands), errands_length, count);
}

nashirudder_code nashirudder_clock(const nashirudder_fleet *fleet,
        uint64_t *ticks) {
    if (!fleet || !ticks) return NASHIRUDDER_NULL_POINTER;
    nashirudder_fleet seen = *fleet;
    return raw_nashirudder_clock(&seen, ticks);
}

nashirudder_code nashirudder_wait_of(const nashirudder_fleet *fleet,
        uint32_t robot, uint64_t *ticks) {
    if (!fleet || !ticks) return NASHIRUDDER_NULL_POINTER;
    nashirudder_fleet seen = *fleet;
    return raw_nashirudder_wait_of(&seen, robot, ticks);
}

nashirudder_code nashirudder_eldest(const nashirudder_fleet *fleet,
        uint32_t *robot) {
    if (!fleet || !robot) return NASHIRUDDER_NULL_POINTER;
    nashirudder_fleet seen = *fleet;
    return raw_nashirudder_eldest(&seen, robot);
}

nashirudder_code nashirudder_longest_wait(const nashirudder_fleet *fleet,
        uint64_t *ticks) {
    if (!fleet || !ticks) return NASHIRUDDER_NULL_POINTER;
    nashirudder_fleet seen = *fleet;
    return raw_nashirudder_longest_wait(&seen, ticks);
}

nashirudder_code nashirudder_wait_limit(const nashirudder_fleet *fleet,
        uint64_t *ticks) {
    if (!fleet || !ticks) return NASHIRUDDER_NULL_POINTER;
    nashirudder_fleet seen = *fleet;
    return raw_nashirudder_wait_limit(&seen, ticks);
}

nashirudder_code nashirudder_is_idle(const nashirudder_fleet *fleet,
        bool *is_idle) {
    if (!fleet || !is_idle) return NASHIRUDDER_NULL_POINTER;
    nashirudder_fleet seen = *fleet;
    return raw_nashirudder_is_idle(&seen, is_idle);
}

nashirudder_code nashirudder_idle_within(const nashirudder_fleet *fleet,
        uint64_t *ticks) {
    if (!fleet || !ticks) return NASHIRUDDER_NULL_POINTER;
    nashirudder_fleet seen = *fleet;
    return raw_nashirudder_idle_within(&seen, ticks);
}

nashirudder_code nashirudder_is_bridgeless(const nashirudder_fleet *fleet,
        bool *is_bridgeless) {
    if (!fleet || !is_bridgeless) return NASHIRUDDER_NULL_POINTER;
    nashirudder_fleet seen = *fleet;
    return raw_nashirudder_is_bridgeless(&seen, is_bridgeless);
}

nashirudder_code nashirudder_trace(const nashirudder_fleet *fleet,
        uint8_t *text, size_t text_length, size_t *length) {
    if (!fleet || (!text && text_length) || !length) return NASHIRUDDER_NULL_POINTER;
    nashirudder_fleet seen = *fleet;
    return raw_nashirudder_trace(&seen, LIST(uint8_t, text), text_length, length);
}

nashirudder_code nashirudder_next_chapter(nashirudder_fleet *fleet) {
    if (!fleet) return NASHIRUDDER_NULL_POINTER;
    return raw_nashirudder_next_chapter(fleet);
}

nashirudder_code nashirudder_next_chapter_into(nashirudder_fleet *fleet,
        nashirudder_chapter *chapter) {
    if (!fleet || !chapter) return NASHIRUDDER_NULL_POINTER;
    return raw_nashirudder_next_chapter_into(fleet, chapter);
}

nashirudder_code nashirudder_chapter_trace(const nashirudder_chapter *chapter,
        uint8_t *text, size_t text_length, size_t *length) {
    if (!chapter || (!text && text_length) || !length) return NASHIRUDDER_NULL_POINTER;
    nashirudder_chapter seen = *chapter;
    return raw_nashirudder_chapter_trace(&seen, LIST(uint8_t, text), text_length, length);
}

void nashirudder_chapter_close(nashirudder_chapter *chapter) {
    if (!chapter) return;
    raw_nashirudder_chapter_close(chapter);
}

nashirudder_code nashirudder_keep(nashirudder_fleet *fleet, size_t bytes) {
    if (!fleet) return NASHIRUDDER_NULL_POINTER;
    return raw_nashirudder_keep(fleet, bytes);
}

nashirudder_code nashirudder_check_step(const uint8_t *map, size_t map_length,
        const uint32_t *from, size_t from_length, const uint32_t *to, size_t to_length, nashirudder_fault *fault) {
    nashirudder_fault unread_fault;
    if ((!map && map_length) || (!from && from_length) || (!to && to_length)) return NASHIRUDDER_NULL_POINTER;
    return raw_nashirudder_check_step(LIST(const uint8_t, map), map_length, LIST(const uint32_t,
        from), from_length, LIST(const uint32_t, to), to_length, fault ? fault : &unread_fault);
}

nashirudder_code nashirudder_first_bridge(const uint8_t *map, size_t map_length,
        nashirudder_edge *edge, nashirudder_fault *fault) {
    nashirudder_fault unread_fault;
    if ((!map && map_length) || !edge) return NASHIRUDDER_NULL_POINTER;
    return raw_nashirudder_first_bridge(LIST(const uint8_t, map), map_length, edge, fault ? fault : &unread_fault);
}

nashirudder_code nashirudder_distances(const uint8_t *map, size_t map_length,
        uint32_t goal, uint32_t *distances, size_t distances_length, nashirudder_fault *fault) {
    nashirudder_fault unread_fault;
    if ((!map && map_length) || (!distances && distances_length)) return NASHIRUDDER_NULL_POINTER;
    return raw_nashirudder_distances(LIST(const uint8_t, map), map_length, goal, LIST(uint32_t,
        distances), distances_length, fault ? fault : &unread_fault);
}

nashirudder_code nashirudder_judge(const uint8_t *map, size_t map_length,
        const uint8_t *text, size_t text_length, nashirudder_fault *fault) {
    nashirudder_fault unread_fault;
    if ((!map && map_length) || (!text && text_length)) return NASHIRUDDER_NULL_POINTER;
    return raw_nashirudder_judge(LIST(const uint8_t, map), map_length, LIST(const uint8_t, text), text_length,
        fault ? fault : &unread_fault);
}

nashirudder_code nashirudder_map_open(const uint8_t *text, size_t text_length,
        nashirudder_map *map, nashirudder_fault *fault) {
    nashirudder_fault unread_fault;
    if ((!text && text_length) || !map) return NASHIRUDDER_NULL_POINTER;
    return raw_nashirudder_map_open(LIST(const uint8_t, text), text_length, map, fault ? fault : &unread_fault);
}

void nashirudder_map_close(nashirudder_map *map) {
    if (!map) return;
    raw_nashirudder_map_close(map);
}

nashirudder_code nashirudder_map_shape(const nashirudder_map *map, nashirudder_shape *shape) {
    if (!map || !shape) return NASHIRUDDER_NULL_POINTER;
    nashirudder_map seen = *map;
    return raw_nashirudder_map_shape(&seen, shape);
}

nashirudder_code nashirudder_map_joins(const nashirudder_map *map, uint32_t a, uint32_t b, bool *joins) {
    if (!map || !joins) return NASHIRUDDER_NULL_POINTER;
    nashirudder_map seen = *map;
    return raw_nashirudder_map_joins(&seen, a, b, joins);
}

nashirudder_code nashirudder_map_floor(const nashirudder_map *map, uint32_t *cells,
        size_t cells_length, size_t *count) {
    if (!map || (!cells && cells_length) || !count) return NASHIRUDDER_NULL_POINTER;
    nashirudder_map seen = *map;
    return raw_nashirudder_map_floor(&seen, LIST(uint32_t, cells), cells_length, count);
}

nashirudder_code nashirudder_map_check_step(const nashirudder_map *map, const uint32_t *from, size_t from_length,
        const uint32_t *to, size_t to_length, nashirudder_fault *fault) {
    nashirudder_fault unread_fault;
    if (!map || (!from && from_length) || (!to && to_length)) return NASHIRUDDER_NULL_POINTER;
    nashirudder_map seen = *map;
    return raw_nashirudder_map_check_step(&seen, LIST(const uint32_t, from), from_length, LIST(const uint32_t, to), to_length,
        fault ? fault : &unread_fault);
}

nashirudder_code nashirudder_map_first_bridge(const nashirudder_map *map, nashirudder_edge *edge) {
    if (!map || !edge) return NASHIRUDDER_NULL_POINTER;
    nashirudder_map seen = *map;
    return raw_nashirudder_map_first_bridge(&seen, edge);
}

nashirudder_code nashirudder_map_distances(const nashirudder_map *map, uint32_t goal,
        uint32_t *distances, size_t distances_length) {
    if (!map || (!distances && distances_length)) return NASHIRUDDER_NULL_POINTER;
    nashirudder_map seen = *map;
    return raw_nashirudder_map_distances(&seen, goal, LIST(uint32_t, distances), distances_length);
}

nashirudder_code nashirudder_map_unroomy(const nashirudder_map *map, uint32_t robots,
        uint32_t *cells, size_t cells_length, size_t *count) {
    if (!map || (!cells && cells_length) || !count) return NASHIRUDDER_NULL_POINTER;
    nashirudder_map seen = *map;
    return raw_nashirudder_map_unroomy(&seen, robots, LIST(uint32_t, cells), cells_length, count);
}

nashirudder_code nashirudder_map_served_for(const nashirudder_map *map, uint32_t *robots) {
    if (!map || !robots) return NASHIRUDDER_NULL_POINTER;
    nashirudder_map seen = *map;
    return raw_nashirudder_map_served_for(&seen, robots);
}

nashirudder_code nashirudder_execution_open(uint32_t cells, const uint32_t *placement, size_t placement_length,
        uint32_t clearance, uint32_t ahead, nashirudder_execution *execution) {
    if ((!placement && placement_length) || !execution) return NASHIRUDDER_NULL_POINTER;
    return raw_nashirudder_execution_open(cells, LIST(const uint32_t, placement), placement_length, clearance, ahead, execution);
}

void nashirudder_execution_close(nashirudder_execution *execution) {
    if (!execution) return;
    raw_nashirudder_execution_close(execution);
}

nashirudder_code nashirudder_execution_plan(nashirudder_execution *execution, const uint32_t *to, size_t to_length) {
    if (!execution || (!to && to_length)) return NASHIRUDDER_NULL_POINTER;
    return raw_nashirudder_execution_plan(execution, LIST(const uint32_t, to), to_length);
}

nashirudder_code nashirudder_execution_begin(nashirudder_execution *execution, nashirudder_move *begun) {
    if (!execution || !begun) return NASHIRUDDER_NULL_POINTER;
    return raw_nashirudder_execution_begin(execution, begun);
}

nashirudder_code nashirudder_execution_reached(nashirudder_execution *execution, uint32_t robot, nashirudder_move *ended) {
    nashirudder_move unread_move;
    if (!execution) return NASHIRUDDER_NULL_POINTER;
    return raw_nashirudder_execution_reached(execution, robot, ended ? ended : &unread_move);
}

nashirudder_code nashirudder_execution_whereabouts(const nashirudder_execution *execution, uint32_t robot,
        nashirudder_whereabouts *whereabouts) {
    if (!execution || !whereabouts) return NASHIRUDDER_NULL_POINTER;
    nashirudder_execution seen = *execution;
    return raw_nashirudder_execution_whereabouts(&seen, robot, whereabouts);
}

nashirudder_code nashirudder_execution_progress(const nashirudder_execution *execution, nashirudder_progress *progress) {
    if (!execution || !progress) return NASHIRUDDER_NULL_POINTER;
    nashirudder_execution seen = *execution;
    return raw_nashirudder_execution_progress(&seen, progress);
}

nashirudder_code nashirudder_shield_open(const nashirudder_map *map, uint32_t robots, nashirudder_shield *shield) {
    if (!map || !shield) return NASHIRUDDER_NULL_POINTER;
    nashirudder_map seen = *map;
    return raw_nashirudder_shield_open(&seen, robots, shield);
}

void nashirudder_shield_close(nashirudder_shield *shield) {
    if (!shield) return;
    raw_nashirudder_shield_close(shield);
}

nashirudder_code nashirudder_shield_step(const nashirudder_map *map, nashirudder_shield *shield, const uint32_t *from, size_t from_length,
        const uint32_t *order, size_t order_length, uint16_t each, const uint32_t *preferences, size_t preferences_length,
        uint32_t *to, size_t to_length, nashirudder_fault *fault) {
    nashirudder_fault unread_fault;
    if (!map || !shield || (!from && from_length) || (!order && order_length) || (!preferences && preferences_length) || (!to && to_length)) {
        return NASHIRUDDER_NULL_POINTER;
    }
    nashirudder_map seen = *map;
    return raw_nashirudder_shield_step(&seen, shield, LIST(const uint32_t, from), from_length, LIST(const uint32_t, order), order_length,
        each, LIST(const uint32_t, preferences), preferences_length, LIST(uint32_t, to), to_length, fault ? fault : &unread_fault);
}
