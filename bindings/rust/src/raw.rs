//! The declarations of nashirudder.h that this crate calls.

#[repr(C)]
#[derive(Debug)]
pub(crate) struct Handle {
    at: *mut u8,
    is_open: bool,
}

impl Handle {
    pub(crate) const CLOSED: Handle = Handle {
        at: std::ptr::null_mut(),
        is_open: false,
    };
}

#[repr(C)]
#[derive(Default)]
pub(crate) struct RawSetup {
    pub size: u32,
    pub clients: u32,
    pub life: u64,
    pub orders: u64,
    pub clock: u64,
    pub lane: u32,
    pub outlet: u32,
    pub queue: u32,
    pub mailbox: u32,
    pub chapter: u32,
    pub chapters: u32,
}

#[repr(C)]
pub(crate) struct RawOrder {
    pub number: u64,
    pub kind: u32,
    pub client: u32,
    pub robot: u32,
    pub cell: u32,
}

#[repr(C)]
#[derive(Clone, Copy, Debug, Default)]
pub(crate) struct RawArrival {
    pub number: u64,
    pub robot: u32,
    pub client: u32,
    pub cell: u32,
    pub stamp: u32,
}

#[repr(C)]
#[derive(Clone, Copy, Default)]
pub(crate) struct RawErrand {
    pub number: u64,
    pub place: u64,
    pub client: u32,
    pub robot: u32,
    pub cell: u32,
}

#[repr(C)]
#[derive(Clone, Copy, Default)]
pub(crate) struct RawStanding {
    pub wait: u64,
    pub errands: u64,
    pub cell: u32,
    pub goal: u32,
    pub state: u32,
}

#[repr(C)]
#[derive(Default)]
pub(crate) struct RawAccount {
    pub taken: u64,
    pub owed: u64,
    pub pending: u64,
    pub room: u64,
}

#[repr(C)]
#[derive(Default)]
pub(crate) struct RawShape {
    pub height: u32,
    pub width: u32,
    pub cells: u32,
    pub floor: u32,
    pub edges: u32,
}

#[repr(C)]
#[derive(Default)]
pub(crate) struct RawJudgement {
    pub number: u64,
    pub verdict: u32,
}

#[repr(C)]
#[derive(Default)]
pub(crate) struct RawNote {
    pub seq: u64,
    pub order: u64,
    pub number: u64,
    pub tick: u64,
    pub verdict: u32,
    pub robot: u32,
    pub cell: u32,
    pub stamp: u32,
}

#[repr(C)]
#[derive(Default)]
pub(crate) struct RawFault {
    pub first: u64,
    pub second: u64,
    pub code: u32,
}

#[repr(C)]
#[derive(Default)]
pub(crate) struct RawEdge {
    pub lower: u32,
    pub upper: u32,
}

#[repr(C)]
#[derive(Default)]
pub(crate) struct RawMove {
    pub tick: u64,
    pub robot: u32,
    pub from: u32,
    pub to: u32,
}

#[repr(C)]
#[derive(Default)]
pub(crate) struct RawWhereabouts {
    pub cell: u32,
    pub bound_for: u32,
    pub left: u32,
    pub is_under_way: bool,
}

#[repr(C)]
#[derive(Default)]
pub(crate) struct RawProgress {
    pub steps: u64,
    pub behind: u32,
    pub has_room: bool,
}

/// A call that opens a fleet.
pub(crate) type Open = unsafe extern "C" fn(
    map: *const u8,
    map_length: usize,
    robots: *const crate::Robot,
    robots_length: usize,
    setup: *const RawSetup,
    fleet: *mut Handle,
    fault: *mut RawFault,
) -> u32;

/// A call that opens a fleet that goes on.
pub(crate) type Reopen = unsafe extern "C" fn(
    map: *const u8,
    map_length: usize,
    text: *const u8,
    text_length: usize,
    robots: *const crate::Robot,
    robots_length: usize,
    setup: *const RawSetup,
    fleet: *mut Handle,
    fault: *mut RawFault,
) -> u32;

extern "C" {
    pub(crate) fn nashirudder_version() -> u32;
    pub(crate) fn nashirudder_is_proved() -> bool;
    pub(crate) fn nashirudder_message(
        fault: *const RawFault,
        text: *mut u8,
        text_length: usize,
    ) -> usize;
    pub(crate) fn nashirudder_setup_default(clients: u32, setup: *mut RawSetup);
    pub(crate) fn nashirudder_setup_endless(clients: u32, setup: *mut RawSetup);
    pub(crate) fn nashirudder_reopen(
        map: *const u8,
        map_length: usize,
        text: *const u8,
        text_length: usize,
        robots: *const crate::Robot,
        robots_length: usize,
        setup: *const RawSetup,
        fleet: *mut Handle,
        fault: *mut RawFault,
    ) -> u32;
    pub(crate) fn nashirudder_reopen_roomy(
        map: *const u8,
        map_length: usize,
        text: *const u8,
        text_length: usize,
        robots: *const crate::Robot,
        robots_length: usize,
        setup: *const RawSetup,
        fleet: *mut Handle,
        fault: *mut RawFault,
    ) -> u32;
    pub(crate) fn nashirudder_take_many(
        fleet: *mut Handle,
        orders: *const RawOrder,
        orders_length: usize,
        judgements: *mut RawJudgement,
        judgements_length: usize,
        count: *mut usize,
    ) -> u32;
    pub(crate) fn nashirudder_tick_into(
        fleet: *mut Handle,
        report: *mut crate::Report,
        cells: *mut u32,
        cells_length: usize,
        arrivals: *mut RawArrival,
        arrivals_length: usize,
        farewells: *mut u32,
        farewells_length: usize,
    ) -> u32;
    pub(crate) fn nashirudder_give_many(
        fleet: *mut Handle,
        client: u32,
        notes: *mut RawNote,
        notes_length: usize,
        count: *mut usize,
    ) -> u32;
    pub(crate) fn nashirudder_peek(fleet: *const Handle, client: u32, note: *mut RawNote) -> u32;
    pub(crate) fn nashirudder_clients(fleet: *const Handle, count: *mut usize) -> u32;
    pub(crate) fn nashirudder_limits(fleet: *const Handle, setup: *mut RawSetup) -> u32;
    pub(crate) fn nashirudder_longest_wait(fleet: *const Handle, ticks: *mut u64) -> u32;
    pub(crate) fn nashirudder_wait_limit(fleet: *const Handle, ticks: *mut u64) -> u32;
    pub(crate) fn nashirudder_open(
        map: *const u8,
        map_length: usize,
        robots: *const crate::Robot,
        robots_length: usize,
        setup: *const RawSetup,
        fleet: *mut Handle,
        fault: *mut RawFault,
    ) -> u32;
    pub(crate) fn nashirudder_open_roomy(
        map: *const u8,
        map_length: usize,
        robots: *const crate::Robot,
        robots_length: usize,
        setup: *const RawSetup,
        fleet: *mut Handle,
        fault: *mut RawFault,
    ) -> u32;
    pub(crate) fn nashirudder_close(fleet: *mut Handle);
    pub(crate) fn nashirudder_go(
        fleet: *mut Handle,
        client: u32,
        robot: u32,
        cell: u32,
        judgement: *mut RawJudgement,
    ) -> u32;
    pub(crate) fn nashirudder_close_client(
        fleet: *mut Handle,
        client: u32,
        judgement: *mut RawJudgement,
    ) -> u32;
    pub(crate) fn nashirudder_withdraw(
        fleet: *mut Handle,
        client: u32,
        number: u64,
        judgement: *mut RawJudgement,
    ) -> u32;
    pub(crate) fn nashirudder_tick(fleet: *mut Handle, report: *mut crate::Report) -> u32;
    pub(crate) fn nashirudder_search_one(fleet: *mut Handle, missing: *mut usize) -> u32;
    pub(crate) fn nashirudder_missing(fleet: *const Handle, missing: *mut usize) -> u32;
    pub(crate) fn nashirudder_shut(fleet: *mut Handle, robot: u32, left: *mut bool) -> u32;
    pub(crate) fn nashirudder_give(fleet: *mut Handle, client: u32, note: *mut RawNote) -> u32;
    pub(crate) fn nashirudder_pending_count(
        fleet: *const Handle,
        client: u32,
        count: *mut u64,
    ) -> u32;
    pub(crate) fn nashirudder_account_of(
        fleet: *const Handle,
        client: u32,
        account: *mut RawAccount,
    ) -> u32;
    pub(crate) fn nashirudder_take_turns(fleet: *mut Handle) -> u32;
    pub(crate) fn nashirudder_widen(fleet: *mut Handle, client: u32, extra: u64) -> u32;
    pub(crate) fn nashirudder_placement(
        fleet: *const Handle,
        cells: *mut u32,
        cells_length: usize,
    ) -> u32;
    pub(crate) fn nashirudder_standings(
        fleet: *const Handle,
        standings: *mut RawStanding,
        standings_length: usize,
    ) -> u32;
    pub(crate) fn nashirudder_queue(
        fleet: *const Handle,
        robot: u32,
        errands: *mut RawErrand,
        errands_length: usize,
        count: *mut usize,
    ) -> u32;
    pub(crate) fn nashirudder_open_errands(
        fleet: *const Handle,
        client: u32,
        errands: *mut RawErrand,
        errands_length: usize,
        count: *mut usize,
    ) -> u32;
    pub(crate) fn nashirudder_clock(fleet: *const Handle, ticks: *mut u64) -> u32;
    pub(crate) fn nashirudder_wait_of(fleet: *const Handle, robot: u32, ticks: *mut u64) -> u32;
    pub(crate) fn nashirudder_eldest(fleet: *const Handle, robot: *mut u32) -> u32;
    pub(crate) fn nashirudder_is_idle(fleet: *const Handle, is_idle: *mut bool) -> u32;
    pub(crate) fn nashirudder_idle_within(fleet: *const Handle, ticks: *mut u64) -> u32;
    pub(crate) fn nashirudder_is_bridgeless(fleet: *const Handle, is_bridgeless: *mut bool) -> u32;
    pub(crate) fn nashirudder_trace(
        fleet: *const Handle,
        text: *mut u8,
        text_length: usize,
        length: *mut usize,
    ) -> u32;
    pub(crate) fn nashirudder_next_chapter(fleet: *mut Handle) -> u32;
    pub(crate) fn nashirudder_next_chapter_into(fleet: *mut Handle, chapter: *mut Handle) -> u32;
    pub(crate) fn nashirudder_chapter_trace(
        chapter: *const Handle,
        text: *mut u8,
        text_length: usize,
        length: *mut usize,
    ) -> u32;
    pub(crate) fn nashirudder_chapter_close(chapter: *mut Handle);
    pub(crate) fn nashirudder_keep(fleet: *mut Handle, bytes: usize) -> u32;
    pub(crate) fn nashirudder_map_open(
        text: *const u8,
        text_length: usize,
        map: *mut Handle,
        fault: *mut RawFault,
    ) -> u32;
    pub(crate) fn nashirudder_map_close(map: *mut Handle);
    pub(crate) fn nashirudder_map_shape(map: *const Handle, shape: *mut RawShape) -> u32;
    pub(crate) fn nashirudder_map_joins(
        map: *const Handle,
        a: u32,
        b: u32,
        joins: *mut bool,
    ) -> u32;
    pub(crate) fn nashirudder_map_check_step(
        map: *const Handle,
        from: *const u32,
        from_length: usize,
        to: *const u32,
        to_length: usize,
        fault: *mut RawFault,
    ) -> u32;
    pub(crate) fn nashirudder_map_first_bridge(map: *const Handle, edge: *mut RawEdge) -> u32;
    pub(crate) fn nashirudder_map_distances(
        map: *const Handle,
        goal: u32,
        distances: *mut u32,
        distances_length: usize,
    ) -> u32;
    pub(crate) fn nashirudder_map_floor(
        map: *const Handle,
        cells: *mut u32,
        cells_length: usize,
        count: *mut usize,
    ) -> u32;
    pub(crate) fn nashirudder_map_unroomy(
        map: *const Handle,
        robots: u32,
        cells: *mut u32,
        cells_length: usize,
        count: *mut usize,
    ) -> u32;
    pub(crate) fn nashirudder_map_served_for(map: *const Handle, robots: *mut u32) -> u32;
    pub(crate) fn nashirudder_execution_open(
        cells: u32,
        placement: *const u32,
        placement_length: usize,
        clearance: u32,
        ahead: u32,
        execution: *mut Handle,
    ) -> u32;
    pub(crate) fn nashirudder_execution_close(execution: *mut Handle);
    pub(crate) fn nashirudder_execution_plan(
        execution: *mut Handle,
        to: *const u32,
        to_length: usize,
    ) -> u32;
    pub(crate) fn nashirudder_execution_begin(execution: *mut Handle, begun: *mut RawMove) -> u32;
    pub(crate) fn nashirudder_execution_reached(
        execution: *mut Handle,
        robot: u32,
        ended: *mut RawMove,
    ) -> u32;
    pub(crate) fn nashirudder_execution_whereabouts(
        execution: *const Handle,
        robot: u32,
        whereabouts: *mut RawWhereabouts,
    ) -> u32;
    pub(crate) fn nashirudder_execution_progress(
        execution: *const Handle,
        progress: *mut RawProgress,
    ) -> u32;
    pub(crate) fn nashirudder_shield_open(
        map: *const Handle,
        robots: u32,
        shield: *mut Handle,
    ) -> u32;
    pub(crate) fn nashirudder_shield_close(shield: *mut Handle);
    pub(crate) fn nashirudder_shield_step(
        map: *const Handle,
        shield: *mut Handle,
        from: *const u32,
        from_length: usize,
        order: *const u32,
        order_length: usize,
        each: u16,
        preferences: *const u32,
        preferences_length: usize,
        to: *mut u32,
        to_length: usize,
        fault: *mut RawFault,
    ) -> u32;
    pub(crate) fn nashirudder_judge(
        map: *const u8,
        map_length: usize,
        text: *const u8,
        text_length: usize,
        fault: *mut RawFault,
    ) -> u32;
    pub(crate) fn nashirudder_check_step(
        map: *const u8,
        map_length: usize,
        from: *const u32,
        from_length: usize,
        to: *const u32,
        to_length: usize,
        fault: *mut RawFault,
    ) -> u32;
    pub(crate) fn nashirudder_first_bridge(
        map: *const u8,
        map_length: usize,
        edge: *mut RawEdge,
        fault: *mut RawFault,
    ) -> u32;
    pub(crate) fn nashirudder_distances(
        map: *const u8,
        map_length: usize,
        goal: u32,
        distances: *mut u32,
        distances_length: usize,
        fault: *mut RawFault,
    ) -> u32;
}
