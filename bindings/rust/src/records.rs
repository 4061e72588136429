//! What a fleet tells.

use crate::order::Verdict;
use crate::raw::{RawArrival, RawErrand, RawNote, RawStanding};

const NOWHERE: u32 = u32::MAX;

/// What a tick did.
#[repr(C)]
#[derive(Clone, Copy, Debug, Default, PartialEq, Eq, Hash)]
pub struct Report {
    /// The ticks made so far, with this one.
    pub tick: u64,
    /// How many robots arrived.
    pub arrived: u32,
    /// How many robots took their leave.
    pub farewells: u32,
}

/// An arrival that a tick shows.
#[derive(Clone, Copy, Debug, PartialEq, Eq, Hash)]
pub struct Arrival {
    /// The errand's number among the client's accepted errands.
    pub number: u64,
    pub robot: u32,
    pub client: u32,
    /// The robot's cell after the tick.
    pub cell: u32,
    pub stamp: u32,
}

impl Arrival {
    pub(crate) fn of(told: &RawArrival) -> Arrival {
        Arrival {
            number: told.number,
            robot: told.robot,
            client: told.client,
            cell: told.cell,
            stamp: told.stamp,
        }
    }
}

/// What a tick shows. It can be used for tick after tick, and then takes no more memory.
#[derive(Clone, Debug, Default)]
pub struct Shown {
    /// Where the robots stand after the tick.
    pub cells: Vec<u32>,
    /// Who arrived, by robot.
    pub arrivals: Vec<Arrival>,
    /// The robots that said farewell.
    pub farewells: Vec<u32>,
    pub(crate) told: Vec<RawArrival>,
}

/// An errand that is accepted, and neither done nor withdrawn, and where it stands.
#[derive(Clone, Copy, Debug, PartialEq, Eq, Hash)]
pub struct OpenErrand {
    /// Its number among the client's accepted errands, from 1.
    pub number: u64,
    /// Its place in the robot's queue, from 1. At place 1 the robot is on its way to the cell.
    pub place: u64,
    pub client: u32,
    /// The robot in whose queue it is.
    pub robot: u32,
    /// The cell that the robot is sent to.
    pub cell: u32,
}

impl OpenErrand {
    pub(crate) fn of(told: &RawErrand) -> OpenErrand {
        OpenErrand {
            number: told.number,
            place: told.place,
            client: told.client,
            robot: told.robot,
            cell: told.cell,
        }
    }
}

/// What a robot does.
#[non_exhaustive]
#[derive(Clone, Copy, Debug, PartialEq, Eq, Hash)]
pub enum State {
    /// It has no errand.
    Free,
    /// It has errands.
    Busy,
    /// It takes no further errands; it may still have some.
    Shut,
    /// A state that the library has and this crate has not.
    Unknown(u32),
}

impl State {
    /// The word for it.
    pub fn name(self) -> &'static str {
        match self {
            State::Free => "free",
            State::Busy => "busy",
            State::Shut => "shut",
            State::Unknown(_) => "unknown",
        }
    }

    pub(crate) fn of(state: u32) -> State {
        match state {
            1 => State::Free,
            2 => State::Busy,
            3 => State::Shut,
            state => State::Unknown(state),
        }
    }
}

/// How a robot stands.
#[derive(Clone, Copy, Debug, PartialEq, Eq, Hash)]
pub struct Standing {
    pub state: State,
    pub cell: u32,
    /// The cell of its front errand, if it has one.
    pub goal: Option<u32>,
    /// How many errands it has.
    pub errands: u64,
    /// How many ticks it has waited for the arrival at its goal, if it has one.
    pub wait: Option<u64>,
}

impl Standing {
    pub(crate) fn of(told: &RawStanding) -> Standing {
        let is_busy = told.goal != NOWHERE;
        Standing {
            state: State::of(told.state),
            cell: told.cell,
            goal: if is_busy { Some(told.goal) } else { None },
            errands: told.errands,
            wait: if is_busy { Some(told.wait) } else { None },
        }
    }
}

/// A notice to a client.
#[non_exhaustive]
#[derive(Clone, Copy, Debug, PartialEq, Eq, Hash)]
pub enum Notice {
    /// The verdict of the client's order.
    Verdict {
        seq: u64,
        order: u64,
        verdict: Verdict,
    },
    /// The robot stood on the cell of the client's errand after the tick.
    Arrived {
        seq: u64,
        number: u64,
        robot: u32,
        cell: u32,
        tick: u64,
        stamp: u32,
    },
}

impl Notice {
    /// Its number among the client's notices, from 1.
    pub fn seq(&self) -> u64 {
        match *self {
            Notice::Verdict { seq, .. } | Notice::Arrived { seq, .. } => seq,
        }
    }
}

impl Notice {
    pub(crate) fn of(note: &RawNote) -> Notice {
        match note.verdict {
            0 => Notice::Arrived {
                seq: note.seq,
                number: note.number,
                robot: note.robot,
                cell: note.cell,
                tick: note.tick,
                stamp: note.stamp,
            },
            verdict => Notice::Verdict {
                seq: note.seq,
                order: note.order,
                verdict: Verdict::of(verdict, note.number),
            },
        }
    }
}

/// What a client has, and had.
#[derive(Clone, Copy, Debug, PartialEq, Eq, Hash)]
pub struct Account {
    /// The orders that were taken, in all chapters.
    pub taken: u64,
    /// The errands that are accepted, and neither done nor withdrawn.
    pub owed: u64,
    /// The notices that it was not given yet.
    pub pending: u64,
    /// The notices and unfinished errands that its mailbox can hold.
    pub room: u64,
}
