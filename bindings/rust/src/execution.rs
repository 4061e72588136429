//! The execution of a plan by robots that are not in step.

use crate::code::{NOT_UNDER_WAY, NO_MOVE, NO_ROBOT};
use crate::error::{check, Error};
use crate::number::RobotId;
use crate::raw::{self, Handle, RawMove, RawProgress, RawWhereabouts};
use crate::setup::check_version;

/// When a robot's stay on a cell ends, so that another one may begin to move there.
#[derive(Clone, Copy, Debug, PartialEq, Eq, Hash)]
pub enum Clearance {
    /// When it has reached its next cell.
    Arrived,
    /// When it has begun to move to its next cell.
    Started,
}

/// A step of the plan in which a robot changes its cell.
#[derive(Clone, Copy, Debug, PartialEq, Eq, Hash)]
pub struct Move {
    /// The robot, from 0.
    pub robot: u32,
    /// The cell that it leaves.
    pub from: u32,
    /// The cell to which it moves.
    pub to: u32,
    /// The step of the plan, from 1.
    pub tick: u64,
}

/// Where a robot is.
#[derive(Clone, Copy, Debug, PartialEq, Eq, Hash)]
pub struct Whereabouts {
    /// The cell that it reached last: it stands there, or is leaving it.
    pub cell: u32,
    /// The cell to which it is under way.
    pub bound_for: Option<u32>,
    /// How many planned moves it has still to begin.
    pub left: u32,
}

/// How far an execution has come.
#[derive(Clone, Copy, Debug, PartialEq, Eq, Hash)]
pub struct Progress {
    /// How many steps were planned.
    pub steps: u64,
    /// How many planned steps there are from the first with a move that is not reached; 0 if all are reached.
    pub behind: u32,
    /// Whether a further step may be planned.
    pub has_room: bool,
}

/// The execution of a plan, of any planner, by robots that are not in step (docs/EXECUTION.md). Only `open` takes memory.
///
/// ```no_run
/// use nashirudder::{Clearance, Execution};
///
/// let mut run = Execution::open(4, &[0, 1], Clearance::Arrived, 10)?;
/// run.plan(&[1, 2])?;
/// assert_eq!(run.begin()?.map(|begun| begun.robot), Some(1)); // robot 0 waits for its cell
/// assert_eq!(run.begin()?, None);
/// run.reached(1)?;
/// assert_eq!(run.begin()?.map(|begun| begun.robot), Some(0));
/// # Ok::<(), nashirudder::Error>(())
/// ```
#[derive(Debug)]
pub struct Execution {
    handle: Handle,
}

// SAFETY: the library says so of a handle; the methods that take `&self` only look.
unsafe impl Send for Execution {}
unsafe impl Sync for Execution {}

impl Drop for Execution {
    fn drop(&mut self) {
        // SAFETY: the handle is what the library left.
        unsafe { raw::nashirudder_execution_close(&mut self.handle) };
    }
}

fn move_of(told: RawMove) -> Move {
    let RawMove { tick, robot, from, to } = told;
    Move { robot, from, to, tick }
}

impl Execution {
    /// The execution of a plan that begins on the cells `placement`, by robot, on a map whose cells have the numbers below
    /// `cells`. At most `ahead` steps are planned that are not reached; it is at least 1.
    pub fn open(cells: u32, placement: &[u32], clearance: Clearance, ahead: u32) -> Result<Execution, Error> {
        check_version()?;
        let mut run = Execution { handle: Handle::CLOSED };
        let rule = match clearance {
            Clearance::Arrived => 1,
            Clearance::Started => 2,
        };
        // SAFETY: a slice's pointer is never null, and its length is true.
        check(unsafe {
            raw::nashirudder_execution_open(cells, placement.as_ptr(), placement.len(), rule, ahead, &mut run.handle)
        })?;
        Ok(run)
    }

    /// Plans a further step, to a cell for each robot. It is refused as `WindowFull` where `has_room` says no, and as `NoStep`
    /// where it is no step, free of conflicts, from the placement that was planned last.
    pub fn plan(&mut self, to: &[u32]) -> Result<(), Error> {
        // SAFETY: a slice's pointer is never null, and its length is true.
        check(unsafe { raw::nashirudder_execution_plan(&mut self.handle, to.as_ptr(), to.len()) })
    }

    /// The next move that may begin, which begins with this call; `None` if none may. Each is returned once.
    pub fn begin(&mut self) -> Result<Option<Move>, Error> {
        let mut begun = RawMove::default();
        match unsafe { raw::nashirudder_execution_begin(&mut self.handle, &mut begun) } {
            NO_MOVE => Ok(None),
            code => check(code).map(|()| Some(move_of(begun))),
        }
    }

    /// Takes the report that a robot has reached the cell to which it is under way, and returns its move; `None` if it is not
    /// under way.
    pub fn reached(&mut self, robot: impl Into<RobotId>) -> Result<Option<Move>, Error> {
        let mut ended = RawMove::default();
        match unsafe { raw::nashirudder_execution_reached(&mut self.handle, robot.into().0, &mut ended) } {
            NOT_UNDER_WAY => Ok(None),
            code => check(code).map(|()| Some(move_of(ended))),
        }
    }

    /// Where a robot is; `None` if there is no robot of this number.
    pub fn whereabouts(&self, robot: impl Into<RobotId>) -> Result<Option<Whereabouts>, Error> {
        let mut found = RawWhereabouts::default();
        match unsafe { raw::nashirudder_execution_whereabouts(&self.handle, robot.into().0, &mut found) } {
            NO_ROBOT => Ok(None),
            code => check(code).map(|()| {
                let bound_for = found.is_under_way.then_some(found.bound_for);
                Some(Whereabouts { cell: found.cell, bound_for, left: found.left })
            }),
        }
    }

    /// How far it has come.
    pub fn progress(&self) -> Result<Progress, Error> {
        let mut told = RawProgress::default();
        check(unsafe { raw::nashirudder_execution_progress(&self.handle, &mut told) })?;
        let RawProgress { steps, behind, has_room } = told;
        Ok(Progress { steps, behind, has_room })
    }

    /// Whether a further step may be planned.
    pub fn has_room(&self) -> Result<bool, Error> {
        self.progress().map(|progress| progress.has_room)
    }
}
