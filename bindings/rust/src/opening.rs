//! How fleets are opened.

use crate::chapter::number_in;
use crate::error::{check_told, Error};
use crate::fleet::Fleet;
use crate::raw::{self, Handle, RawFault};
use crate::setup::{check_version, Robot, Setup};
use crate::state::Opening;
use std::mem;

/// How a fleet was opened, and is to go on.
#[derive(Clone, Copy)]
pub(crate) struct Manner {
    setup: Setup,
    roomy: bool,
    pub(crate) turns: bool,
    pub(crate) kept: Option<usize>,
}

impl Manner {
    fn of(setup: &Setup, roomy: bool) -> Manner {
        Manner { setup: *setup, roomy, turns: false, kept: None }
    }
}

impl Fleet {
    /// A fleet on the map, the text of a .map file, each robot on its start.
    pub fn open(map: &[u8], robots: &[Robot], setup: &Setup) -> Result<Fleet, Error> {
        Fleet::open_by(raw::nashirudder_open, map, robots, Manner::of(setup, false))
    }

    /// The same fleet, but it takes no errand to a floor cell that is not roomy for its robots: an order to one is refused by
    /// `Code::NoRoom` before it is taken. `Map::unroomy` says which cells these are.
    pub fn open_roomy(map: &[u8], robots: &[Robot], setup: &Setup) -> Result<Fleet, Error> {
        Fleet::open_by(raw::nashirudder_open_roomy, map, robots, Manner::of(setup, true))
    }

    fn open_by(call: raw::Open, map: &[u8], robots: &[Robot], manner: Manner) -> Result<Fleet, Error> {
        check_version()?;
        let setup = manner.setup.raw();
        let mut fleet = Fleet::closed(robots.len(), manner);
        let mut fault = RawFault::default();
        // SAFETY: a slice's pointer is never null, and its length is true.
        let code = unsafe {
            call(
                map.as_ptr(),
                map.len(),
                robots.as_ptr(),
                robots.len(),
                &setup,
                &mut fleet.handle,
                &mut fault,
            )
        };
        check_told(code, &fault).map(|()| fleet)
    }

    /// The fleet that goes on from a chapter that was kept, with its `trace`. Robots and clients are those of the chapter, and
    /// the mailboxes are empty. Of the robots only the ranks are read, of the setup all but the number of clients.
    pub fn reopen(
        map: &[u8],
        trace: &str,
        robots: &[Robot],
        setup: &Setup,
    ) -> Result<Fleet, Error> {
        Fleet::reopen_by(raw::nashirudder_reopen, map, trace, robots, Manner::of(setup, false))
    }

    /// The same fleet, but as one of `open_roomy`. A chapter with an unfinished errand to a cell that is not roomy is refused by
    /// `Code::NoRoom`.
    pub fn reopen_roomy(
        map: &[u8],
        trace: &str,
        robots: &[Robot],
        setup: &Setup,
    ) -> Result<Fleet, Error> {
        Fleet::reopen_by(raw::nashirudder_reopen_roomy, map, trace, robots, Manner::of(setup, true))
    }

    /// Goes on from this state, on this map: what was changed in it is so then, and a state of before is gone back to. Limits, keeper
    /// of chapters, kept distances, roomy cells and turns are this fleet's, but `queue` and `life` the state's. Mailboxes are empty, so
    /// give all notices first. The ranks are those of `robots`, or zero where that is empty.
    ///
    /// # Errors
    ///
    /// As `reopen`, and `Code::NoTurns`; then the fleet is as it was.
    pub fn go_on(&mut self, map: &[u8], state: &Opening, robots: &[Robot]) -> Result<(), Error> {
        let unranked = vec![Robot::at(0); if robots.is_empty() { state.robots.len() } else { 0 }];
        let Manner { setup, roomy, turns, kept } = self.manner;
        let queue = u32::try_from(state.queue).unwrap_or(u32::MAX);
        let manner = Manner::of(&Setup { queue, life: state.life, ..setup }, roomy);
        let call = if roomy { raw::nashirudder_reopen_roomy } else { raw::nashirudder_reopen };
        let robots = if robots.is_empty() { &unranked } else { robots };
        let mut next = Fleet::reopen_by(call, map, &state.trace(), robots, manner)?;
        if turns {
            next.take_turns()?;
        }
        if let Some(bytes) = kept {
            next.keep(bytes)?;
        }
        mem::swap(&mut self.keeper, &mut next.keeper);
        *self = next;
        Ok(())
    }

    fn reopen_by(
        call: raw::Reopen,
        map: &[u8],
        trace: &str,
        robots: &[Robot],
        manner: Manner,
    ) -> Result<Fleet, Error> {
        check_version()?;
        let setup = manner.setup.raw();
        let mut fleet = Fleet::closed(robots.len(), manner);
        let mut fault = RawFault::default();
        // SAFETY: a slice's pointer is never null, and its length is true.
        let code = unsafe {
            call(
                map.as_ptr(),
                map.len(),
                trace.as_ptr(),
                trace.len(),
                robots.as_ptr(),
                robots.len(),
                &setup,
                &mut fleet.handle,
                &mut fault,
            )
        };
        check_told(code, &fault)?;
        fleet.number = number_in(&fleet.trace()?);
        Ok(fleet)
    }

    /// One that owns nothing yet, of this many robots.
    fn closed(robots: usize, manner: Manner) -> Fleet {
        Fleet {
            handle: Handle::CLOSED,
            robots,
            number: 0,
            manner,
            keeper: None,
        }
    }
}
