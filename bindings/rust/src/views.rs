//! What a fleet shows without a change.

use crate::code::{HAS_BRIDGE, IDLE, NO_NOTICE, WRONG_LENGTH};
use crate::error::{check, Error};
use crate::fleet::Fleet;
use crate::number::{Client, RobotId};
use crate::raw::{self, RawAccount, RawErrand, RawNote, RawSetup, RawStanding};
use crate::records::{Account, Notice, OpenErrand, Standing};
use crate::setup::Setup;

impl Fleet {
    /// The notice that `give` would give, which stays in the mailbox.
    pub fn peek(&self, client: impl Into<Client>) -> Result<Option<Notice>, Error> {
        let client = client.into().0;
        let mut note = RawNote::default();
        match unsafe { raw::nashirudder_peek(&self.handle, client, &mut note) } {
            NO_NOTICE => Ok(None),
            code => check(code).map(|()| Some(Notice::of(&note))),
        }
    }

    /// How many robots there are.
    pub fn robots(&self) -> usize {
        self.robots
    }

    /// How many clients there are.
    pub fn clients(&self) -> Result<usize, Error> {
        let mut count = 0;
        check(unsafe { raw::nashirudder_clients(&self.handle, &mut count) })?;
        Ok(count)
    }

    /// The limits, and the number of clients.
    pub fn limits(&self) -> Result<Setup, Error> {
        let mut setup = RawSetup::default();
        check(unsafe { raw::nashirudder_limits(&self.handle, &mut setup) })?;
        Ok(Setup::of(&setup))
    }

    /// How long the robot that has waited longest has waited, if one has an errand.
    pub fn longest_wait(&self) -> Result<Option<u64>, Error> {
        let mut ticks = 0;
        match unsafe { raw::nashirudder_longest_wait(&self.handle, &mut ticks) } {
            IDLE => Ok(None),
            code => check(code).map(|()| Some(ticks)),
        }
    }

    /// A number of ticks that no wait reaches; none on a map with a bridge.
    pub fn wait_limit(&self) -> Result<Option<u64>, Error> {
        let mut ticks = 0;
        match unsafe { raw::nashirudder_wait_limit(&self.handle, &mut ticks) } {
            HAS_BRIDGE => Ok(None),
            code => check(code).map(|()| Some(ticks)),
        }
    }

    /// How many notices the client was not given yet.
    pub fn pending_count(&self, client: impl Into<Client>) -> Result<u64, Error> {
        let client = client.into().0;
        let mut count = 0;
        check(unsafe { raw::nashirudder_pending_count(&self.handle, client, &mut count) })?;
        Ok(count)
    }

    /// How many orders of the client were taken, how many errands it has open, how many notices, and the room for both.
    pub fn account_of(&self, client: impl Into<Client>) -> Result<Account, Error> {
        let client = client.into().0;
        let mut told = RawAccount::default();
        check(unsafe { raw::nashirudder_account_of(&self.handle, client, &mut told) })?;
        let RawAccount { taken, owed, pending, room } = told;
        Ok(Account { taken, owed, pending, room })
    }

    /// Where the robots stand, by number.
    pub fn placement(&self) -> Result<Vec<u32>, Error> {
        let mut cells = vec![0; self.robots];
        self.placement_into(&mut cells)?;
        Ok(cells)
    }

    /// The same, into a list that has one place for each robot; else it is refused by `Code::WrongLength`.
    pub fn placement_into(&self, cells: &mut [u32]) -> Result<(), Error> {
        // SAFETY: a slice's pointer is never null, and its length is true.
        check(unsafe { raw::nashirudder_placement(&self.handle, cells.as_mut_ptr(), cells.len()) })
    }

    /// How each robot stands, by number.
    pub fn standings(&self) -> Result<Vec<Standing>, Error> {
        let mut told = vec![RawStanding::default(); self.robots];
        // SAFETY: a vector's pointer is never null, and its length is true.
        check(unsafe {
            raw::nashirudder_standings(&self.handle, told.as_mut_ptr(), told.len())
        })?;
        Ok(told.iter().map(Standing::of).collect())
    }

    /// The robot's errands, in the order of its queue.
    pub fn queue(&self, robot: impl Into<RobotId>) -> Result<Vec<OpenErrand>, Error> {
        let robot = robot.into().0;
        // SAFETY: the pointers are those of `listed`.
        listed(|list, length, count| unsafe {
            raw::nashirudder_queue(&self.handle, robot, list, length, count)
        })
    }

    /// The client's errands that are accepted, and neither done nor withdrawn: by robot, and then by place in its queue.
    pub fn open_errands(&self, client: impl Into<Client>) -> Result<Vec<OpenErrand>, Error> {
        let client = client.into().0;
        // SAFETY: the pointers are those of `listed`.
        listed(|list, length, count| unsafe {
            raw::nashirudder_open_errands(&self.handle, client, list, length, count)
        })
    }

    /// The ticks made so far.
    pub fn clock(&self) -> Result<u64, Error> {
        let mut ticks = 0;
        check(unsafe { raw::nashirudder_clock(&self.handle, &mut ticks) })?;
        Ok(ticks)
    }

    /// How many ticks the robot has waited, if it has an errand.
    pub fn wait_of(&self, robot: impl Into<RobotId>) -> Result<Option<u64>, Error> {
        let robot = robot.into().0;
        let mut ticks = 0;
        match unsafe { raw::nashirudder_wait_of(&self.handle, robot, &mut ticks) } {
            IDLE => Ok(None),
            code => check(code).map(|()| Some(ticks)),
        }
    }

    /// The robot that has waited longest, if one has an errand.
    pub fn eldest(&self) -> Result<Option<u32>, Error> {
        let mut robot = 0;
        match unsafe { raw::nashirudder_eldest(&self.handle, &mut robot) } {
            IDLE => Ok(None),
            code => check(code).map(|()| Some(robot)),
        }
    }

    /// How many robots' fields are still to be searched before the next tick (`search_one`).
    pub fn missing(&self) -> Result<usize, Error> {
        let mut missing = 0;
        check(unsafe { raw::nashirudder_missing(&self.handle, &mut missing) })?;
        Ok(missing)
    }

    /// Whether nobody has an errand.
    pub fn is_idle(&self) -> Result<bool, Error> {
        let mut is_idle = false;
        check(unsafe { raw::nashirudder_is_idle(&self.handle, &mut is_idle) })?;
        Ok(is_idle)
    }

    /// Within how many ticks nobody has an errand any more; none on a map with a bridge.
    pub fn idle_within(&self) -> Result<Option<u64>, Error> {
        let mut ticks = 0;
        match unsafe { raw::nashirudder_idle_within(&self.handle, &mut ticks) } {
            HAS_BRIDGE => Ok(None),
            code => check(code).map(|()| Some(ticks)),
        }
    }

    /// Whether the map has no bridge.
    pub fn is_bridgeless(&self) -> Result<bool, Error> {
        let mut is_bridgeless = false;
        check(unsafe { raw::nashirudder_is_bridgeless(&self.handle, &mut is_bridgeless) })?;
        Ok(is_bridgeless)
    }
}

/// A list of errands, by a call that says how many places it needs. It is passed a vector's pointer and length.
fn listed(
    call: impl Fn(*mut RawErrand, usize, &mut usize) -> u32,
) -> Result<Vec<OpenErrand>, Error> {
    let (mut list, mut count) = (vec![RawErrand::default(); 16], 0);
    let mut code = call(list.as_mut_ptr(), list.len(), &mut count);
    if code == WRONG_LENGTH {
        list.resize(count, RawErrand::default());
        code = call(list.as_mut_ptr(), list.len(), &mut count);
    }
    check(code)?;
    Ok(list[..count].iter().map(OpenErrand::of).collect())
}
