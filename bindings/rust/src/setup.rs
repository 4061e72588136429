//! What a fleet is opened with.

use crate::code::WRONG_SIZE;
use crate::error::{check, Error};
use crate::raw::{self, RawSetup};

/// The version of the header that this crate was made with. The library's has to have the same major and minor numbers, and
/// must not be older.
const VERSION: u32 = 100;

/// Whether each function of the library was proved before it was built. False of a library that `tools/build_c --quick`
/// built, which has run-time checks in the place of proofs.
pub fn is_proved() -> bool {
    // SAFETY: the call takes nothing.
    unsafe { raw::nashirudder_is_proved() }
}

/// The library is of this crate's version.
pub(crate) fn check_version() -> Result<(), Error> {
    // SAFETY: the call takes nothing.
    let version = unsafe { raw::nashirudder_version() };
    if version / 100 == VERSION / 100 && version >= VERSION {
        return Ok(());
    }
    check(WRONG_SIZE)
}

/// The number of clients and the limits of a fleet. A `lane`, `outlet` or `mailbox` of 0, as by `new` and `endless`, fits the
/// robots: two for each and two more, and at least 64. `Fleet::limits` tells what that comes to.
#[derive(Clone, Copy, Debug, PartialEq, Eq, Hash)]
pub struct Setup {
    pub life: u64,
    pub orders: u64,
    pub clock: u64,
    pub clients: u32,
    pub lane: u32,
    pub outlet: u32,
    pub queue: u32,
    pub mailbox: u32,
    pub chapter: u32,
    pub chapters: u32,
}

/// One client, and the limits that are taken where nothing is said.
impl Default for Setup {
    fn default() -> Setup {
        Setup::new(1)
    }
}

impl Setup {
    /// The limits that are taken where nothing is said, and this many clients.
    pub fn new(clients: u32) -> Setup {
        let mut setup = RawSetup::default();
        // SAFETY: the pointer is to a whole setup.
        unsafe { raw::nashirudder_setup_default(clients, &mut setup) };
        Setup::of(&setup)
    }

    /// Limits for a fleet that never ends, and this many clients: no clock, no life and no number of chapters is ever spent.
    pub fn endless(clients: u32) -> Setup {
        let mut setup = RawSetup::default();
        // SAFETY: the pointer is to a whole setup.
        unsafe { raw::nashirudder_setup_endless(clients, &mut setup) };
        Setup::of(&setup)
    }

    pub(crate) fn of(raw: &RawSetup) -> Setup {
        Setup {
            life: raw.life,
            orders: raw.orders,
            clock: raw.clock,
            clients: raw.clients,
            lane: raw.lane,
            outlet: raw.outlet,
            queue: raw.queue,
            mailbox: raw.mailbox,
            chapter: raw.chapter,
            chapters: raw.chapters,
        }
    }

    pub(crate) fn raw(&self) -> RawSetup {
        RawSetup {
            size: std::mem::size_of::<RawSetup>() as u32,
            life: self.life,
            orders: self.orders,
            clock: self.clock,
            clients: self.clients,
            lane: self.lane,
            outlet: self.outlet,
            queue: self.queue,
            mailbox: self.mailbox,
            chapter: self.chapter,
            chapters: self.chapters,
        }
    }
}

/// A robot at the opening: its cell, and its ranks of the ways north, east, south and west.
#[repr(C)]
#[derive(Clone, Copy, Debug, PartialEq, Eq, Hash)]
pub struct Robot {
    pub cell: u32,
    pub ranks: [u8; 4],
}

impl Robot {
    /// One that ranks all ways alike.
    pub const fn at(cell: u32) -> Robot {
        Robot { cell, ranks: [0; 4] }
    }
}
