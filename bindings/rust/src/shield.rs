//! A step without conflicts of what any policy wants.

use crate::error::{check, check_told, Error};
use crate::map::Map;
use crate::raw::{self, Handle, RawFault};
use std::borrow::Borrow;

/// A shield for any policy: one step of any number of robots without conflicts, from what each robot prefers. Only `open`
/// takes memory. It keeps its map, a reference to one, or an `Arc` of one.
///
/// ```no_run
/// use nashirudder::{Map, Shield};
///
/// let map = Map::open(b"type octile\nheight 1\nwidth 3\nmap\n...\n")?;
/// let mut shield = Shield::open(&map, 2)?;
/// let mut to = [0; 2];
/// // Both robots want the cell between them; robot 1 is planned first.
/// shield.step(&[0, 2], &[1, 0], 1, &[1, 1], &mut to)?;
/// assert_eq!(to, [0, 1]);
/// # Ok::<(), nashirudder::Error>(())
/// ```
#[derive(Debug)]
pub struct Shield<M = Map> {
    map: M,
    handle: Handle,
}

// SAFETY: the library says so of a handle; no method that takes `&self` looks at it.
unsafe impl<M: Send> Send for Shield<M> {}
unsafe impl<M: Sync> Sync for Shield<M> {}

impl<M> Drop for Shield<M> {
    fn drop(&mut self) {
        // SAFETY: the handle is what the library left.
        unsafe { raw::nashirudder_shield_close(&mut self.handle) };
    }
}

impl<M: Borrow<Map>> Shield<M> {
    /// A shield for this many robots on a map.
    pub fn open(map: M, robots: u32) -> Result<Shield<M>, Error> {
        let mut shield = Shield { map, handle: Handle::CLOSED };
        // SAFETY: both handles are what the library left.
        check(unsafe {
            raw::nashirudder_shield_open(&shield.map.borrow().handle, robots, &mut shield.handle)
        })?;
        Ok(shield)
    }

    /// The map.
    pub fn map(&self) -> &Map {
        self.map.borrow()
    }

    /// Writes to `to` where each robot goes from its cell in `from`. `order` has each robot once, the first to be planned
    /// first; `preferences` has `each` cells for each robot, robot 0's first: its own cell and neighbours of it, the best
    /// first. Each robot tries its own cell last.
    ///
    /// It is refused by the first fault of what is asked (`Code::ShieldMap` to `Code::ShieldFar`), and then `to` stays as it
    /// was.
    pub fn step(
        &mut self,
        from: &[u32],
        order: &[u32],
        each: u16,
        preferences: &[u32],
        to: &mut [u32],
    ) -> Result<(), Error> {
        let mut fault = RawFault::default();
        // SAFETY: a slice's pointer is never null, its length is true, and none overlaps `to`.
        let code = unsafe {
            raw::nashirudder_shield_step(
                &self.map.borrow().handle,
                &mut self.handle,
                from.as_ptr(),
                from.len(),
                order.as_ptr(),
                order.len(),
                each,
                preferences.as_ptr(),
                preferences.len(),
                to.as_mut_ptr(),
                to.len(),
                &mut fault,
            )
        };
        check_told(code, &fault)
    }
}
