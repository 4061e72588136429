//! Maps, and questions about them.

use crate::code::{NO_BRIDGE, WRONG_LENGTH};
use crate::error::{check, check_told, Error};
use crate::number::Cell;
use crate::raw::{self, Handle, RawEdge, RawFault, RawShape};
use crate::setup::check_version;

const FAR: u32 = u32::MAX;

/// How large a map is.
#[derive(Clone, Copy, Debug, PartialEq, Eq, Hash)]
pub struct Shape {
    pub height: u32,
    pub width: u32,
    /// Height times width.
    pub cells: u32,
    /// The cells that are floor.
    pub floor: u32,
    /// The pairs of floor cells that share a side.
    pub edges: u32,
}

fn ways_of(told: Vec<u32>) -> Vec<Option<u32>> {
    told.into_iter().map(|away| if away == FAR { None } else { Some(away) }).collect()
}

/// A map that is read once, for any number of questions.
#[derive(Debug)]
pub struct Map {
    pub(crate) handle: Handle,
}

// SAFETY: as for a fleet; each method only looks.
unsafe impl Send for Map {}
unsafe impl Sync for Map {}

impl Drop for Map {
    fn drop(&mut self) {
        // SAFETY: the handle is what the library left.
        unsafe { raw::nashirudder_map_close(&mut self.handle) };
    }
}

impl Map {
    /// The map of the text of a .map file.
    pub fn open(text: &[u8]) -> Result<Map, Error> {
        check_version()?;
        let mut map = Map { handle: Handle::CLOSED };
        let mut fault = RawFault::default();
        // SAFETY: a slice's pointer is never null, and its length is true.
        let code = unsafe {
            raw::nashirudder_map_open(text.as_ptr(), text.len(), &mut map.handle, &mut fault)
        };
        check_told(code, &fault).map(|()| map)
    }

    /// How large it is.
    pub fn shape(&self) -> Result<Shape, Error> {
        let mut shape = RawShape::default();
        check(unsafe { raw::nashirudder_map_shape(&self.handle, &mut shape) })?;
        let RawShape { height, width, cells, floor, edges } = shape;
        Ok(Shape { height, width, cells, floor, edges })
    }

    /// Whether both cells are floor, and a walk joins them.
    pub fn joins(&self, a: impl Into<Cell>, b: impl Into<Cell>) -> Result<bool, Error> {
        let (a, b) = (a.into().0, b.into().0);
        let mut joins = false;
        check(unsafe { raw::nashirudder_map_joins(&self.handle, a, b, &mut joins) })?;
        Ok(joins)
    }

    /// The cells that are floor, in their order.
    pub fn floor(&self) -> Result<Vec<u32>, Error> {
        let (mut cells, mut count) = (vec![0; self.shape()?.floor as usize], 0);
        // SAFETY: a vector's pointer is never null, and its length is true.
        check(unsafe {
            raw::nashirudder_map_floor(&self.handle, cells.as_mut_ptr(), cells.len(), &mut count)
        })?;
        Ok(cells)
    }

    /// Whether a step is free of conflicts, or its first fault.
    pub fn check_step(&self, from: &[u32], to: &[u32]) -> Result<(), Error> {
        let mut fault = RawFault::default();
        // SAFETY: a slice's pointer is never null, and its length is true.
        let code = unsafe {
            raw::nashirudder_map_check_step(
                &self.handle,
                from.as_ptr(),
                from.len(),
                to.as_ptr(),
                to.len(),
                &mut fault,
            )
        };
        check_told(code, &fault)
    }

    /// The first bridge, if there is one.
    pub fn first_bridge(&self) -> Result<Option<(u32, u32)>, Error> {
        let mut edge = RawEdge::default();
        match unsafe { raw::nashirudder_map_first_bridge(&self.handle, &mut edge) } {
            NO_BRIDGE => Ok(None),
            code => check(code).map(|()| Some((edge.lower, edge.upper))),
        }
    }

    /// For each cell, the length of a shortest walk to the goal.
    pub fn distances(&self, goal: impl Into<Cell>) -> Result<Vec<Option<u32>>, Error> {
        let goal = goal.into().0;
        let mut told = vec![0; self.shape()?.cells as usize];
        // SAFETY: a vector's pointer is never null, and its length is true.
        check(unsafe {
            raw::nashirudder_map_distances(&self.handle, goal, told.as_mut_ptr(), told.len())
        })?;
        Ok(ways_of(told))
    }

    /// The floor cells that are not roomy for this many robots, in their order: errands there may block a fleet of them for
    /// ever (`Fleet::open_roomy`).
    pub fn unroomy(&self, robots: u32) -> Result<Vec<u32>, Error> {
        let (mut cells, mut count) = (vec![0; 64], 0);
        // SAFETY: a vector's pointer is never null, and its length is true.
        let mut call = |cells: &mut Vec<u32>| unsafe {
            raw::nashirudder_map_unroomy(&self.handle, robots, cells.as_mut_ptr(), cells.len(), &mut count)
        };
        let mut code = call(&mut cells);
        if code == WRONG_LENGTH {
            cells = vec![0; self.shape()?.floor as usize];
            code = call(&mut cells);
        }
        check(code)?;
        cells.truncate(count);
        Ok(cells)
    }

    /// The greatest number of robots for which errands to all floor cells arrive, if they take turns (`Fleet::take_turns`).
    pub fn served_for(&self) -> Result<u32, Error> {
        let mut robots = 0;
        // SAFETY: a pointer to a place of our own.
        check(unsafe { raw::nashirudder_map_served_for(&self.handle, &mut robots) })?;
        Ok(robots)
    }
}

/// Whether a step is free of conflicts, or its first fault.
pub fn check_step(map: &[u8], from: &[u32], to: &[u32]) -> Result<(), Error> {
    let mut fault = RawFault::default();
    // SAFETY: a slice's pointer is never null, and its length is true.
    let code = unsafe {
        raw::nashirudder_check_step(
            map.as_ptr(),
            map.len(),
            from.as_ptr(),
            from.len(),
            to.as_ptr(),
            to.len(),
            &mut fault,
        )
    };
    check_told(code, &fault)
}

/// Whether a text is the trace of a chapter that is legal on the map, or why it is not.
pub fn judge(map: &[u8], trace: &str) -> Result<(), Error> {
    let mut fault = RawFault::default();
    // SAFETY: a slice's pointer is never null, and its length is true.
    let code = unsafe {
        raw::nashirudder_judge(map.as_ptr(), map.len(), trace.as_ptr(), trace.len(), &mut fault)
    };
    check_told(code, &fault)
}

/// The map's first bridge, if it has one.
pub fn first_bridge(map: &[u8]) -> Result<Option<(u32, u32)>, Error> {
    let (mut edge, mut fault) = (RawEdge::default(), RawFault::default());
    // SAFETY: a slice's pointer is never null, and its length is true.
    match unsafe {
        raw::nashirudder_first_bridge(map.as_ptr(), map.len(), &mut edge, &mut fault)
    } {
        NO_BRIDGE => Ok(None),
        code => check_told(code, &fault).map(|()| Some((edge.lower, edge.upper))),
    }
}

/// For each of the map's cells, `cells` of them, the length of a shortest walk to the goal.
pub fn distances(map: &[u8], goal: u32, cells: usize) -> Result<Vec<Option<u32>>, Error> {
    let (mut told, mut fault) = (vec![0; cells], RawFault::default());
    // SAFETY: a slice's pointer is never null, and its length is true.
    let code = unsafe {
        raw::nashirudder_distances(
            map.as_ptr(),
            map.len(),
            goal,
            told.as_mut_ptr(),
            told.len(),
            &mut fault,
        )
    };
    check_told(code, &fault)?;
    Ok(ways_of(told))
}
