//! Fleets of robots on a map, with proofs: safe types over the library's C face.
//!
//! ```no_run
//! use nashirudder::{Fleet, Robot, Setup};
//!
//! let map = "type octile\nheight 1\nwidth 3\nmap\n...\n";
//! let mut fleet = Fleet::open(map.as_bytes(), &[Robot::at(0)], &Setup::new(1))?;
//! fleet.go(0, 0, 2)?;
//! for _ in 0..2 {
//!     fleet.tick()?;
//! }
//! assert_eq!(fleet.placement()?, [2]);
//! # Ok::<(), nashirudder::Error>(())
//! ```
//!
//! A fleet is `Send` and `Sync`: it may move to another thread, and several threads may look at one at once.
//!
//! An [`Execution`] carries out the plan of any planner with robots that are not in step. A [`Shield`] makes a step without
//! conflicts of what any policy wants.
//!
//! Clients, robots and cells are passed as plain numbers or as [`Client`], [`RobotId`] and [`Cell`], which the compiler
//! tells apart: `fleet.go(Client(0), RobotId(2), Cell(17))`. What is told has plain numbers.

#![warn(missing_debug_implementations)]

mod chapter;
mod code;
mod error;
mod execution;
mod fleet;
mod map;
mod notices;
mod number;
mod opening;
mod order;
mod raw;
mod records;
mod setup;
mod shield;
mod state;
mod views;

pub use chapter::{Chapter, FullChapter, Kept};
pub use code::Code;
pub use error::{Error, Refused};
pub use execution::{Clearance, Execution, Move, Progress, Whereabouts};
pub use fleet::Fleet;
pub use map::{check_step, distances, first_bridge, judge, Map, Shape};
pub use notices::Notices;
pub use number::{Cell, Client, RobotId};
pub use order::{Order, Verdict};
pub use records::{Account, Arrival, Notice, OpenErrand, Report, Shown, Standing, State};
pub use setup::{is_proved, Robot, Setup};
pub use shield::Shield;
pub use state::{Opening, OpeningClient, OpeningErrand, OpeningRobot};
