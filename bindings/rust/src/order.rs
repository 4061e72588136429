//! Orders of clients, and what they are answered.

use crate::number::{Cell, Client, RobotId};
use crate::raw::RawOrder;

/// What an order is answered.
#[must_use = "an order may have been refused"]
#[non_exhaustive]
#[derive(Clone, Copy, Debug, PartialEq, Eq, Hash)]
pub enum Verdict {
    /// The errand joins its robot's queue, and has this number among the client's accepted errands.
    Accepted(u64),
    /// The client is closed from now on.
    Closed,
    /// The errand has left its robot's queue.
    Withdrawn,
    /// The client is closed.
    ClientClosed,
    /// There is no robot of this number.
    NoRobot,
    /// The robot takes no further errands.
    RobotShut,
    /// The cell's number is not below height times width.
    NoCell,
    /// The cell is not floor.
    Blocked,
    /// The cell is in another part of the floor than the robot.
    Unreachable,
    /// The robot's queue is full.
    QueueFull,
    /// The client has had all the errands accepted that it may have.
    LifeSpent,
    /// No unfinished errand of the client has this number.
    NoErrand,
    /// The errand is its robot's front.
    TooLate,
    /// A verdict that the library has and this crate has not.
    Unknown(u32),
}

impl Verdict {
    /// The word for it.
    pub fn name(self) -> &'static str {
        match self {
            Verdict::Accepted(_) => "accepted",
            Verdict::Closed => "closed",
            Verdict::Withdrawn => "withdrawn",
            Verdict::ClientClosed => "client-closed",
            Verdict::NoRobot => "no-robot",
            Verdict::RobotShut => "robot-shut",
            Verdict::NoCell => "no-cell",
            Verdict::Blocked => "blocked",
            Verdict::Unreachable => "unreachable",
            Verdict::QueueFull => "queue-full",
            Verdict::LifeSpent => "life-spent",
            Verdict::NoErrand => "no-errand",
            Verdict::TooLate => "too-late",
            Verdict::Unknown(_) => "unknown",
        }
    }

    pub(crate) fn of(verdict: u32, number: u64) -> Verdict {
        match verdict {
            101 => Verdict::Accepted(number),
            102 => Verdict::Closed,
            103 => Verdict::Withdrawn,
            104 => Verdict::ClientClosed,
            105 => Verdict::NoRobot,
            106 => Verdict::RobotShut,
            107 => Verdict::NoCell,
            108 => Verdict::Blocked,
            109 => Verdict::Unreachable,
            110 => Verdict::QueueFull,
            111 => Verdict::LifeSpent,
            112 => Verdict::NoErrand,
            113 => Verdict::TooLate,
            verdict => Verdict::Unknown(verdict),
        }
    }
}

/// An order, in a list of orders.
#[non_exhaustive]
#[derive(Clone, Copy, Debug, PartialEq, Eq, Hash)]
pub enum Order {
    /// The robot is to go to the cell.
    Go { client: u32, robot: u32, cell: u32 },
    /// The client's last order.
    Close { client: u32 },
    /// The client gives up its errand of that number.
    Withdraw { client: u32, number: u64 },
}

impl Order {
    /// The robot is to go to the cell.
    pub fn go(client: impl Into<Client>, robot: impl Into<RobotId>, cell: impl Into<Cell>) -> Order {
        Order::Go { client: client.into().0, robot: robot.into().0, cell: cell.into().0 }
    }

    /// The client's last order.
    pub fn close(client: impl Into<Client>) -> Order {
        Order::Close { client: client.into().0 }
    }

    /// The client gives up its errand of that number.
    pub fn withdraw(client: impl Into<Client>, number: u64) -> Order {
        Order::Withdraw { client: client.into().0, number }
    }

    pub(crate) fn raw(&self) -> RawOrder {
        match *self {
            Order::Go { client, robot, cell } => RawOrder { number: 0, kind: 1, client, robot, cell },
            Order::Close { client } => RawOrder { number: 0, kind: 2, client, robot: 0, cell: 0 },
            Order::Withdraw { client, number } => {
                RawOrder { number, kind: 3, client, robot: 0, cell: 0 }
            }
        }
    }
}
