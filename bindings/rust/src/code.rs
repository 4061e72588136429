//! Why calls are refused.

pub(crate) const DONE: u32 = 0;
pub(crate) const CHAPTER_FULL: u32 = 7;
pub(crate) const NOT_OPEN: u32 = 2;
pub(crate) const NO_ROBOT: u32 = 5;
pub(crate) const NO_NOTICE: u32 = 11;
pub(crate) const IDLE: u32 = 13;
pub(crate) const HAS_BRIDGE: u32 = 14;
pub(crate) const WRONG_LENGTH: u32 = 15;
pub(crate) const WRONG_SIZE: u32 = 34;
pub(crate) const NO_BRIDGE: u32 = 48;
pub(crate) const TRACE_SHAPE: u32 = 52;
pub(crate) const NO_MOVE: u32 = 65;
pub(crate) const NOT_UNDER_WAY: u32 = 66;

/// Why a call was refused.
#[non_exhaustive]
#[derive(Clone, Copy, Debug, PartialEq, Eq, Hash)]
pub enum Code {
    /// Memory was refused.
    NoMemory,
    /// The handle is closed.
    NotOpen,
    /// The handle is open.
    AlreadyOpen,
    /// There is no client of this number.
    NoClient,
    /// There is no robot of this number.
    NoRobot,
    /// The client's notices and unfinished errands leave no room for two more.
    MailboxFull,
    /// The chapter has all the entries that it may have: begin the next.
    ChapterFull,
    /// All the ticks were made that may be made.
    ClockSpent,
    /// The robot is shut already.
    AlreadyShut,
    /// This is the last chapter that there may be.
    BookSpent,
    /// The client has no notice that it was not given.
    NoNotice,
    /// The mailbox may not hold so much.
    TooWide,
    /// The robot, or each robot, has no errand.
    Idle,
    /// The map has a bridge.
    HasBridge,
    /// The list has not the length that is asked for.
    WrongLength,
    /// A pointer is null.
    NullPointer,
    /// There is no kind of orders of this number.
    BadOrder,
    /// The cell is not roomy for the fleet's robots (`Fleet::open_roomy`).
    NoRoom,
    /// The chapter has an entry (`Fleet::take_turns`).
    ChapterBegun,
    /// The line of the head, `first`, is missing or not in its form.
    MapHeader,
    /// The height or the width is not from 1 to 1,024.
    MapSize,
    /// The row `first` is missing or not as long as the width.
    MapRow,
    /// The byte in row `first`, column `second` is no letter of a map.
    MapCell,
    /// The line `first`, after the rows, has more than blanks and tabs.
    MapTrailing,
    /// A limit or the number of clients is out of its range.
    BadSetup,
    /// There are not 1 to 512 robots.
    RobotCount,
    /// The robot `first` does not start on floor.
    StartBlocked,
    /// The robots `first` and `second` start on one cell.
    StartShared,
    /// The setup has not the size that the library reads: it was made with another header.
    WrongSize,
    /// The rooms that were found on the map do not pass their checks (`Fleet::take_turns`).
    NoTurns,
    /// More robots are named than the map has cells.
    TooMany,
    /// Before the step the robot `first` is not on floor.
    FromBlocked,
    /// Before the step the robots `first` and `second` are on one cell.
    FromShared,
    /// The new cells are not as many as the old ones.
    ToLength,
    /// The robot `first` leaves the floor.
    OffFloor,
    /// The robot `first` neither stays nor crosses an edge.
    NotAdjacent,
    /// The robots `first` and `second` come to one cell.
    VertexConflict,
    /// The robots `first` and `second` exchange their cells.
    SwappingConflict,
    /// The map has no bridge.
    NoBridge,
    /// The goal is not floor.
    GoalBlocked,
    /// The text is not UTF-8, not JSON, or nested deeper than 127.
    TraceNotJson,
    /// The number under `version` is not 1 or 2.
    TraceVersion,
    /// The text is JSON, but not in the form of a trace.
    TraceShape,
    /// The chapter is not legal on the map: the entry `first` breaks the rule `second` (docs/TRACE.md).
    ChapterIllegal,
    /// The robots are not as many as the chapter's, or the chapter has stamps other than 0.
    LawsDiffer,
    /// `queue` or `life` is not that of the chapter.
    LimitsDiffer,
    /// Within the limits no chapter follows.
    ChaptersSpent,
    /// A robot has waited longer than it may on a map without bridges.
    WaitedTooLong,
    /// There is no clearance of this number.
    BadClearance,
    /// The window of an execution has no step.
    BadWindow,
    /// Two robots stand on one cell, or one stands on no cell of the map.
    NoPlacement,
    /// A move that lies a window of steps before the next step is not reached.
    WindowFull,
    /// The cells are no step, free of conflicts, from the placement that was planned last.
    NoStep,
    /// No move may begin.
    NoMove,
    /// The robot is not under way.
    NotUnderWay,
    /// The map has another number of cells than the shield was made for.
    ShieldMap,
    /// A list is not as long as the shield's number of robots asks.
    ShieldLength,
    /// The robot `first` stands beyond the map's last cell.
    ShieldOutside,
    /// The robot `first` stands on a wall.
    ShieldWall,
    /// The robots `first` and `second` stand on one cell.
    ShieldShared,
    /// The place `first` of the order names no robot.
    ShieldUnknown,
    /// The place `first` of the order names a robot that an earlier one names.
    ShieldTwice,
    /// The preference `second` of the robot `first` is neither its own cell nor next to it.
    ShieldFar,
    /// A number that the library has and this crate has not.
    Unknown(u32),
}

impl Code {
    pub(crate) fn of(number: u32) -> Code {
        match number {
            1 => Code::NoMemory,
            2 => Code::NotOpen,
            3 => Code::AlreadyOpen,
            4 => Code::NoClient,
            5 => Code::NoRobot,
            6 => Code::MailboxFull,
            7 => Code::ChapterFull,
            8 => Code::ClockSpent,
            9 => Code::AlreadyShut,
            10 => Code::BookSpent,
            11 => Code::NoNotice,
            12 => Code::TooWide,
            13 => Code::Idle,
            14 => Code::HasBridge,
            15 => Code::WrongLength,
            16 => Code::NullPointer,
            17 => Code::BadOrder,
            18 => Code::NoRoom,
            19 => Code::ChapterBegun,
            20 => Code::MapHeader,
            21 => Code::MapSize,
            22 => Code::MapRow,
            23 => Code::MapCell,
            24 => Code::MapTrailing,
            30 => Code::BadSetup,
            31 => Code::RobotCount,
            32 => Code::StartBlocked,
            33 => Code::StartShared,
            34 => Code::WrongSize,
            35 => Code::NoTurns,
            40 => Code::TooMany,
            41 => Code::FromBlocked,
            42 => Code::FromShared,
            43 => Code::ToLength,
            44 => Code::OffFloor,
            45 => Code::NotAdjacent,
            46 => Code::VertexConflict,
            47 => Code::SwappingConflict,
            48 => Code::NoBridge,
            49 => Code::GoalBlocked,
            50 => Code::TraceNotJson,
            51 => Code::TraceVersion,
            52 => Code::TraceShape,
            53 => Code::ChapterIllegal,
            54 => Code::LawsDiffer,
            55 => Code::LimitsDiffer,
            56 => Code::ChaptersSpent,
            57 => Code::WaitedTooLong,
            60 => Code::BadClearance,
            61 => Code::BadWindow,
            62 => Code::NoPlacement,
            63 => Code::WindowFull,
            64 => Code::NoStep,
            65 => Code::NoMove,
            66 => Code::NotUnderWay,
            70 => Code::ShieldMap,
            71 => Code::ShieldLength,
            72 => Code::ShieldOutside,
            73 => Code::ShieldWall,
            74 => Code::ShieldShared,
            75 => Code::ShieldUnknown,
            76 => Code::ShieldTwice,
            77 => Code::ShieldFar,
            number => Code::Unknown(number),
        }
    }

    /// Its number in nashirudder.h.
    pub fn number(self) -> u32 {
        match self {
            Code::NoMemory => 1,
            Code::NotOpen => 2,
            Code::AlreadyOpen => 3,
            Code::NoClient => 4,
            Code::NoRobot => 5,
            Code::MailboxFull => 6,
            Code::ChapterFull => 7,
            Code::ClockSpent => 8,
            Code::AlreadyShut => 9,
            Code::BookSpent => 10,
            Code::NoNotice => 11,
            Code::TooWide => 12,
            Code::Idle => 13,
            Code::HasBridge => 14,
            Code::WrongLength => 15,
            Code::NullPointer => 16,
            Code::BadOrder => 17,
            Code::NoRoom => 18,
            Code::ChapterBegun => 19,
            Code::MapHeader => 20,
            Code::MapSize => 21,
            Code::MapRow => 22,
            Code::MapCell => 23,
            Code::MapTrailing => 24,
            Code::BadSetup => 30,
            Code::RobotCount => 31,
            Code::StartBlocked => 32,
            Code::StartShared => 33,
            Code::WrongSize => 34,
            Code::NoTurns => 35,
            Code::TooMany => 40,
            Code::FromBlocked => 41,
            Code::FromShared => 42,
            Code::ToLength => 43,
            Code::OffFloor => 44,
            Code::NotAdjacent => 45,
            Code::VertexConflict => 46,
            Code::SwappingConflict => 47,
            Code::NoBridge => 48,
            Code::GoalBlocked => 49,
            Code::TraceNotJson => 50,
            Code::TraceVersion => 51,
            Code::TraceShape => 52,
            Code::ChapterIllegal => 53,
            Code::LawsDiffer => 54,
            Code::LimitsDiffer => 55,
            Code::ChaptersSpent => 56,
            Code::WaitedTooLong => 57,
            Code::BadClearance => 60,
            Code::BadWindow => 61,
            Code::NoPlacement => 62,
            Code::WindowFull => 63,
            Code::NoStep => 64,
            Code::NoMove => 65,
            Code::NotUnderWay => 66,
            Code::ShieldMap => 70,
            Code::ShieldLength => 71,
            Code::ShieldOutside => 72,
            Code::ShieldWall => 73,
            Code::ShieldShared => 74,
            Code::ShieldUnknown => 75,
            Code::ShieldTwice => 76,
            Code::ShieldFar => 77,
            Code::Unknown(number) => number,
        }
    }

    /// The word for it.
    pub fn name(self) -> &'static str {
        match self {
            Code::NoMemory => "no-memory",
            Code::NotOpen => "not-open",
            Code::AlreadyOpen => "already-open",
            Code::NoClient => "no-client",
            Code::NoRobot => "no-robot",
            Code::MailboxFull => "mailbox-full",
            Code::ChapterFull => "chapter-full",
            Code::ClockSpent => "clock-spent",
            Code::AlreadyShut => "already-shut",
            Code::BookSpent => "book-spent",
            Code::NoNotice => "no-notice",
            Code::TooWide => "too-wide",
            Code::Idle => "idle",
            Code::HasBridge => "has-bridge",
            Code::WrongLength => "wrong-length",
            Code::NullPointer => "null-pointer",
            Code::BadOrder => "bad-order",
            Code::NoRoom => "no-room",
            Code::ChapterBegun => "chapter-begun",
            Code::MapHeader => "map-header",
            Code::MapSize => "map-size",
            Code::MapRow => "map-row",
            Code::MapCell => "map-cell",
            Code::MapTrailing => "map-trailing",
            Code::BadSetup => "bad-setup",
            Code::RobotCount => "robot-count",
            Code::StartBlocked => "start-blocked",
            Code::StartShared => "start-shared",
            Code::WrongSize => "wrong-size",
            Code::NoTurns => "no-turns",
            Code::TooMany => "too-many",
            Code::FromBlocked => "from-blocked",
            Code::FromShared => "from-shared",
            Code::ToLength => "to-length",
            Code::OffFloor => "off-floor",
            Code::NotAdjacent => "not-adjacent",
            Code::VertexConflict => "vertex-conflict",
            Code::SwappingConflict => "swapping-conflict",
            Code::NoBridge => "no-bridge",
            Code::GoalBlocked => "goal-blocked",
            Code::TraceNotJson => "trace-not-json",
            Code::TraceVersion => "trace-version",
            Code::TraceShape => "trace-shape",
            Code::ChapterIllegal => "chapter-illegal",
            Code::LawsDiffer => "laws-differ",
            Code::LimitsDiffer => "limits-differ",
            Code::ChaptersSpent => "chapters-spent",
            Code::WaitedTooLong => "waited-too-long",
            Code::BadClearance => "bad-clearance",
            Code::BadWindow => "bad-window",
            Code::NoPlacement => "no-placement",
            Code::WindowFull => "window-full",
            Code::NoStep => "no-step",
            Code::NoMove => "no-move",
            Code::NotUnderWay => "not-under-way",
            Code::ShieldMap => "shield-map",
            Code::ShieldLength => "shield-length",
            Code::ShieldOutside => "shield-outside",
            Code::ShieldWall => "shield-wall",
            Code::ShieldShared => "shield-shared",
            Code::ShieldUnknown => "shield-unknown",
            Code::ShieldTwice => "shield-twice",
            Code::ShieldFar => "shield-far",
            Code::Unknown(_) => "unknown",
        }
    }
}
