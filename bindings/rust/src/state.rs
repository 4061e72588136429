//! How a fleet stands, as a value.

use crate::code::{Code, TRACE_SHAPE};
use crate::error::Error;
use crate::map::Map;
use std::fmt::Write;

/// An errand that is accepted and not done, in an [`Opening`].
#[derive(Clone, Copy, Debug, PartialEq, Eq, Hash)]
pub struct OpeningErrand {
    pub client: u32,
    /// Its number among the client's accepted errands, from 1.
    pub number: u64,
    pub cell: u32,
}

/// A robot in an [`Opening`].
#[derive(Clone, Debug, Default, PartialEq, Eq, Hash)]
pub struct OpeningRobot {
    pub cell: u32,
    /// Whether it takes no further errands.
    pub shut: bool,
    /// How many ticks it has waited for its next arrival; none exactly if it has no errand.
    pub wait: Option<u64>,
    /// In the order of its queue.
    pub errands: Vec<OpeningErrand>,
    /// The stamps of its arrivals, from one to the other, and of its farewell.
    pub laws: [(u32, u32); 2],
}

/// A client in an [`Opening`]: its counts are those of all chapters.
#[derive(Clone, Copy, Debug, Default, PartialEq, Eq, Hash)]
pub struct OpeningClient {
    pub taken: u64,
    pub accepted: u64,
    pub noticed: u64,
    pub closed: bool,
}

/// How a fleet stands at the beginning of a chapter, as `Fleet::opening` tells it. It may be kept, changed, and gone on from by
/// `Fleet::reopen` with its `trace`: on another map, with robots that were moved, added or removed, without an errand. Each robot
/// has a floor cell of its own then, from which a walk leads to the cells of its errands.
#[derive(Clone, Debug, PartialEq, Eq, Hash)]
pub struct Opening {
    /// The chapter's number, from 0.
    pub chapter: u64,
    /// The ticks made before it.
    pub tick: u64,
    pub life: u64,
    pub queue: u64,
    pub clients: Vec<OpeningClient>,
    pub robots: Vec<OpeningRobot>,
    version: u64,
}

impl Opening {
    /// The state at the beginning of a chapter, of whose text this is all, as `Fleet::trace` and `Chapter::trace` return it.
    /// Refused by `Code::TraceShape` if it is none.
    pub fn of(trace: &str) -> Result<Opening, Error> {
        let mut reader = Reader { rest: trace };
        reader.opening().filter(|_| reader.rest.is_empty()).ok_or(Error { code: Code::of(TRACE_SHAPE), numbers: (0, 0), source: None })
    }

    /// The text of a chapter that begins so, and has no entries.
    pub fn trace(&self) -> String {
        let Opening { chapter, tick, life, queue, clients, robots, version } = self;
        let clients = listed(clients, |one| format!("[{},{},{},{}]", one.taken, one.accepted, one.noticed, one.closed));
        let robots = listed(robots, OpeningRobot::text);
        format!(
            "{{\"chapter\":{chapter},\"entries\":[],\"opening\":{{\"clients\":{clients},\"life\":{life},\"queue\":{queue},\
             \"robots\":{robots},\"tick\":{tick}}},\"version\":{version}}}"
        )
    }

    /// What is wrong with the first such robot on this map, in a sentence; none if each stands on a floor cell of its own from
    /// which a walk leads to each of its errands.
    pub fn fault(&self, map: &Map) -> Result<Option<String>, Error> {
        for (robot, of) in self.robots.iter().enumerate() {
            let cell = of.cell;
            if !map.joins(cell, cell)? {
                return Ok(Some(format!("robot {robot} is on cell {cell}, which is no floor")));
            }
            if let Some(other) = self.robots[..robot].iter().position(|other| other.cell == cell) {
                return Ok(Some(format!("robots {other} and {robot} are both on cell {cell}")));
            }
            for OpeningErrand { client, number, cell: goal } in &of.errands {
                if !map.joins(cell, *goal)? {
                    return Ok(Some(format!(
                        "no walk leads robot {robot} from cell {cell} to cell {goal}, where its errand {number} of client {client} goes"
                    )));
                }
            }
        }
        Ok(None)
    }

    /// Takes the errand at this place, from 1, out of the robot's queue, also the one that it heads for. Returns it, if there
    /// is one.
    pub fn cancel(&mut self, robot: usize, place: usize) -> Option<OpeningErrand> {
        let of = self.robots.get_mut(robot)?;
        let at = place.checked_sub(1).filter(|at| *at < of.errands.len())?;
        let errand = of.errands.remove(at);
        if at == 0 {
            of.wait_anew();
        }
        Some(errand)
    }
}

impl OpeningRobot {
    /// A robot on this cell, without errands.
    pub fn at(cell: u32) -> OpeningRobot {
        OpeningRobot { cell, ..OpeningRobot::default() }
    }

    /// Puts the robot on another cell; it has waited no tick then.
    pub fn move_to(&mut self, cell: u32) {
        self.cell = cell;
        self.wait_anew();
    }

    fn wait_anew(&mut self) {
        self.wait = if self.errands.is_empty() { None } else { Some(0) };
    }

    fn text(&self) -> String {
        let wait = self.wait.map_or("null".to_owned(), |wait| wait.to_string());
        let errands = listed(&self.errands, |one| format!("[{},{},{}]", one.client, one.number, one.cell));
        let [arrival, farewell] = self.laws;
        let laws = format!("[{},{}],[{},{}]", arrival.0, arrival.1, farewell.0, farewell.1);
        format!("[{},{},{wait},{errands},{laws}]", self.cell, self.shut)
    }
}

/// A list in JSON.
fn listed<T>(items: &[T], text: impl Fn(&T) -> String) -> String {
    let mut list = String::from("[");
    for (at, item) in items.iter().enumerate() {
        let comma = if at == 0 { "" } else { "," };
        write!(list, "{comma}{}", text(item)).expect("a string takes all");
    }
    list.push(']');
    list
}

/// Reads the text of a chapter as the library writes it: each reading is none where something else stands there.
struct Reader<'a> {
    rest: &'a str,
}

impl Reader<'_> {
    fn word(&mut self, word: &str) -> Option<()> {
        self.rest = self.rest.strip_prefix(word)?;
        Some(())
    }

    fn number<T: std::str::FromStr>(&mut self) -> Option<T> {
        let end = self.rest.bytes().position(|byte| !byte.is_ascii_digit()).unwrap_or(self.rest.len());
        let (digits, rest) = self.rest.split_at(end);
        self.rest = rest;
        digits.parse().ok()
    }

    /// A number after a word.
    fn named<T: std::str::FromStr>(&mut self, word: &str) -> Option<T> {
        self.word(word)?;
        self.number()
    }

    fn truth(&mut self) -> Option<bool> {
        self.word("true").map(|()| true).or_else(|| self.word("false").map(|()| false))
    }

    fn list<T>(&mut self, item: impl Fn(&mut Self) -> Option<T>) -> Option<Vec<T>> {
        let mut list = Vec::new();
        self.word("[")?;
        if self.word("]").is_some() {
            return Some(list);
        }
        loop {
            list.push(item(self)?);
            if self.word("]").is_some() {
                return Some(list);
            }
            self.word(",")?;
        }
    }

    /// Passes over a list, in whose strings there is no bracket.
    fn pass(&mut self) -> Option<()> {
        let mut depth = 0usize;
        for (at, byte) in self.rest.bytes().enumerate() {
            match byte {
                b'[' => depth += 1,
                b']' => depth = depth.checked_sub(1)?,
                _ => {}
            }
            if depth == 0 {
                self.rest = self.rest.get(at + 1..)?;
                return Some(());
            }
        }
        None
    }

    fn errand(&mut self) -> Option<OpeningErrand> {
        let errand = OpeningErrand { client: self.named("[")?, number: self.named(",")?, cell: self.named(",")? };
        self.word("]").map(|()| errand)
    }

    fn law(&mut self) -> Option<(u32, u32)> {
        let law = (self.named("[")?, self.named(",")?);
        self.word("]").map(|()| law)
    }

    fn client(&mut self) -> Option<OpeningClient> {
        let (taken, accepted, noticed) = (self.named("[")?, self.named(",")?, self.named(",")?);
        self.word(",")?;
        let closed = self.truth()?;
        self.word("]").map(|()| OpeningClient { taken, accepted, noticed, closed })
    }

    fn robot(&mut self) -> Option<OpeningRobot> {
        let cell = self.named("[")?;
        self.word(",")?;
        let shut = self.truth()?;
        self.word(",")?;
        let wait = if self.word("null").is_some() { None } else { Some(self.number()?) };
        self.word(",")?;
        let errands = self.list(Self::errand)?;
        self.word(",")?;
        let arrival = self.law()?;
        self.word(",")?;
        let laws = [arrival, self.law()?];
        self.word("]").map(|()| OpeningRobot { cell, shut, wait, errands, laws })
    }

    fn opening(&mut self) -> Option<Opening> {
        let chapter = self.named("{\"chapter\":")?;
        self.word(",\"entries\":")?;
        self.pass()?;
        self.word(",\"opening\":{\"clients\":")?;
        let clients = self.list(Self::client)?;
        let life = self.named(",\"life\":")?;
        let queue = self.named(",\"queue\":")?;
        self.word(",\"robots\":")?;
        let robots = self.list(Self::robot)?;
        let tick = self.named(",\"tick\":")?;
        let version = self.named("},\"version\":")?;
        self.word("}").map(|()| Opening { chapter, tick, life, queue, clients, robots, version })
    }
}
