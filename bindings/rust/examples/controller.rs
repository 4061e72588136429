//! A fleet that runs for months: notices are read, refused orders are looked at, full chapters are stored, and no loop waits for
//! an idle fleet. usage: controller MAP TICKS FOLDER

use nashirudder::{Error, Fleet, Notice, Robot, Setup};
use std::fs;
use std::path::{Path, PathBuf};
use std::process::ExitCode;

const ROBOTS: u32 = 4;
const CLIENTS: u32 = 2;
/// Ticks after which an operator has to look at a robot.
const PATIENCE: u64 = 1000;

type Failure = Box<dyn std::error::Error + Send + Sync>;

/// Writes the trace of a chapter.
fn store(folder: &Path, chapter: u64, trace: &str) -> Result<(), Failure> {
    let name = folder.join(format!("chapter-{chapter}.json"));
    fs::write(&name, format!("{trace}\n")).map_err(|why| format!("{} cannot be written: {why}", name.display()).into())
}

struct Controller {
    fleet: Fleet,
    folder: PathBuf,
    accepted: u64,
    refused: u64,
    arrived: u64,
}

impl Controller {
    fn open(map: &[u8], folder: PathBuf) -> Result<Controller, Error> {
        let robots: Vec<Robot> = (0..ROBOTS).map(Robot::at).collect();
        // Few entries, so that this example has many chapters; else 65,536.
        let mut fleet = Fleet::open(map, &robots, &Setup { chapter: 1000, ..Setup::endless(CLIENTS) })?;
        // A chapter that is full is stored, and then the next one begins by itself. One that could not be stored stays.
        let (into, mut chapter) = (folder.clone(), 0);
        fleet.roll(move |full| -> Result<(), Failure> {
            store(&into, chapter, &full.trace()?)?;
            chapter += 1;
            Ok(())
        });
        Ok(Controller { fleet, folder, accepted: 0, refused: 0, arrived: 0 })
    }

    /// Each robot without an errand gets one, then all move, then all notices are read.
    fn turn(&mut self, mut draw: impl FnMut() -> u32) -> Result<(), Error> {
        for robot in 0..ROBOTS {
            if self.fleet.wait_of(robot)?.is_none() {
                self.send(robot % CLIENTS, robot, draw())?;
            }
        }
        self.fleet.tick()?;
        for client in 0..CLIENTS {
            self.read_notices(client)?;
        }
        self.watch()
    }

    /// An order. A refused order is no error: the verdict says it, and has to be looked at.
    fn send(&mut self, client: u32, robot: u32, cell: u32) -> Result<(), Error> {
        if self.fleet.go(client, robot, cell)?.name() == "accepted" {
            self.accepted += 1;
        } else {
            // A shelf (`Verdict::Blocked`), say: the next turn tries another cell.
            self.refused += 1;
        }
        Ok(())
    }

    /// A client whose notices are not read gets no further order taken: `Code::MailboxFull`.
    fn read_notices(&mut self, client: u32) -> Result<(), Error> {
        for notice in self.fleet.notices(client) {
            if let Notice::Arrived { .. } = notice? {
                self.arrived += 1;
            }
        }
        Ok(())
    }

    /// On a map with a bridge a robot may wait for ever.
    fn watch(&self) -> Result<(), Error> {
        if self.fleet.longest_wait()? == Some(PATIENCE) {
            println!("robot {:?} has waited {PATIENCE} ticks", self.fleet.eldest()?);
        }
        Ok(())
    }

    /// Stores the chapter that is not full.
    fn end(&self) -> Result<u64, Failure> {
        let chapter = self.fleet.opening()?.chapter;
        store(&self.folder, chapter, &self.fleet.trace()?)?;
        Ok(chapter + 1)
    }
}

fn run(map: &str, ticks: &str, folder: &str) -> Result<(), Failure> {
    let mut controller = Controller::open(&fs::read(map)?, PathBuf::from(folder))?;
    let mut state = 1u32;
    for _ in 0..ticks.parse::<u64>()? {
        controller.turn(|| {
            state = state.wrapping_mul(1_103_515_245).wrapping_add(12_345);
            (state >> 16) % 45
        })?;
    }
    let chapters = controller.end()?;
    println!("ticks {}", controller.fleet.clock()?);
    eprintln!("accepted {} refused {} arrived {} chapters {chapters}", controller.accepted, controller.refused, controller.arrived);
    Ok(())
}

fn main() -> ExitCode {
    let words: Vec<String> = std::env::args().skip(1).collect();
    let [map, ticks, folder] = words.as_slice() else {
        return ExitCode::from(2);
    };
    match run(map, ticks, folder) {
        Ok(()) => ExitCode::SUCCESS,
        Err(why) => {
            // The map, an order, or a tick whose full chapter was not stored: then its `source` says why.
            eprintln!("{why}{}", why.source().map_or(String::new(), |source| format!(": {source}")));
            ExitCode::FAILURE
        }
    }
}
