//! Calls of the library. What is wanted is worked out by hand.

use nashirudder::{
    check_step, distances, first_bridge, is_proved, judge, Account, Arrival, Cell, Client, Code, Error, Fleet, Map, Notice, OpenErrand, Order,
    Refused, Report, Robot, RobotId, Setup, Shape, Shown, Standing, State, Verdict,
};
use std::time::Duration;

const RING: &[u8] = b"type octile\nheight 3\nwidth 4\nmap\n....\n.@..\n....\n";
const ROW: &[u8] = b"type octile\nheight 1\nwidth 3\nmap\n...\n";

fn name_of<T>(result: Result<T, Refused>) -> (&'static str, (u64, u64)) {
    match result {
        Ok(_) => ("done", (0, 0)),
        Err(refused) => (refused.name(), refused.numbers),
    }
}

#[test]
fn plays_a_run() -> Result<(), Refused> {
    let mut fleet = Fleet::open(ROW, &[Robot::at(0)], &Setup::new(1))?;
    assert_eq!(fleet.go(0, 0, 2)?, Verdict::Accepted(1));
    assert_eq!(fleet.wait_of(0)?, Some(0));
    assert_eq!(fleet.tick()?, Report { tick: 1, arrived: 0, farewells: 0 });
    assert!(!fleet.shut(0)?);
    assert_eq!(fleet.tick()?, Report { tick: 2, arrived: 1, farewells: 1 });
    assert_eq!((fleet.placement()?, fleet.clock()?, fleet.pending_count(0)?), (vec![2], 2, 2));
    assert_eq!(
        fleet.give(0)?,
        Some(Notice::Verdict { seq: 1, order: 1, verdict: Verdict::Accepted(1) })
    );
    assert_eq!(
        fleet.give(0)?,
        Some(Notice::Arrived { seq: 2, number: 1, robot: 0, cell: 2, tick: 2, stamp: 0 })
    );
    assert_eq!(fleet.give(0)?, None);
    assert!(fleet.is_idle()? && fleet.eldest()?.is_none() && fleet.wait_of(0)?.is_none());
    assert!(!fleet.is_bridgeless()? && fleet.idle_within()?.is_none());
    Ok(())
}

#[test]
fn says_whether_it_is_proved() {
    // Set by tools/build_c
    if let Ok(proved) = std::env::var("NASHIRUDDER_PROVED") {
        assert_eq!(is_proved(), proved == "yes");
    }
}

#[test]
fn refuses() -> Result<(), Refused> {
    let setup = Setup::new(1);
    assert_eq!(name_of(Fleet::open(b"", &[Robot::at(0)], &setup)), ("map-header", (1, 0)));
    assert_eq!(name_of(Fleet::open(ROW, &[], &setup)), ("robot-count", (0, 0)));
    assert_eq!(
        name_of(Fleet::open(RING, &[Robot::at(3), Robot::at(0), Robot::at(3)], &setup)),
        ("start-shared", (0, 2))
    );
    let mut fleet = Fleet::open(RING, &[Robot::at(0)], &setup)?;
    assert_eq!(fleet.go(0, 0, 5)?.name(), "blocked");
    assert_eq!(fleet.withdraw(0, 1)?, Verdict::NoErrand);
    assert_eq!(name_of(fleet.go(1, 0, 5)), ("no-client", (0, 0)));
    assert_eq!(name_of(fleet.widen(0, 1 << 60)), ("too-wide", (0, 0)));
    assert_eq!(fleet.close_client(0)?, Verdict::Closed);
    assert!(fleet.trace()?.starts_with("{\"chapter\":0,"));
    fleet.next_chapter()?;
    fleet.keep(0)
}

#[test]
fn moves_to_a_thread() -> Result<(), Refused> {
    let mut fleet = Fleet::open(RING, &[Robot::at(0)], &Setup::new(1))?;
    assert_eq!(fleet.go(0, 0, 1)?, Verdict::Accepted(1));
    let fleet = std::thread::spawn(move || fleet.tick().map(|_| fleet)).join().expect("no panic")?;
    assert_eq!(fleet.placement()?, [1]);
    Ok(())
}

#[test]
fn does_many_at_once() -> Result<(), Refused> {
    let mut fleet = Fleet::open(RING, &[Robot::at(0), Robot::at(3)], &Setup::new(2))?;
    let orders = [
        Order::Go { client: 1, robot: 0, cell: 1 },
        Order::Withdraw { client: 1, number: 1 },
        Order::Close { client: 0 },
        Order::Go { client: 2, robot: 0, cell: 1 },
        Order::Go { client: 1, robot: 1, cell: 2 },
    ];
    let (verdicts, stopped) = fleet.take_many(&orders)?;
    assert_eq!(verdicts, [Verdict::Accepted(1), Verdict::TooLate, Verdict::Closed]);
    assert_eq!(stopped, Some(Code::NoClient));
    assert_eq!(fleet.take_many(&orders[4..])?, (vec![Verdict::Accepted(2)], None));
    let mut shown = Shown::default();
    assert!(!fleet.shut(1)?);
    assert_eq!(fleet.tick_into(&mut shown)?, Report { tick: 1, arrived: 2, farewells: 1 });
    assert_eq!((&shown.cells[..], &shown.farewells[..]), (&[1, 2][..], &[1][..]));
    let arrived = |robot, number, cell| Arrival { number, robot, client: 1, cell, stamp: 0 };
    assert_eq!(shown.arrivals, [arrived(0, 1, 1), arrived(1, 2, 2)]);
    assert_eq!(fleet.tick_into(&mut shown)?, Report { tick: 2, arrived: 0, farewells: 0 });
    assert!(shown.arrivals.is_empty() && shown.farewells.is_empty() && shown.cells == [1, 2]);
    let first = Notice::Verdict { seq: 1, order: 1, verdict: Verdict::Accepted(1) };
    assert_eq!(fleet.peek(1)?, Some(first));
    assert_eq!(fleet.pending_count(1)?, 5);
    let notices = fleet.give_all(1)?;
    assert_eq!((notices.len(), notices[0], fleet.peek(1)?), (5, first, None));
    Ok(())
}

#[test]
fn says_what_it_is() -> Result<(), Refused> {
    let setup = Setup { queue: 7, ..Setup::new(2) };
    let mut fleet = Fleet::open(RING, &[Robot::at(0)], &setup)?;
    // What is 0 in the setup fits the robots.
    let fitted = Setup { lane: 64, outlet: 64, mailbox: 64, ..setup };
    assert_eq!((fleet.robots(), fleet.clients()?, fleet.limits()?), (1, 2, fitted));
    assert_eq!((fleet.longest_wait()?, fleet.wait_limit()?), (None, Some(10)));
    assert_eq!(fleet.go(0, 0, 11)?, Verdict::Accepted(1));
    fleet.tick()?;
    assert_eq!(fleet.longest_wait()?, Some(1));
    assert_eq!(fleet.account_of(0)?, Account { taken: 1, owed: 1, pending: 1, room: 64 });
    assert_eq!(name_of(fleet.account_of(2)), ("no-client", (0, 0)));
    let endless = Setup::endless(2);
    assert_eq!((endless.clock, endless.life, endless.orders), (1 << 48, 1 << 40, 1 << 62));
    assert_eq!(Setup { clock: 1_000_000, life: 1_000_000, orders: 1_000_000, chapters: 1_000, ..endless }, Setup::new(2));
    assert_eq!(Fleet::open(ROW, &[Robot::at(0)], &setup)?.wait_limit()?, None);
    Ok(())
}

#[test]
fn lists_errands() -> Result<(), Refused> {
    let mut fleet = Fleet::open(RING, &[Robot::at(0), Robot::at(3)], &Setup::new(2))?;
    let free = |cell| Standing { state: State::Free, cell, goal: None, errands: 0, wait: None };
    assert_eq!((fleet.queue(0)?, fleet.standings()?), (vec![], vec![free(0), free(3)]));
    for (client, robot, cell) in [(0, 0, 11), (1, 0, 8), (0, 1, 3)] {
        assert_eq!(fleet.go(client, robot, cell)?.name(), "accepted");
    }
    let first = OpenErrand { number: 1, place: 1, client: 0, robot: 0, cell: 11 };
    let second = OpenErrand { number: 1, place: 2, client: 1, robot: 0, cell: 8 };
    let third = OpenErrand { number: 2, place: 1, client: 0, robot: 1, cell: 3 };
    assert_eq!((fleet.queue(0)?, fleet.queue(1)?), (vec![first, second], vec![third]));
    assert_eq!((fleet.open_errands(0)?, fleet.open_errands(1)?), (vec![first, third], vec![second]));
    // Robot 1 is where it is sent to; robot 0 goes east, and takes no further errands from then on.
    fleet.tick()?;
    assert!(!fleet.shut(0)?);
    let leaving = Standing { state: State::Shut, cell: 1, goal: Some(11), errands: 2, wait: Some(1) };
    assert_eq!(fleet.standings()?, [leaving, free(3)]);
    assert_eq!(leaving.state.name(), "shut");
    assert_eq!((name_of(fleet.queue(2)), name_of(fleet.open_errands(2))), (("no-robot", (0, 0)), ("no-client", (0, 0))));
    // More than the list that is tried first has places for.
    for _ in 0..16 {
        assert_eq!(fleet.go(1, 1, 0)?.name(), "accepted");
    }
    assert_eq!(fleet.open_errands(1)?.len(), 17);
    Ok(())
}

#[test]
fn prints_a_sentence() {
    let refused = Fleet::open(RING, &[Robot::at(0), Robot::at(5)], &Setup::new(1)).expect_err("a wall");
    assert_eq!((refused.code, refused.code.number()), (Code::StartBlocked, 32));
    assert_eq!(refused.to_string(), "robot 1 starts on a cell that is no floor");
}

#[test]
fn is_looked_at_by_several() -> Result<(), Refused> {
    let mut fleet = Fleet::open(RING, &[Robot::at(0)], &Setup::new(1))?;
    assert_eq!(fleet.go(0, 0, 11)?, Verdict::Accepted(1));
    fleet.tick()?;
    let fleet = &fleet;
    std::thread::scope(|threads| {
        let looks: Vec<_> = (0..4).map(|_| threads.spawn(|| (fleet.clock(), fleet.placement(), fleet.trace()))).collect();
        for look in looks {
            let (clock, placement, trace) = look.join().expect("no panic");
            assert_eq!((clock?, placement?, trace?), (1, vec![1], fleet.trace()?));
        }
        Ok(())
    })
}

#[test]
fn hands_out_chapters() -> Result<(), Refused> {
    let setup = Setup { chapter: 2, chapters: 3, ..Setup::endless(1) };
    let mut fleet = Fleet::open(RING, &[Robot::at(0)], &setup)?;
    assert_eq!(fleet.go(0, 0, 8)?, Verdict::Accepted(1));
    fleet.tick()?;
    assert_eq!(name_of(fleet.tick()), ("chapter-full", (0, 0)));
    let wanted = fleet.trace()?;
    let first = fleet.hand_out()?;
    // The fleet goes on while another thread writes the chapter.
    let written = std::thread::spawn(move || first.trace());
    assert_eq!(fleet.tick()?.arrived, 1);
    let written = written.join().expect("no panic")?;
    assert_eq!(written, wanted);
    judge(RING, &written)?;
    assert_eq!(name_of(judge(ROW, &written)), ("chapter-illegal", (1, 3)));
    let (sends, kept) = std::sync::mpsc::channel();
    fleet.roll(move |chapter| sends.send(chapter.trace()).is_ok());
    fleet.tick()?;
    let second = fleet.trace()?;
    fleet.tick()?;
    assert_eq!((kept.try_iter().collect::<Result<Vec<_>, _>>()?, fleet.clock()?), (vec![second], 4));
    assert!(fleet.shut(0)?);
    // It was the last of all chapters.
    assert_eq!(name_of(fleet.tick()), ("chapter-full", (0, 0)));
    assert_eq!(name_of(fleet.hand_out()), ("book-spent", (0, 0)));
    let mut rolls = Fleet::open(RING, &[Robot::at(0)], &Setup { chapters: 10, ..setup })?;
    rolls.roll(|_| true);
    let orders = [Order::Go { client: 0, robot: 0, cell: 1 }; 5];
    let (verdicts, stopped) = rolls.take_many(&orders)?;
    assert_eq!((verdicts.len(), verdicts[4], stopped), (5, Verdict::Accepted(5), None));
    Ok(())
}

/// A keeper that fails leaves fleet and chapter as they were, and the chapter is shown again.
#[test]
fn keeps_a_chapter_before_the_next_begins() -> Result<(), Refused> {
    use std::sync::{Arc, Mutex};
    let setup = Setup { chapter: 2, chapters: 3, ..Setup::endless(1) };
    let mut fleet = Fleet::open(RING, &[Robot::at(0)], &setup)?;
    let shown: Arc<Mutex<Vec<String>>> = Arc::default();
    let seen = Arc::clone(&shown);
    fleet.roll(move |chapter| {
        let mut seen = seen.lock().unwrap_or_else(|broken| broken.into_inner());
        seen.push(chapter.trace().expect("memory"));
        assert_ne!(seen.len(), 2, "disk full");
        seen.len() > 2
    });
    fleet.tick()?;
    fleet.tick()?;
    let full = fleet.trace()?;
    assert_eq!(name_of(fleet.tick()), ("chapter-full", (0, 0)));
    let panics = std::panic::catch_unwind(std::panic::AssertUnwindSafe(|| fleet.tick()));
    assert!(panics.is_err());
    assert_eq!((fleet.trace()?, fleet.clock()?), (full.clone(), 2));
    assert_eq!(fleet.tick()?.tick, 3);
    let told = shown.lock().unwrap_or_else(|broken| broken.into_inner()).clone();
    assert_eq!(told, [full.clone(), full.clone(), full.clone()]);
    // It goes on from its second chapter, which has the number 1: one more may follow, and then none.
    let mut goes_on = Fleet::reopen(RING, &full, &[Robot::at(0)], &setup)?;
    goes_on.roll(|_| true);
    for _ in 0..4 {
        goes_on.tick()?;
    }
    assert_eq!((name_of(goes_on.tick()), goes_on.clock()?), (("chapter-full", (0, 0)), 6));
    Ok(())
}

#[test]
fn lists_notices_and_places() -> Result<(), Refused> {
    let mut fleet = Fleet::open(RING, &[Robot::at(0), Robot::at(3)], &Setup { clients: 2, ..Setup::default() })?;
    assert_eq!(fleet.go(1, 0, 1)?, Verdict::Accepted(1));
    fleet.tick()?;
    let told = fleet.notices(1).collect::<Result<Vec<_>, _>>()?;
    assert_eq!(told[0], Notice::Verdict { seq: 1, order: 1, verdict: Verdict::Accepted(1) });
    assert_eq!(told[1], Notice::Arrived { seq: 2, number: 1, robot: 0, cell: 1, tick: 1, stamp: 0 });
    assert_eq!((told.len(), fleet.notices(1).count(), fleet.notices(7).count()), (2, 0, 1));
    let mut cells = [0; 2];
    fleet.placement_into(&mut cells)?;
    assert_eq!(cells, [1, 3]);
    assert_eq!(name_of(fleet.placement_into(&mut [0; 3])), ("wrong-length", (0, 0)));
    assert_eq!(format!("{fleet:?}"), "Fleet { robots: 2, chapter: 0, rolls: false, .. }");
    Ok(())
}

#[test]
fn goes_on_from_a_chapter() -> Result<(), Refused> {
    let (robots, setup) = ([Robot::at(0), Robot::at(3)], Setup::new(1));
    let begin = || -> Result<Fleet, Refused> {
        let mut fleet = Fleet::open(RING, &robots, &setup)?;
        assert_eq!((fleet.go(0, 0, 11)?, fleet.go(0, 1, 8)?), (Verdict::Accepted(1), Verdict::Accepted(2)));
        fleet.tick()?;
        Ok(fleet)
    };
    let go_on = |mut fleet: Fleet| -> Result<String, Refused> {
        assert_eq!(fleet.go(0, 0, 2)?, Verdict::Accepted(3));
        for _ in 0..20 {
            fleet.tick()?;
        }
        assert!(fleet.is_idle()?);
        fleet.trace()
    };
    let kept = begin()?.trace()?;
    let mut never_ended = begin()?;
    never_ended.next_chapter()?;
    assert_eq!(go_on(Fleet::reopen(RING, &kept, &robots, &setup)?)?, go_on(never_ended)?);
    assert_eq!(name_of(Fleet::reopen(RING, "{}", &robots, &setup)), ("trace-shape", (0, 0)));
    assert_eq!(name_of(Fleet::reopen(ROW, &kept, &robots, &setup)), ("chapter-illegal", (0, 1)));
    Ok(())
}

#[test]
fn asks_of_maps() -> Result<(), Refused> {
    assert_eq!(first_bridge(ROW)?, Some((0, 1)));
    assert_eq!(first_bridge(RING)?, None);
    assert_eq!(distances(ROW, 0, 3)?, [Some(0), Some(1), Some(2)]);
    check_step(RING, &[0, 3], &[1, 2])?;
    assert_eq!(name_of(check_step(RING, &[0, 1], &[1, 0])), ("swapping-conflict", (0, 1)));
    Ok(())
}

#[test]
fn asks_a_map_that_is_read_once() -> Result<(), Refused> {
    let (row, ring) = (Map::open(ROW)?, Map::open(RING)?);
    assert_eq!(ring.shape()?, Shape { height: 3, width: 4, cells: 12, floor: 11, edges: 13 });
    assert!(ring.joins(0, 11)? && !ring.joins(0, 5)?);
    assert_eq!((row.first_bridge()?, ring.first_bridge()?), (Some((0, 1)), None));
    assert_eq!(row.distances(0)?, [Some(0), Some(1), Some(2)]);
    assert_eq!(name_of(ring.distances(5)), ("goal-blocked", (0, 0)));
    ring.check_step(&[0, 3], &[1, 2])?;
    assert_eq!(name_of(ring.check_step(&[0, 1], &[1, 0])), ("swapping-conflict", (0, 1)));
    assert_eq!(name_of(Map::open(b"type octile\n")), ("map-header", (2, 0)));
    Ok(())
}

#[test]
fn takes_errands_to_roomy_cells_alone() -> Result<(), Refused> {
    // A hall of nine cells, and a dead end of three: 9, 10 and 11. The dead end's sides have three, two and one cells.
    const STUB: &[u8] = b"type octile\nheight 3\nwidth 6\nmap\n...@@@\n......\n...@@@\n";
    let (map, setup) = (Map::open(STUB)?, Setup::new(1));
    let refused: [&[u32]; 4] = [&[], &[11], &[10, 11], &[9, 10, 11]];
    for (robots, refused) in (1..).zip(refused) {
        assert_eq!(map.unroomy(robots)?, refused);
        let starts: Vec<Robot> = [0, 1, 2, 6][..robots as usize].iter().map(|cell| Robot::at(*cell)).collect();
        let mut fleet = Fleet::open_roomy(STUB, &starts, &setup)?;
        for cell in 0..20 {
            let told = fleet.go(0, 0, cell);
            if refused.contains(&cell) {
                assert_eq!(name_of(told), ("no-room", (0, 0)));
            } else {
                let _ = told?;
            }
        }
        assert_eq!(Fleet::open(STUB, &starts, &setup)?.go(0, 0, 11)?, Verdict::Accepted(1));
    }
    let robots = [Robot::at(0), Robot::at(2)];
    for cell in [10, 11] {
        let mut first = Fleet::open(STUB, &robots, &setup)?;
        assert_eq!(first.go(0, 1, cell)?, Verdict::Accepted(1));
        let next = Fleet::reopen_roomy(STUB, &first.trace()?, &robots, &setup);
        if cell == 11 {
            assert_eq!(name_of(next), ("no-room", (0, 0)));
        } else {
            assert_eq!(name_of(next?.go(0, 0, 11)), ("no-room", (0, 0)));
        }
    }
    assert_eq!((map.unroomy(10)?.len(), map.served_for()?), (12, 9));
    Ok(())
}

/// Three hundred robots, each with an errand of the one client, need no word.
#[test]
fn fits_the_robots() -> Result<(), Error> {
    let map = format!("type octile\nheight 30\nwidth 20\nmap\n{}", "....................\n".repeat(30));
    for (robots, room) in [(1, 64), (31, 64), (32, 66), (300, 602), (512, 1026)] {
        let starts: Vec<Robot> = (0..robots).map(Robot::at).collect();
        let mut fleet = Fleet::open(map.as_bytes(), &starts, &Setup::default())?;
        for robot in 0..robots {
            assert_eq!(fleet.go(0, robot, robot + 1)?, Verdict::Accepted(u64::from(robot) + 1));
        }
        let limits = fleet.limits()?;
        assert_eq!((limits.lane, limits.outlet, limits.mailbox, fleet.account_of(0)?.room), (room, room, room, u64::from(room)));
        let goes_on = Fleet::reopen(map.as_bytes(), &fleet.trace()?, &starts, &Setup::new(1))?;
        assert_eq!((goes_on.limits()?.mailbox, goes_on.account_of(0)?.room), (room, u64::from(room)));
    }
    let few = Setup { mailbox: 2, ..Setup::default() };
    assert_eq!(Fleet::open(RING, &[Robot::at(0)], &few)?.limits()?.mailbox, 2);
    Ok(())
}

/// A keeper's error is the source of the refusal.
#[test]
fn says_why_a_chapter_was_not_kept() -> Result<(), Error> {
    use std::error::Error as _;
    let mut fleet = Fleet::open(RING, &[Robot::at(0)], &Setup { chapter: 1, ..Setup::default() })?;
    let mut is_full = true;
    fleet.roll(move |chapter| {
        assert!(chapter.trace().is_ok());
        if std::mem::take(&mut is_full) {
            return Err(std::io::Error::other("the disk is full"));
        }
        Ok(())
    });
    fleet.tick()?;
    let refused = fleet.tick().expect_err("not kept");
    assert_eq!((refused.code, refused.source().map(ToString::to_string)), (Code::ChapterFull, Some("the disk is full".to_owned())));
    assert_eq!((fleet.clock()?, fleet.tick()?.tick), (1, 2));
    fleet.roll(|_| ());
    assert_eq!(fleet.tick()?.tick, 3);
    fleet.roll(|_| false);
    assert!(fleet.tick().is_err_and(|refused| refused.source().is_none()));
    Ok(())
}

#[test]
fn tells_clients_robots_and_cells_apart() -> Result<(), Error> {
    let mut fleet = Fleet::open(RING, &[Robot::at(0), Robot::at(3)], &Setup::new(2))?;
    assert_eq!(fleet.go(Client(1), RobotId(0), Cell(1))?, Verdict::Accepted(1));
    let orders = [Order::go(Client(1), RobotId(1), Cell(2)), Order::withdraw(1, 9), Order::close(1)];
    assert_eq!(orders[0], Order::Go { client: 1, robot: 1, cell: 2 });
    assert_eq!(fleet.take_many(&orders)?.0, [Verdict::Accepted(2), Verdict::NoErrand, Verdict::Closed]);
    assert_eq!((fleet.wait_of(RobotId(1))?, u32::from(Cell(7)), Client(3).to_string()), (Some(0), 7, "3".to_owned()));
    let map = Map::open(RING)?;
    assert!(map.joins(Cell(0), Cell(11))?);
    assert_eq!(map.floor()?, [0, 1, 2, 3, 4, 6, 7, 8, 9, 10, 11]);
    let mut notices = fleet.notices(Client(1));
    assert_eq!((notices.by_ref().count(), notices.next().is_none()), (4, true));
    Ok(())
}

/// The same state and the same orders give the same bytes: for a second fleet, and for one that was saved and loaded.
#[test]
fn is_deterministic() -> Result<(), Error> {
    let (robots, setup) = ([Robot::at(0), Robot::at(3), Robot::at(8)], Setup::endless(2));
    let play = |fleet: &mut Fleet, mut draw: u32| -> Result<(), Error> {
        for _ in 0..200 {
            draw = draw.wrapping_mul(1_103_515_245).wrapping_add(12_345);
            let _ = fleet.go(draw >> 16 & 1, draw >> 17 & 3, (draw >> 19) % 12)?;
            fleet.tick()?;
            for client in 0..2 {
                fleet.give_all(client)?;
            }
        }
        Ok(())
    };
    let (mut one, mut other) = (Fleet::open(RING, &robots, &setup)?, Fleet::open(RING, &robots, &setup)?);
    play(&mut one, 1)?;
    play(&mut other, 1)?;
    assert_eq!(one.trace()?, other.trace()?);
    // What C++ makes of the same orders, by tools/build_c
    if let Ok(path) = std::env::var("NASHIRUDDER_SAME") {
        assert_eq!(one.trace()?, std::fs::read_to_string(path).expect("a file"));
    }
    let mut loaded = Fleet::reopen(RING, &one.trace()?, &robots, &setup)?;
    one.next_chapter()?;
    play(&mut one, 2)?;
    play(&mut loaded, 2)?;
    assert_eq!(one.trace()?, loaded.trace()?);
    Ok(())
}

#[test]
fn takes_turns_in_dead_ends() -> Result<(), Refused> {
    // A robot before a dead end, which is to go to its last cell, and one on that cell, which is to go out.
    const STUB: &[u8] = b"type octile\nheight 3\nwidth 6\nmap\n...@@@\n......\n...@@@\n";
    for take in [false, true] {
        let mut fleet = Fleet::open(STUB, &[Robot::at(8), Robot::at(11)], &Setup::new(1))?;
        if take {
            fleet.take_turns()?;
        }
        let _ = (fleet.go(0, 0, 11)?, fleet.go(0, 1, 0)?);
        assert_eq!(name_of(fleet.take_turns()), ("chapter-begun", (0, 0)));
        let arrived: Vec<u32> = (0..7).map(|_| fleet.tick().map(|report| report.arrived)).collect::<Result<_, _>>()?;
        let expected = if take { [0, 0, 0, 0, 0, 1, 1] } else { [0; 7] };
        assert_eq!(arrived, expected);
    }
    Ok(())
}

#[test]
fn searches_before_a_tick() -> Result<(), Refused> {
    // Two robots in two rows: each goes straight along its own, so that one search finds its way.
    const ROWS: &[u8] = b"type octile\nheight 2\nwidth 5\nmap\n.....\n.....\n";
    let robots = [Robot::at(0), Robot::at(5)];
    let mut plain = Fleet::open(ROWS, &robots, &Setup::new(1))?;
    let mut ahead = Fleet::open(ROWS, &robots, &Setup::new(1))?;
    assert_eq!((ahead.missing()?, ahead.search_one()?), (0, 0));
    for fleet in [&mut plain, &mut ahead] {
        let _ = (fleet.go(0, 0, 4)?, fleet.go(0, 1, 9)?);
    }
    assert_eq!((ahead.missing()?, ahead.search(Duration::ZERO)?), (2, 2));
    assert_eq!((ahead.search_one()?, ahead.missing()?, plain.missing()?), (1, 1, 2));
    assert_eq!((ahead.search(Duration::MAX)?, ahead.search_one()?), (0, 0));
    for _ in 0..4 {
        assert_eq!(plain.tick()?.arrived, ahead.tick()?.arrived);
        assert_eq!(ahead.missing()?, 0);
    }
    assert!(ahead.is_idle()?);
    assert_eq!(ahead.placement()?, [4, 9]);
    assert_eq!(plain.trace()?, ahead.trace()?);
    Ok(())
}
