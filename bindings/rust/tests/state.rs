//! The state of a fleet as a value: kept, gone back to, changed, and gone on from.

use nashirudder::{Code, Error, Fleet, Map, Opening, OpeningErrand, OpeningRobot, Robot, Setup};
use std::sync::atomic::{AtomicUsize, Ordering};
use std::sync::Arc;

const STUB: &[u8] = b"type octile\nheight 3\nwidth 6\nmap\n...@@@\n......\n...@@@\n";
const RING: &[u8] = b"type octile\nheight 3\nwidth 4\nmap\n....\n.@..\n....\n";
const WALL: &[u8] = b"type octile\nheight 3\nwidth 4\nmap\n....\n.@@.\n....\n";

/// Two robots under way, in a chapter that has no entries yet.
fn begun() -> Result<Fleet, Error> {
    let mut fleet = Fleet::open(RING, &[Robot::at(0), Robot::at(3)], &Setup::new(1))?;
    for (robot, cell) in [(0, 11), (0, 2), (1, 8)] {
        assert_eq!(fleet.go(0, robot, cell)?.name(), "accepted");
    }
    fleet.tick()?;
    assert_eq!(fleet.opening()?.tick, 0);
    fleet.next_chapter()?;
    Ok(fleet)
}

fn play(fleet: &mut Fleet) -> Result<String, Error> {
    for tick in 0..30 {
        let _ = fleet.go(0, tick % 2, 7 * tick % 12)?;
        fleet.tick()?;
        fleet.give_all(0)?;
    }
    fleet.trace()
}

#[test]
fn goes_back() -> Result<(), Error> {
    let mut fleet = begun()?;
    let state = fleet.opening()?;
    assert_eq!((state.trace(), Opening::of(&state.trace())?), (fleet.trace()?, state.clone()));
    fleet.next_chapter()?;
    let onwards = play(&mut fleet)?;
    assert_eq!(Opening::of(&onwards)?.robots, state.robots);
    let mut again = Fleet::reopen(RING, &state.trace(), &[Robot::at(0); 2], &Setup::new(1))?;
    assert_eq!(play(&mut again)?, onwards);
    Ok(())
}

#[test]
fn changes() -> Result<(), Error> {
    let mut state = begun()?.opening()?;
    assert_eq!((state.tick, state.chapter, state.queue, state.robots[0].cell, state.robots[1].cell), (1, 1, 16, 1, 7));
    let first = OpeningErrand { client: 0, number: 1, cell: 11 };
    assert_eq!((state.cancel(0, 1), state.robots[0].wait, state.cancel(0, 2), state.cancel(0, 0), state.cancel(2, 1)), (Some(first), Some(0), None, None, None));
    state.robots[1].move_to(4);
    state.robots.push(OpeningRobot::at(10));
    let mut fleet = Fleet::reopen(WALL, &state.trace(), &[Robot::at(0); 3], &Setup::new(1))?;
    assert_eq!((fleet.placement()?, fleet.queue(0)?.len(), fleet.clock()?), (vec![1, 4, 10], 1, 1));
    while !fleet.is_idle()? {
        fleet.tick()?;
    }
    assert_eq!(fleet.placement()?[..2], [2, 8]);
    state.robots.remove(0);
    assert_eq!(Fleet::reopen(RING, &state.trace(), &[Robot::at(0); 2], &Setup::new(1))?.placement()?, [4, 10]);
    // On both maps each robot stands well; then two stand on one cell.
    let (ring, wall) = (Map::open(RING)?, Map::open(WALL)?);
    assert_eq!((state.fault(&ring)?, state.fault(&wall)?), (None, None));
    state.robots[1].move_to(6);
    assert_eq!(state.fault(&wall)?.as_deref(), Some("robot 1 is on cell 6, which is no floor"));
    state.robots[0].errands[0].cell = 5;
    let sentence = "no walk leads robot 0 from cell 4 to cell 5, where its errand 3 of client 0 goes";
    assert_eq!(state.fault(&ring)?.as_deref(), Some(sentence));
    state.robots[0].errands[0].cell = 8;
    state.robots[1].move_to(4);
    assert_eq!(state.fault(&ring)?.as_deref(), Some("robots 0 and 1 are both on cell 4"));
    let refused = Fleet::reopen(RING, &state.trace(), &[Robot::at(0); 2], &Setup::new(1)).expect_err("two on one cell");
    assert_eq!((refused.code, refused.numbers), (Code::ChapterIllegal, (0, 1)));
    Ok(())
}

/// A fleet that goes on from another state, in its own manner.
#[test]
fn goes_on() -> Result<(), Error> {
    let robots = [Robot { cell: 0, ranks: [1, 2, 3, 4] }, Robot { cell: 3, ranks: [4, 3, 2, 1] }];
    let mut fleet = Fleet::open(RING, &robots, &Setup { chapter: 2, ..Setup::endless(1) })?;
    let kept = Arc::new(AtomicUsize::new(0));
    let keeper = Arc::clone(&kept);
    fleet.roll(move |_| keeper.fetch_add(1, Ordering::Relaxed) < usize::MAX);
    fleet.keep(0)?;
    assert_eq!(fleet.go(0, 0, 11)?.name(), "accepted");
    fleet.next_chapter()?;
    let before = fleet.opening()?;
    for turn in 1..=2 {
        for _ in 0..5 {
            fleet.tick()?;
        }
        // Two entries a chapter: after five ticks two chapters were full.
        assert_eq!((kept.load(Ordering::Relaxed), fleet.clock()?, fleet.placement()?[0]), (2 * turn, 5, 11));
        fleet.give_all(0)?;
        fleet.go_on(RING, &before, &robots)?;
        assert_eq!((fleet.clock()?, fleet.opening()?.chapter, fleet.limits()?.chapter), (0, before.chapter + 1, 2));
    }
    // What a map does not suit is refused, and nothing changes.
    let (mut more, now) = (before.clone(), fleet.trace()?);
    more.robots.push(OpeningRobot::at(6));
    assert_eq!(fleet.go_on(WALL, &more, &[]).expect_err("a wall").code, Code::ChapterIllegal);
    assert_eq!(fleet.go_on(RING, &more, &robots).expect_err("a robot more").code, Code::LawsDiffer);
    assert_eq!((fleet.trace()?, fleet.robots()), (now, 2));
    more.queue = 3;
    fleet.go_on(RING, &more, &[])?;
    assert_eq!((fleet.robots(), fleet.placement()?[2], fleet.limits()?.queue), (3, 6, 3));
    more.queue = 1 << 40;
    assert!(fleet.go_on(RING, &more, &[]).is_err());
    // Roomy cells and turns are asked for again.
    let two = [Robot::at(8), Robot::at(11)];
    let mut roomy = Fleet::open_roomy(STUB, &two, &Setup::new(1))?;
    roomy.go_on(STUB, &roomy.opening()?, &[])?;
    assert_eq!(roomy.go(0, 0, 11).expect_err("a dead end").code, Code::NoRoom);
    let mut turning = Fleet::open(STUB, &two, &Setup::new(1))?;
    turning.take_turns()?;
    turning.go_on(STUB, &turning.opening()?, &[])?;
    for (robot, cell) in [(0, 11), (1, 0)] {
        assert_eq!(turning.go(0, robot, cell)?.name(), "accepted");
    }
    for _ in 0..60 {
        turning.tick()?;
    }
    assert!(turning.is_idle()?);
    Ok(())
}

#[test]
fn refuses_what_is_no_chapter() -> Result<(), Error> {
    let text = begun()?.trace()?;
    for end in 0..text.len() {
        assert_eq!(Opening::of(&text[..end]).expect_err("cut").code, Code::TraceShape);
    }
    for wrong in [format!("{text} "), text.replace("false", "0"), text.replace("null", "none"), text.replace("\"tick\":1", "\"tick\":99999999999999999999")] {
        assert!(wrong == text || Opening::of(&wrong).is_err(), "{wrong}");
    }
    Ok(())
}
