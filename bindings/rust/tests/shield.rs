//! Shields. What is wanted is worked out by hand, or by tools/shield/model.py where it says so.

use nashirudder::{Code, Error, Map, Shield};
use std::sync::Arc;

/// ```text
/// 0 1 2 3 4
/// 5 6 # 8 9
/// ```
const TEXT: &[u8] = b"type octile\nheight 2\nwidth 5\nmap\n.....\n..@..\n";

fn stepped(from: &[u32], order: &[u32], each: u16, preferences: &[u32]) -> Result<Vec<u32>, Error> {
    let mut shield = Shield::open(Map::open(TEXT)?, from.len() as u32)?;
    let mut to = vec![77; from.len()];
    shield.step(from, order, each, preferences, &mut to)?;
    Ok(to)
}

/// Why two robots have no step, and the numbers that are named.
fn refused(from: &[u32], order: &[u32], each: u16, preferences: &[u32]) -> Option<(Code, u64, u64)> {
    let mut shield = Shield::open(Map::open(TEXT).ok()?, 2).ok()?;
    let mut to = [77, 78];
    let why = shield.step(from, order, each, preferences, &mut to).err()?;
    assert_eq!(to, [77, 78]);
    Some((why.code, why.numbers.0, why.numbers.1))
}

#[test]
fn makes_steps() -> Result<(), Error> {
    // Both want the cell between them: the first in order gets it.
    assert_eq!(stepped(&[0, 2], &[1, 0], 1, &[1, 1])?, [0, 1]);
    assert_eq!(stepped(&[0, 2], &[0, 1], 1, &[1, 1])?, [1, 2]);
    // One is pushed on; two do not exchange their cells, and the one that is pushed makes way.
    assert_eq!(stepped(&[0, 1], &[0, 1], 1, &[1, 2])?, [1, 2]);
    assert_eq!(stepped(&[0, 1], &[0, 1], 1, &[1, 0])?, [0, 1]);
    assert_eq!(stepped(&[0, 1], &[0, 1], 2, &[1, 0, 0, 6])?, [1, 6]);
    // Four turn on a block of four cells.
    assert_eq!(stepped(&[0, 1, 6, 5], &[2, 0, 3, 1], 1, &[1, 6, 5, 0])?, [1, 6, 5, 0]);
    // Nobody, and whoever prefers nothing.
    assert_eq!(stepped(&[], &[], 5, &[])?, []);
    assert_eq!(stepped(&[3, 9], &[0, 1], 0, &[])?, [3, 9]);
    // By tools/shield/model.py.
    assert_eq!(stepped(&[6, 0, 8], &[2, 0, 1], 2, &[6, 1, 0, 5, 3, 3])?, [6, 0, 3]);
    Ok(())
}

#[test]
fn names_the_first_fault() {
    assert_eq!(refused(&[0, 2, 4], &[0, 1], 1, &[1, 1]), Some((Code::ShieldLength, 0, 0)));
    assert_eq!(refused(&[0, 2], &[0], 1, &[1, 1]), Some((Code::ShieldLength, 0, 0)));
    assert_eq!(refused(&[0, 2], &[0, 1], 2, &[1, 1]), Some((Code::ShieldLength, 0, 0)));
    assert_eq!(refused(&[0, 10], &[0, 1], 1, &[1, 9]), Some((Code::ShieldOutside, 1, 0)));
    assert_eq!(refused(&[7, 0], &[2, 2], 1, &[1, 1]), Some((Code::ShieldWall, 0, 0)));
    assert_eq!(refused(&[1, 1], &[2, 1], 1, &[1, 1]), Some((Code::ShieldShared, 0, 1)));
    assert_eq!(refused(&[0, 2], &[0, 2], 1, &[9, 1]), Some((Code::ShieldUnknown, 1, 0)));
    assert_eq!(refused(&[0, 2], &[1, 1], 1, &[9, 1]), Some((Code::ShieldTwice, 1, 0)));
    assert_eq!(refused(&[0, 3], &[0, 1], 2, &[0, 1, 3, 9]), Some((Code::ShieldFar, 1, 1)));
    assert_eq!(refused(&[2, 3], &[0, 1], 1, &[7, 3]), Some((Code::ShieldFar, 0, 0)));
}

#[test]
fn says_it_in_a_sentence() -> Result<(), Error> {
    let mut shield = Shield::open(Map::open(TEXT)?, 1)?;
    let why = shield.step(&[3], &[0], 2, &[3, 9], &mut [0]).unwrap_err();
    assert_eq!(why.to_string(), "preference 1 of robot 0 is neither its cell nor next to it");
    assert_eq!(shield.step(&[3], &[0], 1, &[3], &mut []).unwrap_err().name(), "shield-length");
    Ok(())
}

#[test]
fn shares_a_map_between_threads() -> Result<(), Error> {
    let map = Arc::new(Map::open(TEXT)?);
    let lent = Shield::open(&*map, 2)?;
    assert_eq!(lent.map().shape()?.cells, 10);
    let walks = (0..4).map(|_| {
        let mut shield = Shield::open(Arc::clone(&map), 2)?;
        Ok(std::thread::spawn(move || {
            let (mut at, mut to) = ([0, 4], [0, 0]);
            for step in 0..1000 {
                // Each wants the other's cell in the row of five.
                let wanted = [at[0] + 1, at[1] - 1].map(|cell| cell.min(4));
                let order = if step % 2 == 0 { [0, 1] } else { [1, 0] };
                shield.step(&at, &order, 1, &wanted, &mut to)?;
                assert_ne!(to[0], to[1]);
                at = to;
            }
            Ok::<[u32; 2], Error>(at)
        }))
    });
    for walk in walks.collect::<Result<Vec<_>, Error>>()? {
        // In the second step robot 1 is the first, and comes to cell 2; from then on neither makes way.
        assert_eq!(walk.join().expect("a thread")?, [1, 2]);
    }
    Ok(())
}
