//! Executes a plan with robots of different speed, and prints how long they take next to lock-step, in which a step of the plan
//! lasts as long as its longest move.

use nashirudder::{Clearance, Error, Execution, Move};
use std::cmp::Reverse;
use std::collections::BinaryHeap;

const ROBOTS: u32 = 3;
const STEPS: u64 = 8;

/// How long a robot's move takes: this is where real robots would move.
fn takes(begun: &Move) -> u64 {
    match (u64::from(begun.robot) + begun.tick) % 4 {
        0 => 3,
        _ => 1,
    }
}

/// The plan: in a corridor all robots move on by one cell in each step.
fn cells_after(step: u64) -> Vec<u32> {
    (0..ROBOTS).map(|robot| robot + step as u32).collect()
}

fn execute(name: &str, clearance: Clearance) -> Result<(), Error> {
    let mut run = Execution::open(12, &cells_after(0), clearance, 4)?;
    let mut under_way = BinaryHeap::new();
    let mut longest = vec![0; STEPS as usize + 1];
    let (mut now, mut moves) = (0, 0);
    loop {
        while run.has_room()? && run.progress()?.steps < STEPS {
            run.plan(&cells_after(run.progress()?.steps + 1))?;
        }
        while let Some(begun) = run.begin()? {
            let time = takes(&begun);
            let step = begun.tick as usize;
            longest[step] = time.max(longest[step]);
            under_way.push(Reverse((now + time, begun.robot)));
            moves += 1;
        }
        let Some(Reverse((time, robot))) = under_way.pop() else {
            break;
        };
        now = time;
        run.reached(robot)?;
    }
    let lock_step: u64 = longest.iter().sum();
    println!("{name}: {moves} moves in {now}, in lock-step {lock_step}");
    Ok(())
}

fn main() -> Result<(), Error> {
    execute("arrived", Clearance::Arrived)?;
    execute("started", Clearance::Started)
}
