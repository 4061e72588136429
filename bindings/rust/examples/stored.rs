//! Plays the stored run of the program errands: the same events, and the same lines.

use nashirudder::{Fleet, Notice, Refused, Robot, Setup, Verdict};

fn main() -> Result<(), Refused> {
    let map = "type octile\nheight 1\nwidth 3\nmap\n...\n";
    let mut fleet = Fleet::open(map.as_bytes(), &[Robot::at(0)], &Setup::new(1))?;
    println!("posted 0 1");
    if let Verdict::Accepted(number) = fleet.go(0, 0, 2)? {
        println!("took 0 1 accepted {number}");
    }
    for _ in 0..2 {
        let report = fleet.tick()?;
        println!("tick {}: {}", report.tick, fleet.placement()?[0]);
    }
    let mut notices = Vec::new();
    for notice in fleet.notices(0) {
        let notice = notice?;
        if let Notice::Arrived { number, robot, cell, stamp, .. } = notice {
            println!("arrived robot {robot} client 0 number {number} cell {cell} stamp {stamp}");
        }
        notices.push(notice);
    }
    for notice in &notices {
        println!("gave 0 {}", notice.seq());
    }
    for notice in notices {
        match notice {
            Notice::Verdict { seq, order, verdict: Verdict::Accepted(number) } => {
                println!("collected 0 {seq} verdict {order} accepted {number}");
            }
            Notice::Verdict { seq, order, verdict } => {
                println!("collected 0 {seq} verdict {order} {verdict:?}");
            }
            Notice::Arrived { seq, number, robot, cell, tick, stamp } => {
                println!("collected 0 {seq} arrived {number} robot {robot} cell {cell} tick {tick} stamp {stamp}");
            }
            other => println!("collected 0 {}: {other:?}", other.seq()),
        }
    }
    Ok(())
}
