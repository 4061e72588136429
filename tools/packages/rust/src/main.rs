//! The same in Rust.

use nashirudder::{Fleet, Refused, Robot, Setup, Verdict};

fn main() -> Result<(), Refused> {
    let map = "type octile\nheight 1\nwidth 3\nmap\n...\n";
    let mut fleet = Fleet::open(map.as_bytes(), &[Robot::at(0)], &Setup::new(1))?;
    if let Verdict::Accepted(number) = fleet.go(0, 0, 2)? {
        println!("accepted {number}");
    }
    let mut report = fleet.tick()?;
    while report.arrived == 0 && report.tick < 9 {
        report = fleet.tick()?;
    }
    println!("tick {}: {}", report.tick, fleet.placement()?[0]);
    Ok(())
}
