//! A service: one thread has the fleet and moves it, others post errands and wait for their notices, and one more keeps full
//! chapters. Ends with status 1 where something is not as it should be. usage: service [CLIENTS [ERRANDS]]

use nashirudder::{judge, Error, Fleet, Notice, Robot, Setup, Verdict};
use std::sync::mpsc::{channel, Receiver, Sender};
use std::thread;

const MAP: &str = "type octile\nheight 4\nwidth 6\nmap\n......\n.@..@.\n.@..@.\n......\n";
/// The cells of the first and the last row.
const GOALS: [u32; 12] = [0, 1, 2, 3, 4, 5, 18, 19, 20, 21, 22, 23];
/// Entries of a chapter.
const CHAPTER: u32 = 64;

/// An order: this client sends its robot to a cell, and is told the verdict.
struct Asked {
    client: u32,
    cell: u32,
    answer: Sender<Verdict>,
}

/// Moves the fleet until all clients are gone, and returns it.
fn serve(mut fleet: Fleet, orders: &Receiver<Asked>, clients: &[Sender<Notice>]) -> Result<Fleet, Error> {
    loop {
        // Where nobody has an errand there is nothing to do until somebody orders.
        let first = if fleet.is_idle()? { Some(orders.recv()) } else { None };
        if let Some(Err(_)) = first {
            return Ok(fleet);
        }
        for Asked { client, cell, answer } in first.into_iter().flatten().chain(orders.try_iter()) {
            // A client that is gone waits for no answer, and for no notice.
            let _ = answer.send(fleet.go(client, client, cell)?);
        }
        if !fleet.is_idle()? {
            fleet.tick()?;
        }
        for (client, told) in (0..).zip(clients) {
            for notice in fleet.notices(client) {
                let _ = told.send(notice?);
            }
        }
    }
}

/// A client that sends its robot from goal to goal, each time when it has arrived.
fn client(number: u32, errands: usize, orders: &Sender<Asked>, notices: &Receiver<Notice>) {
    let mut seqs = Vec::new();
    for errand in 0..errands {
        let (answer, verdict) = channel();
        let cell = GOALS[(errand * 5 + number as usize) % GOALS.len()];
        orders.send(Asked { client: number, cell, answer }).expect("the fleet is there");
        assert_eq!(verdict.recv(), Ok(Verdict::Accepted(errand as u64 + 1)));
        for notice in notices {
            seqs.push(notice.seq());
            if let Notice::Arrived { number: of, robot, cell: at, .. } = notice {
                assert_eq!((of, robot, at), (errand as u64 + 1, number, cell));
                break;
            }
        }
    }
    // A verdict and an arrival of each errand, each notice once, in order.
    assert_eq!(seqs, (1..=2 * errands as u64).collect::<Vec<_>>());
}

fn main() -> Result<(), Error> {
    let mut words = std::env::args().skip(1).map(|word| word.parse().expect("a number"));
    let (clients, errands) = (words.next().unwrap_or(4), words.next().unwrap_or(50));
    let robots: Vec<Robot> = (0..clients).map(|robot| Robot::at(GOALS[robot])).collect();
    let mut fleet = Fleet::open(MAP.as_bytes(), &robots, &Setup { chapter: CHAPTER, ..Setup::endless(clients as u32) })?;
    let (full, chapters) = channel::<String>();
    // Where nobody keeps them any more, the order or the tick is refused, and the chapter stays.
    fleet.roll(move |chapter| chapter.trace().is_ok_and(|text| full.send(text).is_ok()));
    let kept = thread::scope(|scope| {
        let keeper = scope.spawn(move || chapters.iter().inspect(|text| judge(MAP.as_bytes(), text).expect("a legal chapter")).count());
        let (order, orders) = channel();
        let told: Vec<Sender<Notice>> = (0..clients as u32)
            .map(|number| {
                let ((tell, notices), order) = (channel(), order.clone());
                scope.spawn(move || client(number, errands, &order, &notices));
                tell
            })
            .collect();
        drop(order);
        let last = scope.spawn(move || serve(fleet, &orders, &told)).join().expect("no panic")?;
        judge(MAP.as_bytes(), &last.trace()?)?;
        // With the fleet its keeper of chapters goes, and so the thread that keeps them ends.
        drop(last);
        Ok::<usize, Error>(keeper.join().expect("no panic"))
    })?;
    println!("{clients} clients, {errands} errands each: all arrived");
    eprintln!("{kept} full chapters, each legal");
    Ok(())
}
