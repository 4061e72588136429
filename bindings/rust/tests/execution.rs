//! The execution of plans. What is wanted is worked out by hand.

use nashirudder::{Clearance, Code, Error, Execution, Move, Progress, RobotId, Whereabouts};

fn code<T>(told: Result<T, Error>) -> Option<Code> {
    told.err().map(|refused| refused.code)
}

#[test]
fn refuses_openings() {
    assert_eq!(code(Execution::open(4, &[1, 1], Clearance::Arrived, 0)), Some(Code::BadWindow));
    assert_eq!(code(Execution::open(4, &[1, 1], Clearance::Arrived, 1)), Some(Code::NoPlacement));
    assert_eq!(code(Execution::open(4, &[0, 4], Clearance::Started, 1)), Some(Code::NoPlacement));
}

/// Two robots in a corridor, the second behind the first.
#[test]
fn follows_in_a_corridor() -> Result<(), Error> {
    let mut run = Execution::open(4, &[0, 1], Clearance::Arrived, 2)?;
    assert_eq!((run.begin()?, run.reached(0)?, run.whereabouts(2)?), (None, None, None));
    run.plan(&[1, 2])?;
    run.plan(&[2, 3])?;
    assert_eq!(code(run.plan(&[3, 2])), Some(Code::WindowFull));
    assert_eq!(run.begin()?, Some(Move { robot: 1, from: 1, to: 2, tick: 1 }));
    assert_eq!(run.begin()?, None);
    assert_eq!(run.whereabouts(RobotId(1))?, Some(Whereabouts { cell: 1, bound_for: Some(2), left: 1 }));
    assert_eq!(run.whereabouts(0)?, Some(Whereabouts { cell: 0, bound_for: None, left: 2 }));
    assert_eq!(run.progress()?, Progress { steps: 2, behind: 2, has_room: false });
    assert_eq!(run.reached(1)?, Some(Move { robot: 1, from: 1, to: 2, tick: 1 }));
    assert_eq!(run.reached(1)?, None);
    let mut began = [run.begin()?, run.begin()?].map(|begun| begun.map(|it| (it.robot, it.from, it.to)));
    began.sort();
    assert_eq!(began, [Some((0, 0, 1)), Some((1, 2, 3))]);
    run.reached(0)?;
    assert!(run.has_room()?);
    assert_eq!(code(run.plan(&[3, 2])), Some(Code::NoStep));
    Ok(())
}

/// An execution moves to another thread, and several threads look at one.
#[test]
fn crosses_threads() -> Result<(), Error> {
    let mut run = Execution::open(3, &[0], Clearance::Started, 1)?;
    run.plan(&[2])?;
    let run = std::thread::spawn(move || run.begin().map(|_| run)).join().expect("no panic")?;
    std::thread::scope(|scope| {
        for _ in 0..2 {
            scope.spawn(|| assert_eq!(run.whereabouts(0), Ok(Some(Whereabouts { cell: 0, bound_for: Some(2), left: 0 }))));
        }
    });
    Ok(())
}
