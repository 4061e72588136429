//! A fleet: orders, ticks, notices and chapters.

use crate::chapter::{present_trace, Chapter, FullChapter, Keeper, Kept};
use crate::code::{Code, CHAPTER_FULL, DONE, NOT_OPEN, NO_NOTICE};
use crate::error::{check, Error};
use crate::notices::Notices;
use crate::number::{Cell, Client, RobotId};
use crate::opening::Manner;
use crate::order::{Order, Verdict};
use crate::raw::{self, Handle, RawArrival, RawJudgement, RawNote, RawOrder};
use crate::records::{Arrival, Notice, Report, Shown};
use crate::state::Opening;
use std::fmt;
use std::time::{Duration, Instant};

/// A fleet.
pub struct Fleet {
    pub(crate) handle: Handle,
    pub(crate) robots: usize,
    /// Of the present chapter.
    pub(crate) number: u64,
    pub(crate) manner: Manner,
    pub(crate) keeper: Option<Keeper>,
}

impl fmt::Debug for Fleet {
    fn fmt(&self, f: &mut fmt::Formatter<'_>) -> fmt::Result {
        let Fleet { robots, number, keeper, .. } = self;
        f.debug_struct("Fleet").field("robots", robots).field("chapter", number).field("rolls", &keeper.is_some()).finish_non_exhaustive()
    }
}

// SAFETY: the library proves that what a handle owns may move between threads, and what keeps chapters may. The methods with
// `&self` only call what looks, for which the library copies the handle: it and what it owns are then only read, and nothing is kept.
unsafe impl Send for Fleet {}
unsafe impl Sync for Fleet {}

impl Drop for Fleet {
    fn drop(&mut self) {
        // SAFETY: the handle is what the library left.
        unsafe { raw::nashirudder_close(&mut self.handle) };
    }
}

impl Fleet {
    /// From now on an order, a tick or a shut that finds the chapter full is made in the next one; `keep` is shown the full one
    /// first, and returns whether it kept it: a `bool`, a `Result<(), E>`, or nothing (`|_| ()` drops each). Where it did not
    /// the call is refused by `Code::ChapterFull`, whose `source` is the keeper's error; then, and where it panics, fleet and
    /// chapter are as they were, and the next call shows the chapter again. In the last of all chapters the call is refused by
    /// `Code::ChapterFull` too, and `keep` is not called.
    pub fn roll<K: Kept>(&mut self, mut keep: impl FnMut(&FullChapter<'_>) -> K + Send + 'static) {
        self.keeper = Some(Box::new(move |full| keep(full).told()));
    }

    /// A call that may find the chapter full.
    fn in_chapter(&mut self, mut call: impl FnMut(&mut Handle) -> u32) -> Result<u32, Error> {
        let code = call(&mut self.handle);
        if code != CHAPTER_FULL || !self.is_full_kept()? {
            return Ok(code);
        }
        self.next_chapter()?;
        Ok(call(&mut self.handle))
    }

    /// Whether the next chapter is to begin: one may follow, and the keeper, if there is one, kept the full one. Where it did
    /// not the call is refused.
    fn is_full_kept(&mut self) -> Result<bool, Error> {
        if self.keeper.is_none() || self.number + 1 >= u64::from(self.limits()?.chapters) {
            return Ok(false);
        }
        let full = FullChapter { fleet: &self.handle };
        match self.keeper.as_mut().map(|keep| keep(&full)) {
            Some(Err(source)) => Err(Error { code: Code::ChapterFull, numbers: (0, 0), source }),
            kept => Ok(kept.is_some()),
        }
    }

    fn judged(code: u32, told: RawJudgement) -> Result<Verdict, Error> {
        check(code).map(|()| Verdict::of(told.verdict, told.number))
    }

    /// The client orders the robot to the cell.
    pub fn go(&mut self, client: impl Into<Client>, robot: impl Into<RobotId>, cell: impl Into<Cell>) -> Result<Verdict, Error> {
        let (client, robot, cell) = (client.into().0, robot.into().0, cell.into().0);
        let mut told = RawJudgement::default();
        let code = self.in_chapter(|handle| unsafe {
            raw::nashirudder_go(handle, client, robot, cell, &mut told)
        })?;
        Fleet::judged(code, told)
    }

    /// The client's last order.
    pub fn close_client(&mut self, client: impl Into<Client>) -> Result<Verdict, Error> {
        let client = client.into().0;
        let mut told = RawJudgement::default();
        let code = self.in_chapter(|handle| unsafe {
            raw::nashirudder_close_client(handle, client, &mut told)
        })?;
        Fleet::judged(code, told)
    }

    /// The client gives up its accepted errand of that number.
    pub fn withdraw(&mut self, client: impl Into<Client>, number: u64) -> Result<Verdict, Error> {
        let client = client.into().0;
        let mut told = RawJudgement::default();
        let code = self.in_chapter(|handle| unsafe {
            raw::nashirudder_withdraw(handle, client, number, &mut told)
        })?;
        Fleet::judged(code, told)
    }

    /// Takes orders one after the other until one is refused. The verdicts of those that were taken, and why the next one was
    /// refused, if one was.
    pub fn take_many(&mut self, orders: &[Order]) -> Result<(Vec<Verdict>, Option<Code>), Error> {
        let asked: Vec<RawOrder> = orders.iter().map(Order::raw).collect();
        let mut told: Vec<RawJudgement> = orders.iter().map(|_| RawJudgement::default()).collect();
        let mut taken = 0;
        let code = loop {
            let before = taken;
            let code = self.in_chapter(|handle| {
                // On a handle that is closed the count stays as it was.
                let mut count = 0;
                let (asked, told) = (&asked[taken..], &mut told[taken..]);
                // SAFETY: a slice's pointer is never null, and its length is true.
                let code = unsafe {
                    raw::nashirudder_take_many(
                        handle,
                        asked.as_ptr(),
                        asked.len(),
                        told.as_mut_ptr(),
                        told.len(),
                        &mut count,
                    )
                };
                taken += count;
                code
            })?;
            if code != CHAPTER_FULL || taken == before {
                break code;
            }
        };
        if code == NOT_OPEN {
            check(code)?;
        }
        told.truncate(taken);
        let verdicts = told.iter().map(|judged| Verdict::of(judged.verdict, judged.number)).collect();
        Ok((verdicts, if code == DONE { None } else { Some(Code::of(code)) }))
    }

    /// All robots make one step.
    pub fn tick(&mut self) -> Result<Report, Error> {
        let mut report = Report::default();
        let code = self.in_chapter(|handle| unsafe { raw::nashirudder_tick(handle, &mut report) })?;
        check(code)?;
        Ok(report)
    }

    /// The same, with what the tick shows.
    pub fn tick_into(&mut self, shown: &mut Shown) -> Result<Report, Error> {
        let mut report = Report::default();
        shown.cells.resize(self.robots, 0);
        shown.farewells.resize(self.robots, 0);
        shown.told.resize(self.robots, RawArrival::default());
        // SAFETY: a vector's pointer is never null, and its length is true.
        let code = self.in_chapter(|handle| unsafe {
            raw::nashirudder_tick_into(
                handle,
                &mut report,
                shown.cells.as_mut_ptr(),
                shown.cells.len(),
                shown.told.as_mut_ptr(),
                shown.told.len(),
                shown.farewells.as_mut_ptr(),
                shown.farewells.len(),
            )
        })?;
        check(code)?;
        shown.farewells.truncate(report.farewells as usize);
        shown.arrivals.clear();
        shown.arrivals.extend(shown.told[..report.arrived as usize].iter().map(Arrival::of));
        Ok(report)
    }

    /// Searches the field of one robot's goal as far as the next tick will need it. How many are still to be searched: after
    /// 0 the next tick is planned without a search. Nothing else changes.
    ///
    /// # Errors
    ///
    /// `Code::NoMemory`; what was searched by then is not searched again.
    pub fn search_one(&mut self) -> Result<usize, Error> {
        let mut missing = 0;
        check(unsafe { raw::nashirudder_search_one(&mut self.handle, &mut missing) })?;
        Ok(missing)
    }

    /// The same until none is left or this much time is over, which is looked at before each search. How many are left.
    pub fn search(&mut self, time: Duration) -> Result<usize, Error> {
        let begun = Instant::now();
        let mut missing = self.missing()?;
        while missing > 0 && begun.elapsed() < time {
            missing = self.search_one()?;
        }
        Ok(missing)
    }

    /// The robot gets no more errands. Whether it has none, and so took its leave at once.
    pub fn shut(&mut self, robot: impl Into<RobotId>) -> Result<bool, Error> {
        let robot = robot.into().0;
        let mut left = false;
        let code = self.in_chapter(|handle| unsafe { raw::nashirudder_shut(handle, robot, &mut left) })?;
        check(code)?;
        Ok(left)
    }

    /// The client's next notice, if there is one.
    pub fn give(&mut self, client: impl Into<Client>) -> Result<Option<Notice>, Error> {
        let client = client.into().0;
        let mut note = RawNote::default();
        match unsafe { raw::nashirudder_give(&mut self.handle, client, &mut note) } {
            NO_NOTICE => Ok(None),
            code => check(code).map(|()| Some(Notice::of(&note))),
        }
    }

    /// The client's notices that it was not given yet, one after the other. It ends at the first refusal.
    pub fn notices(&mut self, client: impl Into<Client>) -> Notices<'_> {
        Notices { fleet: self, client: client.into(), is_over: false }
    }

    /// All notices that the client was not given yet.
    pub fn give_all(&mut self, client: impl Into<Client>) -> Result<Vec<Notice>, Error> {
        let client = client.into().0;
        let pending = self.pending_count(client)? as usize;
        let mut notes: Vec<RawNote> = (0..pending).map(|_| RawNote::default()).collect();
        let mut count = 0;
        // SAFETY: a vector's pointer is never null, and its length is true.
        check(unsafe {
            raw::nashirudder_give_many(
                &mut self.handle,
                client,
                notes.as_mut_ptr(),
                notes.len(),
                &mut count,
            )
        })?;
        Ok(notes[..count].iter().map(Notice::of).collect())
    }

    /// Lets the robots take turns from now on, so that errands to served cells arrive, also in dead ends. On a map without
    /// bridges nothing changes. The chapters that follow are planned so too; a fleet that is reopened is asked again.
    ///
    /// # Errors
    ///
    /// `Code::ChapterBegun` if the chapter has an entry, and `Code::NoTurns` if the rooms that were found do not pass their
    /// checks.
    pub fn take_turns(&mut self) -> Result<(), Error> {
        check(unsafe { raw::nashirudder_take_turns(&mut self.handle) })?;
        self.manner.turns = true;
        Ok(())
    }

    /// Lets the client's mailbox hold this many more notices and unfinished errands.
    pub fn widen(&mut self, client: impl Into<Client>, extra: u64) -> Result<(), Error> {
        let client = client.into().0;
        check(unsafe { raw::nashirudder_widen(&mut self.handle, client, extra) })
    }

    /// The trace of the present chapter.
    pub fn trace(&self) -> Result<String, Error> {
        present_trace(&self.handle)
    }

    /// How the fleet stood at the beginning of the present chapter; after `next_chapter` or `hand_out`, how it stands now.
    pub fn opening(&self) -> Result<Opening, Error> {
        Opening::of(&self.trace()?)
    }

    /// Begins the next chapter, and hands out the one that ended.
    pub fn hand_out(&mut self) -> Result<Chapter, Error> {
        let mut ended = Chapter { handle: Handle::CLOSED };
        check(unsafe {
            raw::nashirudder_next_chapter_into(&mut self.handle, &mut ended.handle)
        })?;
        self.number += 1;
        Ok(ended)
    }

    /// Begins the next chapter; the entries of the present one are let go.
    pub fn next_chapter(&mut self) -> Result<(), Error> {
        check(unsafe { raw::nashirudder_next_chapter(&mut self.handle) })?;
        self.number += 1;
        Ok(())
    }

    /// Keeps distances to goals that no robot has any more, up to this many bytes.
    pub fn keep(&mut self, bytes: usize) -> Result<(), Error> {
        check(unsafe { raw::nashirudder_keep(&mut self.handle, bytes) })?;
        self.manner.kept = Some(bytes);
        Ok(())
    }
}
