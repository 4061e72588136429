//! Chapters that were handed out, full ones, and those who keep them.

use crate::code::WRONG_LENGTH;
use crate::error::{check, Error, Failure};
use crate::raw::{self, Handle};
use std::sync::Arc;

/// A chapter that a fleet handed out. Its text can be written in another thread, while the fleet goes on.
#[derive(Debug)]
pub struct Chapter {
    pub(crate) handle: Handle,
}

// SAFETY: as for a fleet; each method only looks.
unsafe impl Send for Chapter {}
unsafe impl Sync for Chapter {}

impl Drop for Chapter {
    fn drop(&mut self) {
        // SAFETY: the handle is what the library left.
        unsafe { raw::nashirudder_chapter_close(&mut self.handle) };
    }
}

impl Chapter {
    /// Its trace.
    pub fn trace(&self) -> Result<String, Error> {
        // SAFETY: the pointers are those of `text_by`.
        text_by(|text, size, length| unsafe {
            raw::nashirudder_chapter_trace(&self.handle, text, size, length)
        })
    }
}

/// The full chapter of a fleet that rolls, as its keeper is shown it before the next one begins.
#[derive(Debug)]
pub struct FullChapter<'a> {
    pub(crate) fleet: &'a Handle,
}

impl FullChapter<'_> {
    /// Its trace.
    pub fn trace(&self) -> Result<String, Error> {
        present_trace(self.fleet)
    }
}

/// What a keeper of chapters returns: whether it kept the chapter (`bool`), or nothing if it always does, or a result, whose
/// error is then the `source` of the refusal.
pub trait Kept: sealed::Sealed {}

impl Kept for bool {}
impl Kept for () {}
impl<E: Into<Box<Failure>>> Kept for Result<(), E> {}

pub(crate) mod sealed {
    use crate::error::Failure;
    use std::sync::Arc;

    /// How a keeper went: it kept the chapter, or did not, for a reason that it may say.
    pub trait Sealed {
        fn told(self) -> Result<(), Option<Arc<Failure>>>;
    }

    impl Sealed for bool {
        fn told(self) -> Result<(), Option<Arc<Failure>>> {
            self.then_some(()).ok_or(None)
        }
    }

    impl Sealed for () {
        fn told(self) -> Result<(), Option<Arc<Failure>>> {
            Ok(())
        }
    }

    impl<E: Into<Box<Failure>>> Sealed for Result<(), E> {
        fn told(self) -> Result<(), Option<Arc<Failure>>> {
            self.map_err(|failure| Some(Arc::from(failure.into())))
        }
    }
}

/// Keeps a full chapter, or says why not.
pub(crate) type Keeper = Box<dyn FnMut(&FullChapter<'_>) -> Result<(), Option<Arc<Failure>>> + Send>;

/// The trace of a fleet's present chapter.
pub(crate) fn present_trace(fleet: &Handle) -> Result<String, Error> {
    // SAFETY: the pointers are those of `text_by`.
    text_by(|text, size, length| unsafe { raw::nashirudder_trace(fleet, text, size, length) })
}

/// The number of a chapter, with which the library's trace begins: `{"chapter":N,`.
pub(crate) fn number_in(trace: &str) -> u64 {
    let digits = trace.trim_start_matches("{\"chapter\":").split(',').next();
    digits.and_then(|digits| digits.parse().ok()).unwrap_or(0)
}

/// A chapter's text, by a call that says how long it is. It is passed a vector's pointer and length.
fn text_by(call: impl Fn(*mut u8, usize, &mut usize) -> u32) -> Result<String, Error> {
    let (mut text, mut length) = (vec![0; 1024], 0);
    let mut code = call(text.as_mut_ptr(), text.len(), &mut length);
    if code == WRONG_LENGTH {
        text.resize(length, 0);
        code = call(text.as_mut_ptr(), text.len(), &mut length);
    }
    check(code)?;
    text.truncate(length);
    Ok(String::from_utf8(text).expect("a trace is ASCII"))
}
