//! The error of the crate.

use crate::code::{Code, DONE};
use crate::raw::{self, RawFault};
use std::sync::Arc;
use std::{error, fmt};

/// A call was refused; the fleet is as it was. It prints as a sentence. Two are equal if code and numbers are.
#[derive(Clone, Debug)]
#[non_exhaustive]
pub struct Error {
    /// Why.
    pub code: Code,
    /// The numbers that the refusal names, as lines, rows or robots; else 0.
    pub numbers: (u64, u64),
    pub(crate) source: Option<Arc<Failure>>,
}

/// The same by its earlier name.
pub type Refused = Error;

/// What a keeper of chapters may fail with.
pub(crate) type Failure = dyn error::Error + Send + Sync;

impl Error {
    /// The word for the code.
    pub fn name(&self) -> &'static str {
        self.code.name()
    }
}

impl PartialEq for Error {
    fn eq(&self, other: &Error) -> bool {
        (self.code, self.numbers) == (other.code, other.numbers)
    }
}

impl Eq for Error {}

impl fmt::Display for Error {
    fn fmt(&self, f: &mut fmt::Formatter<'_>) -> fmt::Result {
        let fault = RawFault {
            first: self.numbers.0,
            second: self.numbers.1,
            code: self.code.number(),
        };
        // A sentence has at most 113 bytes and two numbers of at most 20 digits in place of two more.
        let mut text = [0u8; 256];
        // SAFETY: the pointers are to a whole fault, and to as many bytes as is said.
        let length = unsafe { raw::nashirudder_message(&fault, text.as_mut_ptr(), text.len()) };
        let told = &text[..length.min(text.len() - 1)];
        f.write_str(std::str::from_utf8(told).unwrap_or(self.name()))
    }
}

impl error::Error for Error {
    /// What the keeper of chapters failed with, if that is why the chapter is still full (`Fleet::roll`).
    fn source(&self) -> Option<&(dyn error::Error + 'static)> {
        self.source.as_deref().map(|failure| failure as &(dyn error::Error + 'static))
    }
}

pub(crate) fn check(code: u32) -> Result<(), Error> {
    match code {
        DONE => Ok(()),
        code => Err(Error { code: Code::of(code), numbers: (0, 0), source: None }),
    }
}

pub(crate) fn check_told(code: u32, fault: &RawFault) -> Result<(), Error> {
    match check(code) {
        Err(refused) if fault.code == code => Err(Error {
            numbers: (fault.first, fault.second),
            ..refused
        }),
        result => result,
    }
}
