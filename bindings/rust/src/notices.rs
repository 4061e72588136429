//! Notices, one after the other.

use crate::error::Error;
use crate::fleet::Fleet;
use crate::number::Client;
use crate::records::Notice;
use std::iter::FusedIterator;

/// The notices of a client, which leave its mailbox one after the other: what `Fleet::notices` returns.
#[must_use = "a notice leaves the mailbox only when it is asked for"]
#[derive(Debug)]
pub struct Notices<'a> {
    pub(crate) fleet: &'a mut Fleet,
    pub(crate) client: Client,
    pub(crate) is_over: bool,
}

impl Iterator for Notices<'_> {
    type Item = Result<Notice, Error>;

    fn next(&mut self) -> Option<Result<Notice, Error>> {
        if self.is_over {
            return None;
        }
        let told = self.fleet.give(self.client).transpose();
        self.is_over = !matches!(told, Some(Ok(_)));
        told
    }
}

impl FusedIterator for Notices<'_> {}
