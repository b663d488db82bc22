//! The offers of a request, one after the other.

use std::{fmt, iter::FusedIterator};

use crate::{ids::RequestId, job::Job, offer::Offer, refusal::Refused};

/// The offers for a request, in order: what [`Job::offers`] gives.
///
/// Each step is one offer call, which reads the whole job; `nth` is one too. No
/// refusal is left to be met on the way: the job was accepted, and it has the
/// request. One would be handed out and end the list, not end it unseen.
#[derive(Clone)]
pub struct Offers<'a> {
    job: &'a Job<'a>,
    /// A request that the job has.
    request: RequestId,
    /// Offer 0, until it is handed out.
    first: Option<Offer>,
    /// The next offer after that.
    number: u32,
    /// Whether the list's end was met.
    ended: bool,
}

impl<'a> Offers<'a> {
    pub(crate) fn new(job: &'a Job<'a>, request: RequestId) -> Result<Self, Refused> {
        let first = job.offer(request, 0)?;
        Ok(Self {
            job,
            request,
            ended: first.is_none(),
            first,
            number: 1,
        })
    }
}

impl Iterator for Offers<'_> {
    type Item = Result<Offer, Refused>;

    fn next(&mut self) -> Option<Self::Item> {
        if let Some(first) = self.first.take() {
            return Some(Ok(first));
        }
        if self.ended {
            return None;
        }
        let answer = self.job.offer(self.request, self.number).transpose();
        self.ended = !matches!(answer, Some(Ok(_)));
        self.number = self.number.saturating_add(1);
        answer
    }

    fn nth(&mut self, n: usize) -> Option<Self::Item> {
        let mut skipped = n;
        if skipped > 0 && self.first.take().is_some() {
            skipped -= 1;
        }
        // A list has at most 65,535 offers: a number held to 32 bits is past it.
        let skipped = u32::try_from(skipped).unwrap_or(u32::MAX);
        self.number = self.number.saturating_add(skipped);
        self.next()
    }
}

impl FusedIterator for Offers<'_> {}

impl fmt::Debug for Offers<'_> {
    fn fmt(&self, f: &mut fmt::Formatter<'_>) -> fmt::Result {
        let next = self.number.saturating_sub(u32::from(self.first.is_some()));
        f.debug_struct("Offers")
            .field("request", &self.request)
            .field("next", &next)
            .field("ended", &self.ended)
            .finish()
    }
}
