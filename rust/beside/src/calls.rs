//! The calls of the crate `stemhook` as the numbers that are compared.

use plain::job::Refusal;
use stemhook::{Refused, limits::OFFER_BYTES};

/// What a call answers: 0, 1 for an offer past the list, or a refusal's
/// number; and the position that comes with a refusal.
#[derive(Copy, Clone, PartialEq, Eq, Debug)]
pub struct Answer {
    pub number: u32,
    pub position: Option<u32>,
}

impl Answer {
    pub const fn of(number: u32) -> Self {
        Self {
            number,
            position: None,
        }
    }
}

impl From<Refused> for Answer {
    fn from(refused: Refused) -> Self {
        Self {
            number: refused.number(),
            position: refused.position(),
        }
    }
}

/// As the crate has to give the refusal: a job that is too long has no field,
/// and the plain reading's position for it is 0.
impl From<Refusal> for Answer {
    fn from(refusal: Refusal) -> Self {
        let Refusal { number, position } = refusal;
        let no_field = number == 17 && position == 0;
        Self {
            number,
            position: (!no_field).then_some(position),
        }
    }
}

/// The calls under test; tests put wrong ones in their place.
#[derive(Copy, Clone)]
pub struct Calls {
    pub check: fn(&[u8]) -> Answer,
    pub offer: Offer,
}

/// Job, what is asked for, and the output, whose length is that of the ask.
pub type Offer = fn(&[u8], Ask, &mut [u8]) -> Answer;

pub const PROVED: Calls = Calls { check, offer };

pub fn check(job: &[u8]) -> Answer {
    match stemhook::check(job) {
        Ok(()) => Answer::of(0),
        Err(refused) => refused.into(),
    }
}

pub fn offer(job: &[u8], ask: Ask, out: &mut [u8]) -> Answer {
    match stemhook::offer_bytes(job, ask.reading, ask.request, ask.offer, out) {
        Ok(true) => Answer::of(0),
        Ok(false) => Answer::of(1),
        Err(refused) => refused.into(),
    }
}

/// What the output holds before a call, and what stands on both sides of it.
const UNTOUCHED: u8 = 0x5a;
const BESIDE: u8 = 0xa7;
const MARGIN: usize = 8;

/// An offer that is asked for.
#[derive(Copy, Clone, Debug)]
pub struct Ask {
    pub reading: u32,
    pub request: u32,
    pub offer: u32,
    /// Bytes of output.
    pub length: usize,
}

impl Ask {
    /// With an output of the right length.
    pub const fn new(reading: u32, request: u32, offer: u32) -> Self {
        Self {
            reading,
            request,
            offer,
            length: OFFER_BYTES,
        }
    }
}

impl Calls {
    /// An offer call: its answer and the output, or nothing where the output
    /// is untouched. Bytes beside the output are an error when they change.
    pub fn ask(&self, job: &[u8], ask: Ask) -> Result<(Answer, Option<Vec<u8>>), String> {
        let mut space = vec![BESIDE; ask.length + 2 * MARGIN];
        let range = MARGIN..MARGIN + ask.length;
        space[range.clone()].fill(UNTOUCHED);
        let out = &mut space[range.clone()];
        let answer = (self.offer)(job, ask, out);
        let beside = space[..range.start].iter().chain(&space[range.end..]);
        if beside.copied().any(|byte| byte != BESIDE) {
            return Err(format!(
                "{ask:?}: {answer:?}, and bytes beside the output changed"
            ));
        }
        let out = &space[range];
        let touched = out.iter().any(|byte| *byte != UNTOUCHED);
        Ok((answer, touched.then(|| out.to_vec())))
    }
}
