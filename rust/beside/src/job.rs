//! Jobs: the calls beside the plain reading and the original.

use std::{
    fmt,
    panic::{self, AssertUnwindSafe},
};

use jobs::{
    bytes::hex,
    counts::{self, Asked, Record},
    layout,
    list::Case,
    readings::UNKNOWN,
};
use plain::{job::Refusal, reading::READINGS};
use stemhook::limits::{OFFER_BYTES, REQUESTS};

use crate::{
    calls::{Answer, Ask, Calls},
    original::{self, Original},
    shrink,
};

/// The records of every request's offers.
pub type Lists = Vec<Vec<Record>>;

/// Most offers of a list: its most is a 16-bit number.
const MOST: usize = 65_535;

/// Bytes of a job that are shown, at most.
const SHOWN: usize = 65_536;

/// What one side says of a job.
#[derive(Clone, PartialEq, Eq, Debug)]
pub enum Said {
    Refused(Answer),
    /// Under each reading.
    Offers([Lists; 2]),
}

/// The lists of a job under a reading, by the plain reading of the guide.
fn plain_lists(job: &[u8], reading: u32) -> Result<Lists, Refusal> {
    let job = plain::job::read(job, reading)?;
    let list = |request| {
        let offers = plain::offers(&job, reading, request);
        offers.iter().map(plain::Offer::record).collect()
    };
    Ok(job.requests.iter().map(list).collect())
}

impl Said {
    pub fn by_plain(job: &[u8]) -> Self {
        match READINGS.map(|reading| plain_lists(job, reading)) {
            [Ok(old), Ok(new)] => Self::Offers([old, new]),
            [Err(refusal), _] | [_, Err(refusal)] => Self::Refused(refusal.into()),
        }
    }

    /// Number and position, 0 where there is none.
    fn answer(&self) -> (u32, usize) {
        match self {
            Self::Refused(answer) => (answer.number, answer.position.unwrap_or(0) as usize),
            Self::Offers(_) => (0, 0),
        }
    }
}

impl fmt::Display for Said {
    fn fmt(&self, f: &mut fmt::Formatter<'_>) -> fmt::Result {
        match self {
            Self::Refused(Answer { number, position }) => match position {
                Some(position) => write!(f, "refused {number} {position}"),
                None => write!(f, "refused {number} without a position"),
            },
            Self::Offers(readings) => {
                write!(f, "requests {}", readings[0].len())?;
                for (reading, lists) in readings.iter().enumerate() {
                    write_lists(f, reading, lists)?;
                }
                Ok(())
            }
        }
    }
}

/// A line for each offer: reading, request, offer and record.
fn write_lists(f: &mut fmt::Formatter<'_>, reading: usize, lists: &Lists) -> fmt::Result {
    for (request, list) in lists.iter().enumerate() {
        for (offer, record) in list.iter().enumerate() {
            write!(f, "\n  {reading} {request} {offer} {}", hex(record))?;
        }
    }
    Ok(())
}

/// The output of a call, in words.
fn shown(out: Option<Vec<u8>>) -> String {
    out.map_or("untouched".into(), |out| hex(&out))
}

impl Calls {
    /// An offer call that has to give the answer and write nothing.
    fn refuses(&self, job: &[u8], ask: Ask, expected: Answer) -> Result<(), String> {
        match self.ask(job, ask)? {
            (answer, None) if answer == expected => Ok(()),
            (answer, out) => Err(format!(
                "{ask:?}: {answer:?} instead of {expected:?}, output {}",
                shown(out)
            )),
        }
    }

    /// An output of the wrong length is refused, whatever the job and the reading.
    fn refuses_lengths(&self, job: &[u8], reading: u32, request: u32) -> Result<(), String> {
        for length in [OFFER_BYTES - 1, OFFER_BYTES + 1] {
            let ask = Ask {
                length,
                ..Ask::new(reading, request, 0)
            };
            self.refuses(job, ask, Answer::of(16))?;
        }
        Ok(())
    }

    /// A number that is no reading is refused before the job is looked at, save
    /// for one that is too long; and before the request, which may be past it.
    fn refuses_readings(&self, job: &[u8], checked: Answer) -> Result<(), String> {
        let expected = match checked.number {
            17 => checked,
            _ => Answer::of(25),
        };
        for reading in unknown(job) {
            for (request, offer) in [(0, 0), (u32::MAX, u32::MAX)] {
                self.refuses(job, Ask::new(reading, request, offer), expected)?;
            }
            self.refuses_lengths(job, reading, 0)?;
        }
        Ok(())
    }

    /// A job that the check call refuses is refused so under both readings.
    fn refuses_job(&self, job: &[u8], checked: Answer) -> Result<(), String> {
        for reading in READINGS {
            for (request, offer) in [(0, 0), (u32::MAX, 0), (0, u32::MAX)] {
                self.refuses(job, Ask::new(reading, request, offer), checked)?;
            }
        }
        Ok(())
    }

    /// The offers of a request: 0, 1, 2 and so on until 1 is answered. None
    /// for a request that is not in the job.
    fn list(&self, job: &[u8], reading: u32, request: u32) -> Result<Option<Vec<Record>>, String> {
        let mut list: Vec<Record> = Vec::new();
        while list.len() <= MOST {
            let ask = Ask::new(reading, request, list.len() as u32);
            match self.ask(job, ask)? {
                (answer, Some(out)) if answer == Answer::of(0) => {
                    list.push(out.try_into().expect("as long as the output"));
                }
                (answer, None) if answer == Answer::of(1) => return Ok(Some(list)),
                (answer, None) if answer == Answer::of(28) && ask.offer == 0 => return Ok(None),
                (answer, out) => {
                    return Err(format!("{ask:?}: {answer:?}, output {}", shown(out)));
                }
            }
        }
        Err(format!("request {request}: a list without an end"))
    }

    /// The offers of every request under a reading, of a job that is accepted.
    fn lists(&self, job: &[u8], reading: u32) -> Result<Lists, String> {
        let mut lists = Lists::new();
        while let Some(list) = self.list(job, reading, lists.len() as u32)? {
            let request = lists.len() as u32;
            if lists.len() == REQUESTS {
                return Err("requests without an end".into());
            }
            for past in [list.len() as u32 + 1, u32::MAX] {
                self.refuses(job, Ask::new(reading, request, past), Answer::of(1))?;
            }
            lists.push(list);
        }
        let past = lists.len() as u32;
        for (request, offer) in [(past, 1), (u32::MAX, 0)] {
            self.refuses(job, Ask::new(reading, request, offer), Answer::of(28))?;
        }
        self.refuses_lengths(job, reading, past)?;
        Ok(lists)
    }

    /// All that the calls say of a job.
    pub fn said(&self, job: &[u8]) -> Result<Said, String> {
        for reading in READINGS {
            self.refuses_lengths(job, reading, 0)?;
        }
        let checked = (self.check)(job);
        self.refuses_readings(job, checked)?;
        if checked.number != 0 {
            self.refuses_job(job, checked)?;
            return Ok(Said::Refused(checked));
        }
        if checked.position.is_some() {
            return Err(format!("accepted, and yet {checked:?}"));
        }
        Ok(Said::Offers([self.lists(job, 0)?, self.lists(job, 1)?]))
    }
}

/// Three numbers that are no reading: 2, and two that change from job to job.
fn unknown(job: &[u8]) -> [u32; 3] {
    let other = |by: usize| UNKNOWN[(job.len() + by) % UNKNOWN.len()];
    [2, other(0), other(5)]
}

/// What has been compared.
#[derive(Default, Debug)]
pub struct Counts {
    pub all: counts::Counts,
    /// Offers of the longest list.
    pub longest: usize,
}

impl Counts {
    fn add(&mut self, said: &Said, asked: Asked, case: &Case) {
        let (number, position) = said.answer();
        self.all.job(case.expected, number, position);
        self.all.asked.add(asked);
        if let Said::Offers([old, new]) = said {
            let job = layout::parts(&case.bytes);
            self.all.faces(&job.expect("an accepted job has its parts"));
            for (old, new) in old.iter().zip(new) {
                self.all.request([old, new]);
                self.longest = self.longest.max(old.len()).max(new.len());
            }
        }
    }

    /// The counts as lines.
    pub fn text(&self) -> String {
        let (all, longest) = (&self.all, self.longest);
        format!(
            "{}{}{}\nrequests {} longest list {longest}\n{}",
            all.jobs_text(),
            original::asked_text(&all.asked),
            all.faces_text(),
            all.requests,
            all.offers_text(),
        )
    }
}

/// The sides of the comparison.
pub struct Sides {
    pub calls: Calls,
    pub original: Original,
    pub counts: Counts,
}

impl Sides {
    pub fn new(calls: Calls) -> Self {
        Self {
            calls,
            original: Original::default(),
            counts: Counts::default(),
        }
    }

    /// Compares the sides on one job. An error tells the smallest job that
    /// was found to differ, and what each side says of it.
    pub fn compare(&mut self, case: &Case) -> Result<(), String> {
        let (said, asked) = match self.agree(&case.bytes) {
            Ok(agreed) => agreed,
            Err(difference) => {
                let least = shrink::job(&case.bytes, |job| self.agree(job).is_err());
                let text = self.tell(&least);
                return Err(format!(
                    "difference in job {:?}: {difference}\n{text}",
                    case.label
                ));
            }
        };
        let (number, position) = said.answer();
        if !case.expected.allows(number, position) {
            return Err(format!(
                "difference in job {:?}, by how it was built {:?}:\n{}",
                case.label,
                case.expected,
                self.tell(&case.bytes)
            ));
        }
        self.counts.add(&said, asked, case);
        Ok(())
    }

    /// What all sides say of a job, and what the original was asked for, or
    /// where they differ. A panic is a difference.
    fn agree(&self, job: &[u8]) -> Result<(Said, Asked), String> {
        let agreed = panic::catch_unwind(AssertUnwindSafe(|| self.same(job)));
        agreed.unwrap_or_else(|_| Err("a panic".into()))
    }

    fn same(&self, job: &[u8]) -> Result<(Said, Asked), String> {
        let plain = Said::by_plain(job);
        let ours = self.calls.said(job)?;
        if ours != plain {
            return Err("the proved code and plain differ".into());
        }
        let (number, position) = ours.answer();
        let asked = original::fonts_agree(job, number, position)?;
        if let Said::Offers(lists) = &ours
            && let Some(by_original) = self.original.lists(job)
            && *lists != by_original?
        {
            return Err("the proved code and the original differ".into());
        }
        Ok((ours, asked))
    }

    /// The job and what each side says of it.
    fn tell(&self, job: &[u8]) -> String {
        let plain = Said::by_plain(job);
        let original = match plain {
            Said::Refused(..) => None,
            Said::Offers(_) => self.original.lists(job),
        };
        let original = match original {
            Some(Ok(lists)) => Said::Offers(lists).to_string(),
            Some(Err(error)) => error,
            None => "nothing".into(),
        };
        let ours = match self.calls.said(job) {
            Ok(said) => said.to_string(),
            Err(error) => error,
        };
        let checked = (self.calls.check)(job);
        let digits = hex(&job[..job.len().min(SHOWN)]);
        let more = if job.len() > SHOWN { " and so on" } else { "" };
        format!(
            "job of {} bytes: {digits}{more}\nthe guide (plain): {plain}\nthe original: {original}\nthe proved code: check {checked:?}; {ours}",
            job.len(),
        )
    }
}

#[cfg(test)]
mod tests;
