//! Right calls pass; wrong ones are told.

use std::{env, process::Command};

use super::*;
use crate::calls::{self, Offer, PROVED};
use jobs::{counts::Differing, damage::Expected, list};
use plain::reading::is_known;

mod readings;

fn cases() -> impl Iterator<Item = Case> {
    list::made().into_iter().chain(list::random(5).take(400))
}

fn compare(calls: Calls) -> Result<Counts, String> {
    let mut sides = Sides::new(calls);
    for case in cases() {
        sides.compare(&case)?;
    }
    Ok(sides.counts)
}

#[test]
fn no_difference() {
    let counts = compare(PROVED).unwrap().all;
    assert!(counts.accepted > 300 && counts.offers.iter().all(|offers| *offers > 10_000));
    // The readings are not the same thing.
    let Differing { faces, settings } = counts.differing;
    assert!(faces > 50 && settings > 50, "{faces} {settings}");
    assert!(
        (18..=27)
            .chain([30, 31])
            .all(|number| counts.refused[number] > 0)
    );
    assert!(counts.collected > 100);
    // Of each job that is refused with 31 one font is left out.
    let left_out = if original::HERE {
        counts.refused[31]
    } else {
        0
    };
    assert_eq!(counts.asked.left_out, left_out);
}

/// The wrong calls are told; gives what is said.
fn told(name: &str, calls: Calls) -> String {
    let told = compare(calls).expect_err(name);
    assert!(told.contains("difference in job"), "{name}: {told}");
    told
}

/// Each wrong call is told, with what each side says.
fn offer_calls_are_told(wrong: &[(&str, Offer)]) {
    for (name, offer) in wrong {
        let calls = Calls {
            offer: *offer,
            ..PROVED
        };
        let told = told(name, calls);
        assert!(told.contains("the guide (plain): "), "{name}: {told}");
        assert!(told.contains("the proved code: "), "{name}: {told}");
    }
}

#[test]
fn wrong_records_are_told() {
    offer_calls_are_told(&[
        ("a byte of the record", |job, ask, out| {
            let answer = calls::offer(job, ask, out);
            if answer.number == 0 {
                out[3] ^= 1;
            }
            answer
        }),
        ("the last byte", |job, ask, out| {
            let answer = calls::offer(job, ask, out);
            if answer.number == 0 {
                out[39] = 1;
            }
            answer
        }),
        ("a setting's bits", |job, ask, out| {
            let answer = calls::offer(job, ask, out);
            if answer.number == 0 && out[6] > 0 {
                out[15] ^= 1;
            }
            answer
        }),
    ]);
}

/// Output that is not written, or written without an offer.
#[test]
fn wrong_writing_is_told() {
    offer_calls_are_told(&[
        ("unwritten", |job, ask, out| {
            let mut other = [0; OFFER_BYTES];
            let length = out.len().min(OFFER_BYTES);
            calls::offer(job, ask, &mut other[..length])
        }),
        ("written past the list", |job, ask, out| {
            let answer = calls::offer(job, ask, out);
            if answer.number == 1 {
                out[0] = 0;
            }
            answer
        }),
        ("written where refused", |job, ask, out| {
            let answer = calls::offer(job, ask, out);
            if answer.number >= 16 {
                out[38] = 0;
            }
            answer
        }),
    ]);
}

#[test]
fn wrong_offers_are_told() {
    offer_calls_are_told(&[
        ("the first offer alone", |job, ask, out| match ask.offer {
            0 => calls::offer(job, ask, out),
            _ => Answer::of(1),
        }),
        ("the next offer", |job, ask, out| {
            let offer = ask.offer.saturating_add(1);
            calls::offer(job, Ask { offer, ..ask }, out)
        }),
        (
            "the request that is past",
            |job, ask, out| match calls::offer(job, ask, out) {
                Answer { number: 28, .. } => Answer::of(1),
                answer => answer,
            },
        ),
        ("41 bytes", |job, ask, out| {
            let length = out.len().min(OFFER_BYTES);
            calls::offer(job, ask, &mut out[..length])
        }),
    ]);
}

#[test]
fn wrong_check_calls_are_told() {
    type Check = fn(&[u8]) -> Answer;
    let wrong: [(&str, Check); 6] = [
        ("the position", |job| {
            let mut answer = calls::check(job);
            if answer.number == 26 {
                answer.position = answer.position.map(|position| position + 1);
            }
            answer
        }),
        ("no position", |job| Answer {
            position: None,
            ..calls::check(job)
        }),
        ("the number", |job| match calls::check(job) {
            Answer {
                number: 22,
                position,
            } => Answer {
                number: 21,
                position,
            },
            answer => answer,
        }),
        ("a position of an accepted job", |job| {
            let mut answer = calls::check(job);
            answer.position = answer.position.or(Some(0));
            answer
        }),
        ("all accepted", |_| Answer::of(0)),
        ("all refused", |_| Answer {
            number: 18,
            position: Some(0),
        }),
    ];
    for (name, check) in wrong {
        told(name, Calls { check, ..PROVED });
    }
}

/// 30 for the length of the font instead of its number, and 21 in its place.
#[test]
fn wrong_answers_to_font_numbers_are_told() {
    let at_length = |job: &[u8]| match calls::check(job) {
        Answer { number: 30, .. } => Answer {
            number: 30,
            position: Some(3),
        },
        answer => answer,
    };
    let bad_font = |job: &[u8]| match calls::check(job) {
        Answer {
            number: 30,
            position,
        } => Answer {
            number: 21,
            position,
        },
        answer => answer,
    };
    for (name, check) in [
        ("at the length", at_length as fn(&[u8]) -> Answer),
        ("bad font", bad_font),
    ] {
        let told = told(name, Calls { check, ..PROVED });
        assert!(told.contains("the guide (plain): refused 30 "), "{told}");
    }
}

/// Another refusal or another position in the place of 31, or none.
#[test]
fn wrong_answers_to_damaged_tables_are_told() {
    type Check = fn(&[u8]) -> Answer;
    let wrong: [(&str, Check); 4] = [
        ("22 in its place", |job| match calls::check(job) {
            Answer {
                number: 31,
                position,
            } => Answer {
                number: 22,
                position,
            },
            answer => answer,
        }),
        ("behind the length", |job| match calls::check(job) {
            Answer {
                number: 31,
                position,
            } => Answer {
                number: 31,
                position: position.map(|position| position + 4),
            },
            answer => answer,
        }),
        ("accepted", |job| match calls::check(job) {
            Answer { number: 31, .. } => Answer::of(0),
            answer => answer,
        }),
        ("rescued where it is not held", |job| {
            match calls::check(job) {
                Answer {
                    number: 31,
                    position: Some(position),
                } if job[position as usize - 1] == 0 => Answer::of(0),
                answer => answer,
            }
        }),
    ];
    for (name, check) in wrong {
        let told = told(name, Calls { check, ..PROVED });
        assert!(told.contains("the guide (plain): refused 31 "), "{told}");
        assert!(size_told(&told) < 100, "{told}");
    }
}

/// A position with 17, or another refusal with the offer call than with the check, is told.
#[test]
fn wrong_answers_to_long_jobs_are_told() {
    let over = list::largest().nth(1).expect("a job that is too long");
    assert_eq!(calls::check(&over.bytes), Answer::of(17));
    let check = |job: &[u8]| match calls::check(job) {
        Answer { number: 17, .. } => Answer {
            number: 17,
            position: Some(0),
        },
        answer => answer,
    };
    let offer: Offer = |job, ask, out| match calls::offer(job, ask, out) {
        Answer { number: 17, .. } => Answer::of(18),
        answer => answer,
    };
    // Under no reading 25 comes behind 17.
    let reading: Offer = |job, ask, out| match out.len() {
        OFFER_BYTES if !is_known(ask.reading) => Answer::of(25),
        _ => calls::offer(job, ask, out),
    };
    let offers = [offer, reading].map(|offer| Calls { offer, ..PROVED });
    for calls in offers.into_iter().chain([Calls { check, ..PROVED }]) {
        assert!(Sides::new(calls).compare(&over).is_err());
    }
    Sides::new(PROVED).compare(&over).unwrap();
}

/// A wrong answer on one kind of job is told with a small job of that kind.
#[test]
fn smallest_job_is_told() {
    let offer: Offer = |job, ask, out| {
        let answer = calls::offer(job, ask, out);
        if answer.number == 0 && out[4] == 1 {
            out[4] = 0;
        }
        answer
    };
    let mut sides = Sides::new(Calls { offer, ..PROVED });
    let told = list::random(5)
        .filter(|case| case.bytes.len() > 3000)
        .find_map(|case| sides.compare(&case).err())
        .expect("an offer that is emboldened");
    // A collection whose directory is last keeps its tables.
    assert!(size_told(&told) < 300, "{told}");
}

/// The bytes of the job that a difference is told with.
fn size_told(told: &str) -> usize {
    let size = told.split_once("job of ").expect("a size").1;
    let size = size.split(' ').next().expect("a number");
    size.parse().expect("a number")
}

/// What was known when a job was built is held against the answer.
#[test]
fn wrong_expectation_is_told() {
    let mut case = list::made().swap_remove(0);
    case.expected = Expected::Refused(27, 0);
    let told = Sides::new(PROVED).compare(&case).unwrap_err();
    assert!(told.contains("by how it was built"), "{told}");
}

/// A difference that has nothing to do with the job's size is told with a small
/// one, though it is met in one of the most bytes.
#[test]
fn large_jobs_shrink() {
    let offer: Offer = |job, ask, out| {
        let answer = calls::offer(job, ask, out);
        if answer.number == 0 {
            out[4] ^= 1;
        }
        answer
    };
    let case = list::largest().next().expect("a job of the most bytes");
    let mut sides = Sides::new(Calls { offer, ..PROVED });
    let told = sides.compare(&case).unwrap_err();
    assert!(size_told(&told) < 200, "{told}");
}

/// Kilobytes that a difference at the most bytes may take: 8 jobs of them.
const MOST_KILOBYTES: u64 = 8 * 16 * 1024;

/// A difference that stays only while the job is about as large as it may be,
/// so that everything is tried. It is run by itself, by the next test.
#[test]
#[ignore = "run by itself, for its memory"]
fn difference_at_the_most_bytes() {
    let offer: Offer = |job, ask, out| {
        let answer = calls::offer(job, ask, out);
        if answer.number == 0 && job.len() > 16_000_000 {
            out[39] = 1;
        }
        answer
    };
    let case = list::largest().next().expect("a job of the most bytes");
    let mut sides = Sides::new(Calls { offer, ..PROVED });
    let told = sides.compare(&case).unwrap_err();
    let status = std::fs::read_to_string("/proc/self/status").unwrap();
    let peak = status.lines().find(|line| line.starts_with("VmHWM:"));
    println!("told with a job of {} bytes", size_told(&told));
    println!("{}", peak.expect("a line of the peak"));
}

/// The search for a smaller job holds a few jobs at a time.
#[test]
fn memory_of_a_large_difference() {
    let output = Command::new(env::current_exe().unwrap())
        .args(["--exact", "job::tests::difference_at_the_most_bytes"])
        .args(["--ignored", "--nocapture"])
        .output()
        .unwrap();
    let said = String::from_utf8_lossy(&output.stdout);
    assert!(output.status.success(), "{said}");
    let peak = said.split_once("VmHWM:").expect("the peak").1;
    let peak = peak.split_whitespace().next().expect("a number");
    let peak: u64 = peak.parse().expect("a number");
    assert!(peak < MOST_KILOBYTES, "{peak} kilobytes: {said}");
}
