//! The stored list of jobs, with the answers of the original sources under each
//! reading.

mod common;

use stemhook::{Job, Reading, Refusal, RequestId, check, offer, offer_bytes};

fn list() -> Vec<u8> {
    common::read("crates/offer_cases/stdin")
}

/// The answers under each reading, which are not always the same.
#[test]
fn every_stored_job_is_answered_as_stored() {
    let list = list();
    let answers = String::from_utf8(common::read("crates/offer_cases/stdout")).unwrap();
    let jobs = common::jobs(&list);
    assert!(jobs.len() > 1000, "the list has {} jobs", jobs.len());
    let mut rest = answers.as_str();
    let mut turned = 0;
    for (number, job) in jobs.into_iter().enumerate() {
        let texts = common::indexed_texts(job);
        for text in &texts {
            let Some(after) = rest.strip_prefix(text.as_str()) else {
                let stored: Vec<&str> = rest.lines().take(text.lines().count()).collect();
                let stored = stored.join("\n");
                panic!("job {number}: answered\n{text}stored\n{stored}");
            };
            rest = after;
        }
        turned += usize::from(texts[0] != texts[1]);
    }
    assert_eq!(rest, "", "answers are left");
    assert!(turned > 20, "only {turned} jobs are answered in two ways");
}

#[test]
fn the_iterator_gives_the_offers_by_number() {
    let list = list();
    let mut offered = 0;
    for bytes in common::jobs(&list) {
        let Ok(job) = Job::new(bytes) else { continue };
        for reading in common::READINGS {
            let job = job.clone().with_reading(reading);
            offered += job
                .requests()
                .map(|request| iterated(&job, request))
                .sum::<u32>();
        }
    }
    assert!(offered > 2000, "only {offered} offers");
}

/// Goes over a request's offers beside those by number; how many there are.
fn iterated(job: &Job<'_>, request: RequestId) -> u32 {
    let (bytes, reading) = (job.as_bytes(), job.reading());
    let mut offers = job.offers(request).unwrap();
    let mut number = 0;
    while let Some(by_number) = offer(bytes, reading, request.number(), number).unwrap() {
        assert_eq!(offers.next(), Some(Ok(by_number)));
        number += 1;
    }
    // Past the list for good.
    assert_eq!(offers.next(), None);
    assert_eq!(offers.next(), None);
    assert_eq!(offers.nth(3), None);
    assert_eq!(job.offer(request, number), Ok(None));
    assert_eq!(job.offer(request, u32::MAX), Ok(None));
    number
}

/// The plain steps of an iterator, without its own `nth`.
fn stepped<I: Iterator>(offers: &mut I, n: usize) -> Option<I::Item> {
    for _ in 0..n {
        offers.next()?;
    }
    offers.next()
}

#[test]
fn nth_gives_what_steps_give() {
    let list = list();
    let mut random = common::Random(7);
    for bytes in common::jobs(&list) {
        let Ok(job) = Job::new(bytes) else { continue };
        for request in job.requests().take(4) {
            let mut jumping = job.offers(request).unwrap();
            let mut stepping = jumping.clone();
            for _ in 0..4 {
                let n = random.below(4);
                assert_eq!(jumping.nth(n), stepped(&mut stepping, n));
            }
            assert_eq!(jumping.nth(usize::MAX), None);
            assert_eq!(jumping.next(), None);
        }
    }
}

#[test]
fn the_request_count_is_the_library_s() {
    let list = list();
    for bytes in common::jobs(&list) {
        let Ok(job) = Job::new(bytes) else { continue };
        let asked = |request: &u32| offer(bytes, Reading::OpenType, *request, u32::MAX);
        let found = (0..).find(|request| asked(request).is_err());
        let count = job.requests().len() as u32;
        assert_eq!(Some(count), found);
        let refused = job.offers(RequestId::new(count)).unwrap_err();
        assert_eq!(refused.refusal(), Refusal::NoSuchRequest);
        assert_eq!(refused.position(), None);
        assert_eq!(job.offers(RequestId::new(u32::MAX)).unwrap_err(), refused);
    }
}

#[test]
fn both_calls_refuse_alike_and_write_nothing() {
    let list = list();
    let mut refusals = 0;
    for bytes in common::jobs(&list) {
        let Err(refused) = check(bytes) else { continue };
        let mut out = [0xa5; 40];
        for reading in common::READINGS {
            let answer = offer_bytes(bytes, reading.number(), 0, 0, &mut out);
            assert_eq!(answer, Err(refused));
            assert_eq!(out, [0xa5; 40]);
        }
        assert_eq!(Job::new(bytes), Err(refused));
        refusals += 1;
    }
    assert!(refusals > 100, "only {refusals} refusals");
}
