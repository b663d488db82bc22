//! Any bytes and any numbers get a value or an error.

mod common;

use common::Random;
use stemhook::{Job, Offer, Reading, Refusal, Refused, check, offer, offer_bytes};

/// Some offer calls on a job: they answer as the check call does, and write only
/// with an offer. Under what is no reading nothing of the job is looked at.
fn try_offers(job: &[u8], checked: Result<(), Refused>, random: &mut Random) {
    let request = random.of(&[0, 0, 1, 2, random.0 as u32, u32::MAX]);
    let number = random.of(&[0, 1, 2, random.0 as u32, u32::MAX]);
    let reading = random.of(&[0, 0, 1, 1, 2, random.0 as u32, u32::MAX]);
    let mut out = [0x77; 40];
    let answer = offer_bytes(job, reading, request, number, &mut out);
    assert_eq!(answer == Ok(true), out != [0x77; 40]);
    let Ok(reading) = Reading::try_from(reading) else {
        let refused = answer.unwrap_err();
        assert_eq!(refused.refusal(), Refusal::UnknownOrSpare);
        assert_eq!(refused.position(), None);
        return;
    };
    match (checked, answer) {
        (Err(refused), answer) => assert_eq!(answer, Err(refused)),
        (Ok(()), Err(refused)) => assert_eq!(refused.refusal(), Refusal::NoSuchRequest),
        (Ok(()), Ok(_)) => {}
    }
    let by_value = offer(job, reading, request, number);
    assert_eq!(by_value.map(|found| found.is_some()), answer);
}

/// All calls on a job: they agree.
fn try_all(job: &[u8], random: &mut Random) -> bool {
    let checked = check(job);
    if let Err(refused) = checked {
        assert!(matches!(refused.number(), 17..=27 | 30 | 31), "{refused}");
        let at_end = refused.position().unwrap_or(0) as usize <= job.len();
        assert!(at_end, "{refused} in {} bytes", job.len());
        assert!(refused.to_string().starts_with("refused "));
    }
    for _ in 0..3 {
        try_offers(job, checked, random);
    }
    match Job::new(job) {
        Err(refused) => assert_eq!(checked, Err(refused)),
        Ok(job) => {
            assert_eq!(checked, Ok(()));
            let job = job.with_reading(random.of(&common::READINGS));
            for request in job.requests().take(3) {
                let offers = job.offers(request).expect("it is in the job");
                for offer in offers {
                    let offer = offer.expect("the job is accepted");
                    assert!(job.font(&offer).is_some());
                }
            }
        }
    }
    checked.is_ok()
}

#[test]
fn random_bytes() {
    let mut random = Random(1);
    for _ in 0..20_000 {
        let length = random.below(120);
        // Small bytes lead further into the layout.
        let limit = random.of(&[1, 2, 3, 256]);
        let job: Vec<u8> = (0..length).map(|_| random.below(limit) as u8).collect();
        try_all(&job, &mut random);
    }
}

/// A stored job with a few changes.
fn changed(job: &[u8], random: &mut Random) -> Vec<u8> {
    let mut job = job.to_vec();
    for _ in 0..1 + random.below(3) {
        let at = random.below(job.len() + 1);
        match random.below(10) {
            0 => job.truncate(at),
            1 => job.insert(at, random.next() as u8),
            _ => {
                if let Some(byte) = job.get_mut(at) {
                    *byte = random.of(&[0, 1, 2, 4, 0x7f, 0x80, 0xff, random.0 as u8]);
                }
            }
        }
    }
    job
}

#[test]
fn changed_jobs() {
    let list = common::read("crates/offer_cases/stdin");
    let mut random = Random(2);
    let (mut accepted, mut refused) = (0, 0);
    for job in common::jobs(&list) {
        // The largest take their time.
        for _ in 0..if job.len() < 4000 { 8 } else { 1 } {
            if try_all(&changed(job, &mut random), &mut random) {
                accepted += 1;
            } else {
                refused += 1;
            }
        }
    }
    assert!(accepted > 500 && refused > 500, "{accepted} and {refused}");
}

#[test]
fn any_40_bytes_are_read() {
    let mut random = Random(3);
    for _ in 0..10_000 {
        let bytes = std::array::from_fn(|_| random.next() as u8);
        let offer = Offer::from_bytes(&bytes);
        assert_eq!(
            offer.family.number(),
            u16::from_be_bytes([bytes[0], bytes[1]])
        );
        assert_eq!(offer.place, u16::from_be_bytes([bytes[2], bytes[3]]));
        assert_eq!(offer.settings.len(), usize::from(bytes[6].min(3)));
        for (at, setting) in offer.settings.iter().enumerate() {
            assert_eq!(setting.tag.0, bytes[8 + 8 * at..12 + 8 * at]);
            let bits = setting.value.to_bits().to_be_bytes();
            assert_eq!(bits, bytes[12 + 8 * at..16 + 8 * at]);
        }
        assert!(!format!("{offer:?}").is_empty());
    }
}
