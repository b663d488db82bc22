//! Wrong answers to the readings are told.

use plain::reading::is_known;

use super::{Calls, PROVED, size_told, told};
use crate::calls::{self, Answer, Ask, Offer};

/// The value of `slnt` in a record, if it sets it.
fn slant(out: &mut [u8]) -> Option<&mut [u8]> {
    let slots = out.get_mut(8..32)?.chunks_mut(8);
    let mut values = slots.filter_map(|slot| slot.split_at_mut_checked(4));
    let (_, value) = values.find(|(tag, _)| **tag == *b"slnt")?;
    Some(value)
}

/// The offer call, with another value of `slnt` where an offer sets it.
fn changed(job: &[u8], ask: Ask, out: &mut [u8], change: fn(Ask, &mut [u8])) -> Answer {
    let answer = calls::offer(job, ask, out);
    if answer.number == 0
        && let Some(value) = slant(out)
    {
        change(ask, value);
    }
    answer
}

/// The opposite of a single by its bytes.
fn turn(value: &mut [u8]) {
    if value[1..] == [0; 3] && value[0] & 0x7f == 0 {
        value[0] = 0;
    } else {
        value[0] ^= 0x80;
    }
}

/// What is told of an offer call that takes the readings wrongly.
fn reading_is_told(name: &str, offer: Offer) -> String {
    let told = told(name, Calls { offer, ..PROVED });
    // Two fonts with the tables of an angle, at most.
    assert!(size_told(&told) < 600, "{name}: {told}");
    told
}

/// Both readings as one of them, or each as the other; or `slnt` is turned and
/// the angle of `post` is not.
#[test]
fn wrong_readings_are_told() {
    let wrong: [(&str, Offer); 4] = [
        ("reading 1 as 0", |job, ask, out| {
            let reading = if ask.reading == 1 { 0 } else { ask.reading };
            calls::offer(job, Ask { reading, ..ask }, out)
        }),
        ("reading 0 as 1", |job, ask, out| {
            let reading = if ask.reading == 0 { 1 } else { ask.reading };
            calls::offer(job, Ask { reading, ..ask }, out)
        }),
        ("each as the other", |job, ask, out| {
            let reading = ask.reading ^ 1;
            calls::offer(job, Ask { reading, ..ask }, out)
        }),
        ("angles as they stand", |job, ask, out| {
            let reading = if ask.reading == 1 { 0 } else { ask.reading };
            let old = Ask { reading, ..ask };
            match ask.reading {
                1 => changed(job, old, out, |_, value| turn(value)),
                _ => calls::offer(job, old, out),
            }
        }),
    ];
    for (name, offer) in wrong {
        let told = reading_is_told(name, offer);
        assert!(told.contains("the guide (plain): requests"), "{told}");
    }
}

/// The angles of overrides are turned under reading 1.
#[test]
fn turned_overrides_are_told() {
    let offer: Offer = |job, ask, out| {
        let parts = jobs::layout::parts(job).filter(|_| ask.reading == 1);
        let Some(mut parts) = parts else {
            return calls::offer(job, ask, out);
        };
        let styles = parts.overrides.iter_mut();
        for style in styles.filter_map(|given| given.style.as_mut()) {
            style.angle ^= u32::from(style.kind == 3) << 31;
        }
        calls::offer(&jobs::layout::write(&parts).bytes, ask, out)
    };
    reading_is_told("overrides", offer);
}

/// `slnt` that is not turned, turned under reading 0 too, or turned with the
/// sign of a zero; a skew that is turned.
#[test]
fn wrong_turns_are_told() {
    let wrong: [(&str, Offer); 4] = [
        ("slnt as it is asked for", |job, ask, out| {
            changed(job, ask, out, |ask, value| {
                value[0] ^= (ask.reading as u8) << 7;
            })
        }),
        ("slnt turned under reading 0", |job, ask, out| {
            changed(job, ask, out, |ask, value| {
                value[0] ^= (1 - ask.reading as u8) << 7;
            })
        }),
        ("minus zero", |job, ask, out| {
            changed(job, ask, out, |ask, value| {
                if ask.reading == 1 && *value == [0; 4] {
                    value[0] = 0x80;
                }
            })
        }),
        ("the skew", |job, ask, out| {
            let answer = calls::offer(job, ask, out);
            if answer.number == 0 && ask.reading == 1 {
                out[5] = out[5].wrapping_neg();
            }
            answer
        }),
    ];
    for (name, offer) in wrong {
        reading_is_told(name, offer);
    }
}

/// A number that is no reading is taken for one, or refused at another turn.
#[test]
fn wrong_answers_to_no_reading_are_told() {
    let wrong: [(&str, Offer); 5] = [
        ("2 as 1", |job, ask, out| {
            let reading = if ask.reading == 2 { 1 } else { ask.reading };
            calls::offer(job, Ask { reading, ..ask }, out)
        }),
        ("the low byte", |job, ask, out| {
            let reading = ask.reading & 0xff;
            calls::offer(job, Ask { reading, ..ask }, out)
        }),
        ("behind the job", |job, ask, out| {
            match calls::offer(job, ask, out) {
                Answer { number: 25, .. } if calls::check(job).number != 0 => calls::check(job),
                answer => answer,
            }
        }),
        ("before the length", |job, ask, out| {
            if is_known(ask.reading) {
                return calls::offer(job, ask, out);
            }
            Answer::of(25)
        }),
        ("behind the request", |job, ask, out| {
            if is_known(ask.reading) || ask.request == 0 {
                return calls::offer(job, ask, out);
            }
            Answer::of(28)
        }),
    ];
    for (name, offer) in wrong {
        reading_is_told(name, offer);
    }
}

/// With something written, or at the position of a job that is refused with 25
/// itself.
#[test]
fn more_than_a_number_is_told() {
    let written: Offer = |job, ask, out| {
        let answer = calls::offer(job, ask, out);
        if answer == Answer::of(25) {
            out[0] = 0;
        }
        answer
    };
    reading_is_told("written", written);
    let placed: Offer = |job, ask, out| match calls::offer(job, ask, out) {
        Answer { number: 25, .. } => match calls::check(job) {
            own if own.number == 25 => own,
            _ => Answer::of(25),
        },
        answer => answer,
    };
    let told = reading_is_told("a position", placed);
    assert!(told.contains("the guide (plain): refused 25 "), "{told}");
}
