//! The picker's two calls, over any bytes and any numbers.

use crate::{
    ffi,
    limits::OFFER_BYTES,
    offer::Offer,
    reading::Reading,
    refusal::{Refusal, Refused},
};

/// Reads a job to its end: whether it keeps the layout, and if not, the
/// refusal that is met first and the position of its field.
///
/// ```
/// use stemhook::{Refusal, check};
///
/// // Four sections without entries.
/// assert_eq!(check(&[0; 8]), Ok(()));
///
/// // 257 faces.
/// let refused = check(&[1, 1]).unwrap_err();
/// assert_eq!(refused.refusal(), Refusal::CountOverLimit);
/// assert_eq!(refused.position(), Some(0));
/// ```
pub fn check(job: &[u8]) -> Result<(), Refused> {
    match ffi::check(job) {
        0 => Ok(()),
        answer => Err(Refused::from_check(answer)),
    }
}

/// The offer of a number for a request, or none where it lies past the list.
///
/// Each call reads the whole job. [`Job`](crate::Job) holds one that is
/// accepted, and [`Offers`](crate::Offers) goes over a request's list.
///
/// ```
/// use stemhook::{Reading, Refusal, offer};
///
/// let refused = offer(&[0; 8], Reading::OpenType, 0, 0).unwrap_err();
/// assert_eq!(refused.refusal(), Refusal::NoSuchRequest);
/// ```
pub fn offer(
    job: &[u8],
    reading: Reading,
    request: u32,
    number: u32,
) -> Result<Option<Offer>, Refused> {
    let mut out = [0; OFFER_BYTES];
    let written = offer_bytes(job, reading.number(), request, number, &mut out)?;
    Ok(written.then(|| Offer::from_bytes(&out)))
}

/// The offer call as it is exported: writes the 40 bytes of an offer and
/// answers true, or answers false where it lies past the list. Unless it
/// answers true, it writes nothing.
///
/// The reading is the number of a [`Reading`]. Another number is refused with
/// [`UnknownOrSpare`](Refusal::UnknownOrSpare), after 16 and 17, before any field
/// of the job, and without a position.
///
/// ```
/// use stemhook::{Reading, Refusal, offer_bytes};
///
/// let reading = Reading::OpenType.number();
/// let mut out = [7; 39];
/// let refused = offer_bytes(&[0; 8], reading, 0, 0, &mut out).unwrap_err();
/// assert_eq!(refused.refusal(), Refusal::OutputLength);
/// assert_eq!(out, [7; 39]);
///
/// let mut out = [7; 40];
/// let refused = offer_bytes(&[0; 9], 2, 0, 0, &mut out).unwrap_err();
/// assert_eq!(refused.refusal(), Refusal::UnknownOrSpare);
/// assert_eq!(refused.position(), None);
/// ```
pub fn offer_bytes(
    job: &[u8],
    reading: u32,
    request: u32,
    number: u32,
    out: &mut [u8],
) -> Result<bool, Refused> {
    match ffi::offer(job, reading, request, number, out) {
        0 => Ok(true),
        1 => Ok(false),
        refusal => Err(located(Refusal::from_number(refusal), job, reading)),
    }
}

/// A refusal of the offer call, with the position where the check call gives
/// the same refusal. Under an unknown reading nothing of the job is met.
fn located(refusal: Refusal, job: &[u8], reading: u32) -> Refused {
    if Reading::try_from(reading).is_err() {
        return Refused::without_position(refusal);
    }
    match check(job) {
        Err(refused) if refused.refusal() == refusal => refused,
        _ => Refused::without_position(refusal),
    }
}
