//! The limits of a job.

/// Most bytes of a job.
pub const JOB_BYTES: usize = 16_777_216;

/// Most faces of a job.
pub const FACES: usize = 256;

/// Most overrides of a job.
pub const OVERRIDES: usize = 256;

/// Most families of a job.
pub const FAMILIES: usize = 64;

/// Most faces of a family.
pub const FAMILY_FACES: usize = 64;

/// Most requests of a job.
pub const REQUESTS: usize = 256;

/// Most axis pairs of an override, and most numbers in each of a request's two
/// lists: what a byte can count.
pub const BYTE_COUNT: usize = 255;

/// The greatest width ratio; the least is 0.
pub const WIDTH: f32 = 16.0;

/// Bytes of an offer as the offer call writes it.
pub const OFFER_BYTES: usize = 40;
