//! A plain reading of docs/GUIDE.md, sections 1 to 6, written from its words
//! alone.
//!
//! Clear rather than fast: nothing is packed, kept or skipped. A module stands
//! for a section of the guide or two. No other package is used, so that the
//! reading stands by itself: its limits are the guide's, read once more, and
//! `beside` holds them to those of `stemhook`.

pub mod font;
pub mod job;
pub mod lines;
pub mod matching;
pub mod offers;
pub mod reading;
pub mod single;
pub mod synthesis;

pub use job::{Job, Refusal, Request, check};
pub use offers::{Offer, offer, offers, text};
pub use single::Single;

#[cfg(test)]
mod tests;
