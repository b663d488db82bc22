//! A proved font face picker.
//!
//! Given font files, families and a request for width, style and weight:
//! which faces are offered, in which order, and how each is varied, emboldened
//! or skewed. The picker is written in Rattle and proved; this crate calls it
//! through its static library, and adds no choice of its own.
//!
//! - [`JobBuilder`] puts font files, overrides, families and requests into a
//!   [`Job`], and refuses what would not keep the layout, naming the field.
//! - [`FontFile::number`] takes a font of a collection (`.ttc`), and
//!   [`face_count`] says how many a file has.
//! - [`Job::offers`] goes over the [`Offer`]s for a request, and [`Job::font`]
//!   gives the way back from an offer to its font.
//! - [`Reading`] says which way the slant numbers of fonts count, and
//!   [`Job::with_reading`] sets it: under [`Reading::OpenType`] a request for an
//!   oblique that leans right gets a face that does.
//! - [`check`], [`offer`] and [`offer_bytes`] are the picker's calls themselves.
//!   They take any bytes and any numbers and answer a value or a [`Refused`].
//!
//! No function here panics, whatever it is given.
//!
//! ```
//! # mod fonts { include!(concat!(env!("CARGO_MANIFEST_DIR"), "/tests/common/fonts.rs")); }
//! # let variable_font = fonts::variable(&[(*b"wght", 100, 400, 900)]);
//! use stemhook::{Attributes, JobBuilder, Request, Tag};
//!
//! let mut builder = JobBuilder::new();
//! let face = builder.face(&variable_font)?; // the bytes of a font file
//! let family = builder.family(&[face])?;
//! let request = builder.request(&Request {
//!     attributes: Attributes { weight: 650.0, ..Attributes::default() },
//!     families: vec![family],
//!     ..Request::default()
//! })?;
//! let job = builder.build()?;
//!
//! for offer in job.offers(request)? {
//!     let offer = offer?;
//!     assert_eq!((offer.family, offer.place), (family, 0));
//!     assert_eq!(offer.settings.value(Tag::WGHT), Some(650.0));
//!     assert_eq!(job.font(&offer).map(|font| font.face), Some(face));
//! }
//! # assert_eq!(job.offers(request)?.count(), 1);
//! # Ok::<(), Box<dyn std::error::Error>>(())
//! ```

#![deny(missing_docs, unsafe_code, unsafe_op_in_unsafe_fn)]

mod attributes;
mod build_error;
mod builder;
mod calls;
mod entry;
#[allow(unsafe_code)]
mod ffi;
mod font_fault;
mod font_file;
mod ids;
mod job;
mod layout;
pub mod limits;
mod looked_at;
mod offer;
mod offers;
mod reading;
mod refusal;
mod tables;
mod tag;

pub use attributes::{Angle, Attributes, Style};
pub use build_error::{BuildError, Problem};
pub use builder::{JobBuilder, Override, Request};
pub use calls::{check, offer, offer_bytes};
pub use font_fault::FontFault;
pub use font_file::{Font, FontFile};
pub use ids::{FaceId, FamilyId, RequestId};
pub use job::Job;
pub use offer::{CharmapIndex, Offer, Setting, Settings};
pub use offers::Offers;
pub use reading::{Reading, UnknownReading};
pub use refusal::{Refusal, Refused};
pub use tables::face_count;
pub use tag::{ParseTagError, Tag};

/// The examples of the README, run as tests.
#[cfg(doctest)]
#[doc = include_str!("../README.md")]
struct Readme;
