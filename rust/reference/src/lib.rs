//! The original sources of fontique, compiled as they are, and lists of what they answer.
//!
//! The module lines of the original come from the build script. They see this
//! crate's root as their own, so the names below are those of fontique's.

extern crate alloc;

include!(concat!(env!("OUT_DIR"), "/original.rs"));

mod collection;

pub use attributes::Attributes;
pub use charmap::{Charmap, CharmapIndex};
pub use collection::{Collection, Query, QueryFamily, QueryFont, QueryStatus};
pub use fallback::FallbackKey;
pub use family::{FamilyId, FamilyInfo};
pub use font::{AxisInfo, FontInfo, FontInfoOverride, Synthesis};
pub use linebender_resource_handle::Blob;
pub use parlance::{FontStyle, FontWeight, FontWidth, GenericFamily, Language, Script};
pub use source_cache::SourceCache;

pub(crate) use core::sync::atomic::AtomicU64 as AtomicCounter;

pub mod as_plain;
pub mod call;
pub mod describe;
pub mod families;
pub mod lists;
pub mod offers;
pub mod overrides;
pub mod pairs;
pub mod turned;

#[cfg(test)]
mod beside;
#[cfg(test)]
#[path = "../checksums.rs"]
mod checksums;
#[cfg(test)]
mod pinned;
