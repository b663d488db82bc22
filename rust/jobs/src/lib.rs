//! Seeded jobs, valid and damaged, and the small fonts they hold.
//!
//! Nothing here reads a job's meaning: what a job is refused for is known by
//! how it was built, or not at all.

pub mod bytes;
pub mod counts;
pub mod damage;
pub mod damaged;
pub mod families;
pub mod font_list;
pub mod fonts;
pub mod generate;
pub mod layout;
pub mod list;
pub mod numbers;
pub mod overrides;
pub mod pairs;
pub mod pools;
pub mod random;
pub mod readings;
