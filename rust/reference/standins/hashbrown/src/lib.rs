//! Stand-in for `hashbrown`: the standard library's map.

pub use std::collections::{HashMap, hash_map};
