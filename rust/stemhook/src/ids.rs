//! The numbers of a job's entries, each of a type of its own.

use std::fmt;

/// The types of entry numbers: each counts from 0, in the order in which the
/// entries stand in the job.
macro_rules! entry_numbers {
    ($($(#[$doc:meta])* $name:ident: $number:ty;)*) => { $(
        $(#[$doc])*
        #[derive(Clone, Copy, Debug, PartialEq, Eq, PartialOrd, Ord, Hash)]
        pub struct $name($number);

        impl $name {
            /// The entry of a number, whether or not a job has it.
            pub const fn new(number: $number) -> Self {
                Self(number)
            }

            /// The number.
            pub const fn number(self) -> $number {
                self.0
            }

            /// The number, to index with.
            pub const fn index(self) -> usize {
                self.0 as usize
            }
        }

        impl fmt::Display for $name {
            fn fmt(&self, f: &mut fmt::Formatter<'_>) -> fmt::Result {
                self.0.fmt(f)
            }
        }
    )* };
}

entry_numbers! {
    /// A face of a job: what [`JobBuilder::face`](crate::JobBuilder::face)
    /// gives. Its number is that of the font file among those added.
    FaceId: u16;
    /// A family of a job: what [`JobBuilder::family`](crate::JobBuilder::family)
    /// gives.
    FamilyId: u16;
    /// A request of a job: what [`JobBuilder::request`](crate::JobBuilder::request)
    /// gives, and [`Job::requests`](crate::Job::requests) goes over.
    RequestId: u32;
}
