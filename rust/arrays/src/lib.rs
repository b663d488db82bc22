//! A test over the Rattle sources: no way to a choice keeps more than one list of 64 places beside the family, and the
//! choice itself has no array. No other function goes through its stages or ranks.
//!
//! What it cannot see: faces that are kept without an array, in a struct of many plain fields or in the bits of numbers;
//! several of them packed in one entry of the one list; what the compiler copies; callers in other crates than the five
//! that it reads; and a choice in other words, which calls no stage and nothing that ranks.
//!
//! A face's row, a struct, counts as an array of its numbers. The one that is looked at may be alive in the choice: where
//! a closure hands it on, it is the same one.
//!
//! A closure counts where it is written, and a function that is handed on where it is named, each as if it were called
//! once there. Of a value that only a closure knows the type may be open: then each of our own methods of a name is
//! followed, and a field or an entry of the value is taken to hold no array. An error of a `Result` that has an array is
//! a finding.

mod constants;
mod findings;
mod leads;
mod outside;
mod parser;
mod program;
mod report;
mod rules;
pub mod sources;
mod tokens;
mod tree;
mod types;
mod walk;

use findings::Findings;
use program::Program;
use sources::Source;

/// What was counted, and where the rule is broken.
pub struct Report {
    pub lines: Vec<String>,
    pub findings: Vec<String>,
}

pub fn check(sources: &[Source]) -> Report {
    let mut findings = Findings::default();
    let program = Program::read(sources, &mut findings);
    let checked = rules::check(&program, &mut findings);
    Report {
        lines: report::lines(&checked),
        findings: findings.into_list(),
    }
}

#[cfg(test)]
mod tests;
