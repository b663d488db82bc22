//! The real sources, and changes planted in them.

mod forms;
mod handed;
mod outside;
mod parsing;
mod passed;
mod planted;
mod rows;
mod short;
mod tokens;
mod told;

use std::{ops::Range, path::Path};

use crate::check;
use crate::sources::{Source, read};

/// The sources of this repository, some of them changed.
pub struct Planted {
    sources: Vec<Source>,
}

fn real() -> Planted {
    let root = Path::new(env!("CARGO_MANIFEST_DIR")).join("../..");
    let sources = read(&root).expect("the sources are there");
    Planted { sources }
}

impl Planted {
    fn text(&mut self, module: &str) -> &mut String {
        let whole = |s: &Source| format!("{}/{}", s.crate_name, s.module);
        let mut found = self.sources.iter_mut().filter(|s| whole(s) == module);
        &mut found.next().expect("the module is there").text
    }

    /// Where the text of a function begins and ends.
    fn whole(text: &str, function: &str) -> Range<usize> {
        let heads = ["(", "<"].map(|mark| format!("fn {function}{mark}"));
        let found = heads.iter().flat_map(|head| text.match_indices(head));
        let starts: Vec<usize> = found.map(|(at, _)| at).collect();
        assert_eq!(starts.len(), 1, "{function}");
        let line = text[..starts[0]].rfind('\n').map_or(0, |at| at + 1);
        let indent = text[line..].len() - text[line..].trim_start().len();
        let end = format!("\n{}}}\n", &text[line..line + indent]);
        let length = text[starts[0]..].find(&end).expect("the function ends");
        starts[0]..starts[0] + length
    }

    /// In place of a text that stands once in a function, another one.
    fn change(mut self, module: &str, function: &str, old: &str, new: &str) -> Self {
        let text = self.text(module);
        let whole = Self::whole(text, function);
        let body = &text[whole.clone()];
        assert_eq!(
            body.matches(old).count(),
            1,
            "{old:?} in {function} of {module}"
        );
        let changed = body.replace(old, new);
        text.replace_range(whole, &changed);
        self
    }

    /// A text before one that stands once in a function.
    fn before(self, module: &str, function: &str, at: &str, new: &str) -> Self {
        self.change(module, function, at, &format!("{new}\n    {at}"))
    }

    /// A text behind one that stands once in a function.
    fn behind(self, module: &str, function: &str, at: &str, new: &str) -> Self {
        self.change(module, function, at, &format!("{at}\n    {new}"))
    }

    /// A text behind the loading of a job.
    fn loaded(self, new: &str) -> Self {
        let (module, function) = ("query/call", "search_with");
        let arm = "match walked.request {";
        let end = "number as usize,\n            )),\n        }";
        self.change(module, function, arm, &format!("{{ {new}\n    {arm}"))
            .change(module, function, end, &format!("{end}\n    }}"))
    }

    /// In place of a text that stands once in a module, another one.
    fn replace(mut self, module: &str, old: &str, new: &str) -> Self {
        let text = self.text(module);
        assert_eq!(text.matches(old).count(), 1, "{old:?} in {module}");
        *text = text.replace(old, new);
        self
    }

    /// Items at the end of a module.
    fn with(mut self, module: &str, items: &str) -> Self {
        *self.text(module) += items;
        self
    }

    fn findings(&self) -> Vec<String> {
        check(&self.sources).findings
    }

    /// A finding names the function and has the words.
    fn finds(&self, function: &str, words: &str) {
        let findings = self.findings();
        let head = format!("{function}: ");
        let told = |f: &String| f.starts_with(&head) && f.contains(words);
        assert!(
            findings.iter().any(told),
            "{function} {words}: {findings:#?}"
        );
    }

    fn finds_nothing_but(&self, finding: &str) {
        assert_eq!(self.findings(), [finding]);
    }

    fn finds_nothing(&self) {
        assert_eq!(self.findings(), Vec::<String>::new());
    }
}

#[test]
fn the_sources_keep_the_rule() {
    real().finds_nothing();
}

#[test]
fn what_was_counted() {
    let lines = check(&real().sources).lines;
    let has = |line: &str| lines.iter().any(|l| l.starts_with(line));
    assert!(has(
        "  family `fonts`: [FontInfo; 64], 19456 bytes, of matching::matching::match_font "
    ));
    assert!(has(
        "  family `rows`: [Row; 64], 1280 bytes, of query::call::answer_with "
    ));
    assert!(has(
        "  family `rows`: [Row; 256], 5120 bytes, of query::call::answer_with "
    ));
    assert!(has(
        "  beside `families`: [u32; 64], 256 bytes, of query::call::search_with "
    ));
    let choice = lines.iter().find(|l| l.starts_with("choice: "));
    let counted = "2 loops, 0 arrays made, 0 writes of entries, at most 5 entries alive";
    assert!(choice.is_some_and(|l| l.ends_with(counted)), "{choice:?}");
    let last = "arrays: 8 ways, at most 1 list of 64 beside the family, 0 arrays in the choice";
    assert_eq!(lines.last().map(String::as_str), Some(last));
}

#[test]
fn calls_of_the_choice() {
    let lines = check(&real().sources).lines;
    for (entry, request, default) in [
        ("matching::matching::match_font: ", 1, 0),
        ("matching::family::FamilyInfo::new: ", 0, 1),
        ("query::call::offer: ", 4, 4),
    ] {
        let mut way = lines.iter().skip_while(|l| !l.starts_with(entry));
        let calls = way.find(|l| l.starts_with("  calls "));
        let counted = format!(
            "  calls of the choice, on each way to it: {request} for a request, {default} for the default"
        );
        assert_eq!(calls, Some(&counted), "{entry}");
        let alive = "  lists alive at once beside the family: 1";
        assert_eq!(way.next().map(String::as_str), Some(alive), "{entry}");
    }
}
