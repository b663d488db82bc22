//! What was counted, in lines.

use std::collections::BTreeSet;

use crate::rules::{Checked, lists_beside};
use crate::walk::{Live, Seen, Way};

fn line_of(live: &Live) -> String {
    format!(
        "`{}`: {}, {} bytes, of {} ({})",
        live.name, live.of, live.bytes, live.function, live.place
    )
}

/// Each line once, in the order of the way.
fn lines_of<'a>(label: &str, lives: impl Iterator<Item = &'a Live>) -> Vec<String> {
    let mut seen = BTreeSet::new();
    let lines = lives.map(|live| format!("  {label} {}", line_of(live)));
    lines.filter(|line| seen.insert(line.clone())).collect()
}

fn most_alive(way: &Way) -> usize {
    let counts = way.peaks.iter().map(|peak| lists_beside(way, peak));
    counts.max().unwrap_or(0)
}

fn most_entries(way: &Way) -> usize {
    let beside = way
        .peaks
        .iter()
        .flatten()
        .filter(|id| !way.family.contains(id));
    let entries = beside.flat_map(|id| way.lives[*id].held.lists.iter());
    entries.copied().max().unwrap_or(0)
}

fn way_lines(path: &str, way: &Way) -> Vec<String> {
    let mut lines = vec![format!(
        "{path}: {} functions followed",
        way.functions.len()
    )];
    let family = way.family.iter().map(|id| &way.lives[*id]);
    lines.extend(lines_of("family", family));
    let beside: BTreeSet<usize> = way.peaks.iter().flatten().copied().collect();
    let beside = beside.iter().filter(|id| !way.family.contains(id));
    lines.extend(lines_of("beside", beside.map(|id| &way.lives[*id])));
    let most = most_alive(way);
    lines.push(format!(
        "  calls of the choice, on each way to it: {} for a request, {} for the default",
        way.choices, way.defaults
    ));
    lines.push(format!("  lists alive at once beside the family: {most}"));
    lines
}

/// What was counted on each way and in the choice. The last line is the sum of it.
pub fn lines(checked: &Checked) -> Vec<String> {
    let mut lines = Vec::new();
    for (path, way) in &checked.ways {
        lines.extend(way_lines(path, way));
    }
    let ways = || checked.ways.iter().map(|(_, way)| way);
    let count = |of: fn(&Seen) -> &BTreeSet<String>| {
        let all: BTreeSet<&String> = ways().flat_map(|way| of(&way.seen)).collect();
        all.len()
    };
    let arrays = count(|seen| &seen.arrays);
    lines.push(format!(
        "choice: {} functions, {} loops, {arrays} arrays made, {} writes of entries, at most {} entries alive",
        count(|seen| &seen.functions),
        count(|seen| &seen.loops),
        count(|seen| &seen.writes),
        ways().map(|way| way.seen.entries).max().unwrap_or(0)
    ));
    let most = ways().map(most_alive).max().unwrap_or(0);
    let entries = ways().map(most_entries).max().unwrap_or(0);
    let word = if most == 1 { "list" } else { "lists" };
    lines.push(format!(
        "arrays: {} ways, at most {most} {word} of {entries} beside the family, {arrays} arrays in the choice",
        checked.ways.len()
    ));
    lines
}
