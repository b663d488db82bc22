//! The rule, on every way to a choice.

use crate::findings::Findings;
use crate::leads::{CHOOSE, Leads, every};
use crate::outside;
use crate::program::{Item, Program};
use crate::tree::{Expr, Function, Kind, TypeTree};
use crate::walk::{DEFAULT, OUTSIDE, Quiet, STAGES, Walker, Way, is_known};

/// The most entries of the one list beside the family.
pub const MOST_ENTRIES: usize = 64;

/// The most faces of a job: what its family may have entries for.
const MOST_FACES: usize = 256;

/// A call that leads to a choice.
pub struct Entry {
    pub path: &'static str,
    /// On a job, or else on faces by value.
    pub job: bool,
    /// Whether a face is chosen for a request on its way, and whether the default is.
    pub request: bool,
    pub default: bool,
}

const fn entry(path: &'static str, job: bool, request: bool, default: bool) -> Entry {
    Entry {
        path,
        job,
        request,
        default,
    }
}

pub const ENTRIES: [Entry; 8] = [
    entry("matching::matching::match_font", false, true, false),
    entry("matching::matching::match_fonts", false, true, false),
    entry("matching::family::FamilyInfo::new", false, false, true),
    entry("query::call::offer", true, true, true),
    entry("query::call::offer_at", true, true, true),
    entry("query::cursor::Cursor::step", true, true, true),
    entry("stemhook::stemhook_offer", true, true, true),
    entry("stemhook_c::stemhook_offer", true, true, true),
];

pub struct Checked {
    pub ways: Vec<(&'static str, Way)>,
}

pub fn check(program: &Program, findings: &mut Findings) -> Checked {
    let leads = Leads::new(program);
    let mut quiet = Quiet::new();
    let mut ways = Vec::new();
    for entry in &ENTRIES {
        let Some(item) = program.functions.get(entry.path) else {
            findings.add(format!("there is no {}", entry.path));
            continue;
        };
        let mut walker = Walker::new(program, &leads, findings, &mut quiet);
        walker.start(entry.path, item, entry.job);
        let way = walker.way;
        reached(entry, &way, findings);
        family(entry, &way, findings);
        beside(entry, &way, findings);
        ways.push((entry.path, way));
    }
    known_calls(program, findings);
    let inside = ways.iter().flat_map(|(_, way)| way.seen.functions.iter());
    outside::check(program, &inside.collect(), findings);
    further(program, &leads, findings);
    Checked { ways }
}

fn reached(entry: &Entry, way: &Way, findings: &mut Findings) {
    let path = entry.path;
    let weight = way.functions.contains(STAGES[STAGES.len() - 1]);
    if entry.request && way.choices == 0 || !weight {
        findings.add(format!("no way from {path} to the weight's stage"));
    }
    if entry.default && way.defaults == 0 {
        findings.add(format!("no way from {path} to the default"));
    }
}

fn family(entry: &Entry, way: &Way, findings: &mut Findings) {
    let path = entry.path;
    if way.family.is_empty() {
        findings.add(format!("{path}: what the family is cannot be told"));
    }
    if !entry.job && 1 < way.family.len() {
        findings.add(format!("{path}: the family is more than one list"));
    }
    for id in &way.family {
        let live = &way.lives[*id];
        let most = if entry.job { MOST_FACES } else { MOST_ENTRIES };
        let lists = &live.held.lists;
        if lists.len() != 1 || most < lists[0] {
            findings.add(format!(
                "{}: the family `{}`: {} is not one list of up to {most} ({})",
                live.function, live.name, live.of, live.place
            ));
        }
    }
}

/// How many lists are alive at a peak beside the family.
pub fn lists_beside(way: &Way, peak: &[usize]) -> usize {
    let beside = peak.iter().filter(|id| !way.family.contains(id));
    beside.map(|id| way.lives[*id].held.lists.len()).sum()
}

fn beside(entry: &Entry, way: &Way, findings: &mut Findings) {
    for peak in &way.peaks {
        let Some(last) = peak.last() else { continue };
        let live = &way.lives[*last];
        let families = peak.iter().filter(|id| way.family.contains(id)).count();
        if 1 < families {
            findings.add(format!(
                "{}: two families are alive at `{}`",
                entry.path, live.name
            ));
        }
        if way.family.contains(last) {
            continue;
        }
        let own = format!(
            "{}: `{}`: {} ({})",
            live.function, live.name, live.of, live.place
        );
        if live
            .held
            .lists
            .iter()
            .any(|entries| MOST_ENTRIES < *entries)
        {
            findings.add(format!("{own} has more than {MOST_ENTRIES} entries"));
        }
        let count = lists_beside(way, peak);
        if 1 < count {
            findings.add(format!(
                "{own} makes {count} lists beside the family: {}",
                names(way, peak)
            ));
        }
    }
}

fn names(way: &Way, peak: &[usize]) -> String {
    let beside = peak.iter().filter(|id| !way.family.contains(id));
    let names: Vec<String> = beside
        .map(|id| {
            let live = &way.lives[*id];
            format!("`{}` of {}", live.name, live.function)
        })
        .collect();
    names.join(", ")
}

/// No call may be unknown, wherever it stands.
fn known_calls(program: &Program, findings: &mut Findings) {
    for (path, item) in &program.functions {
        every(&item.value.body, &mut |e| {
            if let Some(name) = unknown_call(program, item, e) {
                let file = program.file(item.module);
                findings.add(format!(
                    "{path}: the call of {name} is not known ({file}:{})",
                    e.line
                ));
            }
        });
    }
}

/// What a function is handed to call, and what std has for values that may be there.
fn is_called(item: &Item<Function>, name: &str) -> bool {
    let mut parameters = item.value.parameters.iter();
    let bound = parameters.any(|p| p.name == name && matches!(p.annotation, TypeTree::Bound(_)));
    bound || ["Some", "Ok", "Err"].contains(&name)
}

fn unknown_call(program: &Program, item: &Item<Function>, value: &Expr) -> Option<String> {
    let scope = item.scope();
    match &value.kind {
        Kind::Call(path, _) | Kind::Sized(path, _, _) => {
            let name = path.join("::");
            let whole = program.whole(scope, path);
            let ours = whole.is_some_and(|whole| program.functions.contains_key(&whole));
            let variant = program.variant(scope, path).is_some();
            let outside = OUTSIDE.iter().any(|(known, _)| *known == name);
            let known = ours || variant || outside || is_called(item, &name);
            (!known).then_some(name)
        }
        Kind::Method(_, name, _) => {
            let mut all = program.functions.values();
            let ours = all.any(|item| item.value.of.is_some() && item.value.name == *name);
            (!ours && !is_known(name)).then(|| name.clone())
        }
        _ => None,
    }
}

/// A public function that leads to the choice and is none of those that are looked at.
fn further(program: &Program, leads: &Leads, findings: &mut Findings) {
    for path in leads.all() {
        let known = ENTRIES.iter().any(|entry| entry.path == path);
        let choice = path == CHOOSE || path == DEFAULT;
        if program.is_public(path) && !known && !choice {
            findings.add(format!(
                "{path}: a further way to the choice, which is not looked at"
            ));
        }
    }
}
