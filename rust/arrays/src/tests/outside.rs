//! A choice that is made outside `choose`: behind a choice, on a way, or on none.

use super::real;

const STAGES: &str = "matching/stages";
const STYLE: &str = "let style = ";

/// Where the default is chosen.
const DEFAULT: &str = "self.choose(request)";

/// On no way, a function of the stages with the value is found, by what it uses.
fn found(value: &str, used: &str) {
    let item = format!(
        "
fn other(family: FamilyRows, face: Row, request: Request) -> usize {{
    let kept = {value};
    0
}}
"
    );
    let planted = real().with(STAGES, &item);
    let words = format!("{used} is used outside the choice (crates/matching/src/stages.rt:");
    planted.finds("matching::stages::other", &words);
}

#[test]
fn a_stage() {
    for (call, stage) in [
        ("width_rank(request, face, 0)", "stages::width_rank"),
        (
            "family.slant_at(100, request)",
            "rows::FamilyRows::slant_at",
        ),
        (
            "style_rank(request, 100, false, face, 0)",
            "stages::style_rank",
        ),
        (
            "weight_rank(request, 100, 0, face, 0)",
            "stages::weight_rank",
        ),
        ("family.least(|face, place| 0)", "rows::FamilyRows::least"),
    ] {
        found(call, &format!("matching::{stage}"));
    }
    let again = "let other = self.slant_at(100, request);";
    let planted = real().before(STAGES, "default_place", DEFAULT, again);
    planted.finds(
        "matching::rows::FamilyRows::default_place",
        "slant_at is used outside the choice",
    );
}

#[test]
fn a_rank() {
    for (value, used) in [
        ("rank::pack(width_rank, 0)", "stages::width_rank"),
        ("rank::pack(style_rank, 0)", "stages::style_rank"),
        ("rank::pack(weight_rank, 0)", "stages::weight_rank"),
        ("rank::pack(0, 1)", "rank::pack"),
        ("rank::place_of(0)", "rank::place_of"),
        ("rank::NOWHERE", "rank::NOWHERE"),
        ("rank::Standing::Up(0, 0)", "rank::Standing::Up"),
        ("order::width_standing(100, 90)", "order::width_standing"),
        (
            "order::style_standing(true, true, 0, 1)",
            "order::style_standing",
        ),
        ("order::weight_standing(0, 1)", "order::weight_standing"),
        (
            "order::oblique_standing(true, true, 0, 1)",
            "order::oblique_standing",
        ),
    ] {
        found(value, &format!("matching::{used}"));
    }
}

#[test]
fn a_standing_of_plain_numbers() {
    let item = "\npub(crate) fn size_standing(size: u32) -> u32 {\n    size\n}\n";
    let standing = "order::size_standing(9);";
    let planted = real().before(STAGES, "default_place", DEFAULT, standing);
    planted.with("matching/order", item).finds(
        "matching::rows::FamilyRows::default_place",
        "matching::order::size_standing is used outside the choice",
    );
}

#[test]
fn a_struct_of_ranks() {
    let item = "\npub(crate) struct Best {\n    pub rank: u64,\n}\n";
    let best = "let best = rank::Best { rank: 0 };";
    let planted = real().before(STAGES, "default_place", DEFAULT, best);
    planted.with("matching/rank", item).finds(
        "matching::rows::FamilyRows::default_place",
        "matching::rank::Best is used outside the choice",
    );
}

#[test]
fn behind_the_last_choice() {
    let at = "Ok(family.equal_places(";
    let ranked = "let least = crate::rank::place_of(0);";
    let planted = real().before("matching/matching", "match_fonts", at, ranked);
    planted.finds(
        "matching::matching::match_fonts",
        "matching::rank::place_of is used outside the choice",
    );
    let at = "let font = ";
    let ranked = "let turn = matching::order::weight_standing(0, 1);";
    let planted = real().before("query/call", "answer_found", at, ranked);
    planted.finds(
        "query::call::answer_found",
        "matching::order::weight_standing is used outside the choice",
    );
}

#[test]
fn through_a_function_of_the_choice() {
    let item = "
fn turned(family: FamilyRows, request: Request) -> u64 {
    rank::pack(order::width_standing(request.percent, 100), 0)
}
";
    let call = "let again = turned(self, request);";
    let inside = real().before(STAGES, "choose", STYLE, call);
    let inside = inside.with(STAGES, item);
    inside.finds_nothing();
    let outside = inside.before(STAGES, "default_place", DEFAULT, call);
    outside.finds(
        "matching::rows::FamilyRows::default_place",
        "matching::stages::turned is used outside the choice",
    );
}

#[test]
fn through_a_method() {
    let item = "
impl Standing {
    fn is_first(self) -> bool {
        true
    }
}
";
    let first = "let first = job.is_first();";
    let planted = real().before("query/job", "check", "walk(job", first);
    planted.with("matching/rank", item).finds(
        "query::job::check",
        "matching::rank::Standing::is_first is used outside the choice",
    );
}

#[test]
fn by_other_crates() {
    let planted = real().change(STAGES, "width_rank", "fn width_rank(", "pub fn width_rank(");
    planted.finds_nothing_but("matching::stages::width_rank: other crates can choose by it");
    let item = "\npub fn least(a: u64) -> usize {\n    rank::place_of(a)\n}\n";
    let planted = real().with(STAGES, item);
    planted.finds(
        "matching::stages::least",
        "matching::rank::place_of is used outside the choice",
    );
}

#[test]
fn by_ranks_of_another_name() {
    let mut planted = real();
    for source in &mut planted.sources {
        source.text = source.text.replace("rank::", "turns::");
        source.text = source.text.replace(", rank}", ", turns}");
        if source.module == "rank" {
            source.module = "turns".into();
        }
    }
    planted.finds_nothing_but("the choice does not rank by matching::rank::");
    let mut planted = real();
    for source in &mut planted.sources {
        source.text = source.text.replace("_standing(", "_turn(");
    }
    planted.finds_nothing_but("the choice does not rank by the standings of matching::order::");
}
