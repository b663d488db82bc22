//! Short arrays: before the choice they are what one face has, at the choice there is none but the row that is looked at.

use super::{Planted, real};

const MATCHING: &str = "matching/matching";
const STAGES: &str = "matching/stages";
const FAMILIES: &str = "query/families";
const CHOSEN: &str = "let chosen = ";

fn at_the_choice(new: &str) -> Planted {
    real().before(FAMILIES, "family_offer", CHOSEN, new)
}

fn found(planted: &Planted, entries: usize) {
    let words = format!("short arrays with {entries} entries at the choice: `kept`");
    planted.finds("query::families::family_offer", &words);
}

#[test]
fn one_at_the_choice() {
    found(&at_the_choice("let kept = [0u64; 16];"), 16);
    found(&at_the_choice("let kept = [0u8; 1];"), 1);
    found(&at_the_choice("let kept = [n, n];"), 2);
    let item = "\nstruct Face {\n    place: usize,\n    weight: u32,\n}\n";
    let faces = at_the_choice("let kept = [Face { place: 0, weight: 0 }; 16];");
    found(&faces.with(FAMILIES, item), 16);
    let item = "\nstruct Kept {\n    places: [u8; 3],\n}\n";
    let held = at_the_choice("let kept = Kept { places: [0u8; 3] };");
    found(&held.with(FAMILIES, item), 3);
    let lent = "FamilyRows { members: &[0u8; 16], ..family }.choose(request)";
    let planted = real().change(FAMILIES, "family_offer", "family.choose(request)", lent);
    planted.finds(
        "query::families::family_offer",
        "short arrays with 16 entries at the choice: `a value without a name`",
    );
    at_the_choice("let kept = [0u8; 0];").finds_nothing();
}

#[test]
fn a_row_that_waits_for_the_choice() {
    found(&at_the_choice("let kept = family.rows[0];"), 5);
    found(&at_the_choice("let kept = [family.rows[0]];"), 5);
    let three = "let a = family.rows[0];
        let b = family.rows[1];
        let c = family.rows[2];";
    at_the_choice(three).finds(
        "query::families::family_offer",
        "short arrays with 15 entries at the choice: `a`, `b`, `c`",
    );
}

#[test]
fn one_at_the_choice_by_value() {
    let kept = "let kept = [0u64; 16];";
    let planted = real().before(MATCHING, "match_font", "choose(&fonts", kept);
    planted.finds(
        "matching::matching::choose",
        "short arrays with 16 entries at the choice: `kept`",
    );
    let kept = "let kept = fonts[0];";
    let planted = real().before("matching/family", "new", "let family = ", kept);
    planted.finds(
        "matching::rows::FamilyRows::default_place",
        "at the choice: `kept`",
    );
}

#[test]
fn one_in_the_loop_that_takes_the_faces() {
    for new in ["let kept = [0u64; 16];", "let axes = font.axes;"] {
        let planted = real().before(MATCHING, "take_faces", "rows[place] = ", new);
        planted.finds_nothing();
    }
}

#[test]
fn one_more_than_a_face_has() {
    let at = "let mut families = [loading::NOWHERE; 64];";
    let of_a_face = "{ let kept = [0u8; 16]; }";
    let planted = real().behind("query/call", "search_with", at, of_a_face);
    planted.finds_nothing();
    let more = "{ let kept = [0u8; 17]; }";
    let planted = real().behind("query/call", "search_with", at, more);
    planted.finds("query::call::search_with", "`kept`: [u8; 17]");
}

#[test]
fn one_in_the_choice_that_is_no_row() {
    let at = "let style = ";
    for (of, value) in [
        ("[u64; 5]", "[0u64; 5]"),
        ("[u32; 2]", "[0u32; 2]"),
        ("[Row; 1]", "[Row::BLANK; 1]"),
    ] {
        let item = format!("\nconst TABLE: {of} = {value};\n");
        let planted = real().before(STAGES, "choose", at, "let kept = TABLE[0];");
        planted.with(STAGES, &item).finds(
            "matching::rows::FamilyRows::choose",
            &format!("`a value without a name`: {of} in the choice is no row"),
        );
    }
    let row = "\nconst TABLE: Row = Row::BLANK;\n";
    let planted = real().before(STAGES, "choose", at, "let kept = TABLE.percent;");
    planted.with(STAGES, row).finds_nothing();
    let planted = real().before(STAGES, "choose", at, "let kept = TABLE;");
    planted.with(STAGES, row).finds(
        "matching::rows::FamilyRows::choose",
        "`face`: Row is an array in the choice, 10 entries together",
    );
}
