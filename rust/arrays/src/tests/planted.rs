//! Changes that break the rule: each is found, with its function and its local.

use super::{Planted, real};

const MATCHING: &str = "matching/matching";
const STAGES: &str = "matching/stages";
const CALL: &str = "query/call";
const FAMILIES: &str = "query/families";
const OFFERS: &str = "query/offers";

/// Where the rows of faces by value are declared, and where a family of a job is chosen from.
const ROWS: &str = "let mut rows = [Row::BLANK; 64];";
const CHOSEN: &str = "let chosen = ";

/// Where the rows of a job are loaded, and what comes behind.
const LOAD: &str = "match loading::load(";

/// What is between the style and the weight.
const STYLE: &str = "let style = ";

/// The choice itself.
const CHOICE: &str = "matching::rows::FamilyRows::choose";

/// On the job's way, where only the one list is alive: more before the choice.
fn before_choice(new: &str) -> Planted {
    real().before(FAMILIES, "family_offer", CHOSEN, new)
}

fn found_before_choice(new: &str, words: &str) {
    before_choice(new).finds("query::families::family_offer", words);
}

/// Between the style and the weight.
fn between(new: &str) -> Planted {
    real().before(STAGES, "choose", STYLE, new)
}

#[test]
fn a_second_array_beside_that_of_the_families() {
    let at = "let mut families = [loading::NOWHERE; 64];";
    let planted = real().behind(CALL, "search_with", at, "let mut second = [0u32; 64];");
    planted.finds("query::call::search_with", "`second`: [u32; 64]");
    let planted = real().before(CALL, "search_with", at, "let mut second = [0u32; 64];");
    planted.finds("query::call::search_with", "`families`: [u32; 64]");
}

#[test]
fn a_second_array_beside_the_rows_of_faces_by_value() {
    let second = "let mut second = [0u8; 64];";
    for function in ["match_font", "match_fonts"] {
        let planted = real().behind(MATCHING, function, ROWS, second);
        planted.finds(
            &format!("matching::matching::{function}"),
            "`second`: [u8; 64]",
        );
    }
    let planted = real().behind("matching/family", "new", ROWS, second);
    planted.finds("matching::family::FamilyInfo::new", "`second`: [u8; 64]");
}

#[test]
fn a_copy_of_the_candidates_between_style_and_weight() {
    let copy = "let mut kept = [Row::BLANK; 64];
        for k in 0..self.count {
            kept[k] = self.row(k);
        }";
    let planted = between(copy);
    planted.finds(CHOICE, "`kept`: [Row; 64] is an array in the choice");
    planted.finds(CHOICE, "`kept` is written in the choice");
    planted.finds(CHOICE, "`kept`: [Row; 64] (crates/matching/src/stages.rt:");
    let lines = crate::check(&planted.sources).lines;
    let counted = "3 loops, 1 arrays made, 1 writes of entries, at most 69 entries alive";
    let choice = lines.iter().find(|l| l.starts_with("choice: "));
    assert!(choice.is_some_and(|l| l.ends_with(counted)), "{choice:?}");
}

#[test]
fn a_copy_hidden_in_a_helper() {
    let helper = "
fn remaining(members: &[u8], count: usize) -> usize {
    let mut kept = [0u8; 64];
    kept[0] = members[0];
    count
}
";
    let planted = between("let left = remaining(self.members, self.count);").with(STAGES, helper);
    planted.finds(
        "matching::stages::remaining",
        "`kept`: [u8; 64] is an array in the choice",
    );
    planted.finds(
        "matching::stages::remaining",
        "`kept` is written in the choice",
    );
}

#[test]
fn short_arrays_in_the_choice() {
    let made = between("let kept = [0u8; 5];");
    made.finds(CHOICE, "an array [u8; 5] is made in the choice");
    let listed = between("let kept = [percent, percent];");
    listed.finds(CHOICE, "an array [u32; 2] is made in the choice");
    let two = between("let one = self.row(0);\n    let other = self.row(1);");
    two.finds(CHOICE, "`other`: Row is an array in the choice");
    let two = between("let one = NUMBERS;\n    let other = NUMBERS;");
    let item = "\nconst NUMBERS: [u32; 5] = [0u32; 5];\n";
    two.with(STAGES, item)
        .finds(CHOICE, "`other`: [u32; 5] is an array in the choice");
    let lent = between("let left = remaining(&[0u8; 2]);");
    let lent = lent.with(
        STAGES,
        "\nfn remaining(kept: &[u8]) -> usize { kept.len() }\n",
    );
    lent.finds(CHOICE, "an array [u8; 2] is made in the choice");
}

#[test]
fn an_array_written_in_the_weight_stage() {
    let planted = real().before(STAGES, "weight_rank", "if face.", "face.percent = 0;");
    planted.finds(
        "matching::stages::weight_rank",
        "`face` is written in the choice",
    );
    let item = "\nconst NUMBERS: [u32; 5] = [0u32; 5];\n";
    let kept = "let mut kept = NUMBERS;\n    kept[0] = 0;";
    let planted = real().before(STAGES, "weight_rank", "if face.", kept);
    planted.with(STAGES, item).finds(
        "matching::stages::weight_rank",
        "`kept` is written in the choice",
    );
    let lent = real().change(STAGES, "weight_rank", "face: Row", "face: &mut [u8]");
    lent.finds(
        "matching::stages::weight_rank",
        "`face` lends an array to be written",
    );
    let item = "\npub struct Kept {\n    pub places: [u8; 64],\n}\n";
    let held = real().change(STAGES, "weight_rank", "face: Row", "face: &mut Kept");
    let held = held.with(STAGES, item);
    held.finds(
        "matching::stages::weight_rank",
        "`face` lends an array to be written",
    );
}

#[test]
fn an_array_in_a_struct_or_an_enum() {
    let items = "
struct Kept {
    places: [u8; 64],
}
struct Outer {
    kept: Kept,
    count: usize,
}
enum Noted {
    Nothing,
    All([u8; 64]),
}
";
    let in_struct = "let outer = Outer { kept: Kept { places: [0u8; 64] }, count: n };";
    let planted = before_choice(in_struct).with(FAMILIES, items);
    planted.finds("query::families::family_offer", "`outer`: Outer");
    let in_enum = before_choice("let noted = Noted::Nothing;").with(FAMILIES, items);
    in_enum.finds("query::families::family_offer", "`noted`: Noted");
    let bound = "match Noted::All([0u8; 64]) {
        Noted::All(places) => { default_offer(family, None, n); }
        Noted::Nothing => {}
    }";
    let planted = before_choice(bound).with(FAMILIES, items);
    planted.finds("query::families::family_offer", "`places`: [u8; 64]");
}

#[test]
fn more_than_64_entries() {
    let longer = "let mut rows = [Row::BLANK; 65];";
    let planted = real().change(MATCHING, "match_font", ROWS, longer);
    let words = "`rows`: [Row; 65] (crates/matching/src/matching.rt:";
    planted.finds("matching::matching::match_font", words);
    planted.finds("matching::matching::match_font", "has more than 64 entries");
}

#[test]
fn two_arrays_of_32() {
    let planted = before_choice("let low = [0u32; 32];\n    let high = [0u32; 32];");
    planted.finds("query::families::family_offer", "`low`: [u32; 32]");
    planted.finds("query::families::family_offer", "`high`: [u32; 32]");
}

#[test]
fn short_arrays_side_by_side_or_in_each_other() {
    let four = "let a = [0u32; 16];
        let b = [0u32; 16];
        let c = [0u32; 16];
        let d = [0u32; 16];";
    found_before_choice(
        four,
        "short arrays with 64 entries at the choice: `a`, `b`, `c`, `d`",
    );
    found_before_choice("let kept = [[0u32; 8]; 8];", "`kept`: [[u32; 8]; 8]");
}

#[test]
fn a_length_behind_a_constant_or_an_alias() {
    let items = "
const HALF: usize = 0x20;
const MANY: usize = HALF * 2 - 0;
type Long = [u8; MANY];
fn long() -> Long {
    [0u8; MANY]
}
";
    let constant = before_choice("let kept = [0u8; MANY];").with(FAMILIES, items);
    constant.finds("query::families::family_offer", "`kept`: [u8; 64]");
    let alias = before_choice("let kept: Long = long();").with(FAMILIES, items);
    alias.finds("query::families::family_offer", "`kept`: [u8; 64]");
    let result = before_choice("let kept = long();").with(FAMILIES, items);
    result.finds("query::families::family_offer", "`kept`: [u8; 64]");
}

#[test]
fn a_length_in_another_base() {
    for length in [
        "0b100_0000",
        "0o100",
        "0x40",
        "0b1000000usize",
        "0o1_00_usize",
    ] {
        let kept = format!("let kept = [0u8; {length}];");
        found_before_choice(&kept, "`kept`: [u8; 64]");
        let alias =
            format!("\ntype Long = [u8; {length}];\nfn long() -> Long {{\n    long()\n}}\n");
        let planted = before_choice("let kept = long();").with(FAMILIES, &alias);
        planted.finds("query::families::family_offer", "`kept`: [u8; 64]");
    }
}

#[test]
fn an_array_by_value_handed_on() {
    let item = "\nfn counted(family: [Row; 64], count: usize) -> usize {\n    count\n}\n";
    let at = "choose(&fonts";
    let planted = real().before(MATCHING, "match_font", at, "let n = counted(rows, count);");
    let planted = planted.with(MATCHING, item);
    planted.finds("matching::matching::counted", "`family`: [Row; 64]");
    let item = "\nfn counted(fonts: [FontInfo; 64], count: usize) -> usize {\n    count\n}\n";
    let family = real().before(MATCHING, "match_font", at, "let n = counted(fonts, count);");
    let family = family.with(MATCHING, item);
    family.finds("matching::matching::counted", "`fonts`: [FontInfo; 64]");
}

#[test]
fn a_copy_of_the_family() {
    let planted = real().behind(MATCHING, "match_font", ROWS, "let copy = fonts;");
    planted.finds("matching::matching::match_font", "`copy`: [FontInfo; 64]");
    let copy = "let copy = [Row::BLANK; 64];";
    let planted = real().loaded(copy);
    planted.finds("query::call::search_with", "`copy`: [Row; 64]");
}

#[test]
fn an_array_in_a_block_an_arm_or_a_loop() {
    let call = "family.choose(request)";
    let block = format!("{{ let kept = [0u8; 64]; {call} }}");
    let planted = real().change(FAMILIES, "family_offer", call, &block);
    planted.finds("query::families::family_offer", "`kept`: [u8; 64]");
    let kept = "let kept = [0u8; 64];";
    let arm = real().before(OFFERS, "request_offer", "let fallbacks = ", kept);
    arm.finds("query::offers::Search::request_offer", "`kept`: [u8; 64]");
    let behind = real().before(OFFERS, "list_offer", "left = past", kept);
    behind.finds("query::offers::Search::list_offer", "`kept`: [u8; 64]");
}

#[test]
fn an_array_behind_the_choice_and_before_the_next() {
    let listing = "let listing = [0u8; 64];";
    let planted = real().before(FAMILIES, "family_offer", "match held_equal(", listing);
    planted.finds("query::families::family_offer", "`listing`: [u8; 64]");
    let planted = real().before(FAMILIES, "held_equal", "let mut left = ", listing);
    planted.finds("query::families::held_equal", "`listing`: [u8; 64]");
}

#[test]
fn arrays_of_numbers_in_place_of_rows() {
    let numbers = "let mut percents = [0u32; 64];
        let mut styles = [0u32; 64];
        let mut weights = [0u32; 64];
        let mut rows = [Row::BLANK; 0];";
    let planted = real().change(MATCHING, "match_fonts", ROWS, numbers);
    planted.finds("matching::matching::match_fonts", "`styles`: [u32; 64]");
    planted.finds("matching::matching::match_fonts", "`weights`: [u32; 64]");
}

#[test]
fn an_array_without_a_name() {
    let call = "family.choose(request)";
    let lent = "FamilyRows { members: &[0u8; 128], ..family }.choose(request)";
    let planted = real().change(FAMILIES, "family_offer", call, lent);
    planted.finds(
        "query::families::family_offer",
        "`a value without a name`: [u8; 128]",
    );
    found_before_choice(
        "let kept = &[0u8; 64];",
        "`a value without a name`: [u8; 64]",
    );
    found_before_choice(
        "let kept = [0u8; 64][n];",
        "`a value without a name`: [u8; 64]",
    );
    let item = "\nconst TABLE: [u8; 64] = [0u8; 64];\n";
    let table = before_choice("let kept = TABLE[n];").with(FAMILIES, item);
    table.finds(
        "query::families::family_offer",
        "`a value without a name`: [u8; 64]",
    );
}

#[test]
fn a_loaded_family_that_is_written() {
    let planted = real().loaded("rows[0] = Row::BLANK;");
    planted.finds(
        "query::call::search_with",
        "`rows` writes the family `rows`",
    );
    let item = "\nfn spoil(table: &mut [Row]) {\n    table[0].marks = 0;\n}\n";
    let far = real().loaded("spoil(&mut *rows);").with(CALL, item);
    far.finds("query::call::spoil", "`table` writes the family `rows`");
    let item = "\nfn relay<'a>(table: &'a mut [Row]) -> &'a mut [Row] {\n    table\n}\n";
    let again = "let again = relay(&mut *rows);\n    again[0].marks = 0;";
    let relayed = real().loaded(again).with(CALL, item);
    relayed.finds(
        "query::call::search_with",
        "`again` writes the family `rows`",
    );
}

#[test]
fn a_family_that_is_more() {
    let planted = real().change(CALL, "offer_at", "::<256>", "::<257>");
    planted.finds("query::call::answer_with", "is not one list of up to 256");
    let swapped = "let mut other = [Row::BLANK; 64];";
    let planted = real().before(CALL, "search_with", LOAD, swapped);
    let planted = planted.change(CALL, "search_with", "&mut *rows", "&mut other");
    planted.finds(
        "query::call::search_with",
        "beside the family: `rows` of query::call::answer_with, `families`",
    );
}

#[test]
fn a_family_by_value_that_is_written() {
    let planted = real().behind(MATCHING, "match_font", ROWS, "fonts[0] = fonts[1];");
    planted.finds(
        "matching::matching::match_font",
        "`fonts` writes the family `fonts`",
    );
}

#[test]
fn an_array_behind_the_choice_in_a_loop() {
    let call = "choose(&fonts, count, request, synthesize_style, &mut rows)";
    for head in ["while 1 < count", "for place in 0..count"] {
        let looped = format!(
            "{head} {{
                let place = {call};
                let kept = [0u8; 64];
            }}
            Ok(None)"
        );
        let planted = real().change(MATCHING, "match_font", call, &looped);
        planted.finds("matching::matching::match_font", "`kept`: [u8; 64]");
    }
}

#[test]
fn a_function_with_an_array_where_another_is_alive() {
    let item = "\nfn scratch() -> u8 {\n    let kept = [0u8; 64];\n    kept[0]\n}\n";
    let at = "let mut families = [loading::NOWHERE; 64];";
    let alone = real().before(CALL, "search_with", at, "let first = scratch();");
    let alone = alone.with(CALL, item);
    alone.finds_nothing();
    let both = alone.loaded("let second = scratch();");
    both.finds("query::call::scratch", "`kept`: [u8; 64]");
}

#[test]
fn an_array_that_a_reference_keeps() {
    let planted = real().before(MATCHING, "match_font", ROWS, "let kept = &[0u8; 64];");
    planted.finds(
        "matching::matching::match_font",
        "beside the family: `a value without a name` of matching::matching::match_font, `rows`",
    );
}

#[test]
fn two_families_at_once() {
    let other = "let mut other = [Row::BLANK; 64];
        let first = loading::load(job, reading, &mut other, &mut families, request as usize);";
    let planted = real().before(CALL, "search_with", LOAD, other);
    planted.finds("query::call::offer", "two families are alive at `other`");
    let more = real().change(
        MATCHING,
        "match_font",
        "fonts: [FontInfo; 64],",
        "fonts: [FontInfo; 64], others: [FontInfo; 64],",
    );
    more.finds(
        "matching::matching::match_font",
        "the family is more than one list",
    );
}

/// The choice on faces by value.
const BY_VALUE: &str = "family.choose(request_of(request, synthesize_style))";

#[test]
fn a_choice_through_a_method() {
    let item = "
struct Picker {
    n: usize,
}
impl Picker {
    fn pick(self, family: FamilyRows, request: Request) -> Option<usize> {
        let kept = [0u8; 64];
        family.choose(request)
    }
}
";
    let call = "Picker { n: count }.pick(family, request_of(request, synthesize_style))";
    let planted = real().change(MATCHING, "choose", BY_VALUE, call);
    let planted = planted.with(MATCHING, item);
    planted.finds("matching::matching::Picker::pick", "`kept`: [u8; 64]");
}

#[test]
fn an_array_beside_the_choice_in_one_call() {
    let items = "
fn peek(places: &[u8]) -> u8 {
    places[0]
}
fn second(a: u8, b: Option<usize>) -> Option<usize> {
    b
}
";
    let call = format!("second(peek(&[0u8; 64]), {BY_VALUE})");
    let planted = real().change(MATCHING, "choose", BY_VALUE, &call);
    let planted = planted.with(MATCHING, items);
    planted.finds(
        "matching::matching::choose",
        "`a value without a name`: [u8; 64]",
    );
    let block = before_choice("let kept = peek(&{ [0u8; 64] });").with(FAMILIES, items);
    block.finds(
        "query::families::family_offer",
        "`a value without a name`: [u8; 64]",
    );
}

#[test]
fn lists_in_a_short_array() {
    let at = "if tables::u16_at(job, 0) <= sizes::FEW_FACES {";
    let planted = real().before(CALL, "offer_at", at, "let kept = [[0u8; 64]; 2];");
    planted.finds("query::call::offer_at", "`kept`: [[u8; 64]; 2]");
}
