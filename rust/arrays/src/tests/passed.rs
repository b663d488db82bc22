//! Arrays that the rule allows.

use super::real;

const LIST: &str = "let mut kept = [0u8; 64];";

#[test]
fn an_array_in_a_function_on_no_way() {
    let planted = real().before("query/job", "check", "walk(job", LIST);
    planted.finds_nothing();
    let planted = real().before("matching/stages", "equal_places", "let mut places", LIST);
    planted.finds_nothing();
}

#[test]
fn an_array_of_16_in_one_face() {
    let planted = real().before(
        "matching/matching",
        "take_faces",
        "rows[place] = ",
        "let axes = font.axes;",
    );
    planted.finds_nothing();
}

#[test]
fn an_array_in_a_block_that_ended_before() {
    let block = "if 1 < count { let mut kept = [0u8; 64]; kept[0] = 1; }";
    let planted = real().before("matching/matching", "match_font", "let mut rows = ", block);
    planted.finds_nothing();
    let block = "{ let mut kept = [0u8; 64]; kept[0] = 1; }";
    let planted = real().before("query/call", "search_with", "let mut families = ", block);
    planted.finds_nothing();
}

#[test]
fn an_answer_that_is_made_after_the_choice() {
    let call = "choose(&fonts, count, request, synthesize_style, &mut rows)";
    let kept = format!("let chosen = {call};\n    {LIST}\n    chosen");
    let planted = real().change("matching/matching", "match_font", call, &kept);
    planted.finds_nothing();
    let planted = real().before("query/call", "answer_found", "let font = ", LIST);
    planted.finds_nothing();
}

#[test]
fn an_array_where_the_function_is_left_without_a_choice() {
    let left = "Err(refused.refusal)";
    let block = format!("{{ {LIST} {left} }}");
    let planted = real().change("query/call", "search_with", left, &block);
    planted.finds_nothing();
}

#[test]
fn an_answer_of_the_function_that_chooses() {
    let items = "
fn listed(family: FamilyRows, request: Request) -> Places {
    let place = family.choose(request);
    family.equal_places(place)
}
fn relayed(family: FamilyRows, request: Request) -> Places {
    listed(family, request)
}
";
    let at = "family.equal_places(chosen)";
    let call = "relayed(family, request_of(request, synthesize_style))";
    let planted = real().change("matching/matching", "match_fonts", at, call);
    planted.with("matching/matching", items).finds_nothing();
}

#[test]
fn an_array_in_each_of_two_branches() {
    let branches = "if 1 < request {
            let one = [0u8; 64];
            let n = one[0];
        } else {
            let other = [0u8; 64];
            let n = other[0];
        }";
    let at = "if tables::u16_at(job, 0) <= sizes::FEW_FACES {";
    real()
        .before("query/call", "offer_at", at, branches)
        .finds_nothing();
    let arms = "match request {
            0 => { let one = [0u8; 64]; let n = one[0]; }
            _ => { let other = [0u8; 64]; let n = other[0]; }
        }";
    real()
        .before("query/call", "offer_at", at, arms)
        .finds_nothing();
}

#[test]
fn arrays_without_a_name_one_after_another() {
    let item = "\nfn peek(places: &[u8]) -> u8 {\n    places[0]\n}\n";
    let at = "if tables::u16_at(job, 0) <= sizes::FEW_FACES {";
    let calls = "peek(&[0u8; 64]);\n    peek(&[1u8; 64]);\n    let n = peek(&[2u8; 64]);";
    let planted = real().before("query/call", "offer_at", at, calls);
    planted.with("query/call", item).finds_nothing();
}
