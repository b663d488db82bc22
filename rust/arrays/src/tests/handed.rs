//! Lists that a call is handed by value.

use super::{Planted, real};

const CURSOR: &str = "query/cursor";

/// A cursor that has seen so many.
fn with_seen(entries: usize) -> Planted {
    let fields = "pub request: u32,\n    pub next: u32,";
    let new = format!("{fields}\n    pub seen: [u8; {entries}],");
    let planted = real().replace(CURSOR, fields, &new);
    let new = format!("Self {{ request, next: 0, seen: [0u8; {entries}] }}");
    planted.replace(CURSOR, "Self { request, next: 0 }", &new)
}

#[test]
fn an_array_in_the_cursor() {
    with_seen(64).finds(
        "query::call::search_with",
        "2 lists beside the family: `self` of query::cursor::Cursor::step, `families`",
    );
    with_seen(16).finds(
        "query::families::family_offer",
        "short arrays with 16 entries at the choice: `self`",
    );
}

#[test]
fn a_list_among_the_parameters_of_a_job() {
    for (of, count) in [("[u8; 64]", 2), ("[[u8; 64]; 2]", 3)] {
        for name in ["stemhook", "stemhook_c"] {
            let new = format!("job: &[u8], seen: {of},");
            let module = format!("{name}/lib");
            let planted = real().change(&module, "stemhook_offer", "job: &[u8],", &new);
            planted.finds(
                "query::call::search_with",
                &format!("{count} lists beside the family: `seen` of {name}::stemhook_offer"),
            );
        }
    }
}

#[test]
fn rows_that_are_handed_over_and_loaded() {
    let planted = real().change(
        CURSOR,
        "step",
        "job: &[u8]",
        "job: &[u8], table: [matching::rows::Row; 64]",
    );
    let old = "call::offer_at(job, reading, self.request, self.next)";
    let new = "call::search_with(job, reading, &mut table, self.request, self.next)";
    planted.change(CURSOR, "step", old, new).finds_nothing();
}

#[test]
fn a_list_handed_to_the_function_that_chooses_last() {
    let item = "
fn chosen_of(rows: [Row; 64], count: usize, request: Request) -> Option<usize> {
    FamilyRows { rows: &rows, members: &[], count }.choose(request)
}
";
    let old = "choose(&fonts, count, request, synthesize_style, &mut rows)";
    let new = "take_family(&fonts, count, request, &mut rows)?;
        Ok(chosen_of(rows, count, request_of(request, synthesize_style)))";
    let planted = real().change("matching/matching", "match_font", old, new);
    planted
        .with("matching/matching", item)
        .finds("matching::matching::chosen_of", "`rows`: [Row; 64]");
}
