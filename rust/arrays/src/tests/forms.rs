//! Arrays in closures, in what may be there, in values of generic types and behind methods of std.

use super::{Planted, real};

const STAGES: &str = "matching/stages";
const FAMILIES: &str = "query/families";

/// In the choice, between the style and the weight.
fn in_the_choice(new: &str, words: &str) {
    let planted = real().before(STAGES, "choose", "let style = ", new);
    planted.finds("matching::rows::FamilyRows::choose", words);
}

fn before_choice(new: &str, items: &str) -> Planted {
    let planted = real().before(FAMILIES, "family_offer", "let chosen = ", new);
    planted.with(FAMILIES, items)
}

/// On the job's way, before the choice.
fn found(new: &str, words: &str) {
    before_choice(new, "").finds("query::families::family_offer", words);
}

#[test]
fn an_array_in_a_closure() {
    let made = "an array [u8; 4] is made in the choice";
    in_the_choice("let by = |k: usize| [0u8; 4];", made);
    in_the_choice("self.least(|face, place| { [0u8; 4]; 0 });", made);
    in_the_choice("self.members.first().map(|m| [*m; 4]);", made);
    found("let by = || { let kept = [0u8; 64]; };", "`kept`: [u8; 64]");
    found("let by = |kept: [u8; 64]| 0;", "`kept`: [u8; 64]");
}

#[test]
fn an_array_that_is_handed_to_a_closure() {
    let item = "\nfn with<F: Fn([u8; 64]) -> u8>(by: F) -> u8 {\n    by([0u8; 64])\n}\n";
    let planted = before_choice("with(|kept| kept[0]);", item);
    planted.finds("query::families::family_offer", "`kept`: [u8; 64]");
    planted.finds(
        "query::families::with",
        "`a value without a name`: [u8; 64]",
    );
    let item = "\nconst TABLE: [[u8; 64]; 2] = [[0u8; 64]; 2];\n";
    let planted = before_choice(
        "(&TABLE).iter().any(|kept| { let own = *kept; true });",
        item,
    );
    planted.finds("query::families::family_offer", "`own`: [u8; 64]");
}

#[test]
fn an_array_behind_a_method_of_any_type() {
    let item = "
impl Row {
    fn spread(self) -> u8 {
        let kept = [0u8; 64];
        kept[0]
    }
}
";
    let planted = before_choice("let by = |row| row.spread();", item);
    planted.finds("matching::rows::Row::spread", "`kept`: [u8; 64]");
}

#[test]
fn an_array_that_may_be_there() {
    found("let kept = Some([0u8; 64]);", "`kept`: Option<[u8; 64]>");
    found("let kept = (n, [0u8; 64]);", "`kept`: (usize, [u8; 64])");
    for kept in [
        "if n == 0 { None } else { Some([0u8; 64]) }",
        "match n { 0 => None, _ => Some([0u8; 64]) }",
        "if n == 0 { Err(n) } else { Ok([0u8; 64]) }",
    ] {
        let words = "`kept`: Option<[u8; 64]>";
        found(&format!("let kept = {kept};"), words);
    }
    let all = "let kept = [None, Some([0u8; 64])];";
    found(all, "`kept`: [Option<[u8; 64]>; 2]");
    let given = "let kept = None.unwrap_or([0u8; 64]);";
    found(given, "`kept`: [u8; 64]");
    found(
        "let mut kept = None;\n    kept = Some([0u8; 5]);",
        "`kept`: Option<?> is given Option<[u8; 5]>",
    );
    found(
        "let Some(kept) = Some([0u8; 64]) else { return Err(n); };",
        "`kept`: [u8; 64]",
    );
    let bound = "if let (_, kept) = (n, [0u8; 64]) { default_offer(family, None, n); }";
    found(bound, "`kept`: [u8; 64]");
    let tested = "matches!((n, [0u8; 64]), (1, kept) if 0 < kept[0]);";
    found(tested, "`kept`: [u8; 64]");
    found("let kept = Some([0u8; 64])?;", "`kept`: [u8; 64]");
    let item = "\nfn most() -> Result<u8, [u8; 64]> {\n    Ok(0)\n}\n";
    let planted = before_choice("let kept = most();", item);
    planted.finds(
        "query::families::family_offer",
        "the error [u8; 64] has an array",
    );
    let failed = "let kept: Result<u8, u8> = Err([0u8; 64]);";
    found(failed, "`a value without a name`: [u8; 64]");
}

#[test]
fn an_array_of_a_type_or_a_length_that_a_call_gives() {
    let item = "\nfn keep<T: Copy>(value: T) -> u8 {\n    0\n}\n";
    before_choice("keep(n);", item).finds_nothing();
    let planted = before_choice("keep(n);\n    keep([0u8; 64]);", item);
    planted.finds("query::families::keep", "`value`: [u8; 64]");
    let item = "\nfn scratch<const N: usize>() -> u8 {\n    let kept = [0u8; N];\n    kept[0]\n}\n";
    before_choice("scratch::<4>();", item).finds_nothing();
    let planted = before_choice("scratch::<4>();\n    scratch::<64>();", item);
    planted.finds("query::families::scratch", "`kept`: [u8; 64]");
}

#[test]
fn an_array_in_a_conversion() {
    let item = "
impl From<Row> for u32 {
    fn from(row: Row) -> u32 {
        let kept = [row.marks; 64];
        kept[0]
    }
}
";
    let planted = before_choice("let marks = u32::from(family.row(n));", item);
    planted.finds("query::families::u32::from", "`kept`: [u32; 64]");
    in_the_choice(
        "let kept = percent.to_be_bytes();",
        "an array [u8; 4] is made in the choice",
    );
}

#[test]
fn a_loaded_family_that_a_method_writes() {
    for (new, name) in [
        ("rows.copy_from_slice(&[]);", "rows"),
        ("rows[1..].copy_from_slice(&[]);", "rows"),
        ("for row in rows.iter_mut() { *row = Row::BLANK; }", "row"),
        ("for row in &mut rows[1..] { row.marks = 0; }", "row"),
        (
            "if let Some(row) = rows.get_mut(0) { row.marks = 0; }",
            "row",
        ),
        (
            "for (i, row) in rows.iter_mut().enumerate() { row.marks = 0; }",
            "row",
        ),
    ] {
        let planted = real().loaded(new);
        planted.finds(
            "query::call::search_with",
            &format!("`{name}` writes the family `rows`"),
        );
    }
}
