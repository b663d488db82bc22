//! Rows: a row is a struct, and counts as an array of its five numbers.

use super::{Planted, real};

const MATCHING: &str = "matching/matching";
const STAGES: &str = "matching/stages";
const CALL: &str = "query/call";
const FAMILIES: &str = "query/families";

/// The choice itself.
const CHOICE: &str = "matching::rows::FamilyRows::choose";

/// In the choice, between the style and the weight.
fn between(new: &str) -> Planted {
    real().before(STAGES, "choose", "let style = ", new)
}

/// On the job's way, before the choice.
fn at_the_choice(new: &str) -> Planted {
    real().before(FAMILIES, "family_offer", "let chosen = ", new)
}

fn found_at_the_choice(planted: &Planted, entries: usize) {
    let words = format!("short arrays with {entries} entries at the choice: `kept`");
    planted.finds("query::families::family_offer", &words);
}

/// A struct of 64 rows.
fn item() -> String {
    let fields: String = (0..64).map(|i| format!("    a{i}: Row,\n")).collect();
    format!("\nstruct Kept {{\n{fields}}}\n")
}

/// A value of that struct, by what gives a row for a number.
fn kept(row: impl Fn(usize) -> String) -> String {
    let fields: Vec<String> = (0..64).map(|i| format!("a{i}: {}", row(i))).collect();
    format!("let kept = Kept {{ {} }};", fields.join(", "))
}

#[test]
fn a_struct_of_them_in_the_choice() {
    let planted = between(&kept(|i| format!("self.row({i})")));
    let planted = planted.with(STAGES, &item());
    let words = "`kept`: Kept is an array in the choice, 320 entries together";
    planted.finds(CHOICE, words);
    planted.finds(CHOICE, "`kept`: Kept in the choice is no row");
    let one = "\nstruct One {\n    row: Row,\n}\n";
    let planted = between("let kept = One { row: self.row(0) };").with(STAGES, one);
    planted.finds(CHOICE, "`kept`: One in the choice is no row");
}

#[test]
fn a_struct_of_them_before_the_choice() {
    let planted = at_the_choice(&kept(|i| format!("family.row({i})")));
    found_at_the_choice(&planted.with(FAMILIES, &item()), 320);
    let families = "let mut families = [loading::NOWHERE; 64];";
    let rows = kept(|i| format!("rows[{i}]"));
    let planted = real().behind(CALL, "search_with", families, &rows);
    found_at_the_choice(&planted.with(CALL, &item()), 320);
}

#[test]
fn some_in_the_choice() {
    let three = "let one = self.row(0);
        let other = self.row(1);
        let third = self.row(2);";
    let planted = between(three);
    planted.finds(CHOICE, "`other`: Row is an array in the choice, 10 entries");
    planted.finds(CHOICE, "`third`: Row is an array in the choice, 15 entries");
    let pair = between("let kept = (self.row(0), self.row(1));");
    let words = "`kept`: (Row, Row) is an array in the choice, 10 entries together";
    pair.finds(CHOICE, words);
    let parts = between("let (one, other) = (self.row(0), self.row(1));");
    parts.finds(CHOICE, "`other`: Row is an array in the choice, 10 entries");
    for (value, of) in [
        ("(self.row(0), 1u8)", "(Row, u8)"),
        ("Some(self.row(0))", "Option<Row>"),
        ("[self.row(0)]", "[Row; 1]"),
    ] {
        let planted = between(&format!("let kept = {value};"));
        planted.finds(CHOICE, &format!("`kept`: {of} in the choice is no row"));
    }
}

#[test]
fn one_that_is_kept_over_a_scan() {
    let words = "Row is an array in the choice, 10 entries together";
    let planted = between("let kept = self.row(0);");
    planted.finds(CHOICE, &format!("`face`: {words}"));
    let planted = real().before(STAGES, "choose", "let slant = ", "let kept = self.row(0);");
    planted.finds(
        "matching::rows::FamilyRows::slant_at",
        &format!("`face`: {words}"),
    );
    let planted = real().before(STAGES, "least", "for place in ", "let kept = self.row(0);");
    planted.finds(
        "matching::rows::FamilyRows::least",
        &format!("`a value without a name`: {words}"),
    );
    planted.finds(
        "matching::rows::FamilyRows::least",
        "a closure is called in the choice beside a row",
    );
}

#[test]
fn those_that_a_closure_gives() {
    let item = "
fn marks<F: Fn(usize) -> Row>(by: F) -> u32 {
    let one = by(0);
    let other = by(1);
    one.marks + other.marks
}
";
    let planted = between("let kept = marks(|place| self.row(place));").with(STAGES, item);
    planted.finds(
        "matching::stages::marks",
        "`other`: Row is an array in the choice, 15 entries together",
    );
}

/// A row that a closure was handed goes on to one call as the same one, and no further.
#[test]
fn one_that_is_handed_on() {
    let ranked = "width_rank(request, face, place)";
    let items = "
fn looked(face: Row) -> bool {
    marked(face)
}
fn marked(row: Row) -> bool {
    true
}
";
    for (function, name, closure) in [
        (
            "stages::width_rank",
            "face",
            "width_rank(request, self.row(0), place)".into(),
        ),
        (
            "rows::FamilyRows::choose",
            "other",
            format!("{{ let other = face; {ranked} }}"),
        ),
        (
            "stages::width_rank",
            "face",
            format!("{{ marked(face); {ranked} }}"),
        ),
        (
            "stages::marked",
            "row",
            format!("{{ looked(face); {ranked} }}"),
        ),
    ] {
        let planted = real().change(STAGES, "choose", ranked, &closure);
        let words = format!("`{name}`: Row is an array in the choice, 10 entries together");
        planted
            .with(STAGES, items)
            .finds(&format!("matching::{function}"), &words);
    }
    let looked = "let face = self.row(place);\n    marked(face);";
    let planted = real().change(STAGES, "slant_at", "let face = self.row(place);", looked);
    planted.with(STAGES, items).finds(
        "matching::stages::marked",
        "`row`: Row is an array in the choice, 10 entries together",
    );
}

#[test]
fn one_that_is_written_or_made() {
    let written = "let mut other = self.row(0);\n    other.percent = 0;";
    between(written).finds(CHOICE, "`other` is written in the choice");
    let copied = "let mut other = face;\n    other.percent = 0;";
    let planted = real().before(STAGES, "weight_rank", "if face.", copied);
    planted.finds(
        "matching::stages::weight_rank",
        "`other` is written in the choice",
    );
    let lent = real().change(STAGES, "weight_rank", "face: Row", "face: &mut Row");
    lent.finds(
        "matching::stages::weight_rank",
        "`face` lends an array to be written",
    );
    let made = between("let kept = Row { percent, style: 0, weight: 0, ratio: 0, marks: 0 };");
    made.finds(CHOICE, "an array Row is made in the choice");
    let made = between("let kept = Row { percent: 0, ..self.row(0) };");
    made.finds(CHOICE, "an array Row is made in the choice");
    let made = between("let kept = Row::new(Attributes::DEFAULT, 0);");
    made.finds(
        "matching::rows::Row::new",
        "an array Row is made in the choice",
    );
}

#[test]
fn several_where_the_faces_are_taken() {
    let at = "rows[place] = ";
    for new in [
        "let row = Row::of_face(font);\n    let kept = [row; 3];",
        "let kept = Row::BLANK;",
    ] {
        real()
            .before(MATCHING, "take_faces", at, new)
            .finds_nothing();
    }
    let new = "let row = Row::of_face(font);\n    let kept = [row; 16];";
    let planted = real().before(MATCHING, "take_faces", at, new);
    planted.finds("matching::matching::take_faces", "has more than 64 entries");
    planted.finds(
        "matching::matching::take_faces",
        "2 lists beside the family: `rows` of matching::matching::match_font, `kept`",
    );
}
