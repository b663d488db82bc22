//! What cannot be read or told is a finding, and so is a way that is lost or new.

use super::{Planted, real};

const FAMILIES: &str = "query/families";
const STAGES: &str = "matching/stages";
const CHOSEN: &str = "let chosen = ";
const DEFAULT: &str = "let default = ";

/// Where the rows of a job are loaded, and what comes behind.
const LOAD: &str = "match loading::load(";

fn before_choice(new: &str) -> Planted {
    real().before(FAMILIES, "family_offer", CHOSEN, new)
}

fn found(new: &str, words: &str) {
    before_choice(new).finds("query::families::family_offer", words);
}

fn finds_text(planted: &Planted, words: &str) {
    let findings = planted.findings();
    assert!(
        findings.iter().any(|f| f.contains(words)),
        "{words}: {findings:#?}"
    );
}

#[test]
fn what_cannot_be_told() {
    found(
        "let kept = elsewhere(n);",
        "the call of elsewhere is not known",
    );
    found(
        "let kept = request.fold(n);",
        "the call of matching::order::Request::fold is not known",
    );
    found(
        "let kept = n.fold();",
        "the call of usize::fold is not known",
    );
    found("let kept = elsewhere;", "`elsewhere` is not known");
    found(
        "let kept: Elsewhere = n;",
        "the type Elsewhere is not known",
    );
    found(
        "let kept = Elsewhere { n };",
        "the type Elsewhere is not known",
    );
    found("let kept = [0u8; n];", "the value of n is not known");
    found("let kept = request.elsewhere;", "has no field `elsewhere`");
    found("let kept = n[0];", "usize has no entries");
    found("let kept = *n;", "usize is no reference");
    found("let kept = n.count;", "usize has no field `count`");
    found("let kept;", "the type of `kept` cannot be told");
    found(
        "match n { Elsewhere::Two(x) => {} _ => {} }",
        "the pattern Elsewhere::Two is not known",
    );
    found(
        "let kept = is_held(n, n);",
        "the call of query::families::is_held has other parameters",
    );
}

#[test]
fn a_reference_in_a_field() {
    let item = "\nstruct Lent<'a> {\n    table: &'a mut [Row],\n    own: u32,\n}\n";
    let lent = "let lent = Lent { table: &mut *rows, own: 0 };\n    lent.table[0] = Row::BLANK;";
    let planted = real().loaded(lent);
    planted.with("query/call", item).finds(
        "query::call::search_with",
        "`lent` writes the family `rows`",
    );
    let item = item.replace("&'a mut", "&'a");
    let lent = "let lent = Lent { table: &*rows, own: 0 };\n    lent.own = 1;";
    let planted = real().loaded(lent);
    planted.with("query/call", &item).finds_nothing();
}

#[test]
fn a_call_that_is_not_known_behind_the_choice() {
    let at = "record::write_record(";
    let planted = real().before("query/call", "offer", at, "elsewhere(answer);");
    planted.finds("query::call::offer", "the call of elsewhere is not known");
    let planted = real().before("query/call", "offer", at, "answer.elsewhere();");
    planted.finds("query::call::offer", "the call of elsewhere is not known");
}

#[test]
fn a_call_that_is_not_known_on_no_way() {
    let call = "matching::stages::lower(0, 1);";
    let planted = real().before("query/job", "check", "walk(job", call);
    planted.finds(
        "query::job::check",
        "the call of matching::stages::lower is not known",
    );
}

#[test]
fn what_cannot_be_read() {
    let planted = before_choice("let kept = [0u8; 64u65];");
    finds_text(&planted, "cannot read crates/query/src/families.rt:");
    let planted = before_choice("loop { }");
    finds_text(&planted, "cannot read crates/query/src/families.rt:");
    finds_text(
        &real().with(STAGES, "\ntrait Other {}\n"),
        "cannot read crates/matching/src/stages.rt:",
    );
    let twice = real().with(STAGES, "\nimpl FamilyRows<'_> {\n    fn choose() {}\n}\n");
    finds_text(&twice, "matching::rows::FamilyRows::choose stands twice");
    let twice = real().with(STAGES, "\nuse font::attributes::Attributes;\n");
    finds_text(&twice, "two uses of the name Attributes");
}

#[test]
fn a_function_that_calls_itself() {
    let planted = before_choice("let left = default_offer(family, None, n);");
    planted.finds_nothing();
    let again = "let again = default_offer(family, chosen, n);";
    let planted = real().before(FAMILIES, "default_offer", DEFAULT, again);
    planted.finds(
        "query::families::default_offer",
        "default_offer calls itself",
    );
}

#[test]
fn a_way_that_is_lost() {
    let planted = real().change(FAMILIES, "family_offer", "family.choose(request)", "None");
    finds_text(
        &planted,
        "no way from query::call::offer to the weight's stage",
    );
    let planted = real().change(FAMILIES, "default_offer", "family.default_place()", "n");
    finds_text(
        &planted,
        "no way from query::cursor::Cursor::step to the default",
    );
    let at = "family.choose(request_of(request, synthesize_style))";
    let planted = real().change("matching/matching", "choose", at, "None");
    finds_text(
        &planted,
        "no way from matching::matching::match_font to the weight's stage",
    );
    let planted = real().change("query/call", "offer_at", "fn offer_at(", "fn offer_from(");
    finds_text(&planted, "there is no query::call::offer_at");
}

#[test]
fn stages_in_another_order() {
    let at = "weight_rank(request, percent, style, face, place)";
    let planted = real().change(STAGES, "choose", at, "rank::NOWHERE");
    finds_text(
        &planted,
        "no way from matching::matching::match_font to the weight's stage",
    );
    let again = "let again = width_rank(request, self.row(first), 0);";
    let planted = real().before(STAGES, "choose", "let style = ", again);
    finds_text(
        &planted,
        "the choice goes through: matching::stages::width_rank, matching::rows::FamilyRows::slant_at",
    );
}

#[test]
fn a_further_public_way() {
    let item = "\npub fn other(family: FamilyRows) -> usize {\n    family.default_place()\n}\n";
    let planted = real().with(STAGES, item);
    planted.finds("matching::stages::other", "a further way to the choice");
    real()
        .with(STAGES, &item.replace("pub fn", "fn"))
        .finds_nothing();
}

#[test]
fn a_job_that_is_loaded_in_a_loop_or_from_elsewhere() {
    let call = "loading::load(job, reading, &mut *rows, &mut families, request as usize);";
    for head in ["while false", "for _ in 0..2"] {
        let looped = format!("{head} {{ {call} }}");
        let planted = real().before("query/call", "search_with", LOAD, &looped);
        planted.finds("query::loading::load", "a job is loaded in a loop");
    }
    let lent = real().change(
        "query/loading",
        "load",
        "rows: &mut [Row]",
        "rows: &mut [u32]",
    );
    lent.finds(
        "query::loading::load",
        "which parameter takes the rows cannot be told",
    );
}

#[test]
fn a_family_or_a_place_that_cannot_be_told() {
    let old = "fonts: [FontInfo; 64]";
    let lent = real().change(
        "matching/matching",
        "match_font",
        old,
        "fonts: &[FontInfo; 64]",
    );
    lent.finds(
        "matching::matching::match_font",
        "what the family is cannot be told",
    );
    let item = "\nfn nowhere() -> &mut [u8] {\n    nowhere()\n}\n";
    let write = before_choice("let kept = nowhere();\n    kept[0] = 1;").with(FAMILIES, item);
    write.finds(
        "query::families::family_offer",
        "what `kept` writes cannot be told",
    );
}

#[test]
fn rows_that_the_caller_lends() {
    let old = "job: &[u8]";
    let new = "job: &[u8], table: &mut [matching::rows::Row]";
    let step = real().change("query/cursor", "step", old, new);
    let found = "let found = call::search_with(job, reading, &mut *table, 0, 0);";
    let at = "let answer = call::offer_at";
    let step = step.before("query/cursor", "step", at, found);
    step.finds(
        "query::loading::load",
        "what is lent as `rows` cannot be told",
    );
}
