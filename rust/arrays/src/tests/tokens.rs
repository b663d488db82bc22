use crate::tokens::{Token, tokens};

fn of(text: &str) -> Vec<Token> {
    tokens(text)
        .into_iter()
        .map(|placed| placed.token)
        .collect()
}

fn name(text: &str) -> Token {
    Token::Name(text.into())
}

fn number(digits: &str, suffix: &str) -> Token {
    Token::Number(digits.into(), suffix.into())
}

#[test]
fn numbers() {
    assert_eq!(of("16_777_216"), [number("16777216", "")]);
    assert_eq!(of("0xFFFF_0000"), [number("0xFFFF0000", "")]);
    assert_eq!(of("0b100_0000"), [number("0b1000000", "")]);
    assert_eq!(of("0b10_u8"), [number("0b10", "u8")]);
    assert_eq!(of("0o100"), [number("0o100", "")]);
    assert_eq!(of("0o17usize"), [number("0o17", "usize")]);
    assert_eq!(of("0b12"), [number("0b1", "2")]);
    assert_eq!(of("0u32"), [number("0", "u32")]);
    assert_eq!(of("0.0f32"), [number("0.0", "f32")]);
    assert_eq!(of("0.625"), [number("0.625", "")]);
    assert_eq!(
        of("0..7"),
        [number("0", ""), Token::Mark(".."), number("7", "")]
    );
}

#[test]
fn names_marks_and_texts() {
    assert_eq!(of("a::b"), [name("a"), Token::Mark("::"), name("b")]);
    assert_eq!(of("i<=j"), [name("i"), Token::Mark("<="), name("j")]);
    assert_eq!(
        of("extern \"C\""),
        [name("extern"), Token::Text("C".into())]
    );
    let lifetime = Token::Lifetime("a".into());
    assert_eq!(of("&'a"), [Token::Mark("&"), lifetime]);
}

#[test]
fn text_of_specifications() {
    let seen = of("⌜ x' ≡ \" ⌝");
    let other = Token::Other;
    let whole = [
        other('⌜'),
        name("x"),
        other('\''),
        other('≡'),
        other('"'),
        other('⌝'),
    ];
    assert_eq!(seen, whole);
}

#[test]
fn lines_and_comments() {
    let seen = tokens("a // b { c\n\n  d");
    let lines: Vec<usize> = seen.iter().map(|placed| placed.line).collect();
    assert_eq!(lines, [1, 3]);
    assert_eq!(seen.len(), 2);
}
