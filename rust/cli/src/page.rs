//! The page of a specimen: HTML that needs nothing beside itself.

use std::{collections::BTreeSet, io::Write};

use stemhook::{Reading, Tag};

use crate::{
    base64, boxes,
    face::{Axis, charmap_words},
    failure::Failure,
    load::{Face, Loaded, Pick},
    output::Broken,
    pick::done,
    values::{Asked, reading_word, style_words},
};

const STYLE: &str = include_str!("page.css");

const HEAD: &str = "<!DOCTYPE html>\n<html lang=\"en\">\n<head>\n<meta charset=\"utf-8\">\n\
    <meta name=\"viewport\" content=\"width=device-width, initial-scale=1\">\n\
    <title>Stemhook specimen</title>\n<style>\n";

const FOOT: &str = "<footer>Every axis of a face is set: to the value that the offer gives, \
    or to its default. Emboldening is drawn as an outline, skew by a slant of each word. \
    A character that a font does not have is shown as a box, and a font that the browser \
    does not take as boxes alone.</footer>\n</body>\n</html>\n";

/// A page that is to be written.
pub struct Page<'a> {
    text: String,
    loaded: &'a Loaded,
    picks: &'a [Vec<Pick>],
    /// The faces that are offered, by number.
    offered: BTreeSet<usize>,
}

impl<'a> Page<'a> {
    pub fn new(text: &str, loaded: &'a Loaded, picks: &'a [Vec<Pick>]) -> Self {
        let offered = picks.iter().flatten().map(|pick| pick.face).collect();
        Self {
            text: printable(text),
            loaded,
            picks,
            offered,
        }
    }

    /// How much is on it, in words.
    pub fn told(&self) -> String {
        let offers = self.picks.iter().map(Vec::len).sum();
        let counts = [
            (self.picks.len(), "request"),
            (offers, "offer"),
            (self.offered.len(), "font"),
        ];
        let words = counts.map(|(count, name)| match count {
            1 => format!("1 {name}"),
            _ => format!("{count} {name}s"),
        });
        words.join(", ")
    }

    /// Writes the page; the fonts are read again, one at a time.
    pub fn write(&self, mut out: &mut dyn Write) -> Result<(), Broken> {
        out.write_all(HEAD.as_bytes())?;
        out.write_all(STYLE.as_bytes())?;
        font_face(&mut out, "boxes", &boxes::font())?;
        for number in &self.offered {
            if let Some(face) = self.loaded.faces.get(*number) {
                font_face(&mut out, &format!("face-{number}"), &bytes(face)?)?;
            }
        }
        let told = self.told();
        let reading = reading_html(self.loaded.job.reading());
        write!(
            out,
            "</style>\n</head>\n<body>\n<header><h1>Stemhook specimen</h1>\
             <p>{told}{reading}</p></header>\n"
        )?;
        for (number, (asked, picks)) in self.loaded.requests.iter().zip(self.picks).enumerate() {
            out.write_all(self.section(number, asked, picks).as_bytes())?;
        }
        Ok(out.write_all(FOOT.as_bytes())?)
    }

    /// The section of a request.
    fn section(&self, number: usize, asked: &Asked, picks: &[Pick]) -> String {
        let mut html = format!(
            "<section class=\"request\">\n<div>\n<h2>Request {number}</h2>\n{}</div>\n",
            asked_html(asked)
        );
        if picks.is_empty() {
            html += "<p class=\"none\">No face is offered.</p>\n";
        } else {
            html += "<ol class=\"offers\">\n";
            for pick in picks {
                if let Some(face) = self.loaded.faces.get(pick.face) {
                    html += &self.row(pick, face);
                }
            }
            html += "</ol>\n";
        }
        html + "</section>\n"
    }

    /// The row of an offer.
    fn row(&self, pick: &Pick, face: &Face) -> String {
        let positions = positions(pick, face);
        let mut what = format!(
            "<b title=\"{}\">{}</b>\n",
            escaped(&face.font.shown()),
            escaped(&face.font.name())
        );
        for done in done(pick) {
            what += &format!("<span class=\"done\">{}</span>\n", escaped(&done));
        }
        let charmap = charmap_words(&pick.offer.charmap);
        what += &format!("<span class=\"charmap\">{charmap}</span>\n");
        let outside = positions.iter().filter(|position| position.is_outside());
        let marks = outside.map(Position::outside_words);
        for words in marks.chain(steep_words(pick.offer.skew)) {
            what += &format!("<span class=\"mark\">{}</span>\n", escaped(&words));
        }
        let sample = self.sample(pick, &positions);
        format!("<li class=\"offer\">\n{sample}<p class=\"what\">\n{what}</p>\n</li>\n")
    }

    /// The text, set as the offer has it.
    fn sample(&self, pick: &Pick, positions: &[Position]) -> String {
        let (mut class, mut style) = ("sample".to_owned(), font_style(pick, positions));
        let mut text = escaped(&self.text);
        if pick.offer.embolden {
            class += " embolden";
        }
        if pick.offer.skew != 0 {
            class += " skew";
            // The page's angles go the other way.
            style += &format!(";--skew:{}deg", -drawn_skew(pick.offer.skew));
            text = slanted(&self.text);
        }
        format!("<p class=\"{class}\" dir=\"auto\" style=\"{style}\">{text}</p>\n")
    }
}

/// The steepest slant that is drawn: beyond it text lies down, and at 90 it
/// turns over.
const STEEPEST: i8 = 60;

fn drawn_skew(skew: i8) -> i8 {
    skew.clamp(-STEEPEST, STEEPEST)
}

/// The mark of a skew that is not drawn as it is.
fn steep_words(skew: i8) -> Option<String> {
    let drawn = drawn_skew(skew);
    (drawn != skew).then(|| format!("skew {skew}, drawn at {drawn}"))
}

/// Each word as an element, so that lines are slanted one by one. Words that
/// run from right to left stay together, or they would change their order.
fn slanted(text: &str) -> String {
    let leftward = |character: char| {
        matches!(character, '\u{590}'..='\u{8ff}' | '\u{fb1d}'..='\u{fdff}' | '\u{fe70}'..='\u{feff}'
            | '\u{10800}'..='\u{10fff}' | '\u{1e800}'..='\u{1efff}')
    };
    if text.contains(leftward) {
        return format!("<span>{}</span>", escaped(text));
    }
    let words = text.split_inclusive(char::is_whitespace);
    let html = words.map(|piece| {
        let word = piece.trim_end();
        let space = &piece[word.len()..];
        if word.is_empty() {
            space.to_owned()
        } else {
            format!("<span>{}</span>{space}", escaped(word))
        }
    });
    html.collect()
}

/// A value of an axis.
struct Position {
    axis: Axis,
    value: f32,
}

impl Position {
    fn is_outside(&self) -> bool {
        !(self.axis.minimum..=self.axis.maximum).contains(&self.value)
    }

    fn outside_words(&self) -> String {
        let Axis {
            tag,
            minimum,
            maximum,
            ..
        } = self.axis;
        let value = self.value;
        format!("outside the axis: {tag} {value}, range {minimum} to {maximum}")
    }
}

/// Where a face stands on each of its axes; of several axes of a tag, the first.
fn positions(pick: &Pick, face: &Face) -> Vec<Position> {
    let mut positions: Vec<Position> = Vec::new();
    for axis in face.info.axes() {
        if positions.iter().all(|earlier| earlier.axis.tag != axis.tag) {
            let set = pick.offer.settings.value(axis.tag);
            let value = set.unwrap_or(axis.default);
            positions.push(Position { axis, value });
        }
    }
    positions
}

/// The font of a sample, with all its axes: otherwise a browser would set some
/// by the page's weight and style.
fn font_style(pick: &Pick, positions: &[Position]) -> String {
    let settings: Vec<String> = positions
        .iter()
        .filter_map(|position| {
            let tag = css_tag(position.axis.tag)?;
            Some(format!("'{}' {}", escaped(&tag), position.value))
        })
        .collect();
    let mut style = format!("font-family:face-{},boxes", pick.face);
    if !settings.is_empty() {
        style += &format!(";font-variation-settings:{}", settings.join(","));
    }
    style
}

/// A tag within a CSS string; none where CSS cannot name it.
fn css_tag(tag: Tag) -> Option<String> {
    let mut text = String::new();
    for byte in tag.0 {
        if !(0x20..=0x7e).contains(&byte) {
            return None;
        }
        if matches!(byte, b'\'' | b'\\') {
            text.push('\\');
        }
        text.push(char::from(byte));
    }
    Some(text)
}

/// The reading, behind the counts; the usual one is not told.
fn reading_html(reading: Reading) -> String {
    if reading == Reading::default() {
        return String::new();
    }
    format!("; reading {}", reading_word(reading))
}

/// The request, item by item.
fn asked_html(asked: &Asked) -> String {
    let mut items = vec![
        ("weight", asked.attributes.weight.to_string()),
        ("style", style_words(asked.attributes.style)),
        ("width", asked.attributes.width.to_string()),
    ];
    if asked.most != u16::MAX {
        items.push(("most", asked.most.to_string()));
    }
    let items = items
        .iter()
        .map(|(name, value)| format!("<dt>{name}</dt><dd>{value}</dd>\n"));
    format!("<dl>\n{}</dl>\n", items.collect::<String>())
}

/// The bytes of a face's font, once more.
fn bytes(face: &Face) -> Result<Vec<u8>, Broken> {
    face.bytes().map_err(|reason| {
        let font = face.font.shown();
        Broken::Content(Failure::Failed(format!("{font}: {reason}")))
    })
}

/// A font, in the page.
fn font_face(mut out: &mut dyn Write, name: &str, font: &[u8]) -> Result<(), Broken> {
    let kind = if font.starts_with(b"OTTO") {
        "otf"
    } else {
        "ttf"
    };
    write!(
        out,
        "@font-face {{ font-family: {name}; font-display: block; \
         src: url(data:font/{kind};base64,"
    )?;
    base64::write(&mut out, font)?;
    Ok(out.write_all(b"); }\n")?)
}

/// Text without characters that HTML does not take.
fn printable(text: &str) -> String {
    let allowed = |character: char| !character.is_control() || matches!(character, '\n' | '\t');
    let characters = text.chars();
    characters
        .map(|character| {
            if allowed(character) {
                character
            } else {
                '\u{fffd}'
            }
        })
        .collect()
}

/// Text for HTML, within an element or an attribute.
fn escaped(text: &str) -> String {
    let mut html = String::new();
    for character in text.chars() {
        match character {
            '&' => html.push_str("&amp;"),
            '<' => html.push_str("&lt;"),
            '>' => html.push_str("&gt;"),
            '"' => html.push_str("&quot;"),
            '\'' => html.push_str("&#39;"),
            _ => html.push(character),
        }
    }
    html
}

#[cfg(test)]
mod tests {
    use super::*;

    #[test]
    fn nothing_of_a_text_is_markup() {
        let text = "<b>&\"'\u{0}\r\n</style>";
        let expected = "&lt;b&gt;&amp;&quot;&#39;\u{fffd}\u{fffd}\n&lt;/style&gt;";
        assert_eq!(escaped(&printable(text)), expected);
    }

    #[test]
    fn words_of_a_slanted_text() {
        let html = slanted(" one  <two>\nthree");
        let expected = " <span>one</span>  <span>&lt;two&gt;</span>\n<span>three</span>";
        assert_eq!(html, expected);
        let html = slanted("ab \u{5d0} \u{5d1} <");
        assert_eq!(html, "<span>ab \u{5d0} \u{5d1} &lt;</span>");
    }

    #[test]
    fn steep_slants() {
        assert_eq!([-128, -60, 14, 95].map(drawn_skew), [-60, -60, 14, 60]);
        assert_eq!(steep_words(60), None);
        assert_eq!(steep_words(95).unwrap(), "skew 95, drawn at 60");
    }

    #[test]
    fn tags_in_css() {
        assert_eq!(css_tag(Tag(*b"wght")).unwrap(), "wght");
        assert_eq!(css_tag(Tag(*b"a'\\\"")).unwrap(), "a\\'\\\\\"");
        assert_eq!(css_tag(Tag([0, b'a', b'b', b'c'])), None);
        assert_eq!(css_tag(Tag([b'a', 0xff, b'b', b'c'])), None);
    }

    #[test]
    fn outside_an_axis() {
        let axis = Axis {
            tag: Tag::SLNT,
            minimum: -10.0,
            default: 0.0,
            maximum: 0.0,
        };
        for (value, outside) in [(-10.0, false), (0.0, false), (-10.5, true), (14.0, true)] {
            assert_eq!(Position { axis, value }.is_outside(), outside, "{value}");
        }
        let words = Position { axis, value: 14.0 }.outside_words();
        assert_eq!(words, "outside the axis: slnt 14, range -10 to 0");
    }
}
