//! Numbers and styles as they are typed, on the command line and in a file of
//! requests. An error says what is wrong with the text, and its caller where.

use stemhook::{Angle, Attributes, Reading, Style, limits};

/// What is asked for, of all families.
#[derive(Clone, Copy, Debug, PartialEq)]
pub struct Asked {
    pub attributes: Attributes,
    pub most: u16,
}

impl Default for Asked {
    fn default() -> Self {
        Self {
            attributes: Attributes::default(),
            most: u16::MAX,
        }
    }
}

impl Asked {
    /// The names of what can be asked for.
    pub const KEYS: [&str; 4] = ["width", "style", "weight", "most"];

    /// Sets what a name says. The name is one of the four.
    pub fn set(&mut self, key: &str, text: &str) -> Result<(), String> {
        match key {
            "width" => self.attributes.width = width(text)?,
            "style" => self.attributes.style = style(text)?,
            "weight" => self.attributes.weight = number(text)?,
            "most" => self.most = most(text)?,
            _ => return Err("not one of width, style, weight and most".into()),
        }
        Ok(())
    }

    /// In words: `width 1, normal, weight 400`.
    pub fn words(&self) -> String {
        let mut words = attributes_words(&self.attributes);
        if self.most != u16::MAX {
            words += &format!(", most {}", self.most);
        }
        words
    }
}

/// Attributes in words.
pub fn attributes_words(attributes: &Attributes) -> String {
    let style = style_words(attributes.style);
    format!(
        "width {}, {style}, weight {}",
        attributes.width, attributes.weight
    )
}

pub fn style_words(style: Style) -> String {
    match style {
        Style::Normal => "normal".into(),
        Style::Italic => "italic".into(),
        Style::Oblique(Angle::Unstated) => "oblique".into(),
        Style::Oblique(Angle::Degrees(degrees)) => format!("oblique {degrees}"),
    }
}

/// A finite number.
pub fn number(text: &str) -> Result<f32, String> {
    match text.parse::<f32>() {
        Ok(number) if number.is_finite() => Ok(number),
        Ok(_) => Err(format!("{text:?} is not a finite number")),
        Err(_) => Err(format!("{text:?} is not a number")),
    }
}

/// A width ratio.
pub fn width(text: &str) -> Result<f32, String> {
    let ratio = number(text)?;
    if (0.0..=limits::WIDTH).contains(&ratio) {
        Ok(ratio)
    } else {
        Err(format!(
            "{text:?} is not a width ratio from 0 to 16 (1 is normal, 0.75 is condensed)"
        ))
    }
}

pub fn style(text: &str) -> Result<Style, String> {
    Ok(match text {
        "normal" => Style::Normal,
        "italic" => Style::Italic,
        "oblique" => Style::Oblique(Angle::Unstated),
        _ => match text.strip_prefix("oblique:") {
            Some(degrees) => Style::Oblique(Angle::Degrees(number(degrees)?)),
            None => {
                return Err(format!(
                    "{text:?} is not a style: normal, italic, oblique or oblique:DEGREES"
                ));
            }
        },
    })
}

pub fn reading(text: &str) -> Result<Reading, String> {
    let all = [Reading::AsStored, Reading::OpenType];
    let named = all
        .into_iter()
        .find(|reading| reading_word(*reading) == text);
    named.ok_or_else(|| format!("{text:?} is not a reading: stored or opentype"))
}

/// The word that is typed for a reading.
pub const fn reading_word(reading: Reading) -> &'static str {
    match reading {
        Reading::AsStored => "stored",
        Reading::OpenType => "opentype",
    }
}

fn most(text: &str) -> Result<u16, String> {
    text.parse()
        .map_err(|_| format!("{text:?} is not a whole number from 0 to 65535"))
}

#[cfg(test)]
mod tests {
    use super::*;

    #[test]
    fn numbers() {
        assert_eq!(number("-12.5"), Ok(-12.5));
        for text in ["", "bold", "7,5", "0x10", "700 "] {
            assert!(number(text).unwrap_err().ends_with("is not a number"));
        }
        for text in ["nan", "inf", "-inf", "1e39"] {
            assert!(number(text).unwrap_err().ends_with("not a finite number"));
        }
        assert_eq!(width("16"), Ok(16.0));
        for text in ["16.001", "-0.1", "75"] {
            assert!(width(text).unwrap_err().contains("width ratio"), "{text}");
        }
        assert_eq!(most("65535"), Ok(65535));
        for text in ["65536", "-1", "1.5", ""] {
            assert!(most(text).is_err(), "{text}");
        }
    }

    #[test]
    fn readings_there_and_back() {
        for (word, number) in [("stored", 0), ("opentype", 1)] {
            let read = reading(word).unwrap();
            assert_eq!((read.number(), reading_word(read)), (number, word));
        }
        for text in ["", "0", "1", "OpenType", "stored ", "as-stored"] {
            let expected = format!("{text:?} is not a reading: stored or opentype");
            assert_eq!(reading(text).unwrap_err(), expected);
        }
    }

    #[test]
    fn styles_there_and_back() {
        for text in ["normal", "italic", "oblique", "oblique:-7.5"] {
            let words = style_words(style(text).unwrap());
            assert_eq!(words.replace(' ', ":"), text);
        }
        for text in ["", "slanted", "Italic", "oblique:", "oblique:nan"] {
            assert!(style(text).is_err(), "{text}");
        }
    }
}
