//! Fonts: attributes, axes, charmap index or refusal of the linked program
//! beside the plain reading, and beside the original where that is here.

use jobs::{
    bytes::{fonts_stated, hex},
    counts::{Asked, numbers},
    font_list::{self, Entry},
    random::Random,
};
use plain::{font, lines};

use crate::{original, program::Program, shrink};

/// The line of a font by the plain reading.
fn by_plain(font: &Entry) -> String {
    lines::font(&font::read(&font.file, font.reading, font.number))
}

/// The plain reading's line of a font in which a needed table is damaged, and of
/// one under a number that is no reading.
const DAMAGED: &str = "refused 31";
const UNREAD: &str = "refused 25";

/// The original's line of a font that the plain reading says this of; none
/// where the original is not here, and none of a font that is left out.
fn by_original(font: &Entry, plain: &str) -> Option<String> {
    let asked = plain != DAMAGED && plain != UNREAD;
    asked.then(|| original::font(font)).flatten()
}

/// The line that all sides have to give; none where the original has another.
fn expected(font: &Entry) -> Option<String> {
    let plain = by_plain(font);
    let same = by_original(font, &plain).is_none_or(|line| line == plain);
    same.then_some(plain)
}

/// What has been compared.
#[derive(Default)]
pub struct Counts {
    pub fonts: u64,
    pub read: u64,
    /// Of those, fonts of collections, and fonts with axes.
    pub collected: u64,
    pub varying: u64,
    /// Fonts read under reading 1, and those of them whose line is another
    /// under reading 0.
    pub new: u64,
    pub differing: u64,
    /// By the table's number.
    pub refused: [u64; 32],
    pub asked: Asked,
}

impl Counts {
    fn add(&mut self, font: &Entry, line: &str) {
        self.fonts += 1;
        match line {
            UNREAD => {}
            DAMAGED => self.asked.left_out += 1,
            _ => self.asked.fonts += 1,
        }
        match line.strip_prefix("refused ") {
            Some(number) => self.refused[number.parse().unwrap_or(0)] += 1,
            None => {
                self.read += 1;
                self.collected += u64::from(fonts_stated(&font.file).is_some());
                self.varying += u64::from(line.contains('='));
                self.add_reading(font, line);
            }
        }
    }

    fn add_reading(&mut self, font: &Entry, line: &str) {
        if font.reading == 1 {
            let old = Entry::new(&font.file, 0, font.number);
            self.new += 1;
            self.differing += u64::from(by_plain(&old) != line);
        }
    }

    pub fn text(&self) -> String {
        format!(
            "fonts {} read {} from collections {} with axes {} refused{}\nreading 1: fonts read {} that reading 0 reads otherwise {}\n{}",
            self.fonts,
            self.read,
            self.collected,
            self.varying,
            numbers(&self.refused),
            self.new,
            self.differing,
            original::asked_text(&self.asked),
        )
    }
}

/// Compares fonts until so many have been compared.
pub fn compare(program: &Program, seed: u64, fonts: u64) -> Result<Counts, String> {
    let mut counts = Counts::default();
    let mut seeds = Random::new(seed);
    let list = font_list::list(seed).fonts.into_iter();
    let mut first: Vec<Entry> = list.map(|(_, font)| font).collect();
    while counts.fonts < fonts {
        // What did not fit is left: the next chunk has a new seed.
        let mut r = Random::new(seeds.draw());
        let random = std::iter::repeat_with(|| Entry::random(&mut r));
        let list = std::mem::take(&mut first).into_iter().chain(random);
        chunk(program, list, fonts, &mut counts)?;
    }
    Ok(counts)
}

/// As many fonts as the program reads at once, up to so many in all.
fn chunk(
    program: &Program,
    fonts: impl Iterator<Item = Entry>,
    most: u64,
    counts: &mut Counts,
) -> Result<(), String> {
    let mut list = Vec::new();
    let mut asked = Vec::new();
    for font in fonts {
        let before = list.len();
        font.put(&mut list);
        if list.len() > program.most {
            list.truncate(before);
            break;
        }
        asked.push(font);
        if counts.fonts + asked.len() as u64 >= most {
            break;
        }
    }
    let lines = program.lines(&list)?;
    for (i, font) in asked.iter().enumerate() {
        match expected(font) {
            Some(line) if lines.get(i) == Some(&line) => counts.add(font, &line),
            _ => return Err(tell(program, font)),
        }
    }
    if lines.len() != asked.len() {
        return Err(format!(
            "{}: {} lines for {} fonts",
            program.name,
            lines.len(),
            asked.len()
        ));
    }
    Ok(())
}

fn printed(program: &Program, font: &Entry) -> String {
    let mut list = Vec::new();
    font.put(&mut list);
    program.printed(&list)
}

/// The shortest font that was found to differ, and what each side says.
fn tell(program: &Program, font: &Entry) -> String {
    let least = shrink::font(font, |font| Some(printed(program, font)) != expected(font));
    let alone = shrink::alone(Some(printed(program, &least)) != expected(&least));
    let plain = by_plain(&least);
    format!(
        "difference under reading {} in font {} of a file of {} bytes{alone}: {}\nthe guide (plain): {}\nthe original: {}\nthe proved code: {}",
        least.reading,
        least.number,
        least.file.len(),
        hex(&least.file),
        plain,
        by_original(&least, &plain).unwrap_or("nothing".into()),
        printed(program, &least)
    )
}

#[cfg(test)]
mod tests {
    use super::*;
    use crate::program::FONT_CASES;

    /// They differ in the fonts that are left out, and in no other.
    #[cfg(feature = "original")]
    #[test]
    fn plain_and_original() {
        let mut r = Random::new(8);
        let (mut left_out, mut unread) = (0, 0);
        for _ in 0..3000 {
            let font = Entry::random(&mut r);
            match by_plain(&font) {
                damaged if damaged == DAMAGED => {
                    assert_ne!(original::font(&font), Some(damaged));
                    left_out += 1;
                }
                none if none == UNREAD => unread += 1,
                plain => assert_eq!(original::font(&font), Some(plain)),
            }
        }
        assert!((300..1000).contains(&left_out), "{left_out}");
        assert!((50..300).contains(&unread), "{unread}");
    }

    #[test]
    fn no_difference() {
        let counts = compare(&FONT_CASES, 3, 5000).unwrap();
        assert_eq!(counts.fonts, 5000);
        assert!(
            [21, 22, 23, 25, 30]
                .iter()
                .all(|number| counts.refused[*number] > 0)
        );
        let Asked { fonts, left_out } = counts.asked;
        assert_eq!(left_out, counts.refused[31]);
        assert_eq!(fonts + left_out + counts.refused[25], 5000);
        assert!(left_out > 500 && fonts > 3000);
        assert!(counts.read > 1000 && counts.varying > 100 && counts.collected > 100);
        assert!(counts.new > 500 && counts.differing > 100);
    }

    /// A program that prints one refusal for another is told with a small
    /// file; gives its bytes and what is told.
    fn told(wrong: Program, right: u32, printed: u32) -> (usize, String) {
        let told = compare(&wrong, 3, 5000).err().expect("a difference");
        let size = told.split_once("a file of ").unwrap().1;
        let size = size.split_once(' ').unwrap().0.parse().unwrap();
        let guide = format!("the guide (plain): refused {right}");
        assert!(told.contains(&guide), "{told}");
        let proved = format!("the proved code: refused {printed}");
        assert!(told.contains(&proved), "{told}");
        (size, told)
    }

    /// A wrong line is told.
    #[test]
    fn wrong_lines_are_told() {
        let wrong = Program {
            run: |_, list| {
                let text = (FONT_CASES.run)(&FONT_CASES, list)?;
                Ok(text.replace("refused 22", "refused 21"))
            },
            ..FONT_CASES
        };
        // Of a font without a charmap no more than the directory is left.
        let (size, told) = told(wrong, 22, 21);
        assert!(size < 50, "{told}");
    }

    /// So is a number at the count that is taken for a bad font.
    #[test]
    fn wrong_numbers_are_told() {
        let wrong = Program {
            run: |_, list| {
                let text = (FONT_CASES.run)(&FONT_CASES, list)?;
                Ok(text.replace("refused 30", "refused 21"))
            },
            ..FONT_CASES
        };
        let (size, told) = told(wrong, 30, 21);
        assert_eq!(size, 12, "{told}");
    }
    /// So is a damaged table that is taken for absent, or refused in another turn.
    #[test]
    fn wrong_damage_is_told() {
        let late = Program {
            run: |_, list| {
                let text = (FONT_CASES.run)(&FONT_CASES, list)?;
                Ok(text.replace(DAMAGED, "refused 22"))
            },
            ..FONT_CASES
        };
        // Little more than the directory is left.
        let (size, told) = told(late, 31, 22);
        assert!(size < 100, "{told}");
        let absent = Program {
            run: |_, list| {
                let text = (FONT_CASES.run)(&FONT_CASES, list)?;
                let read = "read 3f800000 0 00000000 43c80000 54 0 0 0";
                Ok(text.replace(DAMAGED, read))
            },
            ..FONT_CASES
        };
        let told = compare(&absent, 3, 5000).err().expect("a difference");
        assert!(told.contains("the guide (plain): refused 31"), "{told}");
        assert!(told.contains("the original: nothing"), "{told}");
        assert!(told.contains("the proved code: read "), "{told}");
    }

    /// The fonts of a list.
    fn fonts_of(list: &[u8]) -> Vec<Entry> {
        let mut fonts = Vec::new();
        let mut rest = list;
        while let Some((length, more)) = rest.split_first_chunk() {
            let (file, more) = more.split_at(u32::from_be_bytes(*length) as usize);
            let (reading, more) = more.split_first_chunk().expect("a reading");
            let (number, more) = more.split_first_chunk().expect("a number");
            let reading = u32::from_be_bytes(*reading);
            fonts.push(Entry::new(file, reading, u16::from_be_bytes(*number)));
            rest = more;
        }
        fonts
    }

    /// The original in the place of the proved code is told, by a font that is
    /// left out of the comparison with it.
    #[cfg(feature = "original")]
    #[test]
    fn original_is_told() {
        let wrong = Program {
            run: |_, list| {
                let line = |font: &Entry| match by_plain(font) {
                    none if none == UNREAD => none,
                    _ => original::font(font).expect("the original is here"),
                };
                let lines = fonts_of(list)
                    .iter()
                    .map(|font| line(font) + "\n")
                    .collect();
                Ok(lines)
            },
            ..FONT_CASES
        };
        let told = compare(&wrong, 3, 5000).err().expect("a difference");
        assert!(told.contains("the guide (plain): refused 31"), "{told}");
    }

    /// What the program prints for a list with other readings.
    fn with_readings(list: &[u8], change: fn(u32) -> u32) -> Result<String, String> {
        let mut other = Vec::new();
        for mut font in fonts_of(list) {
            font.reading = change(font.reading);
            font.put(&mut other);
        }
        (FONT_CASES.run)(&FONT_CASES, &other)
    }

    /// Reading 1 is ignored or taken for 0 and the other way round, 2 is taken
    /// for 1, and only the low bits are looked at.
    #[test]
    fn wrong_readings_are_told() {
        type Run = fn(&Program, &[u8]) -> Result<String, String>;
        let ignored: Run = |_, list| with_readings(list, |reading| reading & !1);
        let turned: Run = |_, list| with_readings(list, |reading| reading ^ 1);
        let two: Run = |_, list| with_readings(list, |reading| reading.min(1));
        let low: Run = |_, list| with_readings(list, |reading| reading & 0xff);
        for (run, said) in [
            (ignored, "under reading 1 "),
            (turned, "the proved code: read "),
            (two, "the guide (plain): refused 25"),
            (low, "the guide (plain): refused 25"),
        ] {
            let wrong = Program { run, ..FONT_CASES };
            let told = compare(&wrong, 3, 5000).err().expect("a difference");
            assert!(told.contains(said), "{told}");
        }
    }

    /// A zero that keeps its sign, and 25 behind what the font is refused for.
    #[test]
    fn wrong_turns_are_told() {
        let signed = Program {
            run: |_, list| {
                let text = (FONT_CASES.run)(&FONT_CASES, list)?;
                let line = |(font, line): (&Entry, &str)| match font.reading {
                    1 => line.replace(" 3 00000000 ", " 3 80000000 ") + "\n",
                    _ => line.to_string() + "\n",
                };
                Ok(fonts_of(list).iter().zip(text.lines()).map(line).collect())
            },
            ..FONT_CASES
        };
        let told = compare(&signed, 3, 5000).err().expect("a difference");
        assert!(told.contains("the proved code: read "), "{told}");
        let late = Program {
            run: |_, list| {
                let line = |font: &Entry| match by_plain(&Entry::new(&font.file, 0, font.number)) {
                    line if line.starts_with("refused ") => line + "\n",
                    _ => by_plain(font) + "\n",
                };
                Ok(fonts_of(list).iter().map(line).collect())
            },
            ..FONT_CASES
        };
        let (size, told) = self::told(late, 25, 21);
        assert_eq!(size, 0, "{told}");
    }
}
