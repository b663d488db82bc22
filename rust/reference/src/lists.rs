//! Lists for the programs: what one reads, and what it has to print.

use std::{fs, io, path::Path};

use jobs::{
    counts::Asked,
    font_list::{Entry, List},
};
use plain::lines;

use crate::describe;

/// Writes `stdin` and `stdout` into the folder.
pub fn write(folder: &Path, stdin: &[u8], stdout: &str) -> io::Result<()> {
    fs::create_dir_all(folder)?;
    fs::write(folder.join("stdin"), stdin)?;
    fs::write(folder.join("stdout"), stdout)
}

/// A 32-bit length and the bytes.
pub fn put(stdin: &mut Vec<u8>, bytes: &[u8]) {
    stdin.extend((bytes.len() as u32).to_be_bytes());
    stdin.extend(bytes);
}

/// The line of a font: the original's, but for one that is refused with 31 or
/// for its reading, of which the plain reading's is all there is. Where the two
/// have other lines, there is none.
fn line(font: &Entry, asked: &mut Asked) -> Option<String> {
    let Entry {
        file,
        reading,
        number,
    } = font;
    let read = plain::font::read(file, *reading, *number);
    let plain = lines::font(&read);
    match read {
        Err(25) => return Some(plain),
        Err(31) => asked.left_out += 1,
        _ => {
            asked.fonts += 1;
            if describe::line(file, *reading, *number) != plain {
                return None;
            }
        }
    }
    Some(plain)
}

/// The list of fonts; gives what the original was asked for.
pub fn fonts(folder: &Path, list: &List) -> io::Result<Asked> {
    let mut asked = Asked::default();
    let mut stdin = Vec::new();
    let mut stdout = String::new();
    for (label, font) in &list.fonts {
        font.put(&mut stdin);
        let line = line(font, &mut asked);
        let line = line.ok_or_else(|| io::Error::other(format!("difference in font {label:?}")))?;
        stdout.push_str(&line);
        stdout.push('\n');
    }
    write(folder, &stdin, &stdout)?;
    Ok(asked)
}
