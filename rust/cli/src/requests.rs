//! Files of requests: a line for each.

use std::{
    collections::BTreeSet,
    fs::File,
    io::{self, Read},
    path::Path,
};

use stemhook::limits;

use crate::{
    failure::{Failure, failed, reason},
    options::Options,
    values::Asked,
    words::shown,
};

/// Most bytes of a file of requests.
const MOST_BYTES: u64 = 1 << 20;

/// The requests: those of the file, or the one of the options.
pub fn asked(options: &Options) -> Result<Vec<Asked>, Failure> {
    let Some(file) = &options.requests else {
        return Ok(vec![options.asked]);
    };
    let standard = file.as_os_str() == "-";
    let name = if standard {
        "standard input".into()
    } else {
        shown(file)
    };
    let bytes = if standard {
        read(io::stdin())
    } else {
        open(file)
    };
    let bytes = bytes.or_else(|error| failed(format!("{name}: {}", reason(&error))))?;
    if bytes.len() as u64 > MOST_BYTES {
        return failed(format!("{name}: over {MOST_BYTES} bytes of requests"));
    }
    parse(&bytes, options.asked).or_else(|message| failed(format!("{name}{message}")))
}

fn open(file: &Path) -> io::Result<Vec<u8>> {
    read(File::open(file)?)
}

/// The bytes, up to one more than may be.
fn read(from: impl Read) -> io::Result<Vec<u8>> {
    let mut bytes = Vec::new();
    from.take(MOST_BYTES + 1).read_to_end(&mut bytes)?;
    Ok(bytes)
}

/// The requests of a file; an error starts with its line's number.
fn parse(bytes: &[u8], usual: Asked) -> Result<Vec<Asked>, String> {
    let bytes = bytes.strip_prefix(b"\xef\xbb\xbf").unwrap_or(bytes);
    let mut requests = Vec::new();
    for (at, line) in bytes.split(|byte| *byte == b'\n').enumerate() {
        let number = at + 1;
        let request = match str::from_utf8(line) {
            Ok(line) => request(line, usual).map_err(|message| format!(":{number}: {message}"))?,
            Err(_) => return Err(format!(":{number}: the line is not UTF-8")),
        };
        requests.extend(request);
        if requests.len() > limits::REQUESTS {
            return Err(format!(
                ":{number}: more than {} requests",
                limits::REQUESTS
            ));
        }
    }
    if requests.is_empty() {
        return Err(": there is no request in it".into());
    }
    Ok(requests)
}

/// The request of a line, or none where it says nothing.
fn request(line: &str, usual: Asked) -> Result<Option<Asked>, String> {
    let said = line.split('#').next().unwrap_or_default();
    let mut request = usual;
    let mut keys = BTreeSet::new();
    for word in said.split_whitespace() {
        let Some((key, value)) = word.split_once('=') else {
            return Err(format!("{word:?} is not KEY=VALUE"));
        };
        if !Asked::KEYS.contains(&key) {
            return Err(format!("{key:?} is not width, style, weight or most"));
        }
        if !keys.insert(key) {
            return Err(format!("{key} stands twice"));
        }
        let set = request.set(key, value);
        set.map_err(|message| format!("{key}: {message}"))?;
    }
    Ok((!keys.is_empty()).then_some(request))
}

#[cfg(test)]
mod tests {
    use super::*;
    use stemhook::{Angle, Style};

    #[test]
    fn lines() {
        let usual = Asked {
            most: 3,
            ..Asked::default()
        };
        let text = "\u{feff}# all\r\nweight=700 style=oblique:9\r\n\n  width=0.75\tmost=8 # end\n";
        let read = parse(text.as_bytes(), usual).unwrap();
        assert_eq!(read.len(), 2);
        assert_eq!(read[0].attributes.weight, 700.0);
        let style = Style::Oblique(Angle::Degrees(9.0));
        assert_eq!((read[0].attributes.style, read[0].most), (style, 3));
        assert_eq!((read[1].attributes.width, read[1].most), (0.75, 8));
        assert_eq!(read[1].attributes.weight, 400.0);
    }

    #[test]
    fn wrong_lines() {
        let many = "weight=1\n".repeat(257);
        for (text, expected) in [
            (&b""[..], ": there is no request in it"),
            (b"# weight=1\n\n", ": there is no request in it"),
            (b"\nweight", ":2: \"weight\" is not KEY=VALUE"),
            (
                b"wieght=7",
                ":1: \"wieght\" is not width, style, weight or most",
            ),
            (b"weight=7 weight=8", ":1: weight stands twice"),
            (b"weight=x", ":1: weight: \"x\" is not a number"),
            (b"weight=1\n\xff", ":2: the line is not UTF-8"),
            (many.as_bytes(), ":257: more than 256 requests"),
        ] {
            assert_eq!(parse(text, Asked::default()).unwrap_err(), expected);
        }
    }
}
