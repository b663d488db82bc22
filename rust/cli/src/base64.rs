//! Base64 (RFC 4648, section 4).

use std::io::{self, Write};

const DIGITS: &[u8; 64] = b"ABCDEFGHIJKLMNOPQRSTUVWXYZabcdefghijklmnopqrstuvwxyz0123456789+/";

/// Bytes that are encoded at a time; a multiple of three.
const PIECE: usize = 3 * 4096;

/// Writes bytes as base64.
pub fn write(out: &mut impl Write, bytes: &[u8]) -> io::Result<()> {
    for piece in bytes.chunks(PIECE) {
        let text: Vec<u8> = piece.chunks(3).flat_map(four).collect();
        out.write_all(&text)?;
    }
    Ok(())
}

/// The four characters of up to three bytes.
fn four(bytes: &[u8]) -> [u8; 4] {
    let mut bits = 0;
    for at in 0..3 {
        bits = bits << 8 | usize::from(bytes.get(at).copied().unwrap_or(0));
    }
    let mut text = [b'='; 4];
    for (at, digit) in text.iter_mut().enumerate().take(bytes.len() + 1) {
        *digit = DIGITS[bits >> (18 - 6 * at) & 63];
    }
    text
}

#[cfg(test)]
mod tests {
    use super::*;

    fn encoded(bytes: &[u8]) -> String {
        let mut out = Vec::new();
        write(&mut out, bytes).unwrap();
        String::from_utf8(out).unwrap()
    }

    #[test]
    fn the_vectors_of_the_rfc() {
        for (bytes, text) in [
            ("", ""),
            ("f", "Zg=="),
            ("fo", "Zm8="),
            ("foo", "Zm9v"),
            ("foob", "Zm9vYg=="),
            ("fooba", "Zm9vYmE="),
            ("foobar", "Zm9vYmFy"),
        ] {
            assert_eq!(encoded(bytes.as_bytes()), text);
        }
        assert_eq!(encoded(&[0xff, 0xef, 0xbe]), "/+++");
    }

    #[test]
    fn pieces_join() {
        let bytes = vec![b'o'; 2 * PIECE + 1];
        let text = encoded(&bytes);
        assert_eq!(text.len(), 4 * (2 * PIECE / 3 + 1));
        assert!(text.ends_with("b29vbw==") && text[..text.len() - 4].bytes().all(|b| b != b'='));
    }
}
