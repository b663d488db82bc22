// Small fonts of the builder in `jobs`, for the tests and the examples in the
// documentation.

/// A font file of some tables, in the order given.
#[allow(dead_code)]
pub fn file(start: [u8; 4], tables: &[([u8; 4], Vec<u8>)]) -> Vec<u8> {
    jobs::bytes::font(start, tables)
}

/// An OS/2 table: weight class, width class, fsSelection. A `post` table: the
/// angle in 16.16. A `head` table: macStyle.
#[allow(unused_imports)]
pub use jobs::bytes::{head, os2, post};

/// The same font with another offset and length in the record of a number.
#[allow(dead_code)]
pub fn with_record(font: &[u8], number: usize, offset: u32, length: u32) -> Vec<u8> {
    let mut font = font.to_vec();
    jobs::bytes::set_offset(&mut font, number, offset);
    jobs::bytes::set_length(&mut font, number, length);
    font
}

/// The same with another length alone.
#[allow(dead_code)]
pub fn with_length(font: &[u8], number: usize, length: u32) -> Vec<u8> {
    with_record(font, number, jobs::bytes::offset(font, number), length)
}

/// A `cmap` table with one record, whose subtable lies right after it.
#[allow(dead_code)]
pub fn cmap(platform: u16, encoding: u16) -> Vec<u8> {
    jobs::bytes::cmap(&[(platform, encoding, 12)], 2)
}

/// An `fvar` table: tag, minimum, default and maximum of each axis.
#[allow(dead_code)]
pub fn fvar(axes: &[([u8; 4], i16, i16, i16)]) -> Vec<u8> {
    let fixed = |whole: i16| (i32::from(whole) << 16) as u32;
    let axis = |(tag, min, default, max): &([u8; 4], i16, i16, i16)| jobs::bytes::FixedAxis {
        tag: *tag,
        min: fixed(*min),
        default: fixed(*default),
        max: fixed(*max),
    };
    jobs::bytes::fvar(&axes.iter().map(axis).collect::<Vec<_>>())
}

/// A font of a weight.
#[allow(dead_code)]
pub fn weight(weight: u16) -> Vec<u8> {
    let tables = [(*b"OS/2", os2(weight, 5, 0)), (*b"cmap", cmap(3, 1))];
    file([0, 1, 0, 0], &tables)
}

/// An oblique font with an angle in its `post` table, in whole degrees and as
/// fonts count them: below zero it leans right.
#[allow(dead_code)]
pub fn oblique(angle: i16) -> Vec<u8> {
    let fixed = (i32::from(angle) << 16) as u32;
    let tables = [
        (*b"OS/2", os2(400, 5, 1 << 9)),
        (*b"cmap", cmap(3, 1)),
        (*b"post", post(fixed)),
    ];
    file([0, 1, 0, 0], &tables)
}

/// A font of weight 400 with axes.
#[allow(dead_code)]
pub fn variable(axes: &[([u8; 4], i16, i16, i16)]) -> Vec<u8> {
    let tables = [
        (*b"OS/2", os2(400, 5, 0)),
        (*b"cmap", cmap(3, 1)),
        (*b"fvar", fvar(axes)),
    ];
    file(*b"OTTO", &tables)
}

/// A collection of fonts of some weights. They share their `cmap`, and their
/// directories stand after the tables.
#[allow(dead_code)]
pub fn collection(weights: &[u16]) -> Vec<u8> {
    let font = |weight: &u16| {
        let tables = vec![(*b"OS/2", os2(*weight, 5, 0)), (*b"cmap", cmap(3, 1))];
        ([0, 1, 0, 0], tables)
    };
    let fonts: Vec<_> = weights.iter().map(font).collect();
    jobs::bytes::collection(1, &fonts, |_| true)
}

/// Where the subtable lies that the fonts of a collection of two share.
#[allow(dead_code)]
pub const SHARED: usize = 12 + 4 * 2 + 78 + 12;

/// A collection of font files: their directories anew, then the files as they
/// are.
#[allow(dead_code)]
pub fn collected(fonts: &[Vec<u8>]) -> Vec<u8> {
    use jobs::bytes::{get32, put32};
    let directory = |font: &Vec<u8>| {
        let count = u16::from_be_bytes([font[4], font[5]]);
        font.len().min(12 + 16 * usize::from(count))
    };
    let mut bytes = b"ttcf\0\x02\0\0".to_vec();
    bytes.extend((fonts.len() as u32).to_be_bytes());
    let mut start = 12 + 4 * fonts.len();
    for font in fonts {
        bytes.extend((start as u32).to_be_bytes());
        start += directory(font);
    }
    // Now it is where the first file stands.
    for font in fonts {
        let mut copy = font[..directory(font)].to_vec();
        for record in copy[12..].chunks_exact_mut(16) {
            let offset = get32(record, 8).saturating_add(start as u32);
            put32(record, 8, offset);
        }
        bytes.extend(copy);
        start += font.len();
    }
    bytes.extend(fonts.concat());
    bytes
}
