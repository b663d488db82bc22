use super::*;
use types::Fixed;

fn single(n: i32) -> f32 {
    let fixed = Fixed::from_bits(n);
    assert_eq!(fixed.to_f32().to_bits(), (fixed.to_f64() as f32).to_bits());
    fixed.to_f32()
}

#[test]
fn fixed_to_single() {
    assert_eq!(single(16777217), 256.0);
    assert_eq!(single(16777219), 16777220.0 / 65536.0);
    assert_eq!(single(-16777217), -256.0);
    assert_eq!(single(i32::MIN), -32768.0);
    assert_eq!(single(i32::MAX), 32768.0);
    assert_eq!(single(0).to_bits(), 0);
    assert_eq!(single(1), 2f32.powi(-16));
    assert_eq!(single(14 << 16), 14.0);
}

/// A font of the given tables, one after another.
fn font(tables: &[(&[u8; 4], &[u8])]) -> Vec<u8> {
    let mut out = vec![0, 1, 0, 0, 0, tables.len() as u8, 0, 0, 0, 0, 0, 0];
    let mut offset = 12 + 16 * tables.len();
    for (tag, bytes) in tables {
        out.extend_from_slice(*tag);
        out.extend_from_slice(&[0; 4]);
        out.extend_from_slice(&(offset as u32).to_be_bytes());
        out.extend_from_slice(&(bytes.len() as u32).to_be_bytes());
        offset += bytes.len();
    }
    for (_, bytes) in tables {
        out.extend_from_slice(bytes);
    }
    out
}

#[test]
fn starts() {
    let good = font(&[]);
    assert!(FontRef::from_index(&good, 0).is_ok());
    assert!(FontRef::from_index(&good, 1).is_err());
    assert!(FontRef::from_index(&good[..11], 0).is_err());
    let one = font(&[(b"post", &[])]);
    assert!(FontRef::from_index(&one, 0).is_ok());
    assert!(FontRef::from_index(&one[..27], 0).is_err());
}

/// A collection of two fonts over one `post`; the second's directory is last.
fn collection() -> Vec<u8> {
    let directory = |offset: u8| {
        let mut out = font(&[(b"post", &[0; 32])])[..28].to_vec();
        out[23] = offset;
        out
    };
    let mut out = b"ttcf\0\x02\0\0\0\0\0\x02\0\0\0\x14\0\0\0\x50".to_vec();
    out.extend(directory(48));
    out.extend([7; 32]);
    out.extend(directory(47));
    out
}

#[test]
fn fonts_of_a_collection() {
    use ReadError::{BadFont, InvalidCollectionIndex};
    let file = collection();
    let read = |bytes: &[u8], index| FontRef::from_index(bytes, index).err();
    for (index, offset, byte) in [(0, 48, 7), (1, 47, 32)] {
        let font = FontRef::from_index(&file, index).unwrap();
        let mut records = font.table_directory().table_records().iter();
        assert_eq!(records.next().map(|record| record.offset()), Some(offset));
        let post = font.table(Post::TAG, 32).unwrap();
        assert_eq!((post.len(), post.as_bytes()[0]), (32, byte));
    }
    assert_eq!(read(&file, 2), Some(InvalidCollectionIndex(2)));
    assert_eq!(read(&file[..107], 1), Some(BadFont));
    assert_eq!(read(&file[..107], 0), None);
    // All offsets, whichever is asked for, and the number before them.
    assert_eq!(read(&file[..19], 0), Some(BadFont));
    assert_eq!(read(&file[..12], 2), Some(InvalidCollectionIndex(2)));
    assert_eq!(read(&file[..11], 2), Some(BadFont));
    let mut other = file.clone();
    other[8] = 0x40;
    assert_eq!(read(&other, 2), Some(BadFont));
    // A collection within a collection.
    other = file.clone();
    other[15] = 0;
    assert_eq!(read(&other, 0), Some(BadFont));
    assert_eq!(read(&other, 1), None);
    // A file of one font.
    let one = font(&[]);
    assert_eq!(read(&one, 1), Some(InvalidCollectionIndex(1)));
    assert_eq!(read(&one[..11], 1), Some(BadFont));
}

#[test]
fn first_record_counts() {
    let short = [0; 31];
    let long = [0; 32];
    let hidden = font(&[(b"post", &short), (b"post", &long)]);
    assert!(FontRef::from_index(&hidden, 0).unwrap().post().is_err());
    let seen = font(&[(b"post", &long), (b"post", &short)]);
    assert!(FontRef::from_index(&seen, 0).unwrap().post().is_ok());
    // The last table goes to the end of the file; a byte less and it is absent.
    let cut = font(&[(b"post", &long)]);
    assert!(FontRef::from_index(&cut, 0).unwrap().post().is_ok());
    let cut = &cut[..cut.len() - 1];
    assert!(FontRef::from_index(cut, 0).unwrap().post().is_err());
}

#[test]
fn offset_does_not_wrap() {
    let mut bytes = font(&[(b"post", &[0; 32])]);
    bytes[20..24].copy_from_slice(&0xffff_fff0u32.to_be_bytes());
    bytes[24..28].copy_from_slice(&0x30u32.to_be_bytes());
    assert!(FontRef::from_index(&bytes, 0).unwrap().post().is_err());
}

fn cmap(records: &[(u16, u16, u32)], extra: usize) -> Vec<u8> {
    let mut out = vec![0, 0, 0, records.len() as u8];
    for (platform, encoding, offset) in records {
        out.extend_from_slice(&platform.to_be_bytes());
        out.extend_from_slice(&encoding.to_be_bytes());
        out.extend_from_slice(&offset.to_be_bytes());
    }
    out.extend(vec![0; extra]);
    out
}

fn best(table: &[u8]) -> Option<u16> {
    let bytes = font(&[(b"cmap", table)]);
    let font = FontRef::from_index(&bytes, 0).unwrap();
    font.cmap().unwrap().best_subtable().map(|(i, _, _)| i)
}

#[test]
fn cmap_classes() {
    let all = [
        (1, 0, 0),
        (3, 0, 0),
        (0, 3, 0),
        (3, 1, 0),
        (0, 6, 0),
        (3, 10, 0),
    ];
    assert_eq!(best(&cmap(&all, 0)), Some(4));
    assert_eq!(best(&cmap(&all[..4], 0)), Some(2));
    assert_eq!(best(&cmap(&all[..2], 0)), Some(1));
    assert_eq!(best(&cmap(&all[..1], 0)), Some(0));
    for pair in [(3, 2), (0, 5), (1, 1), (2, 0), (0, 7)] {
        assert_eq!(best(&cmap(&[(pair.0, pair.1, 0)], 0)), None);
    }
}

#[test]
fn cmap_qualifies() {
    // Two bytes at the offset, of a table of 12 + 2 bytes.
    assert_eq!(best(&cmap(&[(3, 1, 12)], 2)), Some(0));
    assert_eq!(best(&cmap(&[(3, 1, 13)], 2)), None);
    assert_eq!(best(&cmap(&[(3, 10, 13), (1, 0, 12 + 7)], 10)), Some(0));
    assert_eq!(best(&cmap(&[(3, 10, 0xffff_ffff), (1, 0, 0)], 0)), Some(1));
    // The count passes the table: the records inside still count.
    let mut table = cmap(&[(3, 1, 0)], 7);
    table[3] = 9;
    assert_eq!(best(&table), Some(0));
}

#[test]
fn fvar_axes() {
    let mut table = vec![0; 16 + 40];
    table[4..6].copy_from_slice(&16u16.to_be_bytes());
    table[8..10].copy_from_slice(&2u16.to_be_bytes());
    table[10..12].copy_from_slice(&20u16.to_be_bytes());
    let count = |table: &[u8]| {
        let bytes = font(&[(b"fvar", table)]);
        let font = FontRef::from_index(&bytes, 0).unwrap();
        font.fvar().unwrap().axes().map(|axes| axes.len()).ok()
    };
    assert_eq!(count(&table), Some(2));
    assert_eq!(count(&table[..55]), None);
    table[11] = 21;
    assert_eq!(count(&table), None);
}
