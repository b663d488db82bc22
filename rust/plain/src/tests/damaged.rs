//! Damaged tables: what is refused with 31, and what is not.

use super::{
    Italic, Normal, ONE, UNSTATED, attributes, check, collection, faces, font, font_file,
    job_of_file, oblique, offer,
};
use font::{Attributes, Font, Style};

/// A table's tag, what its record says, and its bytes.
struct Part {
    tag: [u8; 4],
    bytes: Vec<u8>,
    record: Record,
}

/// What a record says of a table of so many bytes at some place.
#[derive(Copy, Clone, PartialEq, Eq, Debug)]
enum Record {
    True,
    /// Another length.
    Length(u32),
    /// Another offset.
    Offset(u32),
    /// So many bytes further than it is.
    Moved(u32),
    /// To the file's end, and so many bytes past it.
    PastEnd(u32),
}

use Record::{Length, Moved, Offset, PastEnd, True};

fn part(tag: &[u8; 4], bytes: Vec<u8>, record: Record) -> Part {
    let tag = *tag;
    Part { tag, bytes, record }
}

/// A condensed OS/2 of weight 700.
fn os2(selection: u16) -> Vec<u8> {
    let mut table = vec![0xee; 78];
    table[4..8].copy_from_slice(&[2, 188, 0, 3]);
    table[62..64].copy_from_slice(&selection.to_be_bytes());
    table
}

fn head() -> Vec<u8> {
    let mut table = vec![0xee; 54];
    table[44..46].copy_from_slice(&[0, 3]);
    table
}

fn post() -> Vec<u8> {
    let mut table = vec![0xee; 32];
    table[4..8].copy_from_slice(&[0, 20, 0, 0]);
    table
}

fn cmap() -> Part {
    let table = vec![0, 0, 0, 1, 0, 3, 0, 1, 0, 0, 0, 12, 0, 4];
    part(b"cmap", table, True)
}

fn fvar(axes: u8, record: Record) -> Part {
    let mut table = vec![0; 16 + 20 * usize::from(axes)];
    (table[5], table[9], table[11]) = (16, axes, 20);
    part(b"fvar", table, record)
}

const OBLIQUE: u16 = 1 << 9;
const ITALIC: u16 = 1 << 0;

/// A font of the parts, whose directory stands at `start`; what stands before
/// it is not written.
fn file_at(start: usize, parts: &[Part]) -> Vec<u8> {
    let mut out = vec![0, 1, 0, 0, 0, parts.len() as u8, 0, 0, 0, 0, 0, 0];
    let tables = 12 + 16 * parts.len();
    let size: usize = parts.iter().map(|part| part.bytes.len()).sum();
    let end = (start + tables + size) as u32;
    let mut at = (start + tables) as u32;
    for part in parts {
        let whole = part.bytes.len() as u32;
        let (offset, length) = match part.record {
            True => (at, whole),
            Length(length) => (at, length),
            Offset(offset) => (offset, whole),
            Moved(by) => (at + by, whole),
            PastEnd(by) => (at, end - at + by),
        };
        out.extend(part.tag);
        out.extend([0; 4]);
        out.extend(offset.to_be_bytes());
        out.extend(length.to_be_bytes());
        at += whole;
    }
    for part in parts {
        out.extend(&part.bytes);
    }
    out
}

fn file(parts: &[Part]) -> Vec<u8> {
    file_at(0, parts)
}

fn read(parts: &[Part]) -> Result<Font, u32> {
    font::read(&file(parts), 0, 0)
}

/// The attributes of a font that is accepted.
fn stated(parts: &[Part]) -> Attributes {
    read(parts).expect("a font that is accepted").attributes
}

/// What `head` says here, and OS/2.
fn from_head() -> Attributes {
    attributes(1.0, Italic, 700.0)
}

fn bold(style: Style) -> Attributes {
    attributes(0.75, style, 700.0)
}

/// Records that leave no whole table, for one of so many bytes that ends the file.
fn damages(needed: u32) -> [Record; 12] {
    [
        // Past the file by one byte: too long, or moved.
        PastEnd(1),
        Moved(1),
        // Far off: a sum of 32 bits would land in the file.
        Offset(0xffff_ffff),
        Offset(0xffff_ffff - needed),
        Offset(0u32.wrapping_sub(needed)),
        Offset(0x8000_0000),
        Length(0xffff_ffff),
        PastEnd(0x8000_0000),
        // Too short.
        Length(0),
        Length(1),
        Length(needed / 2),
        Length(needed - 1),
    ]
}

/// A font in which the table, the last, is needed.
fn needing(tag: &[u8; 4], record: Record) -> Vec<Part> {
    match tag {
        b"OS/2" => vec![
            cmap(),
            part(b"head", head(), True),
            part(tag, os2(0), record),
        ],
        b"post" => vec![
            cmap(),
            part(b"OS/2", os2(OBLIQUE), True),
            part(tag, post(), record),
        ],
        _ => vec![cmap(), part(tag, head(), record)],
    }
}

const NEEDED: [(&[u8; 4], u32); 3] = [(b"OS/2", 78), (b"post", 32), (b"head", 54)];

fn whole(tag: &[u8; 4]) -> Attributes {
    match tag {
        b"OS/2" => bold(Normal),
        b"post" => bold(oblique(20.0)),
        _ => from_head(),
    }
}

/// Each way to damage each of the three tables; whole to the file's last byte
/// it is found.
#[test]
fn needed_tables() {
    for (tag, needed) in NEEDED {
        let name = tag.escape_ascii();
        assert_eq!(stated(&needing(tag, True)), whole(tag), "{name}");
        assert_eq!(stated(&needing(tag, PastEnd(0))), whole(tag), "{name}");
        for record in damages(needed) {
            assert_eq!(read(&needing(tag, record)), Err(31), "{name} {record:?}");
        }
    }
}

/// The file itself is cut: by a byte, or a byte of the table is there.
#[test]
fn half_copied_files() {
    for (tag, needed) in NEEDED {
        let file = file(&needing(tag, True));
        let needed = needed as usize;
        for less in [1, 2, needed / 2, needed - 1, needed] {
            let cut = &file[..file.len() - less];
            assert_eq!(
                font::read(cut, 0, 0),
                Err(31),
                "{} {less}",
                tag.escape_ascii()
            );
        }
    }
    // OpenType lets an OS/2 of version 0 have 68 bytes.
    let old = os2(0)[..68].to_vec();
    let parts = [
        cmap(),
        part(b"head", head(), True),
        part(b"OS/2", old, True),
    ];
    assert_eq!(read(&parts), Err(31));
}

/// A table of one byte less, with its record true to it, and the same before more bytes.
#[test]
fn short_tables() {
    for (tag, needed) in NEEDED {
        for more in [false, true] {
            let mut parts = needing(tag, True);
            let last = parts.last_mut().expect("the table");
            last.bytes.truncate(needed as usize - 1);
            if more {
                parts.push(part(b"name", vec![0xee; 9], True));
            }
            assert_eq!(read(&parts), Err(31), "{}", tag.escape_ascii());
        }
    }
}

/// A damaged first record hides a sound one; a sound one hides a damaged one.
#[test]
fn first_records_count() {
    for (tag, needed) in NEEDED {
        let name = tag.escape_ascii().to_string();
        let table = |record| needing(tag, record).pop().expect("the table");
        for record in damages(needed) {
            // Moved by one it would lie over the other one.
            let first = match record {
                Moved(_) => Moved(needed + 1),
                record => record,
            };
            let mut parts = needing(tag, first);
            parts.push(table(True));
            assert_eq!(read(&parts), Err(31), "{name} {first:?}");
            let mut parts = needing(tag, True);
            parts.push(table(record));
            assert_eq!(stated(&parts), whole(tag), "{name} {record:?}");
        }
    }
}

/// `head` is needed only where OS/2 has no record.
#[test]
fn head_beside_os2() {
    for record in damages(54) {
        let head = || part(b"head", head(), record);
        let with = |os2| read(&[cmap(), os2, head()]);
        let found = with(part(b"OS/2", os2(0), True));
        assert_eq!(found.map(|font| font.attributes), Ok(bold(Normal)));
        assert_eq!(read(&[cmap(), head()]), Err(31), "{record:?}");
        // Both are damaged.
        assert_eq!(with(part(b"OS/2", os2(0), Length(77))), Err(31));
        assert_eq!(with(part(b"OS/2", os2(0), Offset(0xffff_ffff))), Err(31));
    }
    // A sound `head` does not stand in for a damaged OS/2.
    let cut = part(b"OS/2", os2(0), Length(77));
    assert_eq!(read(&[cmap(), part(b"head", head(), True), cut]), Err(31));
    // Without a record of either the defaults are stated.
    assert_eq!(stated(&[cmap()]), Attributes::DEFAULT);
}

/// `post` is needed only where OS/2 is found and says oblique.
#[test]
fn post_beside_os2() {
    for record in damages(32) {
        let with = |selection| {
            let os2 = part(b"OS/2", os2(selection), True);
            read(&[cmap(), os2, part(b"post", post(), record)])
        };
        let style = |selection| with(selection).map(|font| font.attributes.style);
        assert_eq!(style(ITALIC), Ok(Italic), "{record:?}");
        assert_eq!(style(ITALIC | OBLIQUE), Ok(Italic), "{record:?}");
        assert_eq!(style(0), Ok(Normal), "{record:?}");
        assert_eq!(style(!(ITALIC | OBLIQUE)), Ok(Normal), "{record:?}");
        assert_eq!(style(OBLIQUE), Err(31), "{record:?}");
        assert_eq!(style(!ITALIC), Err(31), "{record:?}");
        // Without OS/2, with `head` and without.
        let post = || part(b"post", post(), record);
        assert_eq!(stated(&[cmap(), post()]), Attributes::DEFAULT);
        let sound = part(b"head", head(), True);
        assert_eq!(stated(&[cmap(), sound, post()]), from_head());
        // OS/2 is damaged, and that is enough.
        let cut = part(b"OS/2", os2(OBLIQUE), Length(77));
        assert_eq!(read(&[cmap(), cut, post()]), Err(31));
    }
    // Absent it is no damage.
    let os2 = part(b"OS/2", os2(OBLIQUE), True);
    assert_eq!(stated(&[cmap(), os2]), bold(UNSTATED));
}

/// 31 comes after 21 and before 22 and 23; all of 30 and 21 before it.
#[test]
fn turn_of_31() {
    for (tag, needed) in NEEDED {
        for record in damages(needed) {
            let damaged = || needing(tag, record);
            // No `cmap`, and too many axes; then both.
            let mut without = damaged();
            without.remove(0);
            assert_eq!(read(&without), Err(31));
            let mut many = damaged();
            many.insert(0, fvar(17, True));
            assert_eq!(read(&many), Err(31));
            many.remove(1);
            assert_eq!(read(&many), Err(31));
            // A bad start, a number that is not below 1, a directory past the file.
            let good = file(&damaged());
            let mut bad = good.clone();
            bad[0] = 9;
            assert_eq!(font::read(&bad, 0, 0), Err(21));
            assert_eq!(font::read(&good, 0, 1), Err(30));
            assert_eq!(font::read(&bad, 0, 1), Err(30));
            let mut bad = good.clone();
            bad[4] = 0xff;
            assert_eq!(font::read(&bad, 0, 0), Err(21));
            assert_eq!(font::read(&good[..11], 0, 0), Err(21));
            assert_eq!(font::read(&good[..11], 0, 1), Err(21));
        }
    }
    // 22 and 23 as before, where nothing that is needed is damaged.
    let sound = || part(b"OS/2", os2(0), True);
    assert_eq!(read(&[fvar(17, True), sound()]), Err(22));
    assert_eq!(read(&[cmap(), fvar(17, True), sound()]), Err(23));
}

/// A damaged `fvar` gives no axes; a damaged `cmap` is 22.
#[test]
fn fvar_and_cmap() {
    let sound = || part(b"OS/2", os2(0), True);
    let axes = |fvar: Part| read(&[cmap(), sound(), fvar]).map(|font| font.axes.len());
    assert_eq!(axes(fvar(2, True)), Ok(2));
    assert_eq!(axes(fvar(0, True)), Ok(0));
    for record in damages(16) {
        assert_eq!(axes(fvar(0, record)), Ok(0), "{record:?}");
        // Then 17 of them are no reason to refuse it.
        assert_eq!(axes(fvar(17, record)), Ok(0), "{record:?}");
    }
    for record in [
        PastEnd(1),
        Moved(1),
        Offset(0xffff_ffff),
        Offset(0xffff_fff2),
        Length(0),
        Length(3),
    ] {
        let cut = || Part { record, ..cmap() };
        assert_eq!(read(&[sound(), cut()]), Err(22), "{record:?}");
        assert_eq!(read(&[cut()]), Err(22), "{record:?}");
        // 31 comes first.
        let short = part(b"head", head(), Length(53));
        assert_eq!(read(&[short, cut()]), Err(31), "{record:?}");
    }
}

/// A font of a collection is refused as the lone one is; another font of the
/// file is not.
#[test]
fn fonts_of_a_collection() {
    for (tag, needed) in NEEDED {
        for record in damages(needed) {
            // The second directory stands behind the header and a bare font.
            let bare = file_at(20, &[cmap()]);
            let second = 20 + bare.len();
            let font = file_at(second, &needing(tag, record));
            let file = collection(1, &[20, second as u32], &[&bare, &font]);
            assert!(font::read(&file, 0, 0).is_ok());
            assert_eq!(font::read(&file, 0, 1), Err(31), "{record:?}");
            assert_eq!(font::read(&file, 0, 2), Err(30));
            // In a job it is placed at the length, 30 at the number.
            assert_eq!(check(&job_of_file(&file, &[0, 0])), (0, 0));
            assert_eq!(check(&job_of_file(&file, &[0, 1])), (31, 3));
            let number = 7 + file.len() as u32;
            assert_eq!(check(&job_of_file(&file, &[0, 2])), (30, number));
            // The number has to be there.
            assert_eq!(check(&faces(&[file])), (18, number));
        }
    }
}

/// What is known of the generator's fonts is the very answer, by themselves
/// and in a collection, whatever the damage.
#[test]
fn fonts_of_the_generator() {
    for plan in &jobs::damaged::PLANS {
        for cut in jobs::damaged::CUTS {
            let answer = |file: &[u8], number| font::read(file, 0, number).err().unwrap_or(0);
            let label = format!("{}, {}", plan.label, cut.label());
            assert_eq!(answer(&plan.lone(|| cut), 0), plan.refused, "{label}");
            for last in [false, true] {
                let file = plan.collected(last, || cut);
                assert_eq!(answer(&file, 1), plan.refused, "{label}");
                assert_eq!(answer(&file, 0), 0, "{label}");
                assert_eq!(answer(&file, 2), 30, "{label}");
            }
        }
    }
}

/// 31 is told at the length; nothing rescues the font.
#[test]
fn jobs_with_damaged_tables() {
    let file = file(&needing(b"OS/2", Length(77)));
    let length = 3;
    let job = job_of_file(&file, &[]);
    assert_eq!(check(&job), (31, length));
    let mut out = [0xaa; 40];
    assert_eq!(offer(&job, 0, 0, 0, &mut out), 31);
    assert_eq!(offer(&job, 0, 0, 0, &mut out[..39]), 16);
    assert_eq!(out, [0xaa; 40]);
    // A face that is not held, and one whose held byte is refused.
    let mut other = job.clone();
    other[2] = 0;
    assert_eq!(check(&other), (31, length));
    other[2] = 2;
    assert_eq!(check(&other), (20, 2));
    // Cut in the file it is 18; after the file 31 is met first.
    let end = 7 + file.len();
    assert_eq!(check(&job[..end - 1]), (18, length));
    assert_eq!(check(&job[..end]), (31, length));
    // An override of all attributes.
    let mut job = faces(std::slice::from_ref(&file));
    job.extend([0, 1, 0, 0, 7]);
    job.extend(ONE.to_be_bytes());
    job.extend([0; 5]);
    job.extend(ONE.to_be_bytes());
    job.extend([0; 5]);
    assert_eq!(check(&job), (31, length));
    // A second face is told at its own length, behind a first that is sound.
    let sound = font_file(400, 0);
    let mut job = faces(&[sound.clone(), file]);
    job.extend([0; 6]);
    assert_eq!(check(&job), (31, 7 + sound.len() as u32 + 1));
}
