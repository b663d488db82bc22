//! Font files that are written from tables.

/// A table of a font file.
pub struct Table<'a> {
    pub tag: [u8; 4],
    /// Its checksum, as the directory has it.
    pub sum: u32,
    pub bytes: &'a [u8],
}

/// The file of some tables, each on a multiple of four bytes.
pub fn file(start: [u8; 4], tables: &[Table]) -> Vec<u8> {
    let count = tables.len() as u32;
    let power = count.max(1).ilog2();
    let range = 16 << power;
    let mut out = start.to_vec();
    for number in [count, range, power, (16 * count).saturating_sub(range)] {
        out.extend((number as u16).to_be_bytes());
    }
    let mut offset = 12 + 16 * tables.len();
    for table in tables {
        out.extend(table.tag);
        for number in [table.sum, offset as u32, table.bytes.len() as u32] {
            out.extend(number.to_be_bytes());
        }
        offset += table.bytes.len().next_multiple_of(4);
    }
    for table in tables {
        out.extend(table.bytes);
        out.resize(out.len().next_multiple_of(4), 0);
    }
    out
}

/// A font of a collection as a file of its own: its tables as they are, in a new
/// directory. None where there is no such font.
pub fn taken_out(collection: &[u8], number: u16) -> Option<Vec<u8>> {
    let at = word(collection, 12 + 4 * usize::from(number))?;
    let font = collection.get(at as usize..)?;
    let count = u16::from_be_bytes(*font.get(4..)?.first_chunk()?);
    let records = font.get(12..)?.chunks_exact(16).take(count.into());
    // Tables can lie over one another: the file is not to grow by that.
    let mut room = collection.len();
    let mut tables = Vec::new();
    for record in records {
        if let Some(table) = table(collection, record).filter(|found| found.bytes.len() <= room) {
            room -= table.bytes.len();
            tables.push(table);
        }
    }
    Some(file(*font.first_chunk()?, &tables))
}

/// The table of a record; none where it reaches past the file.
fn table<'a>(collection: &'a [u8], record: &[u8]) -> Option<Table<'a>> {
    let (offset, length) = (word(record, 8)? as usize, word(record, 12)? as usize);
    Some(Table {
        tag: *record.first_chunk()?,
        sum: word(record, 4)?,
        bytes: collection.get(offset..)?.get(..length)?,
    })
}

fn word(bytes: &[u8], at: usize) -> Option<u32> {
    Some(u32::from_be_bytes(*bytes.get(at..)?.first_chunk()?))
}

#[cfg(test)]
mod tests {
    use super::*;

    /// A collection of one font whose directory stands at its end.
    fn collection(tables: &[(&[u8; 4], u32, u32)]) -> Vec<u8> {
        let mut file = b"ttcf\0\x01\0\0\0\0\0\x01\0\0\0\x18abcdefgh".to_vec();
        file.extend(b"OTTO");
        file.extend((tables.len() as u16).to_be_bytes());
        file.extend([9; 6]);
        for (tag, offset, length) in tables {
            file.extend(*tag);
            for number in [7, *offset, *length] {
                file.extend(number.to_be_bytes());
            }
        }
        file
    }

    #[test]
    fn tables_as_they_are() {
        let file = collection(&[(b"one ", 16, 5), (b"two ", 21, 3), (b"past", 16, 900)]);
        let expected = b"OTTO\0\x02\0\x20\0\x01\0\0\
            one \0\0\0\x07\0\0\0\x2c\0\0\0\x05\
            two \0\0\0\x07\0\0\0\x34\0\0\0\x03\
            abcde\0\0\0fgh\0";
        assert_eq!(taken_out(&file, 0).unwrap(), expected);
        assert_eq!(taken_out(&file, 1), None);
    }

    #[test]
    fn tables_over_one_another_do_not_add_up() {
        let file = collection(&[(b"more", 0, 100); 200]);
        let length = taken_out(&file, 0).unwrap().len();
        assert!(length < 2 * file.len(), "{length} of {}", file.len());
    }

    #[test]
    fn none_where_the_font_is_cut() {
        let file = collection(&[]);
        for length in 0..file.len() {
            assert_eq!(taken_out(&file[..length], 0), None, "{length}");
        }
        assert_eq!(taken_out(&file, 0).unwrap().len(), 12);
    }
}
