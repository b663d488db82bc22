//! `fvar` tables: counts, sizes and offsets of the records, tags and numbers.

use super::{List, axes, fixed_numbers};
use crate::bytes::*;

pub fn fvar_shapes(list: &mut List) {
    counts_and_sizes(list);
    counts_beside_the_table(list);
    offsets(list);
    tags_and_limits(list);
    // Rounding in each of the three places.
    for chunk in fixed_numbers().chunks(16) {
        let axis = |i: usize| FixedAxis {
            tag: *b"GRAD",
            min: chunk[i],
            default: chunk[(i + 1) % chunk.len()],
            max: chunk[(i + 2) % chunk.len()],
        };
        let axes: Vec<FixedAxis> = (0..chunk.len()).map(axis).collect();
        add(
            list,
            format!("axis numbers from {:08x}", chunk[0]),
            fvar(&axes),
        );
    }
}

fn add(list: &mut List, label: impl Into<String>, table: Vec<u8>) {
    list.add_tables(label, &[(*b"fvar", table)]);
}

/// A header that tells of so many records of the size, and the records.
fn counted(count: u16, size: usize, records: usize) -> Vec<u8> {
    let mut table = fvar_header(16, count, size as u16);
    table.extend(axis_records(&axes(records), size));
    table
}

fn counts_and_sizes(list: &mut List) {
    for count in [0, 1, 2, 15, 16, 17, 18] {
        add(list, format!("{count} axes"), fvar(&axes(count)));
    }
    for size in [0, 1, 18, 19, 20, 21, 22, 40, 0x0114] {
        for count in [1, 2] {
            let table = counted(count, size, usize::from(count));
            add(list, format!("{count} axes of size {size}"), table);
        }
    }
    for size in [19, 21] {
        add(
            list,
            format!("17 axes of size {size}"),
            counted(17, size, 17),
        );
    }
}

fn counts_beside_the_table(list: &mut List) {
    // Records past the table by a byte.
    for count in [1, 2, 16, 17] {
        let mut table = fvar(&axes(count));
        table.pop();
        add(list, format!("{count} axes, table cut by 1"), table);
        let mut table = fvar(&axes(count));
        table.push(0x77);
        add(list, format!("{count} axes, table longer by 1"), table);
    }
    // The header tells of more or fewer than there are.
    for count in [0, 1, 2, 4, 0x0103, 0x8000, 0xffff] {
        add(
            list,
            format!("3 records counted {count}"),
            counted(count, 20, 3),
        );
    }
}

/// Other axis offsets.
fn offsets(list: &mut List) {
    for offset in [17usize, 20, 36] {
        let mut table = fvar_header(offset as u16, 2, 20);
        table.extend(filler(offset - 16, 9));
        table.extend(axis_records(&axes(2), 20));
        add(list, format!("axis offset {offset}"), table.clone());
        table.pop();
        add(list, format!("axis offset {offset}, cut by 1"), table);
    }
    for offset in [0, 4, 12, 15, 16, 17, 36, 56, 57, 0x0110, 0xffff] {
        for count in [0, 1] {
            let mut table = fvar(&axes(2));
            put16(&mut table, 4, offset);
            put16(&mut table, 8, count);
            add(list, format!("axis offset {offset} counted {count}"), table);
        }
    }
    // Into the header, the records ending with the table.
    let mut table = fvar(&axes(1));
    put16(&mut table, 4, 0);
    for length in [20, 19] {
        table.truncate(length);
        let label = format!("axis offset 0, table of {length}");
        add(list, label, table.clone());
    }
}

fn tags_and_limits(list: &mut List) {
    let mut repeated = axes(3);
    repeated[1].tag = *b"wght";
    repeated[2].tag = *b"wght";
    add(list, "one tag three times", fvar(&repeated));
    let mut odd = axes(3);
    odd[0].tag = [0, 0, 0, 0];
    odd[1].tag = [0xff, 0xfe, 0x80, 0x01];
    odd[2].tag = *b"    ";
    add(list, "odd tags", fvar(&odd));
    // Minimum over maximum, default outside.
    let turned = FixedAxis {
        tag: *b"opsz",
        min: 0x0064_0000,
        default: 0xff00_0000,
        max: 0x0001_0000,
    };
    add(list, "turned limits", fvar(&[turned]));
}
