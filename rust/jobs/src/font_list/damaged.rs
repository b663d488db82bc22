//! Damaged tables: those that are needed, and those that are not.

use super::{List, axes, axis};
use crate::{
    bytes::*,
    damaged::{CUTS, Cut, PLANS},
};

pub fn damaged_tables(list: &mut List) {
    for (i, plan) in PLANS.iter().enumerate() {
        // Of the needed tables every damage, of the others two in turn.
        let cuts: &[Cut] = match i {
            0..3 => &CUTS,
            _ if i % 2 == 0 => &[Cut::Longer, Cut::Empty],
            _ => &[Cut::Far, Cut::Short],
        };
        for cut in cuts {
            let label = format!("damaged {}, {}", plan.label, cut.label());
            list.add(label, plan.lone(|| *cut));
        }
    }
    short_of_old(list);
    half_copied(list);
    orders(list);
    fonts_of_collections(list);
}

/// OpenType lets an OS/2 of version 0 end after 68 bytes.
fn short_of_old(list: &mut List) {
    for length in [68, 77, 78] {
        let old = os2(700, 3, 0)[..length].to_vec();
        let label = format!("OS/2 of {length} bytes beside head");
        list.add_tables(label, &[(*b"head", head(1)), (*b"OS/2", old)]);
    }
}

/// A font of the five tables whose file ends too early.
fn half_copied(list: &mut List) {
    let tables = [
        (*b"cmap", plain_cmap()),
        (*b"fvar", fvar(&[axis(b"wght", 1)])),
        (*b"head", head(1)),
        (*b"OS/2", os2(700, 5, 0x0200)),
        (*b"post", post(0xfff4_0000)),
    ];
    let file = font(START, &tables);
    // Without the last byte of the directory and of each table, and with it.
    let mut ends = vec![record(tables.len())];
    ends.extend((0..tables.len()).map(|i| (offset(&file, i) + length(&file, i)) as usize));
    for end in ends {
        for length in [end - 1, end] {
            let label = format!("half-copied, first {length} bytes");
            list.add(label, file[..length].to_vec());
        }
    }
}

/// What comes before 31, by the start, the directory and the number.
fn orders(list: &mut List) {
    let plan = &PLANS[0];
    let good = plan.lone(|| Cut::Short);
    let mut bad = good.clone();
    bad[0] = 9;
    let mut past = good.clone();
    put16(&mut past, 4, 0x0100);
    list.add_numbered(&format!("damaged {}", plan.label), &good, 1);
    let label = format!("damaged {} and a bad start", plan.label);
    for number in [0, 1] {
        list.add_numbered(&label, &bad, number);
    }
    let label = format!("damaged {} and a directory past the file", plan.label);
    list.add(label, past);
    // A table that is damaged and one that lies over it.
    let mut over = plan.lone(|| Cut::Short);
    let at = offset(&over, 2);
    set_offset(&mut over, 1, at);
    list.add("damaged OS/2 and head at its place", over);
    list.add(
        "17 axes, a damaged head and a bad cmap",
        font(
            START,
            &[
                (*b"fvar", fvar(&axes(17))),
                (*b"head", head(3)[..53].to_vec()),
                (*b"cmap", vec![0, 0, 0]),
            ],
        ),
    );
}

/// The second font of two; each of the needed ones with every number.
fn fonts_of_collections(list: &mut List) {
    for (i, plan) in PLANS.iter().enumerate() {
        for (last, cut) in [(false, Cut::Longer), (true, Cut::Short)] {
            // The needed tables in both layouts, the others in turn.
            if i >= 3 && (i % 2 == 0) == last {
                continue;
            }
            let place = if last { "last" } else { "first" };
            let label = format!(
                "collection, directory {place}, damaged {}, {}",
                plan.label,
                cut.label()
            );
            let file = plan.collected(last, || cut);
            list.add_numbered(&label, &file, 1);
            if i < 3 {
                list.add_numbered(&label, &file, 0);
                list.add_numbered(&label, &file, 2);
            }
        }
    }
}
