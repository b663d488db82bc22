//! The plain reading beside the original, fonts and families by themselves.

use jobs::damaged::{CUTS, PLANS};
use plain::{font, lines, reading::READINGS};

use crate::{describe, families};

/// Attributes, axes, charmap index or refusal of every font of the list, under
/// both readings, by the bits of every number. Those that are refused with 31
/// are left out.
#[test]
fn fonts_of_the_list() {
    let (mut compared, mut left_out, mut differing) = (0, 0, 0);
    for seed in 1..=20 {
        for (label, entry) in jobs::font_list::list(seed).fonts {
            let (file, number) = (&entry.file, entry.number);
            let read = READINGS.map(|reading| font::read(file, reading, number));
            if read == [Err(31), Err(31)] {
                left_out += 1;
                continue;
            }
            compared += 1;
            let original = READINGS.map(|reading| describe::line(file, reading, number));
            let plain = read.map(|read| lines::font(&read));
            assert_eq!(original, plain, "{label}");
            differing += u32::from(plain[0] != plain[1]);
        }
    }
    assert!(compared > 4 * left_out && left_out > 1000, "{left_out}");
    assert!(differing > 4000, "{differing}");
}

/// Why they are left out: the original takes a damaged table for absent.
#[test]
fn fonts_left_out() {
    for plan in &PLANS {
        for cut in CUTS {
            let file = plan.lone(|| cut);
            let read = font::read(&file, 0, 0);
            let line = describe::line(&file, 0, 0);
            let same = line == lines::font(&read);
            assert_eq!(same, read != Err(31), "{} {cut:?}", plan.label);
        }
    }
}

/// Choice, equal list, default and synthesis under each reading, with synthesis
/// on and off.
#[test]
fn families_of_the_list() {
    for mut case in families::cases(12, 30_000) {
        for on in [true, false] {
            case.synthesis = on;
            assert_eq!(families::line(&case), families::plain_line(&case));
        }
    }
}
