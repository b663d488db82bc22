//! Jobs with fonts that have damaged tables.

use super::{Job, List, bare_face, face, given, request, write};
use crate::{
    damage::{
        Expected::{self, Accepted, AtNumber, Refused},
        length_of,
    },
    damaged::{CUTS, Cut, PLANS, Plan},
    layout::{Face, Style},
};

pub fn jobs(list: &mut List) {
    plans(list);
    every_cut(list);
    not_rescued(list);
    of_collections(list);
    first_met(list);
}

/// A font with damaged tables by itself, as a held face.
fn damaged(plan: &Plan, cut: Cut) -> Face {
    Face {
        held: true,
        font: plan.lone(|| cut),
        number: 0,
    }
}

/// The faces in one family, and a request for them.
fn job(faces: Vec<Face>) -> Job {
    Job {
        families: vec![(0..faces.len() as u16).collect()],
        faces,
        requests: vec![request(1.0, 700.0)],
        ..Job::default()
    }
}

/// What a plan's refusal is in a job, at the length of the face.
fn expected(plan: &Plan, job: &Job, face: usize) -> Expected {
    match plan.refused {
        0 => Accepted,
        number => Refused(number, length_of(&write(job), face)),
    }
}

impl List {
    fn damaged(&mut self, label: &str, job: &Job, expected: Expected) {
        self.add(format!("damaged {label}"), (write(job).bytes, expected));
    }
}

/// Each plan behind a face that is sound.
fn plans(list: &mut List) {
    for (i, plan) in PLANS.iter().enumerate() {
        let cut = CUTS[i % CUTS.len()];
        let job = job(vec![bare_face(), damaged(plan, cut)]);
        let label = format!("{}, {}", plan.label, cut.label());
        list.damaged(&label, &job, expected(plan, &job, 1));
    }
}

/// The needed tables with every damage, as the one face of a job.
fn every_cut(list: &mut List) {
    for plan in &PLANS[..3] {
        for cut in CUTS {
            let job = job(vec![damaged(plan, cut)]);
            let label = format!("{} of one face, {}", plan.label, cut.label());
            list.damaged(&label, &job, expected(plan, &job, 0));
        }
    }
}

/// Every attribute is overridden, the face is not held, it is in no family.
fn not_rescued(list: &mut List) {
    for plan in &PLANS[..3] {
        let sound = job(vec![damaged(plan, Cut::Longer)]);
        let mut overridden = sound.clone();
        let attributes = (1.0, Style::ITALIC, 700.0);
        overridden.overrides = vec![given(0, 7, attributes)];
        let mut unheld = sound.clone();
        unheld.faces[0].held = false;
        let mut both = overridden.clone();
        both.faces[0].held = false;
        let mut unused = sound;
        unused.families.clear();
        unused.requests.clear();
        for (label, job) in [
            ("every attribute overridden", overridden),
            ("not held", unheld),
            ("not held, every attribute overridden", both),
            ("in no family", unused),
        ] {
            let label = format!("{}, {label}", plan.label);
            list.damaged(&label, &job, expected(plan, &job, 0));
        }
    }
    // What is accepted is overridden as any other.
    for plan in PLANS.iter().filter(|plan| plan.refused == 0) {
        let mut job = job(vec![damaged(plan, Cut::Short), face(500)]);
        job.overrides = vec![given(0, 2, (1.0, Style::ITALIC, 1.0))];
        let label = format!("{}, style overridden", plan.label);
        list.damaged(&label, &job, Accepted);
    }
}

/// The second font of a collection is damaged: 31 is at its length and comes
/// behind 18 and 30 of its number.
fn of_collections(list: &mut List) {
    for (i, plan) in PLANS.iter().enumerate() {
        let last = i % 2 == 1;
        let font = plan.collected(last, || if last { Cut::Short } else { Cut::Longer });
        let numbered = |number| Face {
            held: true,
            font: font.clone(),
            number,
        };
        let of_second = job(vec![numbered(1)]);
        let label = format!("{}, font 1 of a collection", plan.label);
        list.damaged(&label, &of_second, expected(plan, &of_second, 0));
        if i >= 3 {
            continue;
        }
        let length = length_of(&write(&of_second), 0);
        let number = length + 4 + font.len();
        let label = format!("{}, font 0 of a collection", plan.label);
        list.damaged(&label, &job(vec![numbered(0)]), Accepted);
        let label = format!("{}, font 2 of a collection", plan.label);
        let over = AtNumber(30, number, length);
        list.damaged(&label, &job(vec![numbered(2)]), over);
        // Both fonts of the file.
        let two = job(vec![numbered(0), numbered(1)]);
        let label = format!("{}, fonts 0 and 1 of a collection", plan.label);
        list.damaged(&label, &two, expected(plan, &two, 1));
        // Up to the number's first byte, and with the number and no more.
        let bytes = write(&of_second).bytes;
        for (left, expected) in [
            (0, AtNumber(18, number, length)),
            (1, AtNumber(18, number, length)),
            (2, Refused(31, length)),
        ] {
            let label = format!("damaged {}, {left} bytes of its number", plan.label);
            list.add(label, (bytes[..number + left].to_vec(), expected));
        }
    }
}

/// Of two refusals the one that stands before.
fn first_met(list: &mut List) {
    let (os2, cmap) = (&PLANS[0], &PLANS[PLANS.len() - 1]);
    let one = || damaged(os2, Cut::Short);
    let other = || damaged(cmap, Cut::Short);
    let mut turned = other();
    turned.font[0] = 9;
    for (label, faces, number) in [
        ("OS/2, then cmap", vec![one(), other()], 31),
        ("cmap, then OS/2", vec![other(), one()], 22),
        ("OS/2, then a bad start", vec![one(), turned.clone()], 31),
        ("bad start, then OS/2", vec![turned, one()], 21),
        ("OS/2 twice", vec![one(), one()], 31),
    ] {
        let job = job(faces);
        let at = length_of(&write(&job), 0);
        list.damaged(label, &job, Refused(number, at));
    }
    // The held byte, the file's end and the next count.
    let job = job(vec![one()]);
    let written = write(&job);
    let (length, file) = (length_of(&written, 0), job.faces[0].font.len());
    let mut held = written.bytes.clone();
    held[length - 1] = 2;
    list.add("damaged OS/2, held 2", (held, Refused(20, length - 1)));
    let end = length + 4 + file;
    let mut over = written.bytes.clone();
    over[end] = 0xff;
    let refused = Refused(31, length);
    list.add("damaged OS/2, overrides over the limit", (over, refused));
    for (left, expected) in [
        (end - 1, Refused(18, length)),
        (end, refused),
        (end + 1, refused),
    ] {
        let label = format!("damaged OS/2, first {left} bytes");
        list.add(label, (written.bytes[..left].to_vec(), expected));
    }
    let mut more = written.bytes;
    more.push(0);
    list.add("damaged OS/2, a byte left", (more, refused));
}
