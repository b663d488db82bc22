//! What has been compared of jobs.

use std::fmt::Write as _;

use plain::offers::OUTPUT;

use crate::{bytes::fonts_stated, damage::Expected, layout::Job};

/// The bytes of an offer.
pub type Record = [u8; OUTPUT];

#[derive(Copy, Clone, Default, PartialEq, Eq, Debug)]
pub struct Counts {
    pub jobs: u64,
    pub accepted: u64,
    /// By the table's number.
    pub refused: [u64; 32],
    /// Jobs whose answer is the one known by how they were built.
    pub known: u64,
    /// Faces of accepted jobs, and those of them from collections.
    pub faces: u64,
    pub collected: u64,
    pub requests: u64,
    /// Offers under each reading, and those of them with embolden, a skew, or
    /// settings.
    pub offers: [u64; 2],
    pub synthesized: [u64; 2],
    pub differing: Differing,
    pub asked: Asked,
}

/// Requests that are answered otherwise under the two readings.
#[derive(Copy, Clone, Default, PartialEq, Eq, Debug)]
pub struct Differing {
    /// Other faces are offered, or in another order.
    pub faces: u64,
    /// The same faces, with other settings.
    pub settings: u64,
}

/// Fonts that the original was asked for, and those that were left out: what
/// it says of a font that is refused with 31 is not compared.
#[derive(Copy, Clone, Default, PartialEq, Eq, Debug)]
pub struct Asked {
    pub fonts: u64,
    pub left_out: u64,
}

impl Asked {
    pub fn add(&mut self, more: Self) {
        self.fonts += more.fonts;
        self.left_out += more.left_out;
    }

    /// A line.
    pub fn text(&self) -> String {
        let Self { fonts, left_out } = self;
        format!("fonts beside the original {fonts} left out for 31 {left_out}\n")
    }
}

impl Counts {
    /// A job and the answer to it, 0 where it is accepted.
    pub fn job(&mut self, expected: Expected, number: u32, position: usize) {
        self.jobs += 1;
        self.known += u64::from(expected.tells(number, position));
        match number {
            0 => self.accepted += 1,
            _ => self.refused[number as usize] += 1,
        }
    }

    /// The faces of a job that is accepted.
    pub fn faces(&mut self, job: &Job<&[u8]>) {
        let collected = job
            .faces
            .iter()
            .filter(|face| fonts_stated(face.font).is_some());
        self.faces += job.faces.len() as u64;
        self.collected += collected.count() as u64;
    }

    /// A request by the records of its offers under each reading.
    pub fn request(&mut self, lists: [&[Record]; 2]) {
        self.requests += 1;
        for (reading, list) in lists.iter().enumerate() {
            let synthesized = list.iter().filter(|record| record[4..7] != [0; 3]);
            self.offers[reading] += list.len() as u64;
            self.synthesized[reading] += synthesized.count() as u64;
        }
        let [old, new] = lists;
        let faces = |list: &[Record]| -> Vec<[u8; 4]> {
            let face = |record: &Record| [record[0], record[1], record[2], record[3]];
            list.iter().map(face).collect()
        };
        let other_faces = faces(old) != faces(new);
        self.differing.faces += u64::from(other_faces);
        self.differing.settings += u64::from(!other_faces && old != new);
    }

    /// The jobs by their answers, as lines.
    pub fn jobs_text(&self) -> String {
        format!(
            "jobs {} accepted {}\nrefused{}\nanswers known by construction {}\n",
            self.jobs,
            self.accepted,
            numbers(&self.refused),
            self.known,
        )
    }

    /// The faces, without a line end.
    pub fn faces_text(&self) -> String {
        format!("faces {} from collections {}", self.faces, self.collected)
    }

    /// The offers under each reading, and what differs between the two, as lines.
    pub fn offers_text(&self) -> String {
        let Differing { faces, settings } = self.differing;
        let of_reading = |reading: usize| {
            let (offers, synthesized) = (self.offers[reading], self.synthesized[reading]);
            format!("reading {reading}: offers {offers} with synthesis {synthesized}\n")
        };
        let differing = format!(
            "requests that differ between the readings: {faces} in the faces, {settings} in settings alone\n"
        );
        of_reading(0) + &of_reading(1) + &differing
    }
}

/// ` number:count` for each number that arose.
pub fn numbers(refused: &[u64]) -> String {
    let mut text = String::new();
    for (number, count) in refused.iter().enumerate().filter(|(_, count)| **count != 0) {
        let _ = write!(text, " {number}:{count}");
    }
    text
}
