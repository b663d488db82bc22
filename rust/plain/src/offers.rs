//! Section 6: the offers of a request, the offer call and the lines of section 7.

use crate::{
    font::{CharmapIndex, Font},
    job::{self, Job, Request},
    lines, matching,
    synthesis::{self, Synthesis},
};

/// Bytes of the output.
pub const OUTPUT: usize = 40;

#[derive(Clone, PartialEq, Eq, Debug)]
pub struct Offer {
    pub family: u16,
    pub place: u16,
    pub synthesis: Synthesis,
    pub charmap: CharmapIndex,
}

impl Offer {
    /// The 40 bytes of the output.
    pub fn record(&self) -> [u8; OUTPUT] {
        let mut out = [0; OUTPUT];
        out[0..2].copy_from_slice(&self.family.to_be_bytes());
        out[2..4].copy_from_slice(&self.place.to_be_bytes());
        out[4] = u8::from(self.synthesis.embolden);
        out[5] = self.synthesis.skew as u8;
        out[6] = self.synthesis.settings.len() as u8;
        for (i, (tag, value)) in self.synthesis.settings.iter().enumerate() {
            let at = 8 + 8 * i;
            out[at..at + 4].copy_from_slice(tag);
            out[at + 4..at + 8].copy_from_slice(&value.0.to_be_bytes());
        }
        out[32..36].copy_from_slice(&self.charmap.offset.to_be_bytes());
        out[36] = u8::from(self.charmap.symbol);
        out[37] = u8::from(self.charmap.mac_roman);
        out
    }
}

/// The offers of a request, cut after its most. The job has been read under
/// the same reading.
pub fn offers(job: &Job, reading: u32, request: &Request) -> Vec<Offer> {
    let mut out = Vec::new();
    for family in request.families.iter().chain(&request.fallbacks) {
        out.extend(offers_of_family(job, reading, request, *family));
    }
    out.truncate(usize::from(request.most));
    out
}

/// None of a family that the job does not have.
fn offers_of_family(job: &Job, reading: u32, request: &Request, family: u16) -> Vec<Offer> {
    let Some(places) = job.families.get(usize::from(family)) else {
        return Vec::new();
    };
    let held = |place: usize| job.faces[usize::from(places[place])].held;
    let fonts: Vec<&Font> = places
        .iter()
        .map(|face| &job.faces[usize::from(*face)].font)
        .collect();
    if fonts.is_empty() {
        return Vec::new();
    }
    let mut offered = matching::equal_list(&fonts, &request.attributes, true);
    offered.retain(|place| held(*place));
    let default = matching::default(&fonts);
    if held(default) && !offered.contains(&default) {
        offered.push(default);
    }
    let offer = |place: usize| Offer {
        family,
        place: place as u16,
        synthesis: synthesis::synthesis(fonts[place], reading, &request.attributes),
        charmap: fonts[place].charmap,
    };
    offered.into_iter().map(offer).collect()
}

/// The offer call: 0 with the 40 bytes written, or 1 or a refusal's number
/// with nothing written.
pub fn offer(job: &[u8], reading: u32, request: u32, number: u32, out: &mut [u8]) -> u32 {
    if out.len() != OUTPUT {
        return 16;
    }
    let job = match job::read(job, reading) {
        Ok(job) => job,
        Err(refusal) => return refusal.number,
    };
    let Some(request) = job.requests.get(request as usize) else {
        return 28;
    };
    match offers(&job, reading, request).get(number as usize) {
        Some(offer) => {
            out.copy_from_slice(&offer.record());
            0
        }
        None => 1,
    }
}

/// What section 7's program prints for a job, of whatever length, under a reading.
pub fn text(bytes: &[u8], reading: u32) -> String {
    let job = match job::read(bytes, reading) {
        Ok(job) => job,
        Err(refusal) => return format!("refused {} {}\n", refusal.number, refusal.position),
    };
    let mut text = format!("requests {}\n", job.requests.len());
    for (number, request) in job.requests.iter().enumerate() {
        for offer in offers(&job, reading, request) {
            text.push_str(&lines::offer(number, &offer, false));
            text.push('\n');
        }
    }
    text
}
