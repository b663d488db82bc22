//! Jobs: the offers of the original beside those of the plain reading.
//!
//! The original is given the job's parts as they were written down, not as
//! the plain reading understood them.

use std::{
    io,
    panic::{self, AssertUnwindSafe},
    path::{Path, PathBuf},
    sync::Arc,
};

use jobs::{
    bytes::{fonts_stated, hex},
    counts::{self, Asked, Record},
    damage::{Expected, is_font},
    layout::{self, Job, Request},
    list::Case,
    readings::UNKNOWN,
};
use plain::{Offer, job, lines, offers::OUTPUT, reading::READINGS};

use crate::{
    Attributes, CharmapIndex, Collection, FamilyId, FamilyInfo, FontInfo, FontWeight, FontWidth,
    QueryFont, QueryStatus, SourceCache, as_plain, describe, families,
    family_name::{FamilyName, FamilyNameMap},
    lists,
    source::{SourceId, SourceInfo, SourceKind},
    turned,
};

/// The offers of every request.
type Lists = Vec<Vec<Offer>>;

/// What has been compared.
#[derive(Copy, Clone, Default)]
pub struct Counts {
    pub all: counts::Counts,
    pub families: u64,
    /// Requests whose list is as long as its most.
    pub full: u64,
}

/// Names and sources that every job uses again.
pub struct Harness {
    names: Vec<FamilyName>,
    /// Where no file is: a face that is not held.
    nowhere: Arc<Path>,
    pub counts: Counts,
}

impl Default for Harness {
    fn default() -> Self {
        let mut map = FamilyNameMap::default();
        Self {
            names: (0..job::FAMILIES)
                .map(|number| map.get_or_insert(&format!("family {number}")))
                .collect(),
            nowhere: PathBuf::from("no such folder/no such font").into(),
            counts: Counts::default(),
        }
    }
}

impl Harness {
    /// Compares the two on one job and gives its lines under each reading, or
    /// says where they differ.
    pub fn compare(&mut self, case: &Case) -> Result<[Lines; 2], String> {
        let bytes = &case.bytes[..];
        let (number, position) = plain::check(bytes);
        let asked = fonts_agree(bytes, number, position as usize)?;
        known(number, position as usize, case.expected)?;
        unknown_readings(bytes)?;
        let counts = &mut self.counts.all;
        counts.asked.add(asked);
        counts.job(case.expected, number, position as usize);
        if number != 0 {
            refused_calls(bytes, number)?;
            let lines = Lines::of(format!("refused {number} {position}\n"));
            return Ok([lines.clone(), lines]);
        }
        let job = parts(bytes)?;
        if layout::write(&job).bytes != bytes {
            return Err("accepted, but its parts are written down as another job".into());
        }
        let lists = [
            self.compare_offers(bytes, &job, 0)?,
            self.compare_offers(bytes, &job, 1)?,
        ];
        self.count(&job, &lists);
        lines_of(bytes, &lists)
    }

    /// The offers of every request, on which both agree.
    fn compare_offers(
        &self,
        bytes: &[u8],
        job: &Job<&[u8]>,
        reading: u32,
    ) -> Result<Lists, String> {
        let read = plain::job::read(bytes, reading).map_err(|refusal| format!("{refusal:?}"))?;
        let mut original = self.original(job, reading)?;
        let mut lists = Lists::new();
        for (number, request) in job.requests.iter().enumerate() {
            let by_original = original.offers(request);
            let by_plain = plain::offers(&read, reading, &read.requests[number]);
            if records(&by_original) != records(&by_plain) {
                return Err(format!(
                    "reading {reading}, request {number}:\n the original {by_original:?}\n plain {by_plain:?}"
                ));
            }
            // The call, at both ends of one list in a job.
            if number as u64 == self.counts.all.jobs % job.requests.len() as u64 {
                calls(bytes, (reading, number as u32), &by_original)?;
            }
            lists.push(by_original);
        }
        let mut out = [0x5a; OUTPUT];
        let past = plain::offer(bytes, reading, job.requests.len() as u32, 0, &mut out);
        if past != 28 || out != [0x5a; OUTPUT] {
            return Err(format!("a request past the job: {past}"));
        }
        Ok(lists)
    }

    /// Counts a job that is accepted.
    fn count(&mut self, job: &Job<&[u8]>, [old, new]: &[Lists; 2]) {
        self.counts.all.faces(job);
        self.counts.families += job.families.len() as u64;
        for ((old, new), request) in old.iter().zip(new).zip(&job.requests) {
            self.counts.all.request([&records(old), &records(new)]);
            self.counts.full += u64::from(old.len() == usize::from(request.most));
        }
    }

    /// The records of every request's offers by the original, of a job that is accepted.
    pub fn records(&self, bytes: &[u8], reading: u32) -> Result<Vec<Vec<Record>>, String> {
        let job = parts(bytes)?;
        let mut original = self.original(&job, reading)?;
        let of_request = |request| records(&original.offers(request));
        Ok(job.requests.iter().map(of_request).collect())
    }

    /// The original's faces of a job: read, turned by the reading, overridden.
    fn faces(&self, job: &Job<&[u8]>, reading: u32) -> Result<Vec<FontInfo>, String> {
        let mut faces = Vec::new();
        for face in &job.faces {
            let info = if face.held {
                describe::read(face.font, face.number)
            } else {
                let kind = SourceKind::Path(self.nowhere.clone());
                let source = SourceInfo::new(SourceId::new(), kind);
                describe::read_from(face.font, face.number, source)
            };
            let mut info = info.map_err(|number| format!("a font: {number}"))?;
            turned::face(&mut info, reading);
            faces.push(info);
        }
        for given in &job.overrides {
            families::apply(&mut faces[usize::from(given.face)], given);
        }
        Ok(faces)
    }

    /// The original's families of a job.
    fn original(&self, job: &Job<&[u8]>, reading: u32) -> Result<Original, String> {
        let faces = self.faces(job, reading)?;
        let mut original = Original {
            reading,
            collection: Collection::default(),
            cache: SourceCache::default(),
            families: Vec::new(),
        };
        for (places, name) in job.families.iter().zip(&self.names) {
            let fonts = places.iter().map(|face| faces[usize::from(*face)].clone());
            let family = FamilyInfo::new(name.clone(), fonts);
            let fonts = family.fonts().iter().map(|font| Place {
                number: font.index(),
                index: font.charmap_index(),
                charmap: describe::charmap(font),
            });
            original.families.push((family.id(), fonts.collect()));
            original.collection.add_family(family);
        }
        Ok(original)
    }
}

/// What an offer of a face is held to.
struct Place {
    /// The font's number in its file.
    number: u32,
    /// An index of the original and its three fields.
    index: CharmapIndex,
    charmap: plain::font::CharmapIndex,
}

/// A family's identifier and its places.
type Family = (FamilyId, Vec<Place>);

struct Original {
    reading: u32,
    collection: Collection,
    cache: SourceCache,
    families: Vec<Family>,
}

impl Original {
    /// Runs the original's query and stops it after the most offers.
    fn offers(&mut self, request: &Request) -> Vec<Offer> {
        let most = usize::from(request.most);
        let mut out = Vec::new();
        if most == 0 {
            return out;
        }
        let (families, reading) = (&self.families, self.reading);
        // A number that is not in the job is a family that nobody knows.
        let id = |number: &u16| match families.get(usize::from(*number)) {
            Some((id, _)) => *id,
            None => FamilyId::new(),
        };
        self.collection
            .set_fallbacks(request.fallbacks.iter().map(id));
        let mut query = self.collection.query(&mut self.cache);
        query.set_families(request.families.iter().map(id));
        query.set_fallbacks(Collection::fallback_key());
        query.set_attributes(Attributes::new(
            width(request.ratio),
            families::style(request.style),
            weight(request.weight),
        ));
        query.matches_with(|font| {
            out.push(offer(families, reading, font));
            if out.len() == most {
                QueryStatus::Stop
            } else {
                QueryStatus::Continue
            }
        });
        out
    }
}

/// An offer of the original, by the numbers of the job, its settings turned by
/// the reading.
fn offer(families: &[Family], reading: u32, font: &QueryFont) -> Offer {
    let (id, place) = font.family;
    let family = families
        .iter()
        .position(|(other, _)| *other == id)
        .expect("a family of the job");
    let face = &families[family].1[place];
    assert_eq!(font.charmap_index, face.index, "of the offered face");
    assert_eq!(font.index, face.number, "of the offered face");
    Offer {
        family: family as u16,
        place: place as u16,
        synthesis: as_plain::synthesis(&font.synthesis, reading),
        charmap: face.charmap,
    }
}

fn width(bits: u32) -> FontWidth {
    FontWidth::from_ratio(f32::from_bits(bits))
}

fn weight(bits: u32) -> FontWeight {
    FontWeight::new(f32::from_bits(bits))
}

/// The parts of a job that was accepted.
fn parts(bytes: &[u8]) -> Result<Job<&[u8]>, String> {
    layout::parts(bytes).ok_or_else(|| "accepted, but it does not keep the layout".into())
}

/// The 40 bytes of each offer, so that all numbers are compared by their bits.
fn records(offers: &[Offer]) -> Vec<Record> {
    offers.iter().map(Offer::record).collect()
}

/// What is printed for a job.
#[derive(Clone, PartialEq, Eq, Debug)]
pub struct Lines {
    /// By section 7's program.
    pub printed: String,
    /// By `offer_cases`: the same, with the charmap index after the skew.
    pub indexed: String,
}

impl Lines {
    /// Both begin with the same line.
    fn of(line: String) -> Self {
        Self {
            printed: line.clone(),
            indexed: line,
        }
    }

    fn put(&mut self, request: usize, offer: &Offer) {
        for (text, indexed) in [(&mut self.printed, false), (&mut self.indexed, true)] {
            text.push_str(&lines::offer(request, offer, indexed));
            text.push('\n');
        }
    }
}

/// The lines of a job under each reading, which the plain reading has too.
fn lines_of(bytes: &[u8], lists: &[Lists; 2]) -> Result<[Lines; 2], String> {
    let lines = [0, 1].map(|reading| {
        let lists = &lists[reading];
        let mut lines = Lines::of(format!("requests {}\n", lists.len()));
        for (request, list) in lists.iter().enumerate() {
            list.iter().for_each(|offer| lines.put(request, offer));
        }
        lines
    });
    let plain = READINGS.map(|reading| plain::text(bytes, reading));
    if lines.each_ref().map(|lines| &lines.printed) != plain.each_ref() {
        return Err("the lines differ".into());
    }
    Ok(lines)
}

/// The plain offer call against a list, of a reading and a request: its first,
/// its last, one past it.
fn calls(bytes: &[u8], (reading, request): (u32, u32), list: &[Offer]) -> Result<(), String> {
    let length = list.len() as u32;
    for number in [0, length.saturating_sub(1), length, u32::MAX] {
        let untouched = [0x5a; OUTPUT];
        let mut out = untouched;
        let answer = plain::offer(bytes, reading, request, number, &mut out);
        let expected = match list.get(number as usize) {
            Some(offer) => (0, offer.record()),
            None => (1, untouched),
        };
        if (answer, out) != expected {
            return Err(format!(
                "the call for reading {reading}, request {request}, offer {number}: {answer} {out:02x?}"
            ));
        }
    }
    Ok(())
}

/// The plain offer call on a refused job: the number, and nothing written.
fn refused_calls(bytes: &[u8], number: u32) -> Result<(), String> {
    for reading in READINGS {
        no_offer(bytes, reading, number)?;
    }
    Ok(())
}

/// The plain offer call on any job under a number that is no reading: 25, but
/// for a job that is too long.
fn unknown_readings(bytes: &[u8]) -> Result<(), String> {
    let number = if bytes.len() > job::BYTES { 17 } else { 25 };
    for reading in [2, UNKNOWN[bytes.len() % UNKNOWN.len()]] {
        no_offer(bytes, reading, number)?;
    }
    Ok(())
}

/// The plain offer call has to give the refusal, or 16 for a short output, and
/// to write nothing.
fn no_offer(bytes: &[u8], reading: u32, number: u32) -> Result<(), String> {
    let mut out = [0x5a; OUTPUT];
    let answer = plain::offer(bytes, reading, 0, 0, &mut out);
    let short = plain::offer(bytes, reading, 0, 0, &mut out[..OUTPUT - 1]);
    if answer != number || short != 16 || out != [0x5a; OUTPUT] {
        return Err(format!(
            "the call for reading {reading}: {answer} {short}, not {number} and 16"
        ));
    }
    Ok(())
}

/// Whether the answer is the one that is known by how the job was built.
fn known(number: u32, position: usize, expected: Expected) -> Result<(), String> {
    if expected.allows(number, position) {
        return Ok(());
    }
    Err(format!(
        "plain answers {number} at {position}; by how it was built: {expected:?}"
    ))
}

/// Whether the original accepts every font that the plain reading accepted
/// on its way, and refuses the one that it refused; of one that is refused
/// with 31 it is not asked. Gives how many it was asked for.
pub fn fonts_agree(bytes: &[u8], number: u32, position: usize) -> Result<Asked, String> {
    let end = if number == 0 { usize::MAX } else { position };
    let mut at = 2;
    let mut met = false;
    let mut asked = Asked::default();
    for _ in 0..read16(bytes, 0).unwrap_or(0) {
        let length_at = at + 1;
        if length_at > end {
            break;
        }
        let entry = match Entry::read(bytes, length_at) {
            Ok(entry) => entry,
            Err(at) if (number, position) == (18, at) => return Ok(asked),
            Err(at) => return Err(format!("past the end at {at}, but {number} at {position}")),
        };
        if (number, position) == (31, length_at) {
            asked.left_out += 1;
            return Ok(asked);
        }
        asked.fonts += 1;
        let refused = describe::read(entry.file, entry.number).err().unwrap_or(0);
        // 30 is told at the font number, 21 to 23 at the length.
        let told = if refused == 30 {
            entry.number_at
        } else {
            length_at
        };
        let expected = if told == end { number } else { 0 };
        if refused != expected {
            return Err(format!(
                "the font at {length_at}: the original {refused}, plain {expected}"
            ));
        }
        met |= told == end;
        at = entry.end;
    }
    if is_font(number) && !met {
        return Err(format!("{number} at {position}, where no font stands"));
    }
    Ok(asked)
}

fn read16(bytes: &[u8], at: usize) -> Option<u16> {
    let two = bytes.get(at..at + 2)?;
    Some(u16::from_be_bytes([two[0], two[1]]))
}

/// A face from its length on.
struct Entry<'a> {
    file: &'a [u8],
    number: u16,
    /// The end of the file.
    number_at: usize,
    end: usize,
}

impl<'a> Entry<'a> {
    /// Where the file or its font number lies past the end, the position of that.
    fn read(bytes: &'a [u8], length_at: usize) -> Result<Self, usize> {
        let rest = bytes.get(length_at..).ok_or(length_at)?;
        let (length, rest) = rest.split_first_chunk().ok_or(length_at)?;
        let length = u32::from_be_bytes(*length) as usize;
        let file = rest.get(..length).ok_or(length_at)?;
        let number_at = length_at + 4 + length;
        let (number, end) = match fonts_stated(file) {
            Some(_) => (read16(bytes, number_at).ok_or(number_at)?, number_at + 2),
            None => (0, number_at),
        };
        Ok(Self {
            file,
            number,
            number_at,
            end,
        })
    }
}

/// Compares the cases and writes `stdin` and `stdout` into the folder.
pub fn write(folder: &Path, cases: impl Iterator<Item = Case>) -> io::Result<Counts> {
    let mut stdin = Vec::new();
    let mut stdout = String::new();
    let mut harness = Harness::default();
    for case in cases {
        lists::put(&mut stdin, &case.bytes);
        for lines in compare(&mut harness, &case)? {
            stdout.push_str(&lines.indexed);
        }
    }
    lists::write(folder, &stdin, &stdout)?;
    Ok(harness.counts)
}

/// Compares the cases and keeps the counts alone.
pub fn compare_all(cases: impl Iterator<Item = Case>) -> io::Result<Counts> {
    let mut harness = Harness::default();
    for case in cases {
        compare(&mut harness, &case)?;
    }
    Ok(harness.counts)
}

/// A difference or a panic is an error that tells the job in hexadecimal digits.
pub fn compare(harness: &mut Harness, case: &Case) -> io::Result<[Lines; 2]> {
    let answer = panic::catch_unwind(AssertUnwindSafe(|| harness.compare(case)));
    let answer = answer.unwrap_or_else(|_| Err("a panic".into()));
    answer.map_err(|difference| {
        let (label, job) = (&case.label, hex(&case.bytes));
        io::Error::other(format!(
            "difference in job {label:?}: {difference}\njob {job}"
        ))
    })
}

impl Counts {
    /// The counts as lines.
    pub fn text(&self) -> String {
        let all = &self.all;
        format!(
            "{}{}{} families {}\nrequests {} lists as long as their most {}\n{}no difference\n",
            all.jobs_text(),
            all.asked.text(),
            all.faces_text(),
            self.families,
            all.requests,
            self.full,
            all.offers_text(),
        )
    }
}

#[cfg(test)]
mod tests {
    use super::*;
    use jobs::{counts::Differing, list};

    fn cases(seed: u64, count: usize) -> impl Iterator<Item = Case> {
        list::made()
            .into_iter()
            .chain(list::random(seed).take(count))
    }

    #[test]
    fn no_difference() {
        let counts = compare_all(cases(11, 3000)).unwrap().all;
        assert!(counts.accepted > 1000 && counts.collected > 1000);
        for number in (18..=27).chain([30, 31]).filter(|number| *number != 23) {
            assert!(counts.refused[number] > 10, "{number}");
        }
        // One font of each job that is refused with 31, and no other.
        assert_eq!(counts.asked.left_out, counts.refused[31]);
        assert!(counts.asked.fonts > counts.faces);
        // The readings are not the same thing.
        let Differing { faces, settings } = counts.differing;
        assert!(faces > 200 && settings > 200, "{faces} {settings}");
    }

    #[test]
    fn example_of_section_7() {
        let case = &list::made()[0];
        for lines in Harness::default().compare(case).unwrap() {
            assert_eq!(lines.printed, "requests 1\n0 0 1 - 0\n0 0 0 b 0\n");
            // Past a directory of two records, OS/2 and the head of cmap.
            let indexed = "requests 1\n0 0 1 - 0 134 0 0\n0 0 0 b 0 134 0 0\n";
            assert_eq!(lines.indexed, indexed);
        }
    }

    /// By hand: the first face leans right, the second left.
    #[test]
    fn both_sides() {
        let cases = list::made();
        let case = cases
            .iter()
            .find(|case| case.label == "readings, both sides");
        let lines = Harness::default().compare(case.unwrap()).unwrap();
        // The first family for oblique 12 and for -12; the default follows.
        let first = |lines: &Lines, request: usize| -> Vec<char> {
            let of_family = |line: &&str| line.starts_with(&format!("{request} 0 "));
            let all = lines.printed.lines().filter(of_family);
            all.map(|line| line.chars().nth(4).unwrap()).collect()
        };
        let [old, new] = &lines;
        assert_eq!((first(old, 3), first(old, 4)), (vec!['1'], vec!['0', '1']));
        assert_eq!((first(new, 3), first(new, 4)), (vec!['0'], vec!['1', '0']));
    }

    /// A wrong expectation is told.
    #[test]
    fn differences_are_told() {
        let mut case = list::made().swap_remove(0);
        case.expected = Expected::Refused(27, 0);
        assert!(compare_all([case].into_iter()).is_err());
    }
}
