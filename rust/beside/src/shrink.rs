//! Smaller inputs that still differ. One is made at a time, and fonts are
//! borrowed from the job where its parts are dropped, so that no more is held
//! than the least input and the one that is tried.

use std::{ops::Range, panic};

use jobs::{
    families,
    font_list::Entry,
    layout::{self, Job},
};

/// How much is tried for one difference.
struct Budget {
    tries: usize,
    /// Bytes of all that is tried.
    bytes: usize,
}

impl Budget {
    const fn new(tries: usize) -> Self {
        Self {
            tries,
            bytes: 1 << 32,
        }
    }

    /// Whether an input of so many bytes may still be tried.
    fn spend(&mut self, bytes: usize) -> bool {
        let enough = self.tries > 0 && self.bytes >= bytes;
        if enough {
            self.tries -= 1;
            self.bytes -= bytes;
        }
        enough
    }
}

/// What is said beside a difference: nothing where the least input differs
/// when it is run by itself.
pub const fn alone(differs: bool) -> &'static str {
    if differs {
        ""
    } else {
        " (in its list; run alone it has none)"
    }
}

/// Most inputs that are tried in the parts of a job, and in its bytes.
const TRIES: usize = 4000;

/// An input that can be made smaller.
trait Input: Sized {
    fn size(&self) -> usize;

    /// The next ones to try, each made when it is asked for.
    fn smaller(&self) -> Box<dyn Iterator<Item = Self> + '_>;
}

/// Drops parts while the difference stays: the first smaller input that
/// differs is gone on with.
fn descend<T: Input>(start: T, mut budget: Budget, differs: &mut dyn FnMut(&T) -> bool) -> T {
    let mut least = start;
    loop {
        let mut tried = least.smaller();
        let next = loop {
            match tried.next() {
                Some(next) if !budget.spend(next.size()) => break None,
                Some(next) if differs(&next) => break Some(next),
                Some(_) => {}
                None => break None,
            }
        };
        drop(tried);
        match next {
            Some(next) => least = next,
            None => return least,
        }
    }
}

/// Half of a length, a quarter, and so on down to 1.
fn sizes(length: usize) -> impl Iterator<Item = usize> {
    let first = (length > 0).then(|| length.div_ceil(2));
    std::iter::successors(first, |size| (*size > 1).then(|| size.div_ceil(2)))
}

/// What may be cut out of a list: each half, quarter, and so on down to each item.
fn cuts(length: usize) -> impl Iterator<Item = Range<usize>> {
    sizes(length).flat_map(move |size| {
        let starts = (0..length).step_by(size);
        starts.map(move |start| start..(start + size).min(length))
    })
}

impl Input for Vec<u8> {
    fn size(&self) -> usize {
        self.len()
    }

    fn smaller(&self) -> Box<dyn Iterator<Item = Self> + '_> {
        Box::new(cuts(self.len()).map(|cut| [&self[..cut.start], &self[cut.end..]].concat()))
    }
}

/// A smaller job that differs still, in parts if it has them, then in bytes.
pub fn job(bytes: &[u8], differs: impl Fn(&[u8]) -> bool) -> Vec<u8> {
    let hook = panic::take_hook();
    panic::set_hook(Box::new(|_| {}));
    let least = match layout::parts(bytes) {
        Some(job) if layout::write(&job).bytes == bytes => {
            let mut differs = |job: &Job<&[u8]>| differs(&layout::write(job).bytes);
            layout::write(&descend(job, Budget::new(TRIES), &mut differs)).bytes
        }
        _ => bytes.to_vec(),
    };
    let least = descend(least, Budget::new(TRIES), &mut |bytes: &Vec<u8>| {
        differs(bytes)
    });
    panic::set_hook(hook);
    least
}

/// A copy with a change; of the fonts only the places are copied.
fn changed<T: Clone>(input: &T, change: impl FnOnce(&mut T)) -> T {
    let mut next = input.clone();
    change(&mut next);
    next
}

impl Input for Job<&[u8]> {
    fn size(&self) -> usize {
        self.faces.iter().map(|face| face.font.len()).sum()
    }

    fn smaller(&self) -> Box<dyn Iterator<Item = Self> + '_> {
        let requests = cuts(self.requests.len())
            .map(|cut| changed(self, |next| drop(next.requests.drain(cut))));
        let overrides = cuts(self.overrides.len())
            .map(|cut| changed(self, |next| drop(next.overrides.drain(cut))));
        let families = cuts(self.families.len())
            .map(|cut| changed(self, |next| drop(next.families.drain(cut))));
        let faces = (0..self.faces.len())
            .rev()
            .map(|face| changed(self, |next| drop_face(next, face as u16)));
        let whole = requests.chain(overrides).chain(families).chain(faces);
        Box::new(whole.chain(shorter_lists(self)).chain(shorter_fonts(self)))
    }
}

/// The lists inside of families, requests and overrides.
fn shorter_lists<'a, 'f>(job: &'a Job<&'f [u8]>) -> impl Iterator<Item = Job<&'f [u8]>> + 'a {
    let places = (0..job.families.len()).flat_map(move |i| {
        cuts(job.families[i].len())
            .map(move |cut| changed(job, |next| drop(next.families[i].drain(cut))))
    });
    let families = (0..job.requests.len()).flat_map(move |i| {
        cuts(job.requests[i].families.len())
            .map(move |cut| changed(job, |next| drop(next.requests[i].families.drain(cut))))
    });
    let fallbacks = (0..job.requests.len()).flat_map(move |i| {
        cuts(job.requests[i].fallbacks.len())
            .map(move |cut| changed(job, |next| drop(next.requests[i].fallbacks.drain(cut))))
    });
    let pairs = (0..job.overrides.len()).flat_map(move |i| {
        cuts(job.overrides[i].pairs.len())
            .map(move |cut| changed(job, |next| drop(next.overrides[i].pairs.drain(cut))))
    });
    places.chain(families).chain(fallbacks).chain(pairs)
}

/// Fonts without their last half, quarter, and so on down to the last byte.
fn shorter_fonts<'a, 'f>(job: &'a Job<&'f [u8]>) -> impl Iterator<Item = Job<&'f [u8]>> + 'a {
    (0..job.faces.len()).flat_map(move |i| {
        let font = job.faces[i].font;
        sizes(font.len()).map(move |size| {
            let shorter = &font[..font.len() - size];
            changed(job, |next| next.faces[i].font = shorter)
        })
    })
}

/// Takes a face away, with its overrides and places.
fn drop_face<F>(job: &mut Job<F>, face: u16) {
    let renumber = |number: &mut u16| {
        if *number > face {
            *number -= 1;
        }
    };
    job.faces.remove(usize::from(face));
    job.overrides.retain(|given| given.face != face);
    for given in &mut job.overrides {
        renumber(&mut given.face);
    }
    for places in &mut job.families {
        places.retain(|place| *place != face);
        places.iter_mut().for_each(renumber);
    }
}

/// A smaller family that differs still.
pub fn family(
    case: &families::Case,
    mut differs: impl FnMut(&families::Case) -> bool,
) -> families::Case {
    descend(case.clone(), Budget::new(TRIES / 4), &mut differs)
}

impl Input for families::Case {
    /// Small whatever it holds.
    fn size(&self) -> usize {
        self.faces.len()
    }

    /// A family has at least one face.
    fn smaller(&self) -> Box<dyn Iterator<Item = Self> + '_> {
        let faces = cuts(self.faces.len())
            .filter(|cut| cut.len() < self.faces.len())
            .map(|cut| changed(self, |next| drop(next.faces.drain(cut))));
        let axes = (0..self.faces.len()).flat_map(move |i| {
            cuts(self.faces[i].axes.len())
                .map(move |cut| changed(self, |next| drop(next.faces[i].axes.drain(cut))))
        });
        Box::new(faces.chain(axes))
    }
}

/// Of a file what is not dropped may become zero, and so may the reading and
/// the font number.
impl Input for Entry {
    fn size(&self) -> usize {
        self.file.len()
    }

    fn smaller(&self) -> Box<dyn Iterator<Item = Self> + '_> {
        let file = &self.file;
        let shorter = file
            .smaller()
            .map(|file| Self::new(&file, self.reading, self.number));
        let set = (0..file.len()).filter(|at| file[*at] != 0);
        let zeros = set.map(|at| changed(self, |next| next.file[at] = 0));
        let old = (self.reading != 0).then(|| changed(self, |next| next.reading = 0));
        let first = (self.number != 0).then(|| changed(self, |next| next.number = 0));
        Box::new(shorter.chain(old).chain(first).chain(zeros))
    }
}

/// A shorter file that differs still, or one with more zeros.
pub fn font(font: &Entry, mut differs: impl FnMut(&Entry) -> bool) -> Entry {
    descend(font.clone(), Budget::new(TRIES / 2), &mut differs)
}

#[cfg(test)]
mod tests {
    use std::{cell::Cell, rc::Rc};

    use super::*;
    use jobs::{generate, random::Random};

    #[test]
    fn halves_and_items() {
        let cuts_of = |length| -> Vec<Range<usize>> { cuts(length).collect() };
        assert_eq!(cuts_of(3), [0..2, 2..3, 0..1, 1..2, 2..3]);
        assert_eq!(cuts_of(2), [0..1, 1..2]);
        assert_eq!(cuts_of(1).len(), 1);
        assert_eq!(cuts_of(0), []);
    }

    /// What makes the difference stays, the rest goes.
    #[test]
    fn fonts_shrink() {
        let bytes: Vec<u8> = (0..200).collect();
        let start = Entry::new(&bytes, 1, 300);
        let least = font(&start, |Entry { file, .. }| {
            file.contains(&7) && file.contains(&150)
        });
        assert_eq!(least, Entry::new(&[7, 150], 0, 0));
        let numbered = font(&start, |font| font.file.len() > 3 && font.number > 4);
        assert_eq!(numbered, Entry::new(&[0; 4], 0, 300));
        let read = font(&start, |font| font.reading == 1);
        assert_eq!(read, Entry::new(&[], 1, 0));
    }

    #[test]
    fn jobs_keep_their_layout_without_a_face() {
        let mut r = Random::new(9);
        for _ in 0..200 {
            let mut job = generate::job(&mut r);
            if job.faces.is_empty() {
                continue;
            }
            drop_face(&mut job, 0);
            let count = job.faces.len() as u16;
            assert!(job.families.iter().flatten().all(|place| *place < count));
            assert!(job.overrides.iter().all(|given| given.face < count));
        }
    }

    /// A list of the most items that were alive at once.
    struct Counted {
        items: usize,
        alive: Rc<Cell<(usize, usize)>>,
    }

    impl Counted {
        fn new(items: usize, alive: &Rc<Cell<(usize, usize)>>) -> Self {
            let (now, most) = alive.get();
            alive.set((now + 1, most.max(now + 1)));
            let alive = Rc::clone(alive);
            Self { items, alive }
        }
    }

    impl Drop for Counted {
        fn drop(&mut self) {
            let (now, most) = self.alive.get();
            self.alive.set((now - 1, most));
        }
    }

    impl Input for Counted {
        fn size(&self) -> usize {
            self.items
        }

        fn smaller(&self) -> Box<dyn Iterator<Item = Self> + '_> {
            let items = cuts(self.items).map(|cut| self.items - cut.len());
            Box::new(items.map(|items| Self::new(items, &self.alive)))
        }
    }

    /// The least input and the one that is tried: never a third.
    #[test]
    fn two_are_alive() {
        let alive = Rc::new(Cell::new((0, 0)));
        let start = Counted::new(1000, &alive);
        let mut tries = 0;
        let least = descend(start, Budget::new(TRIES), &mut |next| {
            tries += 1;
            next.items >= 77
        });
        assert_eq!(least.items, 77);
        assert!(tries > 100, "{tries}");
        assert_eq!(alive.get(), (1, 2));
    }

    /// Neither inputs nor bytes are tried without an end.
    #[test]
    fn budgets_end() {
        for (budget, most) in [
            (Budget::new(10), 10),
            (
                Budget {
                    tries: 1000,
                    bytes: 5000,
                },
                8,
            ),
        ] {
            let mut tries = 0;
            let least = descend(vec![0; 1000], budget, &mut |_| {
                tries += 1;
                false
            });
            assert_eq!((least.len(), tries <= most, tries > 5), (1000, true, true));
        }
    }
}
