//! Two builds of the exported calls in one run, each from a shared object, so
//! that both are called in the same way.

use std::{
    ffi::{CString, c_char, c_int, c_void},
    hint::black_box,
    mem,
};

use crate::{
    Asked, Output, READING, Which, asked_sizes, calls,
    measure::{Measured, rounds},
    ratio, stack, time, which_of,
};
use stemhook::limits::OFFER_BYTES;

type Check = unsafe extern "C" fn(*const u8, usize) -> u64;
type Read = unsafe extern "C" fn(*const u8, usize, u32, u32, u32, *mut u8, usize) -> u32;
type Unread = unsafe extern "C" fn(*const u8, usize, u32, u32, *mut u8, usize) -> u32;

/// The offer call, with a reading or without one.
#[derive(Copy, Clone)]
enum Offer {
    Read(Read),
    Unread(Unread),
}

unsafe extern "C" {
    fn dlopen(path: *const c_char, flags: c_int) -> *mut c_void;
    fn dlsym(library: *mut c_void, name: *const c_char) -> *mut c_void;
}

/// Resolve all symbols at once.
const RTLD_NOW: c_int = 2;

/// The exported calls of one build. It stays loaded.
#[derive(Copy, Clone)]
struct Build {
    check: Check,
    offer: Offer,
}

impl Build {
    /// Loads a build; its offer call takes no reading where it is an old one.
    fn open(path: &str, old: bool) -> Result<Self, String> {
        let name = CString::new(path).map_err(|error| error.to_string())?;
        // SAFETY: a path that ends in zero.
        let library = unsafe { dlopen(name.as_ptr(), RTLD_NOW) };
        if library.is_null() {
            return Err(format!("{path}: cannot be loaded"));
        }
        let symbol = |name: &std::ffi::CStr| {
            // SAFETY: a library that was loaded, and a name that ends in zero.
            let found = unsafe { dlsym(library, name.as_ptr()) };
            match found.is_null() {
                true => Err(format!("{path}: no {}", name.to_string_lossy())),
                false => Ok(found),
            }
        };
        let (check, offer) = (symbol(c"stemhook_check")?, symbol(c"stemhook_offer")?);
        // SAFETY: the two calls as the build's stemhook.h declares them.
        Ok(unsafe {
            Self {
                check: mem::transmute::<*mut c_void, Check>(check),
                offer: match old {
                    true => Offer::Unread(mem::transmute::<*mut c_void, Unread>(offer)),
                    false => Offer::Read(mem::transmute::<*mut c_void, Read>(offer)),
                },
            }
        })
    }

    fn check(self, job: &[u8]) -> u64 {
        // SAFETY: the call reads the job and nothing else.
        unsafe { (self.check)(job.as_ptr(), job.len()) }
    }

    fn offer(self, job: &[u8], request: u32, number: u32, out: &mut Output) -> u32 {
        let (start, length) = (job.as_ptr(), job.len());
        let (output, size) = (out.as_mut_ptr(), out.len());
        // SAFETY: the call reads the job and writes the output.
        unsafe {
            match self.offer {
                Offer::Read(call) => call(start, length, READING, request, number, output, size),
                Offer::Unread(call) => call(start, length, request, number, output, size),
            }
        }
    }

    fn batch(self, job: &[u8], calls: &[(u32, u32)], out: &mut Output) {
        for (request, number) in calls {
            black_box(self.offer(black_box(job), *request, *number, black_box(out)));
        }
    }

    fn stack(self, asked: &Asked) -> usize {
        let calls: Vec<(u32, u32)> = [Which::First, Which::Last, Which::Past]
            .into_iter()
            .flat_map(|which| calls(asked, which))
            .collect();
        let mut out = [0; OFFER_BYTES];
        stack::used(&mut || self.batch(&asked.job, &calls, &mut out))
    }
}

/// That both give the same answer and bytes for every offer that is asked for.
fn agree(builds: [Build; 2], asked: &Asked) -> Result<(), String> {
    for (request, offers) in &asked.lists {
        for number in 0..=*offers {
            let answer = |build: Build| {
                let mut out = [0x5a; OFFER_BYTES];
                let result = build.offer(&asked.job, *request, number, &mut out);
                (result, out)
            };
            let [before, after] = builds.map(answer);
            if before != after {
                return Err(format!("request {request}, offer {number}: the two differ"));
            }
        }
    }
    Ok(())
}

/// The later build first, as `rounds` gives the ratios of the first side.
fn offers(builds: [Build; 2], asked: &Asked, which: Which, count: usize) -> Measured {
    let calls = calls(asked, which);
    let (mut one, mut other) = ([0; OFFER_BYTES], [0; OFFER_BYTES]);
    let [before, after] = builds;
    rounds(
        count,
        calls.len(),
        &mut [
            &mut || after.batch(&asked.job, &calls, &mut one),
            &mut || before.batch(&asked.job, &calls, &mut other),
        ],
    )
}

fn checks(builds: [Build; 2], asked: &Asked, count: usize) -> Measured {
    let [before, after] = builds;
    let job = &asked.job[..];
    rounds(
        count,
        1,
        &mut [
            &mut || {
                black_box(after.check(black_box(job)));
            },
            &mut || {
                black_box(before.check(black_box(job)));
            },
        ],
    )
}

fn row(label: &str, measured: &Measured) {
    println!(
        "| {label} | {} | {} | {} |",
        time(measured.times[1]),
        time(measured.times[0]),
        ratio(measured.ratios[1]),
    );
}

/// The tables of two shared objects, the earlier build first, and whether that
/// is an old one.
pub fn tables((before, old): (&str, bool), after: &str, count: usize) -> Result<(), String> {
    let builds = [Build::open(before, old)?, Build::open(after, false)?];
    let sizes = asked_sizes()?;
    println!("{count} rounds; median, quarters in brackets.\n");
    println!("| Call | Before | After | After / before |\n|---|---|---|---|");
    for (size, asked) in &sizes {
        agree(builds, asked)?;
        for (which, name) in which_of(size) {
            let label = format!("{}, {name}", size.label);
            row(&label, &offers(builds, asked, which, count));
        }
    }
    for (size, asked) in &sizes {
        let label = format!("{}, check", size.label);
        row(&label, &checks(builds, asked, count));
    }
    println!("\n| Stack of one offer call | Before, bytes | After, bytes |\n|---|---|---|");
    for (size, asked) in &sizes {
        let [before, after] = builds.map(|build| build.stack(asked));
        println!("| {} | {before} | {after} |", size.label);
    }
    Ok(())
}
