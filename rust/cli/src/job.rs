//! The command `job`: writes a job's bytes.

use std::path::Path;

use crate::{
    failure::{Failure, say},
    load::{Loaded, load},
    options::Options,
    output,
    words::shown,
};

/// Most bytes that the program `offers` reads.
const OFFERS_BYTES: usize = 65_536;

pub fn run(options: &Options) -> Result<(), Failure> {
    let loaded = load(options)?;
    let target = options.output.as_deref().unwrap_or(Path::new("-"));
    output::is_no_input(target, options, &loaded)?;
    let bytes = loaded.job.as_bytes();
    output::whole(target, |out| Ok(out.write_all(bytes)?))?;
    if !options.quiet {
        say(&format!("stemhook: {}: {}", shown(target), told(&loaded)));
    }
    Ok(())
}

fn told(loaded: &Loaded) -> String {
    let length = loaded.job.as_bytes().len();
    let mut told = format!(
        "{length} bytes, faces {}, families {}, requests {}",
        loaded.faces.len(),
        loaded.families.len(),
        loaded.requests.len()
    );
    if length > OFFERS_BYTES {
        told += &format!("; the program offers reads up to {OFFERS_BYTES} bytes, not this job");
    }
    told
}
