//! The command `specimen`: writes a page that shows the offers.

use std::path::Path;

use crate::{
    failure::{Failure, say},
    load::load,
    options::Options,
    output,
    page::Page,
    words::shown,
};

/// The text where none is given.
const TEXT: &str = "Sphinx of black quartz, judge my vow";

pub fn run(options: &Options) -> Result<(), Failure> {
    let loaded = load(options)?;
    let target = options.output.as_deref().unwrap_or(Path::new("-"));
    output::is_no_input(target, options, &loaded)?;
    let text = options.text.as_deref().unwrap_or(TEXT);
    let picks = loaded.picks()?;
    let page = Page::new(text, &loaded, &picks);
    output::whole(target, |out| page.write(out))?;
    if !options.quiet {
        say(&format!("stemhook: {}: {}", shown(target), page.told()));
    }
    Ok(())
}
