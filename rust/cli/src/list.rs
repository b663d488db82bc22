//! The command `list`: what was read of each face.

use std::io::{self, BufWriter, IsTerminal, Write};

use stemhook::{FontFile, JobBuilder};

use crate::{
    face::FaceInfo,
    failure::Failure,
    files::{self, Family, MOST_TOLD, Skipped, more},
    font::Font,
    json::Json,
    load::{are_there, differs, fault, is_usable, other_files},
    options::Options,
    overrides::names,
    pick::{font_json, reading_json, skipped_json},
    progress::Progress,
    words::shown,
};

pub fn run(options: &Options) -> Result<(), Failure> {
    let found = files::find(&options.inputs, options.recursive)?;
    are_there(options, &found)?;
    // On a terminal, the list itself says how far it is.
    let quiet = options.quiet || io::stdout().is_terminal();
    let mut list = List {
        options,
        out: BufWriter::new(io::stdout().lock()),
        faces: 0,
        skipped: Vec::new(),
    };
    let mut progress = Progress::new(found.files(), quiet);
    let done = (|| {
        list.start()?;
        for family in &found.families {
            list.family(family, &mut progress)?;
        }
        for skipped in found.skipped {
            list.skip("", skipped)?;
        }
        drop(progress);
        list.end(found.others)
    })();
    done.map_err(Failure::Output)?;
    is_usable(list.faces, &list.skipped)
}

/// A list that is being written.
struct List<'a, W> {
    options: &'a Options,
    out: W,
    faces: usize,
    skipped: Vec<Skipped>,
}

impl<W: Write> List<'_, W> {
    fn start(&mut self) -> io::Result<()> {
        if self.options.json {
            let reading = reading_json(self.options.reading).spread(0);
            write!(self.out, "{{\n  \"reading\": {reading},\n  \"faces\": [")?;
        }
        Ok(())
    }

    fn family(&mut self, family: &Family, progress: &mut Progress) -> io::Result<()> {
        let mut indent = "";
        if let (Some(folder), false) = (&family.folder, self.options.json) {
            writeln!(self.out, "{}:", shown(folder))?;
            indent = "  ";
        }
        for file in &family.files {
            progress.step(&file.file);
            match files::read(&file.file) {
                Ok(bytes) => self.file(indent, file, &bytes)?,
                Err(reason) => self.skip(indent, Skipped::new(file, reason))?,
            }
        }
        Ok(())
    }

    /// The fonts of a file.
    fn file(&mut self, indent: &str, file: &Font, bytes: &[u8]) -> io::Result<()> {
        if let Some(skipped) = Skipped::over_numbered(file, bytes) {
            self.skip(indent, skipped)?;
        }
        let told = self.skipped.len() + MOST_TOLD;
        for font in file.each(bytes) {
            match self.read(&font, bytes) {
                Ok((own, after)) => self.face(indent, &font, &own, after.as_ref())?,
                Err(skipped) if self.skipped.len() < told => self.skip(indent, skipped)?,
                Err(skipped) => self.skipped.push(skipped),
            }
        }
        if self.skipped.len() > told && !self.options.json {
            let more = more(self.skipped.len() - told);
            writeln!(self.out, "{indent}{}: {more}", name(indent, file))?;
        }
        Ok(())
    }

    /// What a font says, and what it is after the overrides, if there are any.
    fn read(&self, font: &Font, bytes: &[u8]) -> Result<(FaceInfo, Option<FaceInfo>), Skipped> {
        let number = font.index();
        // Whether it can be used is the picker's word.
        if let Err(error) = JobBuilder::new().face(FontFile::new(bytes).number(number)) {
            let other = || Skipped::new(font, error.to_string());
            return Err(fault(&error, font).unwrap_or_else(other));
        }
        let own = FaceInfo::of(bytes, self.options.reading, number);
        let own = own.ok_or_else(|| Skipped::new(font, differs(font)))?;
        let mut after = None;
        for given in &self.options.overrides {
            if names(&given.file, font) {
                after.get_or_insert_with(|| own.clone()).apply(&given.given);
            }
        }
        Ok((own, after))
    }

    fn face(
        &mut self,
        indent: &str,
        font: &Font,
        own: &FaceInfo,
        after: Option<&FaceInfo>,
    ) -> io::Result<()> {
        if self.options.json {
            let comma = if self.faces == 0 { "" } else { "," };
            let mut face = font_json(font);
            face.push(("read", own.json()));
            face.push(("overridden", after.map_or(Json::Null, FaceInfo::json)));
            let face = Json::Object(face);
            write!(self.out, "{comma}\n    {}", face.spread(0))?;
        } else {
            let name = name(indent, font);
            writeln!(self.out, "{indent}{name}: {}", own.words())?;
            if let Some(after) = after {
                writeln!(self.out, "{indent}  after overrides: {}", after.words())?;
            }
        }
        self.faces += 1;
        Ok(())
    }

    fn skip(&mut self, indent: &str, skipped: Skipped) -> io::Result<()> {
        if !self.options.json {
            let name = name(indent, &skipped.font);
            writeln!(self.out, "{indent}{name}: unusable: {}", skipped.reason)?;
        }
        self.skipped.push(skipped);
        Ok(())
    }

    fn end(&mut self, others: usize) -> io::Result<()> {
        if self.options.json {
            let skipped = self.skipped.iter().map(skipped_json).collect();
            let skipped = Json::List(skipped).spread(1).replace('\n', "\n  ");
            let end = if self.faces == 0 { "" } else { "\n  " };
            write!(self.out, "{end}],\n  \"skipped\": {skipped},\n")?;
            writeln!(self.out, "  \"passedOver\": {others}\n}}")?;
        } else {
            let plural = if self.faces == 1 { "" } else { "s" };
            write!(self.out, "{} face{plural}", self.faces)?;
            write!(self.out, ", {} unusable", self.skipped.len())?;
            if others > 0 {
                write!(self.out, ", {} passed over", other_files(others))?;
            }
            writeln!(self.out)?;
        }
        self.out.flush()
    }
}

/// A font's name below its folder's, or with its path.
fn name(indent: &str, font: &Font) -> String {
    if indent.is_empty() {
        font.shown()
    } else {
        font.name()
    }
}
