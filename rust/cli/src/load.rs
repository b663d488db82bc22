//! From files and requests to a job, and from its offers back to the files.

use std::{
    collections::HashMap,
    hash::{DefaultHasher, Hasher},
    path::{Path, PathBuf},
};

use stemhook::{
    BuildError, FaceId, FontFile, Job, JobBuilder, Offer, Problem, Request, RequestId, limits,
};

use crate::{
    face::FaceInfo,
    failure::{Failure, failed, say},
    files::{self, Found, MOST_TOLD, Skipped, more},
    font::Font,
    options::Options,
    overrides::{names, names_file},
    progress::Progress,
    requests, sfnt,
    values::Asked,
    words::shown,
};

/// A face of the job.
pub struct Face {
    pub font: Font,
    /// What was read, after all overrides.
    pub info: FaceInfo,
    digest: u64,
}

impl Face {
    /// The bytes of its file, if it still is what was read; a font of a
    /// collection is taken out of it.
    pub fn bytes(&self) -> Result<Vec<u8>, String> {
        let bytes = files::read(&self.font.file)?;
        let same = digest(&bytes) == self.digest;
        let alone = match self.font.number {
            Some(number) if same => sfnt::taken_out(&bytes, number),
            _ => same.then_some(bytes),
        };
        alone.ok_or_else(|| "it has changed since it was read".into())
    }
}

fn digest(bytes: &[u8]) -> u64 {
    let mut hasher = DefaultHasher::new();
    hasher.write(bytes);
    hasher.finish()
}

/// A family of the job.
pub struct Family {
    pub folder: Option<PathBuf>,
    pub fallback: bool,
    pub faces: Vec<FaceId>,
}

/// An offer, and the number of its face.
pub struct Pick {
    pub face: usize,
    pub offer: Offer,
}

/// A job, and what it was made of.
pub struct Loaded {
    pub job: Job<'static>,
    pub faces: Vec<Face>,
    pub families: Vec<Family>,
    pub requests: Vec<Asked>,
    pub skipped: Vec<Skipped>,
}

impl Loaded {
    /// The offers of each request.
    pub fn picks(&self) -> Result<Vec<Vec<Pick>>, Failure> {
        self.job.requests().map(|id| self.of_request(id)).collect()
    }

    fn of_request(&self, id: RequestId) -> Result<Vec<Pick>, Failure> {
        let told = |refused| Failure::Failed(format!("request {id}: {refused}"));
        let mut picks = Vec::new();
        for offer in self.job.offers(id).map_err(told)? {
            let offer = offer.map_err(told)?;
            match self.job.font(&offer) {
                Some(font) if font.face.index() < self.faces.len() => picks.push(Pick {
                    face: font.face.index(),
                    offer,
                }),
                _ => return failed(format!("request {id}: an offer is of no face of the job")),
            }
        }
        Ok(picks)
    }
}

/// Reads the files and makes the job. Files that cannot be used are skipped, and
/// told of on standard error.
pub fn load(options: &Options) -> Result<Loaded, Failure> {
    let requests = requests::asked(options)?;
    let found = files::find(&options.inputs, options.recursive)?;
    are_there(options, &found)?;
    let mut loader = Loader::new(options);
    let mut progress = Progress::new(found.files(), options.quiet);
    for family in &found.families {
        loader.family(family, &mut progress)?;
    }
    drop(progress);
    loader.skipped.extend(found.skipped);
    if !options.quiet {
        tell(&loader.skipped, found.others);
    }
    is_usable(loader.faces.len(), &loader.skipped)?;
    loader.finish(requests)
}

/// Whether each file that an option names is among those found.
pub fn are_there(options: &Options, found: &Found) -> Result<(), Failure> {
    let overrides = options.overrides.iter();
    let named = overrides
        .map(|given| ("--override", &given.file))
        .chain(options.not_held.iter().map(|file| ("--not-held", file)));
    let files: Vec<&Font> = found.families.iter().flat_map(|f| &f.files).collect();
    for (option, name) in named {
        if !files.iter().any(|file| is_of(name, file)) {
            let name = shown(name);
            return failed(format!("{option} {name}: no such file is among the fonts"));
        }
    }
    Ok(())
}

/// Whether a name is that of a file or of a font in it. Which numbers it has is
/// read from the file.
fn is_of(name: &Path, file: &Font) -> bool {
    let one = || Font::numbered(name).is_some_and(|one| names_file(&one.file, &file.file));
    let named = |bytes: Vec<u8>| file.each(&bytes).iter().any(|font| names(name, font));
    names(name, file) || (one() && files::read(&file.file).is_ok_and(named))
}

/// Tells of what is not used.
fn tell(skipped: &[Skipped], others: usize) {
    let tell = |name, reason: &str| say(&format!("stemhook: skipped {name}: {reason}"));
    for of_file in skipped.chunk_by(|one, next| one.font.file == next.font.file) {
        for Skipped { font, reason, .. } in of_file.iter().take(MOST_TOLD) {
            tell(font.shown(), reason);
        }
        if of_file.len() > MOST_TOLD {
            let name = shown(&of_file[0].font.file);
            tell(name, &more(of_file.len() - MOST_TOLD));
        }
    }
    if others > 0 {
        say(&format!("stemhook: {} passed over", other_files(others)));
    }
}

pub fn other_files(others: usize) -> String {
    let plural = if others == 1 { "" } else { "s" };
    format!("{others} file{plural} without a font's ending")
}

/// A failure where no face can be used, with the first reason.
pub fn is_usable(faces: usize, skipped: &[Skipped]) -> Result<(), Failure> {
    match skipped {
        _ if faces > 0 => Ok(()),
        [] => failed("no font can be used"),
        [first, more @ ..] => {
            let and = match more.len() {
                0 => String::new(),
                count => format!(" (and {count} more)"),
            };
            let (font, reason) = (first.font.shown(), &first.reason);
            failed(format!("no font can be used: {font}: {reason}{and}"))
        }
    }
}

/// What is wrong with a font; none where the error is about the job.
pub fn fault(error: &BuildError, font: &Font) -> Option<Skipped> {
    match error.problem() {
        Problem::Font { refusal, fault } => Some(Skipped {
            font: font.clone(),
            refusal: Some(refusal.number()),
            reason: fault.to_string(),
        }),
        Problem::FontTooLong => Some(Skipped::new(font, error.problem().to_string())),
        _ => None,
    }
}

/// An error that is about the job, with what it is about.
fn about(name: &str, error: &BuildError) -> Failure {
    Failure::Failed(match error.problem() {
        // A section of the job; a list inside an entry is named as it is.
        Problem::TooMany { limit } if !error.field().contains('[') => {
            format!("{name}: a job has at most {limit} {}", error.field())
        }
        Problem::TooLong => format!("{name}: {}", error.problem()),
        _ => format!("{name}: {error}"),
    })
}

/// That a family is too large, with the file of the most fonts if it is a
/// collection.
fn too_many(family: &str, (fonts, file): (usize, String)) -> String {
    let limit = format!(
        "{family}: a family has at most {} faces",
        limits::FAMILY_FACES
    );
    if fonts > 1 {
        return format!(
            "{limit}, and {file} has {fonts} fonts: name fewer files, or single fonts as FILE#N"
        );
    }
    format!("{limit}: name fewer files")
}

struct Loader<'a> {
    options: &'a Options,
    builder: JobBuilder,
    faces: Vec<Face>,
    families: Vec<Family>,
    skipped: Vec<Skipped>,
    /// What became of each file and of each font by its number: a font that
    /// stands in two families is one face.
    known: HashMap<Font, Known>,
}

/// A file or a font: how many fonts it has, and the faces of those that can be
/// used.
#[derive(Clone, Default)]
struct Known {
    fonts: usize,
    faces: Vec<FaceId>,
}

impl<'a> Loader<'a> {
    fn new(options: &'a Options) -> Self {
        Self {
            options,
            builder: JobBuilder::new(),
            faces: Vec::new(),
            families: Vec::new(),
            skipped: Vec::new(),
            known: HashMap::new(),
        }
    }

    fn family(&mut self, family: &files::Family, progress: &mut Progress) -> Result<(), Failure> {
        let mut faces = Vec::new();
        // The most fonts of a file.
        let mut most = (0, String::new());
        for file in &family.files {
            progress.step(&file.file);
            let known = self.file(file)?;
            most = most.max((known.fonts, file.name()));
            faces.extend(known.faces);
            if faces.len() > limits::FAMILY_FACES {
                let name = shown(family.folder.as_ref().unwrap_or(&file.file));
                return failed(too_many(&name, most));
            }
        }
        self.families.push(Family {
            folder: family.folder.clone(),
            fallback: family.fallback,
            faces,
        });
        Ok(())
    }

    /// Adds the faces of a file's fonts, or says why it is skipped. Faces past
    /// those of a family are not looked for.
    fn file(&mut self, file: &Font) -> Result<Known, Failure> {
        if let Some(known) = self.known.get(file) {
            return Ok(known.clone());
        }
        let mut known = Known::default();
        match files::read(&file.file) {
            Ok(bytes) => {
                self.skipped.extend(Skipped::over_numbered(file, &bytes));
                let digest = digest(&bytes);
                let fonts = file.each(&bytes);
                known.fonts = fonts.len();
                for font in fonts {
                    known.faces.extend(self.font(font, &bytes, digest)?);
                    if known.faces.len() > limits::FAMILY_FACES {
                        break;
                    }
                }
            }
            Err(reason) => self.skipped.push(Skipped::new(file, reason)),
        }
        self.known.insert(file.clone(), known.clone());
        Ok(known)
    }

    /// Adds the face of a font that was not met before, or says why it is skipped.
    fn font(&mut self, font: Font, bytes: &[u8], digest: u64) -> Result<Vec<FaceId>, Failure> {
        if let Some(known) = self.known.get(&font) {
            return Ok(known.faces.clone());
        }
        let name = font.shown();
        let mut given = FontFile::new(bytes).number(font.index()).named(&name);
        if self.options.not_held.iter().any(|name| names(name, &font)) {
            given = given.not_held();
        }
        if self.options.whole {
            given = given.whole();
        }
        let mut faces = Vec::new();
        match self.builder.face(given) {
            Ok(face) => {
                let info = self.overridden(&font, bytes, face)?;
                self.faces.push(Face {
                    font: font.clone(),
                    info,
                    digest,
                });
                faces.push(face);
            }
            Err(error) => match fault(&error, &font) {
                Some(skipped) => self.skipped.push(skipped),
                None => return Err(about(&name, &error)),
            },
        }
        let known = Known {
            fonts: 1,
            faces: faces.clone(),
        };
        self.known.insert(font, known);
        Ok(faces)
    }

    /// Applies the overrides of a face that the builder has taken.
    fn overridden(&mut self, font: &Font, bytes: &[u8], face: FaceId) -> Result<FaceInfo, Failure> {
        let Some(mut info) = FaceInfo::of(bytes, self.options.reading, font.index()) else {
            return failed(differs(font));
        };
        for given in &self.options.overrides {
            if names(&given.file, font) {
                let done = self.builder.override_face(face, &given.given);
                done.map_err(|error| about(&font.shown(), &error))?;
                info.apply(&given.given);
            }
        }
        Ok(info)
    }

    /// The job of all families, with the requests.
    fn finish(mut self, requests: Vec<Asked>) -> Result<Loaded, Failure> {
        let mut request = Request::default();
        for family in &self.families {
            let name = family.folder.as_ref().map_or("files".into(), shown);
            let added = self.builder.family(&family.faces);
            let id = added.map_err(|error| about(&name, &error))?;
            let list = if family.fallback {
                &mut request.fallbacks
            } else {
                &mut request.families
            };
            list.push(id);
        }
        for asked in &requests {
            request.most = asked.most;
            request.attributes = asked.attributes;
            let added = self.builder.request(&request);
            added.map_err(|error| about(&asked.words(), &error))?;
        }
        let built = self.builder.build();
        let job = built.map_err(|error| about("the job", &error))?;
        Ok(Loaded {
            job: job.with_reading(self.options.reading),
            faces: self.faces,
            families: self.families,
            requests,
            skipped: self.skipped,
        })
    }
}

/// The picker takes a font that the package `plain` refuses. The two are compared
/// so that this does not arise.
pub fn differs(font: &Font) -> String {
    let font = font.shown();
    format!("{font}: the picker and the package plain differ on this font")
}
