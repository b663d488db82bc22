//! The command `pick`: the offers of each request.

use stemhook::Reading;

use crate::{
    face::{attributes_json, charmap_json, charmap_words},
    failure::Failure,
    files::Skipped,
    font::Font,
    json::Json,
    load::{Family, Loaded, Pick, load},
    options::Options,
    output,
    values::{Asked, reading_word},
};

pub fn run(options: &Options) -> Result<(), Failure> {
    let loaded = load(options)?;
    let picks = loaded.picks()?;
    let said = if options.json {
        json(&loaded, &picks).spread(4) + "\n"
    } else {
        text(&loaded, &picks)
    };
    output::print(&said)
}

fn text(loaded: &Loaded, picks: &[Vec<Pick>]) -> String {
    let mut text = String::new();
    for (number, (asked, picks)) in loaded.requests.iter().zip(picks).enumerate() {
        text += &format!("request {number}: {}\n", asked.words());
        for pick in picks {
            text += &format!("  {}\n", line(loaded, pick));
        }
        if picks.is_empty() {
            text += "  no face is offered\n";
        }
    }
    text
}

fn line(loaded: &Loaded, pick: &Pick) -> String {
    let font = loaded.faces.get(pick.face).map(|face| face.font.shown());
    let done = done(pick).join(", ");
    let charmap = charmap_words(&pick.offer.charmap);
    format!("{}: {done}; {charmap}", font.unwrap_or_default())
}

/// What is to be done to the face of an offer.
pub fn done(pick: &Pick) -> Vec<String> {
    let settings = pick.offer.settings.iter();
    let mut done: Vec<String> = settings
        .map(|setting| format!("{}={}", setting.tag, setting.value))
        .collect();
    if pick.offer.embolden {
        done.push("embolden".into());
    }
    if pick.offer.skew != 0 {
        done.push(format!("skew {}", pick.offer.skew));
    }
    if done.is_empty() {
        done.push("as it is".into());
    }
    done
}

fn json(loaded: &Loaded, picks: &[Vec<Pick>]) -> Json {
    let families = loaded.families.iter();
    let requests = loaded.requests.iter().zip(picks);
    Json::Object(vec![
        ("reading", reading_json(loaded.job.reading())),
        (
            "families",
            Json::List(families.map(|family| family_json(loaded, family)).collect()),
        ),
        (
            "requests",
            Json::List(
                requests
                    .map(|(asked, picks)| request_json(loaded, asked, picks))
                    .collect(),
            ),
        ),
        (
            "skipped",
            Json::List(loaded.skipped.iter().map(skipped_json).collect()),
        ),
    ])
}

pub fn reading_json(reading: Reading) -> Json {
    Json::text(reading_word(reading))
}

/// The file of a font, and its number where the file is a collection.
pub fn font_json(font: &Font) -> Vec<(&'static str, Json)> {
    vec![
        ("file", Json::path(&font.file)),
        ("number", number_json(font)),
    ]
}

fn number_json(font: &Font) -> Json {
    let number = font.number;
    number.map_or(Json::Null, |number| Json::Whole(number.into()))
}

fn family_json(loaded: &Loaded, family: &Family) -> Json {
    let faces = family.faces.iter();
    let fonts = faces.filter_map(|id| loaded.faces.get(id.index()).map(|face| &face.font));
    let (files, numbers) = fonts
        .map(|font| (Json::path(&font.file), number_json(font)))
        .unzip();
    let folder = family.folder.as_ref();
    Json::Object(vec![
        ("folder", folder.map_or(Json::Null, |path| Json::path(path))),
        ("fallback", Json::Bool(family.fallback)),
        ("files", Json::List(files)),
        ("numbers", Json::List(numbers)),
    ])
}

fn request_json(loaded: &Loaded, asked: &Asked, picks: &[Pick]) -> Json {
    let offers = picks.iter().map(|pick| offer_json(loaded, pick));
    Json::Object(vec![
        (
            "attributes",
            Json::Object(attributes_json(&asked.attributes)),
        ),
        ("most", Json::Whole(asked.most.into())),
        ("offers", Json::List(offers.collect())),
    ])
}

fn offer_json(loaded: &Loaded, pick: &Pick) -> Json {
    let offer = &pick.offer;
    let settings = offer.settings.iter().map(|setting| {
        Json::Object(vec![
            ("tag", Json::text(setting.tag)),
            ("value", Json::Number(setting.value)),
        ])
    });
    let face = loaded.faces.get(pick.face);
    let mut pairs = face.map_or(Vec::new(), |face| font_json(&face.font));
    pairs.extend([
        ("family", Json::Whole(offer.family.number().into())),
        ("place", Json::Whole(offer.place.into())),
        ("settings", Json::List(settings.collect())),
        ("embolden", Json::Bool(offer.embolden)),
        ("skew", Json::Whole(offer.skew.into())),
        ("charmap", charmap_json(&offer.charmap)),
    ]);
    Json::Object(pairs)
}

/// A file or a font that is not used.
pub fn skipped_json(skipped: &Skipped) -> Json {
    let refusal = skipped.refusal;
    let refusal = refusal.map_or(Json::Null, |number| Json::Whole(number.into()));
    let mut pairs = font_json(&skipped.font);
    pairs.extend([
        ("refusal", refusal),
        ("reason", Json::text(&skipped.reason)),
    ]);
    Json::Object(pairs)
}
