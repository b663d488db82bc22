//! Section 4: the order of faces.
//!
//! Every face of a family of two or more gets a rank at each of the three
//! stages, and the face whose ranks are least is the choice.

use crate::{
    font::{Attributes, Font, Style},
    single::Single,
};

/// The turn of a group, then a number that grows away from the request, then
/// a place or, where the latest goes first, its negation. The least goes first.
type Rank = (u8, i64, i64);

/// In which order the members of a group come.
#[derive(Copy, Clone, PartialEq, Eq, Debug)]
enum Direction {
    Up,
    Down,
    ByPlace,
}

use Direction::{ByPlace, Down, Up};

/// The ranks of one face. No style rank is a face in no group.
#[derive(Copy, Clone, PartialEq, Eq, Debug)]
pub struct Ranks {
    width: (u8, i64),
    style: Option<Rank>,
    weight: Rank,
}

fn width_rank(request: i64, percent: i64) -> (u8, i64) {
    if percent == request {
        return (0, 0);
    }
    let below = (-percent, percent < request);
    let above = (percent, percent > request);
    let (first, second) = if request <= 100 {
        (below, above)
    } else {
        (above, below)
    };
    if first.1 { (1, first.0) } else { (2, second.0) }
}

/// A group's turn and the order inside it.
type Group = (u8, Direction);

/// The group of a style; none for a style in no group. `slant` says whether a
/// face at that width has a slant axis.
fn style_group(request: Style, style: Style, synthesis: bool, slant: bool) -> Option<Group> {
    if style == request {
        return Some((0, ByPlace));
    }
    let x = match style {
        Style::Oblique(angle) => Some(angle.degrees()),
        _ => None,
    };
    match request {
        Style::Normal => Some(normal_group(x)),
        Style::Italic => Some(italic_group(x)),
        Style::Oblique(angle) => {
            let a = angle.degrees();
            let side = x.and_then(|x| side_group(a, x));
            side.or_else(|| after_its_side(a, style, synthesis, slant))
        }
    }
}

/// Normal is requested; `x` is the angle of an oblique face.
fn normal_group(x: Option<Single>) -> Group {
    match x {
        Some(x) if x >= Single::ZERO => (1, Up),
        None => (2, ByPlace),
        Some(_) => (3, Down),
    }
}

/// Italic is requested.
fn italic_group(x: Option<Single>) -> Group {
    match x {
        Some(x) if x >= Single::new(14.0) => (1, Up),
        Some(x) if x > Single::ZERO => (2, Down),
        Some(x) if x < Single::ZERO => (3, Down),
        _ => (4, ByPlace),
    }
}

/// Oblique `a` is requested; none for an angle that is not on its side.
fn side_group(a: Single, x: Single) -> Option<Group> {
    let zero = Single::ZERO;
    let (first, second) = if a >= Single::new(14.0) {
        ((x >= a, Up), (zero < x && x < a, Down))
    } else if a >= zero {
        ((zero < x && x < a, Down), (x >= a, Up))
    } else if a > Single::new(-14.0) {
        ((a < x && x < zero, Up), (x <= a, Down))
    } else {
        ((x <= a, Down), (a < x && x < zero, Up))
    };
    match (first, second) {
        ((true, direction), _) => Some((1, direction)),
        (_, (true, direction)) => Some((2, direction)),
        _ => None,
    }
}

/// Oblique `a` is requested, and the style is not on its side.
fn after_its_side(a: Single, style: Style, synthesis: bool, slant: bool) -> Option<Group> {
    match (synthesis, slant) {
        (false, _) => Some(match style {
            Style::Italic => (3, ByPlace),
            Style::Oblique(_) if a >= Single::ZERO => (4, Down),
            Style::Oblique(_) => (4, Up),
            Style::Normal => (5, ByPlace),
        }),
        (true, false) => Some(match style {
            Style::Normal => (3, ByPlace),
            _ => (4, ByPlace),
        }),
        (true, true) => None,
    }
}

/// Ranks the style of a face among the places of its own percent.
fn style_rank(
    faces: &[&Font],
    request: Style,
    place: usize,
    peers: &[usize],
    synthesis: bool,
) -> Option<Rank> {
    let style = faces[place].attributes.style;
    let slant = peers.iter().any(|peer| faces[*peer].has(b"slnt"));
    let (group, direction) = style_group(request, style, synthesis, slant)?;
    let mut bearers = peers
        .iter()
        .filter(|peer| faces[**peer].attributes.style == style);
    let number = match style {
        Style::Oblique(angle) => angle.degrees().order(),
        _ => 0,
    };
    let earliest = *bearers.clone().next()? as i64;
    let latest = *bearers.next_back()? as i64;
    Some(match direction {
        Up => (group, number, earliest),
        Down => (group, -number, -latest),
        ByPlace => (group, 0, earliest),
    })
}

fn weight_rank(request: Single, weight: Single, place: usize) -> Rank {
    let middle = Single::new(400.0)..=Single::new(500.0);
    let (group, direction) = if weight == request {
        (0, Up)
    } else if middle.contains(&request) {
        if weight > request && weight <= *middle.end() {
            (1, Up)
        } else if weight < request {
            (2, Down)
        } else {
            (3, Up)
        }
    } else if request < *middle.start() {
        if weight < request { (1, Down) } else { (2, Up) }
    } else if weight > request {
        (1, Up)
    } else {
        (2, Down)
    };
    let (number, place) = (weight.order(), place as i64);
    match direction {
        Down => (group, -number, -place),
        _ => (group, number, place),
    }
}

/// The ranks of every face, by place.
pub fn ranks(faces: &[&Font], request: &Attributes, synthesis: bool) -> Vec<Ranks> {
    let percents: Vec<i64> = faces
        .iter()
        .map(|face| face.attributes.ratio.whole_percent())
        .collect();
    let asked = request.ratio.whole_percent();
    (0..faces.len())
        .map(|place| {
            let peers: Vec<usize> = (0..faces.len())
                .filter(|other| percents[*other] == percents[place])
                .collect();
            Ranks {
                width: width_rank(asked, percents[place]),
                style: style_rank(faces, request.style, place, &peers, synthesis),
                weight: weight_rank(request.weight, faces[place].attributes.weight, place),
            }
        })
        .collect()
}

/// Whether the first of two faces stands before the second. Two of one
/// percent without a group are unordered.
pub fn stands_before(a: &Ranks, b: &Ranks) -> bool {
    if a.width != b.width {
        return a.width < b.width;
    }
    match (a.style, b.style) {
        (None, _) => false,
        (Some(_), None) => true,
        (Some(x), Some(y)) => (x, a.weight) < (y, b.weight),
    }
}

/// The chosen place, or none.
pub fn choice(faces: &[&Font], request: &Attributes, synthesis: bool) -> Option<usize> {
    if faces.len() < 2 {
        return if faces.is_empty() { None } else { Some(0) };
    }
    let ranks = ranks(faces, request, synthesis);
    let mut first = 0;
    for place in 1..ranks.len() {
        if stands_before(&ranks[place], &ranks[first]) {
            first = place;
        }
    }
    ranks[first].style.map(|_| first)
}

/// Every place whose exact ratio, style and weight equal the chosen face's.
pub fn equal_list(faces: &[&Font], request: &Attributes, synthesis: bool) -> Vec<usize> {
    let Some(chosen) = choice(faces, request, synthesis) else {
        return Vec::new();
    };
    (0..faces.len())
        .filter(|place| faces[*place].attributes == faces[chosen].attributes)
        .collect()
}

/// The choice for default attributes with synthesis off, or 0.
pub fn default(faces: &[&Font]) -> usize {
    choice(faces, &Attributes::DEFAULT, false).unwrap_or(0)
}
