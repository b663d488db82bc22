//! How often the families have what is likely to go wrong.

use jobs::{
    families::{Case, FacePlan},
    layout::Style,
};

/// The name and the count of each kind.
#[derive(Default)]
pub struct Kinds {
    counts: [u64; NAMES.len()],
}

const NAMES: [&str; 13] = [
    "1 face",
    "2 to 8",
    "9 to 63",
    "64",
    "equal weights of one style and percent",
    "equal angles of one percent, unstated beside 14",
    "both zeros as angles",
    "both zeros as weights or ratios",
    "ratios that share a whole percent",
    "request at 400 or 500",
    "request at a neighbour of 400 or 500",
    "slant axis at one percent and not at another, oblique request",
    "a face that stands twice",
];

fn percent(face: &FacePlan) -> i32 {
    (face.ratio * 100.0) as i32
}

/// Whether two faces of the family, in this order or the other, are so.
fn pair(case: &Case, so: impl Fn(&FacePlan, &FacePlan) -> bool) -> bool {
    let faces = &case.faces;
    let mut firsts = faces.iter().enumerate();
    firsts.any(|(i, a)| faces[i + 1..].iter().any(|b| so(a, b) || so(b, a)))
}

fn zeros(a: f32, b: f32) -> bool {
    a == 0.0 && b == 0.0 && a.is_sign_positive() && b.is_sign_negative()
}

fn angle(style: Style) -> Option<f32> {
    (style.kind == 3).then_some(f32::from_bits(style.angle))
}

fn angle_zeros(a: &FacePlan, b: &FacePlan) -> bool {
    matches!((angle(a.style), angle(b.style)), (Some(a), Some(b)) if zeros(a, b))
}

fn slanted(face: &FacePlan) -> bool {
    face.axes.iter().any(|axis| axis.fixed.tag == *b"slnt")
}

impl Kinds {
    pub fn add(&mut self, case: &Case) {
        let faces = case.faces.len();
        let weight = case.request.weight;
        let near = |edge: f32| weight == edge.next_up() || weight == edge.next_down();
        let here = [
            faces == 1,
            (2..=8).contains(&faces),
            (9..=63).contains(&faces),
            faces == 64,
            pair(case, |a, b| {
                a.weight == b.weight && a.style == b.style && percent(a) == percent(b)
            }),
            pair(case, |a, b| {
                a.style.kind == 2 && angle(b.style) == Some(14.0) && percent(a) == percent(b)
            }),
            pair(case, angle_zeros),
            pair(case, |a, b| {
                zeros(a.weight, b.weight) || zeros(a.ratio, b.ratio)
            }),
            pair(case, |a, b| a.ratio != b.ratio && percent(a) == percent(b)),
            weight == 400.0 || weight == 500.0,
            near(400.0) || near(500.0),
            case.request.style.kind >= 2
                && pair(case, |a, b| {
                    slanted(a) && !slanted(b) && percent(a) != percent(b)
                }),
            pair(case, |a, b| a == b),
        ];
        for (count, here) in self.counts.iter_mut().zip(here) {
            *count += u64::from(here);
        }
    }

    /// The counts as lines.
    pub fn text(&self) -> String {
        let line = |(name, count): (&&str, &u64)| format!("  {name}: {count}\n");
        NAMES.iter().zip(&self.counts).map(line).collect()
    }

    /// The kind that is rarest.
    #[cfg(test)]
    fn rarest(&self) -> (&'static str, u64) {
        let both = NAMES.iter().copied().zip(self.counts);
        both.min_by_key(|(_, count)| *count).expect("a kind")
    }
}

#[cfg(test)]
mod tests {
    use super::*;

    /// None of the kinds is rare.
    #[test]
    fn kinds_are_common() {
        let mut kinds = Kinds::default();
        for case in jobs::families::with_zeros(6).take(10_000) {
            kinds.add(&case);
        }
        let (name, count) = kinds.rarest();
        assert!(count >= 100, "{name}: {count}");
    }
}
