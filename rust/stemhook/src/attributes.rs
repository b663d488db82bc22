//! Width, style and weight, as fonts have them and requests ask for them.

/// The angle of an oblique style.
#[derive(Clone, Copy, Debug, Default, PartialEq)]
pub enum Angle {
    /// No angle is stated. It ranks as 14 degrees, but is a style of its own.
    #[default]
    Unstated,
    /// An angle in degrees: above zero it leans right, like `/`, and below zero
    /// left. Which way a font's own number counts, [`Reading`](crate::Reading)
    /// says.
    Degrees(f32),
}

/// A style.
#[derive(Clone, Copy, Debug, Default, PartialEq)]
pub enum Style {
    /// Upright.
    #[default]
    Normal,
    /// Italic.
    Italic,
    /// Oblique, with its angle.
    Oblique(Angle),
}

/// Width, style and weight.
///
/// ```
/// use stemhook::{Attributes, Style};
///
/// let bold = Attributes { weight: 700.0, ..Attributes::default() };
/// assert_eq!(bold.width, 1.0);
/// assert_eq!(bold.style, Style::Normal);
/// ```
#[derive(Clone, Copy, Debug, PartialEq)]
pub struct Attributes {
    /// The width as a ratio of the normal one: 0.75 is condensed. From 0 to 16.
    pub width: f32,
    /// The style.
    pub style: Style,
    /// The weight: 400 is regular, 700 is bold. Any finite number.
    pub weight: f32,
}

impl Default for Attributes {
    /// Width 1, normal, weight 400.
    fn default() -> Self {
        Self {
            width: 1.0,
            style: Style::Normal,
            weight: 400.0,
        }
    }
}
