//! The curves of a panel of the plot: what they go through and how they look.

use crate::block_calls::cipher_name;
use crate::sealing_calls::Figure;
use crate::side::Side;
use compare::records::Direction;
use compare::schemes::{Mode, Scheme};

/// The lines of the schemes over 64-192 are broken. Curves of one cipher come near
/// to one another, so that one is wide and pale, and the other drawn on it.
const DASHED: &str = "stroke-width=\"2.2\" stroke-dasharray=\"7 4\"";
const DOTTED: &str = "stroke-width=\"2.2\" stroke-dasharray=\"2 3\"";
const WIDE: &str = "stroke-width=\"8\" stroke-opacity=\"0.3\"";
const THIN: &str = "stroke-width=\"1.8\"";

/// How the lines of a scheme look, in any side's colour.
const LOOKS: [&str; 7] = [DASHED, WIDE, THIN, DASHED, DOTTED, WIDE, THIN];

pub fn colour_of(side: Side) -> &'static str {
    match side {
        Side::Ours => "#0369a1",
        Side::Rival => "#c2410c",
        Side::Second => "#6b7280",
    }
}

/// Attributes of a line.
pub fn line_of(number: u32, colour: &str) -> String {
    format!("stroke=\"{}\" {}", colour, LOOKS[number as usize - 1])
}

/// What a byte takes by the body's length, of one scheme and side.
pub struct Curve {
    pub number: u32,
    pub side: Side,
    pub points: Vec<(usize, f64)>,
}

pub fn name_of(number: u32) -> String {
    let scheme = Scheme::find(number).expect("a scheme of the plot");
    let mode = match scheme.mode {
        Mode::Paef => "PAEF",
        Mode::Saef => "SAEF",
        Mode::Umbreon => "Umbreon",
        Mode::Jolteon => "Jolteon",
    };
    format!("scheme {}: {} {}", number, mode, cipher_name(scheme.cipher))
}

pub fn side_name(side: Side) -> &'static str {
    match side {
        Side::Ours => "ours",
        Side::Rival => "rival",
        Side::Second => "second program",
    }
}

impl Curve {
    fn new(figures: &[&Figure], number: u32, side: Side) -> Curve {
        let of_scheme = figures.iter().filter(|figure| figure.kind.number == number);
        let point = |figure: &&Figure| {
            let per_byte = figure.costs.of(side) / figure.kind.body as f64;
            (figure.kind.body, per_byte)
        };
        Curve {
            number,
            side,
            points: of_scheme.map(point).collect(),
        }
    }

    /// What the curve says of one of its points; `per_byte` is what is counted.
    pub fn words(&self, (length, cost): (usize, f64), per_byte: &str) -> String {
        let (scheme, side) = (name_of(self.number), side_name(self.side));
        format!("{scheme}, {side}, {length} bytes: {cost:.2} {per_byte}")
    }
}

/// The figures of some schemes and one direction that have a body.
pub fn figures_of<'a>(
    figures: &'a [Figure],
    numbers: &[u32],
    direction: Direction,
) -> Vec<&'a Figure> {
    let shown = |figure: &&Figure| {
        let kind = figure.kind;
        numbers.contains(&kind.number) && kind.direction == direction && kind.body > 0
    };
    figures.iter().filter(shown).collect()
}

/// All curves of some schemes, in the order in which they are drawn.
pub fn curves_of(figures: &[&Figure], numbers: &[u32]) -> Vec<Curve> {
    let mut curves = Vec::new();
    for &number in numbers {
        for side in [Side::Second, Side::Rival, Side::Ours] {
            curves.push(Curve::new(figures, number, side));
        }
    }
    curves
}
