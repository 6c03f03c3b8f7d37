//! The plot of nanoseconds or instructions per byte by the body's length: a
//! panel for sealing and one for opening, and below them the same of further
//! schemes.

use crate::curves::{colour_of, curves_of, figures_of, line_of, name_of, side_name};
use crate::panel::{draw_axes, draw_curve, draw_ends};
use crate::scale::{top_for, Scale};
use crate::sealing_calls::{Figure, HEADER, SHORTEST};
use crate::side::Side;
use crate::svg::{Picture, Place};
use compare::records::Direction;

/// What a plot shows.
pub struct Measure {
    title: &'static str,
    per_byte: &'static str,
}

pub const TIME: Measure = Measure {
    title: "Auraski: time to seal and to open, per byte of body",
    per_byte: "nanoseconds per byte",
};

pub const INSTRUCTIONS: Measure = Measure {
    title: "Auraski: instructions to seal and to open, per byte of body",
    per_byte: "instructions per byte",
};

/// The schemes of each row of panels.
const ROWS: [&[u32]; 2] = [&[1, 2, 3], &[4, 5, 6, 7]];

const WIDTH: f64 = 960.0;
const HEIGHT: f64 = ROWS_TOP + 2.0 * ROW_HEIGHT;
/// Where the first row begins from the top, and how high a row is.
const ROWS_TOP: f64 = 94.0;
const ROW_HEIGHT: f64 = 454.0;
/// Where the panels begin from the left, and their other measures; those from
/// the top are in their row.
const LEFTS: [f64; 2] = [74.0, 540.0];
const PANEL_WIDTH: f64 = 360.0;
const PANEL_TOP: f64 = 64.0;
const PANEL_BOTTOM: f64 = 394.0;
/// Where the samples of the legends begin from the left.
const SAMPLES: [f64; 4] = [24.0, 260.0, 496.0, 732.0];

const TITLE: &str = "font-size=\"20\" font-weight=\"bold\" fill=\"#111827\"";
const HEADING: &str = "font-size=\"16\" font-weight=\"bold\" fill=\"#111827\"";
const WORDS: &str = "font-size=\"13\" fill=\"#111827\"";
const NOTE: &str = "font-size=\"12\" fill=\"#4b5563\"";

/// The scale of all panels, here of one in the row that begins at `row` from the
/// top.
fn scale_for(figures: &[Figure], (left, row): Place) -> Scale {
    let with_body = figures.iter().filter(|figure| figure.kind.body > 0);
    let longest = figures.iter().map(|figure| figure.kind.body).max();
    let per_byte = |figure: &Figure| {
        let costs = Side::ALL.map(|side| figure.costs.of(side));
        costs.into_iter().fold(0.0, f64::max) / figure.kind.body as f64
    };
    Scale {
        left,
        right: left + PANEL_WIDTH,
        top: row + PANEL_TOP,
        bottom: row + PANEL_BOTTOM,
        lengths: (SHORTEST, longest.unwrap_or(SHORTEST).next_power_of_two()),
        most: top_for(with_body.map(per_byte).fold(0.0, f64::max)),
    }
}

/// Between which numbers a side's ratio to ours lies.
fn range_of(figures: &[&Figure], side: Side) -> String {
    let ratios = figures.iter().map(|figure| figure.costs.ratio(side));
    let (least, most) = ratios.fold((f64::MAX, 0.0), |(least, most), ratio| {
        (ratio.min(least), ratio.max(most))
    });
    format!("{:.2} to {:.2}", least, most)
}

/// What the panel shows, and between which numbers the ratios lie.
fn draw_title(picture: &mut Picture, figures: &[&Figure], direction: Direction, at: Place) {
    let name = match direction {
        Direction::Seal => "Seal",
        Direction::Open => "Open",
    };
    let [rival, second] = [Side::Rival, Side::Second].map(|side| range_of(figures, side));
    let words = format!("times ours: rival {}, second {}", rival, second);
    let (left, y) = (at.0, at.1 + PANEL_TOP - 16.0);
    picture.text((left, y), HEADING, name);
    picture.text((left + 60.0, y), WORDS, &words);
}

/// A panel of some schemes, at a place of its row.
fn draw_panel(
    picture: &mut Picture,
    measure: &Measure,
    all: &[Figure],
    numbers: &[u32],
    direction: Direction,
    at: Place,
) {
    let figures = figures_of(all, numbers, direction);
    let scale = scale_for(all, at);
    draw_title(picture, &figures, direction, at);
    draw_axes(picture, &scale);
    let curves = curves_of(&figures, numbers);
    for curve in &curves {
        draw_curve(picture, &scale, curve, measure.per_byte);
    }
    draw_ends(picture, &scale, &curves);
}

/// A short line, and behind it what lines of its look show.
fn draw_sample(picture: &mut Picture, (left, y): Place, looks: &str, words: &str) {
    picture.line((left, y), (left + 24.0, y), looks);
    picture.text((left + 30.0, y + 4.5), WORDS, words);
}

/// The title, what stands under it, and which colour is which side.
fn draw_top(picture: &mut Picture, measure: &Measure, machine: &str) {
    picture.text((24.0, 34.0), TITLE, measure.title);
    let note = format!("header of {} bytes; {}", HEADER.len(), machine);
    picture.text((24.0, 56.0), NOTE, &note);
    for (left, side) in SAMPLES.into_iter().zip(Side::ALL) {
        let looks = format!("stroke=\"{}\" stroke-width=\"6\"", colour_of(side));
        draw_sample(picture, (left, 82.0), &looks, side_name(side));
    }
}

/// Which look of a line is which scheme, and the name of the upright axis.
fn draw_legend(picture: &mut Picture, measure: &Measure, numbers: &[u32], row: f64) {
    for (left, &number) in SAMPLES.into_iter().zip(numbers) {
        let looks = line_of(number, "#374151");
        draw_sample(picture, (left, row + 16.0), &looks, &name_of(number));
    }
    let (x, y) = (24.0, row + (PANEL_TOP + PANEL_BOTTOM) / 2.0);
    let turn = format!("transform=\"rotate(-90 {} {})\"", x, y);
    let looks = format!("{} text-anchor=\"middle\" {}", WORDS, turn);
    picture.text((x, y), &looks, measure.per_byte);
}

/// The plot as SVG; `machine` says what it was measured on.
pub fn plot(measure: &Measure, figures: &[Figure], machine: &str) -> String {
    let mut picture = Picture::new(WIDTH, HEIGHT);
    draw_top(&mut picture, measure, machine);
    for (place, numbers) in ROWS.into_iter().enumerate() {
        let row = ROWS_TOP + place as f64 * ROW_HEIGHT;
        draw_legend(&mut picture, measure, numbers, row);
        for (direction, left) in Direction::BOTH.into_iter().zip(LEFTS) {
            draw_panel(
                &mut picture,
                measure,
                figures,
                numbers,
                direction,
                (left, row),
            );
        }
    }
    picture.finish(measure.title)
}
