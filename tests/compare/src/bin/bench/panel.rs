//! One panel of the plot: its axes, its curves and where they end.

use crate::curves::{colour_of, line_of, Curve};
use crate::scale::{cost_name, length_name, Scale};
use crate::svg::Picture;

const GRID: &str = "stroke=\"#e5e7eb\" stroke-width=\"1\"";
const AXIS: &str = "stroke=\"#374151\" stroke-width=\"1\"";
const MARK: &str = "font-size=\"12\" fill=\"#374151\"";

/// The least distance from one number at the curves' ends to the next.
const APART: f64 = 14.0;

/// A round number, without what a sum of tenths may be off by.
fn mark_name(cost: f64) -> String {
    let name = format!("{:.3}", cost);
    name.trim_end_matches('0').trim_end_matches('.').to_string()
}

fn draw_costs(picture: &mut Picture, scale: &Scale) {
    for cost in scale.marked_costs() {
        let y = scale.y(cost);
        picture.line((scale.left, y), (scale.right, y), GRID);
        let looks = format!("{} text-anchor=\"end\"", MARK);
        picture.text((scale.left - 8.0, y + 4.0), &looks, &mark_name(cost));
    }
}

/// Every double is marked, every other one named, and the last one too.
fn draw_lengths(picture: &mut Picture, scale: &Scale) {
    let (_, last) = scale.lengths;
    for (place, length) in scale.marked_lengths().into_iter().enumerate() {
        let x = scale.x(length);
        picture.line((x, scale.bottom), (x, scale.bottom + 5.0), AXIS);
        let (from, anchor) = if length == last {
            (x - 4.0, "start")
        } else {
            (x, "middle")
        };
        if place % 2 == 0 || length == last {
            let looks = format!("{} text-anchor=\"{}\"", MARK, anchor);
            picture.text((from, scale.bottom + 20.0), &looks, &length_name(length));
        }
    }
}

pub fn draw_axes(picture: &mut Picture, scale: &Scale) {
    draw_costs(picture, scale);
    draw_lengths(picture, scale);
    let corner = (scale.left, scale.bottom);
    picture.line((scale.left, scale.top), corner, AXIS);
    picture.line(corner, (scale.right, scale.bottom), AXIS);
    let middle = (scale.left + scale.right) / 2.0;
    let looks = "font-size=\"13\" fill=\"#111827\" text-anchor=\"middle\"";
    picture.text((middle, scale.bottom + 42.0), looks, "body, bytes");
}

pub fn draw_curve(picture: &mut Picture, scale: &Scale, curve: &Curve, per_byte: &str) {
    let colour = colour_of(curve.side);
    let places: Vec<_> = curve
        .points
        .iter()
        .map(|(length, cost)| scale.place(*length, *cost))
        .collect();
    picture.curve(&places, &line_of(curve.number, colour));
    for (place, point) in places.into_iter().zip(&curve.points) {
        let looks = format!("r=\"2.6\" fill=\"{}\"", colour);
        picture.dot(place, &looks, &curve.words(*point, per_byte));
    }
}

/// Where the numbers at the curves' ends stand: each beside its end, or below
/// the one above it, and none below the panel.
fn apart(ends: &[f64], bottom: f64) -> Vec<f64> {
    let mut places = Vec::new();
    let mut above = f64::MIN;
    for end in ends {
        above = end.max(above + APART);
        places.push(above);
    }
    let mut below = bottom + APART;
    for place in places.iter_mut().rev() {
        below = place.min(below - APART);
        *place = below;
    }
    places
}

/// The cost at each curve's end, in figures, kept apart from one another.
pub fn draw_ends(picture: &mut Picture, scale: &Scale, curves: &[Curve]) {
    let mut ends: Vec<(f64, &str)> = curves
        .iter()
        .filter_map(|curve| Some((curve.points.last()?.1, colour_of(curve.side))))
        .collect();
    ends.sort_by(|one, other| other.0.total_cmp(&one.0));
    let beside: Vec<f64> = ends.iter().map(|end| scale.y(end.0) + 4.0).collect();
    for ((cost, colour), y) in ends.into_iter().zip(apart(&beside, scale.bottom)) {
        let looks = format!("font-size=\"12\" font-weight=\"bold\" fill=\"{}\"", colour);
        picture.text((scale.right + 9.0, y), &looks, &cost_name(cost));
    }
}
