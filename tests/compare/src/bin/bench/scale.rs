//! Where a length and a cost stand in a panel of the plot, and which of them
//! are marked beside it.

use crate::svg::Place;

/// Lengths stand from left to right by their logarithm, costs from bottom to
/// top, beginning at 0.
pub struct Scale {
    pub left: f64,
    pub right: f64,
    pub top: f64,
    pub bottom: f64,
    /// From the first to the last length.
    pub lengths: (usize, usize),
    /// The cost at the top.
    pub most: f64,
}

impl Scale {
    pub fn x(&self, length: usize) -> f64 {
        let (first, last) = self.lengths;
        let part = ratio(length, first).log2() / ratio(last, first).log2();
        self.left + part * (self.right - self.left)
    }

    pub fn y(&self, cost: f64) -> f64 {
        self.bottom - cost / self.most * (self.bottom - self.top)
    }

    pub fn place(&self, length: usize, cost: f64) -> Place {
        (self.x(length), self.y(cost))
    }

    /// Lengths to mark: the first and its doubles.
    pub fn marked_lengths(&self) -> Vec<usize> {
        let (first, last) = self.lengths;
        let doubles = (0..).map(|times| first << times);
        doubles.take_while(|length| *length <= last).collect()
    }

    /// Costs to mark, from 0 to the top.
    pub fn marked_costs(&self) -> Vec<f64> {
        let step = step_for(self.most);
        let count = (self.most / step).round() as usize;
        (0..=count).map(|place| place as f64 * step).collect()
    }
}

fn ratio(length: usize, first: usize) -> f64 {
    length as f64 / first as f64
}

/// A round step that fits at most six times into the cost.
fn step_for(most: f64) -> f64 {
    let power = 10f64.powf((most / 6.0).log10().floor());
    let steps = [1.0, 2.0, 5.0, 10.0].map(|times| times * power);
    // A sum of steps may be off by its last digit.
    let enough = |step: &f64| most / step < 6.0001;
    steps.into_iter().find(enough).unwrap_or(steps[3])
}

/// The cost at the top of a panel, a whole number of steps.
pub fn top_for(greatest: f64) -> f64 {
    let step = step_for(greatest);
    (greatest / step).ceil() * step
}

/// 512, 1 Ki, 2 Ki.. 1 Mi
pub fn length_name(length: usize) -> String {
    match length {
        length if length < 1 << 10 => length.to_string(),
        length if length < 1 << 20 => format!("{} Ki", length >> 10),
        _ => format!("{} Mi", length >> 20),
    }
}

/// Three digits that count, or all before the point.
pub fn cost_name(cost: f64) -> String {
    let digits = match cost {
        cost if cost < 10.0 => 2,
        cost if cost < 100.0 => 1,
        _ => 0,
    };
    format!("{:.*}", digits, cost)
}
