//! The tables of what was measured.

use crate::block_calls;
use crate::sealing_calls::{self, Figure, Kind, HEADER};
use crate::side::{over_passes, Costs, Side, Times};

/// Bodies of the table of sealing and opening, beside the longest.
const BODIES: [usize; 4] = [0, 16, 32, 1024];

const MEANING: &str = "Rival/ours above 1 means that ours is quicker.";

/// The last columns of both tables.
const SIDES: &str = "     ours |     rival |    second | rival/ours | second/ours |";
const RULES: &str = "---------:|----------:|----------:|-----------:|------------:|";

fn sides(costs: &Costs) -> String {
    let [ours, rival, second] = Side::ALL.map(|side| costs.of(side));
    let [rival_ratio, second_ratio] = [Side::Rival, Side::Second].map(|side| costs.ratio(side));
    format!("{ours:9.0} | {rival:9.0} | {second:9.0} | {rival_ratio:10.2} | {second_ratio:11.2} |")
}

pub fn print_block_calls() {
    let calls = block_calls::CALLS;
    println!("Block calls: nanoseconds per call, in the quickest of so many batches of {calls}");
    println!("calls, the sides taking turns. {MEANING}");
    println!();
    println!("| cipher  | call                    | batches | {SIDES}");
    println!("|:--------|:------------------------|--------:|-{RULES}");
    let kinds = block_calls::kinds();
    let all = over_passes(&kinds, block_calls::measure);
    for (kind, times) in kinds.iter().zip(all) {
        let (cipher, name, batches) = (kind.cipher_name(), kind.name(), times.batches);
        println!(
            "| {cipher:7} | {name:23} | {batches:7} | {}",
            sides(&times.quickest)
        );
    }
}

/// Measures more bodies than are printed, and gives all figures.
pub fn print_sealing() -> Vec<Figure> {
    let header = HEADER.len();
    println!("Seal and open: nanoseconds per call, and ours per byte of body, under a header");
    println!("of {header} bytes, in the quickest of so many batches of so many calls, the sides");
    println!("taking turns. {MEANING}");
    println!();
    println!("| scheme | call |    body | batches | calls | ours/byte | {SIDES}");
    println!("|-------:|:-----|--------:|--------:|------:|----------:|-{RULES}");
    let timed = sealing_calls::timed();
    let shown = |kind: &Kind| BODIES.contains(&kind.body) || kind.is_longest();
    for (kind, times) in timed.iter().filter(|(kind, _)| shown(kind)) {
        print_times(kind, times);
    }
    let figure = |(kind, times): (Kind, Times)| Figure {
        kind,
        costs: times.quickest,
    };
    timed.into_iter().map(figure).collect()
}

fn print_times(kind: &Kind, times: &Times) {
    let (number, direction) = (kind.number, kind.direction.name());
    let (body, batches, calls) = (kind.body, times.batches, kind.calls());
    let byte = match body {
        0 => "-".to_string(),
        _ => format!("{:.2}", times.quickest.of(Side::Ours) / body as f64),
    };
    println!(
        "| {number:6} | {direction:4} | {body:7} | {batches:7} | {calls:5} | {byte:>9} | {}",
        sides(&times.quickest)
    );
}
