//! What the two programs share: documents, peers, the clock, and tables as docs/SPEED.md has them.
pub mod document;
pub mod peers;
pub mod worst;

use std::hint::black_box;
use std::time::Instant;

/// A way through a document; the answer is 0 where it is refused.
pub type Walk = fn(&[u8]) -> usize;

/// Seconds of the quickest round of each walk; the walks take turns, so that all meet the same machine.
pub fn best(doc: &[u8], walks: &[(&str, Walk)], rounds: usize) -> Vec<f64> {
    let mut best = vec![f64::MAX; walks.len()];
    for _ in 0..rounds {
        for (k, (_, walk)) in walks.iter().enumerate() {
            let began = Instant::now();
            black_box(walk(black_box(doc)));
            best[k] = best[k].min(began.elapsed().as_secs_f64());
        }
    }
    best
}

/// The first two lines of a table.
pub fn print_head(names: &[&str]) {
    println!("| {} |\n|{}", names.join(" | "), "---|".repeat(names.len()));
}

pub fn print_row(cells: &[String]) {
    println!("| {} |", cells.join(" | "));
}

/// A number with a comma after each three digits: 1,048,576.
pub fn grouped(n: usize) -> String {
    let digits = n.to_string();
    let mut s = String::new();
    for (k, digit) in digits.chars().enumerate() {
        if k > 0 && (digits.len() - k) % 3 == 0 {
            s.push(',');
        }
        s.push(digit);
    }
    s
}

/// With as many digits after the point as the number is worth.
pub fn short(x: f64) -> String {
    match x {
        x if x < 0.1 => format!("{x:.3}"),
        x if x < 1.0 => format!("{x:.2}"),
        x if x < 100.0 => format!("{x:.1}"),
        x => grouped(x.round() as usize),
    }
}
