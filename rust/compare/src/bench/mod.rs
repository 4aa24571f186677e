//! What docs/BENCHMARKS.md is made of: times of the services, each table once, and the bytes of stack.

pub mod comparing;
pub mod growth;
pub mod plot;
pub mod recipes;
pub mod running;
pub mod stack;
pub mod writing;

use crate::filing::Tables;
use std::time::Instant;

/// The microseconds of a call: the best of a hundred rounds, each long enough for the clock, or of as many as a second and a half allows.
pub fn time(mut run: impl FnMut()) -> f64 {
    let start = Instant::now();
    run();
    let once = start.elapsed().as_secs_f64();
    let count = (2e-3 / once.max(1e-9)).clamp(1.0, 1_000.0) as u32;
    let rounds = (1.5 / (once * f64::from(count)).max(1e-9)).clamp(3.0, 100.0) as u32;
    let mut round = || {
        let start = Instant::now();
        (0..count).for_each(|_| run());
        start.elapsed().as_secs_f64() * 1e6 / f64::from(count)
    };
    (0..rounds).map(|_| round()).fold(f64::MAX, f64::min)
}

/// The filing program's fuel.
pub const FILING: u32 = 512;
/// The most fuel.
pub const MOST: u32 = 8_192;

/// Tables for the largest recipe and that fuel; with the filing program's fuel its own.
pub fn tables(fuel: u32) -> Tables {
    if fuel == FILING {
        return Tables::new(16_368, 2_046);
    }
    let (work, core) = grebetallboy::table_words(4_095, fuel);
    Tables::new(work, core)
}

/// Reading, expanding and writing: microseconds, and what is answered.
pub fn services(text: &str, fuel: u32) -> (f64, String) {
    let mut tables = tables(fuel);
    let answer = match tables.run(text.as_bytes(), fuel) {
        Ok((steps, sum, _)) => format!("{steps} steps, {sum} items"),
        Err(error) => format!("refused {}", crate::refusal(error).ground),
    };
    let us = time(|| {
        let _ = std::hint::black_box(tables.run(text.as_bytes(), fuel));
    });
    (us, answer)
}

/// So many pieces with a space between.
pub fn repeated(n: usize, each: impl Fn(usize) -> String) -> String {
    (0..n).map(each).collect::<Vec<_>>().join(" ")
}

/// Three digits that count: `0.047`, `3.4`, `189`, `4,096`.
pub fn digits(x: f64) -> String {
    match x {
        x if x < 1.0 => format!("{x:.3}"),
        x if x < 100.0 => format!("{x:.1}"),
        x => grouped(x.round() as usize),
    }
}

/// A number with a comma before each group of three digits.
pub fn grouped(n: usize) -> String {
    let digits = n.to_string();
    let comma = |(i, c): (usize, char)| if i > 0 && (digits.len() - i).is_multiple_of(3) { vec![',', c] } else { vec![c] };
    digits.chars().enumerate().flat_map(comma).collect()
}
