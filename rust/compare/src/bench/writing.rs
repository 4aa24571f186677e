//! Writing alone: numbers and variables of a term.

use super::{digits, grouped, time};
use crate::deep;
use std::fmt::Write;

/// The words of a list of numbers with so many digits, as good as random, or all the least, so many of their digits places.
fn list_of(count: u32, digits: u32, places: u32) -> Vec<u32> {
    let number = |i: u32| match digits {
        0 => i32::MIN as u32,
        1 => i % 10,
        10 => 1_000_000_000 + i.wrapping_mul(2_654_435_761) % 1_147_483_648,
        _ => 10u32.pow(digits - 1) + i.wrapping_mul(2_654_435_761) % (9 * 10u32.pow(digits - 1)),
    };
    let words = |i: u32| if places == 0 { vec![2, number(i)] } else { vec![9, number(i), places] };
    [5, count].into_iter().chain((1..=count).flat_map(words)).collect()
}

fn written(words: &[u32], names: &[u8]) -> f64 {
    let mut out = vec![0; grebetallboy::TEXT_RATE * words.len()];
    time(|| {
        std::hint::black_box(grebetallboy::write(words, 256, names, &mut out)).expect("a term");
    })
}

/// A thousand numbers, over and over, and two hundred thousand, whose digits no branch can foretell.
pub fn numbers() -> String {
    let integers = [("1 digit", 1), ("2 digits", 2), ("3 digits", 3), ("5 digits", 5), ("10 digits", 10), ("-2147483648", 0)];
    let integers = integers.map(|(name, digits)| (name, digits, 0));
    let decimals = [("0.8", 1, 1), ("0.80", 2, 2), ("3 digits, 2 places", 3, 2), ("10 digits, 4 places", 10, 4), ("-214748.3648", 0, 4)];
    let mut out = "| numbers of a term | ns for each of 1,000 | ns for each of 200,000 |\n|---|---|---|\n".to_string();
    for (name, digits, places) in integers.into_iter().chain(decimals) {
        let each = |count: u32| written(&list_of(count, digits, places), &[]) * 1e3 / f64::from(count);
        writeln!(out, "| {name} | {:.1} | {:.1} |", each(1_000), each(200_000)).unwrap();
    }
    out
}

/// Terms of so many variables, each used once, under lambdas inside one another.
pub fn variables() -> String {
    let names = [&[1, b't'][..], &[0; 62]].concat().repeat(1_024);
    let mut out = "| variables of a term | words | µs | ns for each |\n|---|---|---|---|\n".to_string();
    for count in [376, 1_504, 6_000, 6_144, 12_000] {
        let words = deep::many_variables(count);
        let us = written(&words, &names);
        writeln!(out, "| {} | {} | {} | {:.1} |", grouped(count), grouped(words.len()), digits(us), us * 1e3 / count as f64).unwrap();
    }
    out
}
