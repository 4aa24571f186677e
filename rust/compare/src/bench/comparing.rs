//! The supplier's texts (request L4): the move's pairs, and comparing alone.

use super::{digits, grouped, repeated, tables, time, FILING, MOST};
use crate::pairs;
use std::fmt::Write;

/// The move's pairs: so many recipes that the filing program takes, with a faithful text each, and what each call takes of the whole.
pub fn pairs() -> String {
    let pairs: Vec<pairs::Pair> = inputs::in_stack(256 << 20, || {
        let mut random = inputs::Random::new(2_300);
        let made = std::iter::repeat_with(|| pairs::rendered(&mut random, true));
        made.filter(|pair| pair.items.len() <= 3 * 170).take(2_300).collect()
    });
    let mut tables = tables(FILING);
    let (mut work, mut core) = (vec![0; 16_368], vec![0; 2_046]);
    let expanding = time(|| assert!(pairs.iter().all(|pair| grebetallboy::expand(&pair.items, FILING, &mut work, &mut core).is_ok())));
    let reading = time(|| assert!(pairs.iter().all(|pair| tables.expand(pair.recipe.as_bytes(), FILING).is_ok())));
    let mut yes = 0;
    let whole = time(|| yes = pairs.iter().filter(|pair| tables.compare(pair.recipe.as_bytes(), &pair.text, FILING) == Ok(true)).count());
    let mut out =
        format!("| {} pairs of a recipe and a text, {} yes | ms | µs a pair |\n|---|---|---|\n", grouped(pairs.len()), grouped(yes));
    for (what, us) in [("expand alone", expanding), ("read, expand", reading), ("read, expand, compare", whole)] {
        writeln!(out, "| {what} | {:.1} | {:.1} |", us / 1e3, us / pairs.len() as f64).unwrap();
    }
    out
}

/// Comparing alone, of a recipe's term and a text that is it.
pub fn texts() -> String {
    let list = |n| repeated(n, |i| (i % 10).to_string());
    let names = |n| repeated(n, |i| format!("x{i}"));
    let inner = "(lambda (a b c d e f g h) ".repeat(59);
    let scope = |n, x: &str| format!("(lambda ({x} b c d e f g h) {inner}({}){}", repeated(n, |_| x.to_string()), ")".repeat(60));
    let operations = names(256);
    let mut out = "| comparing alone | size: µs | | | | ns for each |\n|---|---|---|---|---|---|\n".to_string();
    line(&mut out, "elements of a text", &[250, 500, 1_000, 2_000], |n| (format!("(f) (f {})", list(n)), format!("(f {})", list(n))));
    line(&mut out, "quoted names of a text, each in both tables", &[125, 250, 500, 1_000], |n| {
        (format!("() (quote ({}))", names(n)), format!("(quote ({}))", names(n)))
    });
    line(&mut out, "references to the outermost of 480 names in scope", &[150, 300, 600, 1_200], |n| {
        (format!("() {}", scope(n, "x")), scope(n, "y"))
    });
    line(&mut out, "references to the last of 256 operations", &[200, 400, 800, 1_600], |n| {
        let used = format!("({})", repeated(n, |_| "x255".to_string()));
        (format!("({operations}) {used}"), used)
    });
    out
}

fn line(out: &mut String, title: &str, sizes: &[usize], pair: impl Fn(usize) -> (String, String)) {
    let mut tables = tables(MOST);
    let mut point = |n: usize| {
        let (recipe, text) = pair(n);
        let (items, term) = tables.expand(recipe.as_bytes(), MOST).expect(&recipe);
        assert_eq!(tables.held(items, term.length, text.as_bytes()), Ok(true), "{text}");
        time(|| {
            let _ = std::hint::black_box(tables.held(items, term.length, text.as_bytes()));
        })
    };
    let times: Vec<_> = sizes.iter().map(|&n| (n, point(n))).collect();
    let cells: Vec<_> = times.iter().map(|&(n, us)| format!("{}: {}", grouped(n), digits(us))).collect();
    let &(n, us) = times.last().unwrap();
    writeln!(out, "| {title} | {} | {} |", cells.join(" | "), digits(us * 1e3 / n as f64)).unwrap();
}
