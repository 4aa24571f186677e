//! Families of recipes with a size, from small to what reading or fuel allows.

use super::recipes::OR;
use super::{digits, grouped, repeated, services, time, MOST};
use crate::{deep, ellipses};
use std::fmt::Write;

pub struct Family {
    pub title: &'static str,
    sizes: &'static [usize],
    recipe: fn(usize) -> String,
}

/// What one family takes: its title, sizes and microseconds, and the answer at the largest.
pub struct Curve {
    pub title: String,
    pub points: Vec<(usize, f64)>,
    pub answer: String,
}

/// `0 1 2 .. 9 0 1 ..`, so many.
fn digits_of(n: usize) -> String {
    repeated(n, |i| (i % 10).to_string())
}

/// `(f) (let-syntax ((m (syntax-rules () rule))) (m use))`.
fn with_rule(rule: &str, used: &str) -> String {
    format!("(f) (let-syntax ((m (syntax-rules () {rule}))) (m {used}))")
}

fn three_lists(n: usize) -> String {
    let list = repeated((1..).find(|i| i * i * i == n).expect("a cube"), |i| i.to_string());
    with_rule("((_ (x ...) (y ...) (z ...)) (f (f x (f y (f z) ...) ...) ...))", &format!("({list}) ({list}) ({list})"))
}

fn years(n: usize) -> String {
    let years = digits_of(10);
    with_rule("((_ (y ...) (c ...) ...) (f (f (f y c) ...) ...))", &format!("({years}) {}", repeated(n / 10, |_| format!("({years})"))))
}

/// Copies of another list beside a row of 901.
fn beside_row(row: &str, n: usize) -> String {
    with_rule(&format!("((_ (b ...) ({row}) ...) (f (f b c ...) ...))"), &format!("({}) ({})", digits_of(n), digits_of(901)))
}

fn escaped(n: usize) -> String {
    let rules = repeated(n, |i| format!("((_ {i} x (... ...)) (f x (... ...)))"));
    with_rule(&format!("((_) (let-syntax ((k (syntax-rules () {rules}))) (k {} 1 2)))", n - 1), "")
}

fn literals(n: usize) -> String {
    let literals = vec!["q"; n].join(" ");
    let rules = repeated(15, |_| format!("((_ ({literals} 2)) 1)"));
    format!("() (letrec-syntax ((m (syntax-rules (q) {rules} ((_ a) (m a))))) (m ({literals} 1)))")
}

fn last_of_rules(n: usize) -> String {
    let rules = repeated(n, |i| format!("((_ {i} x) (quote x))"));
    format!("() (let-syntax ((m (syntax-rules () {rules}))) (m {} y))", n - 1)
}

const FAMILIES: &[Family] = &[
    Family { title: "nested lambdas", sizes: &[8, 16, 32, 60], recipe: |n| format!("() {}1{}", "(lambda (x) ".repeat(n), ")".repeat(n)) },
    Family { title: "operands", sizes: &[250, 500, 1_000, 2_000], recipe: |n| format!("(f) (f {})", digits_of(n)) },
    Family {
        title: "distinct names",
        sizes: &[125, 250, 500, 1_000],
        recipe: |n| format!("() (quote ({}))", repeated(n, |i| format!("x{i}"))),
    },
    Family {
        title: "integers of a quoted list",
        sizes: &[250, 500, 1_000, 2_000],
        recipe: |n| format!("() (quote ({}))", repeated(n, |i| format!("{}{:02}", i % 9 + 1, i % 100))),
    },
    Family {
        title: "decimals of a quoted list",
        sizes: &[250, 500, 1_000, 2_000],
        recipe: |n| format!("() (quote ({}))", repeated(n, |i| format!("{}.{:02}", i % 9 + 1, i % 100))),
    },
    Family {
        title: "operands of a recursive or",
        sizes: &[10, 20, 40, 80],
        recipe: |n| format!("() {OR} (or {}))", repeated(n, |i| i.to_string())),
    },
    Family { title: "rules of a macro, the last of which fits", sizes: &[2, 4, 8, 16], recipe: last_of_rules },
    Family { title: "rules that a macro makes, each with an escaped ellipsis", sizes: &[2, 4, 8, 16], recipe: escaped },
    Family { title: "literals in each of fifteen rules, all compared at each step", sizes: &[4, 8, 16], recipe: literals },
    Family {
        title: "copies under an ellipsis",
        sizes: &[250, 500, 1_000, 2_000],
        recipe: |n| with_rule("((_ x ...) (f x ...))", &digits_of(n)),
    },
    Family {
        title: "copies of parts of pairs",
        sizes: &[80, 160, 320, 640],
        recipe: |n| with_rule("((_ (a b) ...) (f (f b a) ...))", &repeated(n, |i| format!("(1 {})", i % 10))),
    },
    Family {
        title: "copies with a variable from outside",
        sizes: &[125, 250, 500, 1_000],
        recipe: |n| with_rule("((_ y x ...) (f (f y x) ...))", &format!("0 {}", digits_of(n))),
    },
    Family {
        title: "copies of two lists",
        sizes: &[125, 250, 500, 1_000],
        recipe: |n| with_rule("((_ (x ...) (y ...)) (f (f x y) ...))", &format!("({0}) ({0})", digits_of(n))),
    },
    Family { title: "copies under two ellipses, years beside each row of ten coins", sizes: &[80, 160, 320, 640], recipe: years },
    Family { title: "copies under three ellipses", sizes: &[64, 216, 512, 1_000], recipe: three_lists },
    Family {
        title: "elements before three that follow the ellipsis",
        sizes: &[250, 500, 1_000, 2_000],
        recipe: |n| with_rule("((_ x ... a b c) (f c b a x ...))", &format!("{} 1 2 3", digits_of(n))),
    },
    Family {
        title: "elements that follow the ellipsis, as many before them",
        sizes: &[80, 160, 320, 640],
        recipe: |n| {
            with_rule(&format!("((_ x ... {0}) (f x ...))", repeated(n, |_| "1".to_string())), &repeated(2 * n, |_| "1".to_string()))
        },
    },
    Family {
        title: "rows, an element after the ellipsis in each",
        sizes: &[50, 100, 200, 400],
        recipe: |n| with_rule("((_ (x ... y) ...) (f (f y x ...) ...))", &repeated(n, |_| "(1 2 3)".to_string())),
    },
    Family {
        title: "copies of another list beside a row of 901 that (a ... c) matches",
        sizes: &[100, 200, 400, 800],
        recipe: |n| beside_row("a ... c", n),
    },
    Family {
        title: "copies of another list beside a row of 901 that (c a ...) matches",
        sizes: &[100, 200, 400, 800],
        recipe: |n| beside_row("c a ...", n),
    },
    Family { title: "ellipses over one another, one list for all of them", sizes: &[4, 8, 16, 32], recipe: ellipses::one_list },
    Family { title: "ellipses over one another, a list for each", sizes: &[2, 4, 8, 16], recipe: ellipses::own_lists },
    Family {
        title: "ellipses over one another, the last of all lists of another length",
        sizes: &[4, 8, 16, 32],
        recipe: ellipses::last_differs,
    },
];

/// Expanding alone, of tables that reading does not give: as many ellipses over one another, and as long a list under them, as fit.
fn deeper() -> Curve {
    let mut answer = String::new();
    let mut point = |levels: usize| {
        let count = (4_095 - deep::nested_ellipses(levels, 0).len() / 3) / 2;
        let items = deep::nested_ellipses(levels, count);
        let (work, core) = grebetallboy::table_words(items.len() / 3, MOST);
        let (mut work, mut core) = (vec![0; work], vec![0; core]);
        answer = format!("refused {}", crate::expanded(&items, MOST, &mut work, &mut core).0);
        let us = time(|| {
            let _ = std::hint::black_box(grebetallboy::expand(&items, MOST, &mut work, &mut core));
        });
        (levels, us)
    };
    let points = [16, 64, 160, 500].map(&mut point).to_vec();
    Curve { title: "ellipses over one another in a table, expanding alone".to_string(), points, answer }
}

pub fn curves() -> Vec<Curve> {
    let curve = |family: &Family| {
        let timed: Vec<_> = family.sizes.iter().map(|&n| (n, services(&(family.recipe)(n), MOST))).collect();
        let answer = timed.last().unwrap().1 .1.clone();
        Curve { title: family.title.to_string(), points: timed.into_iter().map(|(n, (us, _))| (n, us)).collect(), answer }
    };
    FAMILIES.iter().map(curve).chain([deeper()]).collect()
}

/// A row a family: microseconds at each size, nanoseconds for each of what grows at the largest, and the answer there.
pub fn table(curves: &[Curve]) -> String {
    let mut out = "| what grows | size: µs | | | | ns for each | answer at the largest |\n|---|---|---|---|---|---|---|\n".to_string();
    for curve in curves {
        let mut cells: Vec<_> = curve.points.iter().map(|&(n, us)| format!("{}: {}", grouped(n), digits(us))).collect();
        cells.resize(4, String::new());
        let &(n, us) = curve.points.last().unwrap();
        writeln!(out, "| {} | {} | {} | {} |", curve.title, cells.join(" | "), digits(us * 1e3 / n as f64), curve.answer).unwrap();
    }
    out
}
