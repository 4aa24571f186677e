//! Running (request L11): growth in units and in words, examples beside other evaluators, and the worst terms at the limits.

use super::recipes::{last, shown, CHEZ_NOW, GUILE_NOW};
use super::{digits, grouped, tables, time, MOST};
use crate::scheme;
use grebetallboy::{run, run_words, Ran};
use inputs::{runs::sum_to, top};
use std::fmt::Write;

/// The largest budget, and the most words of a term that expanding gives.
const BUDGET: u32 = 65_535;
const WORDS: usize = 36_864;

/// The words of a recipe's term.
fn term(recipe: &str) -> Vec<u32> {
    reference::expanded(recipe.as_bytes()).expect(recipe).1
}

/// Microseconds of running words alone, in a table for just that budget, and what is answered.
fn alone(words: &[u32], budget: u32) -> (f64, String) {
    let mut table = vec![0; run_words(budget)];
    let answer = match run(words, budget, &mut table) {
        Ok(Ran { value, units }) => format!("{value} in {} units", grouped(units as usize)),
        Err(error) => format!("refused {}", crate::refusal(error).ground),
    };
    let us = time(|| {
        let _ = std::hint::black_box(run(words, budget, &mut table));
    });
    (us, answer)
}

/// A closure round the last one, so many times, all of them applied at the end.
fn closures(n: u32) -> String {
    let wrap = "(lambda (f n c) (if (less n 1) (c) (f f (difference n 1) (lambda () (sum n (c))))))";
    format!("(sum difference less equal) ((lambda (f n c) (f f n c)) {wrap} {n} (lambda () 0))")
}

/// `(sum 1 (sum 1 .. 1))` of so many words.
fn nested_sums(words: usize) -> Vec<u32> {
    [&[8, 2, 1, 0, 2, 1].repeat((words - 2) / 6)[..], &[2, 1]].concat()
}

/// `(if #t 1 (1 1 .. 1))` of so many words: the last branch is tested and passed over.
fn passed_over(words: usize) -> Vec<u32> {
    let operands = (words - 9) / 2;
    [&[6, 3, 1, 2, 1, 8, operands as u32, 2, 1][..], &[2, 1].repeat(operands)].concat()
}

pub fn growth() -> String {
    let mut out = "| what grows | size: µs | | | | ns for each | answer at the largest |\n|---|---|---|---|---|---|---|\n".to_string();
    let mut line = |title: &str, points: Vec<(usize, (f64, String))>| {
        let cells: Vec<_> = points.iter().map(|(n, (us, _))| format!("{}: {}", grouped(*n), digits(*us))).collect();
        let (n, (us, answer)) = points.last().unwrap();
        writeln!(out, "| {title} | {} | {} | {answer} |", cells.join(" | "), digits(us * 1e3 / *n as f64)).unwrap();
    };
    let sums = [64, 256, 1_024, 4_096].map(|n| (15 * n as usize + 14, alone(&term(&sum_to(n)), 15 * n + 14)));
    line("units of a sum by self application", sums.to_vec());
    let budgets = [1_023, 4_095, 16_383, 65_535];
    let endless = budgets.map(|n| (n as usize, alone(&term("() ((lambda (x) (x x)) (lambda (x) (x x)))"), n)));
    line("units of a loop without end", endless.to_vec());
    let chain = [40, 160, 640, 2_560].map(|n| (18 * n as usize + 18, alone(&term(&closures(n)), 18 * n + 18)));
    line("units of closures round one another", chain.to_vec());
    let sizes = [4_608, 9_216, 18_432, WORDS];
    line("words of nested sums", sizes.map(|n| (n, alone(&nested_sums(n), BUDGET / 2))).to_vec());
    line("words passed over", sizes.map(|n| (n, alone(&passed_over(n), 3))).to_vec());
    out
}

/// The best of 20 rounds of so many evaluations of an expression `run`; `now` is in microseconds.
fn rounds(prelude: &str, run: &str, count: u32) -> String {
    format!(
        "{prelude}\n(define (round) (let ((s (now))) (do ((i 0 (+ i 1))) ((= i {count})) {run}) (/ (- (now) s) {count}.0)))\n\
         (define (best k b) (if (= k 0) b (best (- k 1) (min b (round)))))\n(display (best 20 1e9)) (newline)\n"
    )
}

/// Microseconds of another evaluator: of a procedure made once and called, and of the whole from the expression as data.
fn others(expression: &str, count: u32) -> [Option<f64>; 4] {
    let made = |eval: &str| format!("(define e '(lambda (sum difference less equal) {expression}))\n(define f {eval})\n");
    let chez = |script: String| scheme::chez(&format!("{CHEZ_NOW}{script}")).and_then(last);
    let guile = |script: String| scheme::guile(&format!("{GUILE_NOW}{script}")).and_then(last);
    let (interpret, eval) = ("(interpret e)", "(eval e (interaction-environment))");
    [
        chez(rounds(&made(interpret), "(f + - < =)", count)),
        guile(rounds(&made(eval), "(f + - < =)", count)),
        chez(rounds(&made(interpret), &format!("({interpret} + - < =)"), count)),
        guile(rounds(&made(eval), &format!("({eval} + - < =)"), count)),
    ]
}

/// Three examples and a deep sum, running alone and from the text on, beside Chez's interpreter and Guile's evaluator.
pub fn peers() -> String {
    let example = |name: &str| std::fs::read_to_string(top().join("examples").join(name).with_extension("scm")).unwrap();
    let recipes = ["die-groups-80", "die-groups-90", "same-die"].map(|name| (name.to_string(), example(name), 300));
    let sum = ("1 + .. + 1,000".to_string(), sum_to(1_000), 20);
    let mut out =
        "| recipe | value | run: µs | Chez, made once | Guile, made once | read, expand, run: µs | Chez `interpret` | Guile `eval` |\n\
                   |---|---|---|---|---|---|---|---|\n"
            .to_string();
    for (name, recipe, count) in recipes.into_iter().chain([sum]) {
        let budget = if count < 100 { BUDGET / 4 } else { 512 };
        let (own, answer) = alone(&term(&recipe), budget);
        let mut tables = tables(MOST);
        let whole = time(|| {
            let _ = std::hint::black_box(tables.value(recipe.as_bytes(), MOST, budget)).expect("a value");
        });
        let (_, expression) = recipe.split_once(')').expect("operations");
        let [chez, guile, chez_whole, guile_whole] = others(expression.trim(), count);
        let cells = [digits(own), shown(chez, own), shown(guile, own), digits(whole), shown(chez_whole, whole), shown(guile_whole, whole)];
        writeln!(out, "| {name} | {answer} | {} |", cells.join(" | ")).unwrap();
    }
    out
}

/// `((lambda (x b) (b 0 b)) 0 (lambda (x b) body))`: the body, whose words are given the number of b, goes on with `(b 0 b)` or the like.
fn again(body: impl Fn(u32) -> Vec<u32>) -> Vec<u32> {
    [&[8, 2, 7, 0, 2, 8, 9][..], &go_on(1), &[2, 0, 7, 2, 2, 8, 9], &body(3)].concat()
}

/// `(b 0 b)`.
fn go_on(b: u32) -> [u32; 8] {
    [8, 2, 0, b, 2, 0, 0, b]
}

/// `(1 1 .. 1)` of so many words.
fn ones(words: usize) -> Vec<u32> {
    let operands = (words - 4) / 2;
    [&[8, operands as u32, 2, 1][..], &[2, 1].repeat(operands)].concat()
}

/// Lambdas of eight variables inside one another, each applied to eight operands, and in the innermost, again and again, so many
/// references to the first variable: `((lambda (x) (x x)) (lambda (x) (if v0 (if v0 .. (x x) 1) 1)))`.
fn deep_environment(levels: usize, references: usize) -> Vec<u32> {
    let outside = (0..levels as u32).flat_map(|level| [8, 8, 7, 8 * level, 8].into_iter().chain(0..8));
    let x = 8 * levels as u32;
    let start = [8, 1, 7, x, 1, 8, 8, 1, 0, x, 0, x, 7, x + 1, 1, 8];
    let references = [&[6, 0, 0].repeat(references)[..], &[8, 1, 0, x + 1, 0, x + 1], &[2, 1].repeat(references)].concat();
    outside.chain(start).chain(references).chain([2, 1].repeat(8 * levels)).collect()
}

/// Terms at the limits, that take the longest.
pub fn worst() -> String {
    let room = WORDS - 60;
    let lambda = |words: usize| [&[7, 4, 0][..], &ones(words - 3)].concat();
    let terms = [
        ("an operand that is a long lambda", again(|b| [&[8, 2, 0, b][..], &lambda(room), &[0, b]].concat())),
        ("a long branch not taken", again(|b| [&[6, 3, 0][..], &ones(room), &go_on(b)].concat())),
        ("a long application, evaluated", again(|b| [&[6][..], &nested_sums(room), &go_on(b), &[2, 1]].concat())),
        (
            "if nested in tests",
            again(|b| [&[6].repeat(room / 5)[..], &[3, 1], &[3, 1, 2, 1].repeat(room / 5 - 1), &go_on(b), &[2, 1]].concat()),
        ),
        ("if nested in last branches", again(|b| [&[6, 3, 0, 2, 1].repeat(room / 5)[..], &go_on(b)].concat())),
        ("nested sums", nested_sums(WORDS)),
        ("the first of 9,600 variables in scope", deep_environment(1_200, 400)),
    ];
    let mut out = "| term | words | answer at budget 65,535 | ms |\n|---|---|---|---|\n".to_string();
    for (name, words) in terms {
        let (us, answer) = alone(&words, BUDGET);
        assert!(words.len() <= WORDS && answer != "refused 19", "{name}: {} words, {answer}", words.len());
        writeln!(out, "| {name} | {} | {answer} | {} |", grouped(words.len()), digits(us / 1e3)).unwrap();
    }
    out
}
