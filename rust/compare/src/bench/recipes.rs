//! Three recipes in the filing program's tables, beside other expanders.

use super::{services, tables, time, FILING};
use crate::scheme;
use std::fmt::Write;

pub const OR: &str = "(letrec-syntax ((or (syntax-rules () ((_) #f) ((_ e) e) ((_ e r ...) ((lambda (t) (if t t (or r ...))) e)))))";

fn second(text: &str) -> f64 {
    time(|| drop(std::hint::black_box(reference::file(text.as_bytes(), FILING))))
}

/// The number that a script prints last: microseconds.
pub fn last(printed: String) -> Option<f64> {
    printed.split_whitespace().rev().find_map(|word| word.parse().ok())
}

/// The best of 20 rounds of 500 expansions; `now` is in microseconds.
fn rounds(expand: &str, expression: &str) -> String {
    format!(
        "(define e '{expression})\n(define (round) (let ((s (now))) (do ((i 0 (+ i 1))) ((= i 500)) ({expand} e)) (/ (- (now) s) 500.0)))\n\
         (define (best k b) (if (= k 0) b (best (- k 1) (min b (round)))))\n(display (best 20 1e9)) (newline)\n"
    )
}

/// The time in microseconds.
pub const CHEZ_NOW: &str =
    "(define (now) (let ((t (current-time 'time-monotonic))) (+ (* 1e6 (time-second t)) (/ (time-nanosecond t) 1e3))))\n";
pub const GUILE_NOW: &str = "(define (now) (* 1e6 (/ (get-internal-real-time) internal-time-units-per-second 1.0)))\n";

fn chez(expression: &str) -> Option<f64> {
    scheme::chez(&(CHEZ_NOW.to_string() + &rounds("expand", expression))).and_then(last)
}

fn guile(expression: &str) -> Option<f64> {
    scheme::guile(&(GUILE_NOW.to_string() + &rounds("macroexpand", expression))).and_then(last)
}

pub fn shown(us: Option<f64>, own: f64) -> String {
    us.map_or("-".to_string(), |us| format!("{us:.1} ({:.1} ×)", us / own))
}

/// The floor in the filing program's tables, and the table.
pub fn table() -> (f64, String) {
    let or2 = "(let-syntax ((or2 (syntax-rules () ((_ a b) ((lambda (t) (if t t b)) a))))) (lambda (t) (or2 (f t) t)))".to_string();
    let or = format!("{OR} (lambda (t) (or 1 2 3 4 5 6 7 8 9 10 11 t)))");
    let pairs =
        "(let-syntax ((each (syntax-rules () ((_ (a b) ...) (f (f b a) ...))))) (lambda (t) (each (1 2) (3 4) (5 6) (7 8) (9 10) (t t))))";
    let mut tables = tables(FILING);
    let floor = time(|| tables.zero());
    let mut out = "| recipe | | read, expand, write: µs | to the floor | second expander | Chez `expand` | Guile `macroexpand` |\n\
                   |---|---|---|---|---|---|---|\n"
        .to_string();
    for (name, expression) in [("or2", or2), ("or of twelve", or), ("list of pairs", pairs.to_string())] {
        let text = format!("(f) {expression}");
        let (own, answer) = services(&text, FILING);
        let whole = format!("(lambda (f) {expression})");
        let others = [Some(second(&text)), chez(&whole), guile(&whole)].map(|us| shown(us, own));
        writeln!(out, "| {name} | {answer} | {own:.1} | {:.1} × | {} |", own / floor, others.join(" | ")).unwrap();
    }
    (floor, out)
}
