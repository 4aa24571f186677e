//! Recipes with ellipses inside ellipses, over lists as long as reading takes: no fuel pays for all their copies.

use reference::text;

/// A recipe given an element of its lists as often as reading takes it.
fn filled(element: &str, recipe: impl Fn(&str) -> String) -> String {
    let items = |count: usize| text::read(recipe(&element.repeat(count)).as_bytes()).expect("a recipe").words().len() / 3;
    let count = (4_095 - items(0)) / (items(1) - items(0));
    assert!(count > 10, "{count} elements");
    recipe(&element.repeat(count))
}

/// `(f x0 (f x1 (f x2 inner ...) ...) ...)`, so many levels.
fn nested(levels: usize, name: impl Fn(usize) -> String, inner: &str) -> String {
    let opening: String = (0..levels).map(|i| format!("(f {} ", name(i))).collect();
    format!("{opening}{inner}{}", " ...)".repeat(levels))
}

/// One list that drives every ellipsis: 18.
pub fn one_list(levels: usize) -> String {
    let template = nested(levels, |i| if i == 0 { "1".to_string() } else { "x".to_string() }, "x");
    filled(" 1", |list| format!("(f) (let-syntax ((m (syntax-rules () ((_ x ...) {template})))) (m{list}))"))
}

/// A list for each ellipsis: 18.
pub fn own_lists(levels: usize) -> String {
    let template = nested(levels, |i| if i == 0 { "1".to_string() } else { format!("x{i}") }, &format!("x{levels}"));
    let pattern: String = (1..=levels).map(|i| format!(" (x{i} ...)")).collect();
    let used = |list: &str| format!(" ({list})").repeat(levels);
    filled(" 1", |list| format!("(f) (let-syntax ((m (syntax-rules () ((_{pattern}) {template})))) (m{}))", used(list)))
}

/// Two lists in each row, of which only the last row's differ in length, under all the ellipses but two: 17.
pub fn last_differs(levels: usize) -> String {
    let template = nested(levels - 1, |i| if i == 0 { "1".to_string() } else { "x".to_string() }, "((f a b) ...)");
    let rule = format!("((_ (x ...) ((a ...) (b ...)) ...) {template})");
    let years = " 1".repeat(200);
    filled(" ((1 1) (1 1))", |rows| format!("(f) (let-syntax ((m (syntax-rules () {rule}))) (m ({years}){rows} ((1) ())))"))
}
