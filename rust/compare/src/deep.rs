//! The deepest inputs: lists nested as deep as a table lets them be, and results nested as deep as fuel lets them be.

use inputs::items::Table;
use reference::text;

/// No operations, and an expression.
fn recipe(expression: &mut dyn FnMut(&mut Table)) -> Vec<u32> {
    Table::recipe(&mut |t| t.empty(), expression)
}

/// `((( ... 1 ... )))`: each list is an application of the next.
pub fn nested_lists(depth: usize) -> Vec<u32> {
    recipe(&mut |t| t.nest(depth, &mut |t| t.integer(1)))
}

/// `(quote ((( ... ))))`.
pub fn nested_quote(depth: usize) -> Vec<u32> {
    recipe(&mut |t| t.list(2, &mut |t, place| if place == 0 { t.name(0) } else { t.nest(depth, &mut |t| t.integer(1)) }))
}

/// `(let-syntax ((m (syntax-rules () rule))) body)`, the rule put by its two places.
fn with_macro(rule: &dyn Fn(&mut Table, usize), body: &dyn Fn(&mut Table)) -> Vec<u32> {
    let rules = |t: &mut Table, place: usize| match place {
        0 => t.name(5),
        1 => t.list(0, &mut |_, _| ()),
        _ => t.list(2, &mut |t, place| rule(t, place)),
    };
    let entry = |t: &mut Table, place: usize| if place == 0 { t.name(M) } else { t.list(3, &mut |t, place| rules(t, place)) };
    recipe(&mut |t| {
        t.list(3, &mut |t, place| match place {
            0 => t.name(3),
            1 => t.list(1, &mut |t, _| t.list(2, &mut |t, place| entry(t, place))),
            _ => body(t),
        })
    })
}

const ELLIPSIS: u32 = 6;
const WILDCARD: u32 = 7;
const M: u32 = 8;
const X: u32 = 9;

/// `((_ x) (((... x ...))))` and `(m (m ... 1))`: each use nests its operand so much deeper.
pub fn nested_results(depth: usize, uses: usize) -> Vec<u32> {
    let rule = |t: &mut Table, place: usize| match place {
        0 => t.list(2, &mut |t, place| t.name([WILDCARD, X][place])),
        _ => t.nest(depth, &mut |t| t.name(X)),
    };
    with_macro(&rule, &|t| use_nested(t, uses))
}

/// `((_ x ...) (1 x ...))` and `(m 1 ... 1)`: so many copies along one list.
pub fn copied_list(count: usize) -> Vec<u32> {
    let rule = |t: &mut Table, place: usize| match place {
        0 => t.list(3, &mut |t, place| t.name([WILDCARD, X, ELLIPSIS][place])),
        _ => t.list(3, &mut |t, place| if place == 0 { t.integer(1) } else { t.name([X, ELLIPSIS][place - 1]) }),
    };
    with_macro(&rule, &|t| use_ones(t, count))
}

/// `((_) (1 ... 1))` and `(m)`: a template of so many elements.
pub fn long_template(count: usize) -> Vec<u32> {
    let rule = |t: &mut Table, place: usize| match place {
        0 => t.list(1, &mut |t, _| t.name(WILDCARD)),
        _ => t.list(count, &mut |t, _| t.integer(1)),
    };
    with_macro(&rule, &|t| t.list(1, &mut |t, _| t.name(M)))
}

/// `((_ x ...) (1 (x (x ... x ...) ...) ...))` and `(m 1 ... 1)`: so many ellipses over one another, driven by so many elements.
pub fn nested_ellipses(levels: usize, count: usize) -> Vec<u32> {
    let rule = |t: &mut Table, place: usize| match place {
        0 => t.list(3, &mut |t, place| t.name([WILDCARD, X, ELLIPSIS][place])),
        _ => t.list(3, &mut |t, place| match place {
            0 => t.integer(1),
            1 => repeated(t, levels - 1),
            _ => t.name(ELLIPSIS),
        }),
    };
    with_macro(&rule, &|t| use_ones(t, count))
}

fn repeated(t: &mut Table, levels: usize) {
    if levels == 0 {
        return t.name(X);
    }
    t.list(3, &mut |t, place| if place == 1 { repeated(t, levels - 1) } else { t.name([X, 0, ELLIPSIS][place]) });
}

/// `((_ x ... 1 ... 1) (1 x ...))` and `(m 1 ... 1)`: so many elements after the ellipsis, and as many that it takes.
pub fn long_tail(count: usize) -> Vec<u32> {
    let rule = |t: &mut Table, place: usize| match place {
        0 => t.list(3 + count, &mut |t, place| if place < 3 { t.name([WILDCARD, X, ELLIPSIS][place]) } else { t.integer(1) }),
        _ => t.list(3, &mut |t, place| if place == 0 { t.integer(1) } else { t.name([X, ELLIPSIS][place - 1]) }),
    };
    with_macro(&rule, &|t| use_ones(t, 2 * count))
}

/// `(m 1 ... 1)`.
fn use_ones(t: &mut Table, count: usize) {
    t.list(count + 1, &mut |t, place| if place == 0 { t.name(M) } else { t.integer(1) });
}

fn use_nested(t: &mut Table, uses: usize) {
    if uses == 0 {
        return t.integer(1);
    }
    t.list(2, &mut |t, place| if place == 0 { t.name(M) } else { use_nested(t, uses - 1) });
}

/// A name that goes through some 800 uses before it is bound and referred to, so that as many joined wraps wait on it.
pub fn many_wraps() -> Vec<u32> {
    let counted = |i: usize| {
        let rules: String = (0..15).map(|k| format!("((_ x {k} j) (m{i} x {} j))", k + 1)).collect();
        let next = if i < 9 { format!("(m{} x 0 j)", i + 1) } else { "(n x j)".to_string() };
        format!("(m{i} (syntax-rules () {rules} ((_ x 15 j) {next})))")
    };
    let macros: String = (0..10).map(counted).collect();
    let rounds: String = (0..4).map(|j| format!("((_ x {j}) (m0 x 0 {}))", j + 1)).collect();
    let n = format!("(n (syntax-rules () {rounds} ((_ x 4) (lambda (x) x))))");
    let recipe = format!("() (letrec-syntax ({macros} {n}) (m0 y 0 0))");
    text::read(recipe.as_bytes()).expect(&recipe).words()
}

/// Names x and y, spelled alike and inserted by two steps, which then go together through the templates of 16 macros a round: each
/// adds a mark to both. What becomes of them is the body's.
pub fn many_marks(rounds: usize, body: &str) -> Vec<u32> {
    let inserted = |after: String| format!("(let-syntax ((j (syntax-rules () ((_) {after})))) (j))");
    let steps: String = (0..15).map(|k| format!("((_ x y {k} r) {})", inserted(format!("(m x y {} r)", k + 1)))).collect();
    let m = format!("(m (syntax-rules () {steps} ((_ x y 15 r) {})))", inserted("(n x y r)".to_string()));
    let again: String = (1..rounds).map(|r| format!("((_ x y {r}) (m x y 0 {}))", r + 1)).collect();
    let n = format!("(n (syntax-rules () {again} ((_ x y {rounds}) {body})))");
    let recipe = format!(
        "(f) (letrec-syntax ({m} {n} (first (syntax-rules () ((_) (second t)))) (second (syntax-rules () ((_ x) (m x t 0 1))))) (first))"
    );
    text::read(recipe.as_bytes()).expect(&recipe).words()
}

/// The words of a term with so many variables, eight a lambda, all of them used where the innermost lambda has its body.
pub fn many_variables(count: usize) -> Vec<u32> {
    let lambda = |first: usize| [7, first as u32, 8].into_iter().chain((first..first + 8).map(|n| (n % 1_024) as u32));
    let lambdas = (0..count).step_by(8).flat_map(lambda);
    lambdas.chain([8, count as u32, 1, 0]).chain((0..count as u32).flat_map(|n| [0, n])).collect()
}

/// Each deepest input with its fuel, and how many levels its term or datum has, or how many copies, elements, wraps or marks.
pub fn inputs() -> Vec<(&'static str, Vec<u32>, u32, usize)> {
    vec![
        ("lists nested in a table", nested_lists(2_044), 0, 2_044),
        ("quoted lists nested in a table", nested_quote(2_042), 0, 2_042),
        ("a result nested by one step", nested_results(2_020, 1), 8_192, 2_020),
        ("results nested by two steps", nested_results(2_020, 2), 8_192, 4_040),
        ("results nested by many steps", nested_results(100, 30), 8_192, 3_000),
        ("copies along one list", copied_list(2_020), 8_192, 2_020),
        ("a template of one long list", long_template(2_020), 8_192, 2_020),
        ("ellipses over one another in a template", nested_ellipses(660, 1), 8_192, 660),
        ("elements after an ellipsis", long_tail(660), 8_192, 660),
        ("a name on which joined wraps wait", many_wraps(), 8_192, 804),
        ("names with many marks", many_marks(10, "(lambda (x) (lambda (y) (f x y)))"), 8_192, 160),
    ]
}

/// The item table of `() 5`.
pub const NO_OPERATIONS: [u32; 15] = [4, 1, 2, 0, 0, 0, 4, 3, 4, 1, 5, 0, 0, 0, 0];

/// A supplier's texts as deep as reading allows: how many lists stand inside one another, the text, and the words of the term that it is.
pub fn texts() -> Vec<(&'static str, usize, String, Vec<u32>)> {
    let text = |name, begin: &str, opening: &str, words: &[u32]| {
        let opened = |s: &str| s.matches('(').count();
        let lists = 65 - opened(begin) - opened(opening);
        let text = format!("{begin}{}5{}", opening.repeat(lists), ")".repeat(opened(begin) + lists));
        (name, lists, text, [&words.repeat(lists), &[2, 5][..]].concat())
    };
    vec![
        text("a text of nested if", "", "(if 1 2 ", &[6, 2, 1, 2, 2]),
        text("a text of nested quoted lists", "(quote ", "(", &[5, 1]),
        text("a text of nested lambdas", "", "(lambda () ", &[7, 0, 0]),
        text("a text of nested applications", "", "(", &[8, 0]),
        text("a text of nested operands", "", "(1 ", &[8, 1, 2, 1]),
    ]
}
