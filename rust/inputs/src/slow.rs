//! Families of recipes that are meant to be slow: each has parameters, and what it gives grows with every one of them. They are texts;
//! [`table`] makes an item table of one that is nested deeper than reading lets it be.

use crate::items::Table;
use crate::Random;
use std::collections::HashMap;

pub struct Family {
    pub name: &'static str,
    /// The largest of each parameter that can matter.
    pub most: &'static [usize],
    pub recipe: fn(&[usize]) -> String,
}

fn some(n: usize, piece: &str) -> String {
    vec![piece; n].join(" ")
}

/// `((( inner )))`.
fn nested(depth: usize, inner: &str) -> String {
    format!("{}{inner}{}", "(".repeat(depth), ")".repeat(depth))
}

/// A macro of one rule, and a use of it.
fn once(rule: &str, used: &str) -> String {
    format!("(f) (let-syntax ((m (syntax-rules () {rule}))) (m {used}))")
}

/// Variables `a0 a1 ..`, at most as many as the rule's others leave.
fn variables(n: usize) -> String {
    (0..n.min(12)).map(|i| format!("a{i}")).collect::<Vec<_>>().join(" ")
}

/// Macros that count to 16 × rounds, handing on a name that two macros' templates have marked, each step's next one inside so many lambdas
/// of it; then the body, where it is `v`. So many marks, joins and binders wait on the name.
fn counted(rounds: usize, each: usize, body: &str) -> String {
    counted_by("(cm 0 0 x)", rounds, &|next| lambdas(each, "v", next), body)
}

/// The same, the count begun by `first` where the name is `x`, and each next step put into `around`.
fn counted_by(first: &str, rounds: usize, around: &dyn Fn(&str) -> String, body: &str) -> String {
    let rounds = rounds.clamp(1, 16);
    let inner: String = (0..15).map(|i| format!("((_ n {i} v) {})", around(&format!("(cm n {} v)", i + 1)))).collect();
    let outer: String = (0..rounds - 1).map(|i| format!("((_ {i} v) (cm {} 0 v))", i + 1)).collect();
    let cm = format!("(cm (syntax-rules () {inner}((_ n 15 v) (cn n v))))");
    let cn = format!("(cn (syntax-rules () {outer}((_ {} v) {body})))", rounds - 1);
    let start = format!("(let-syntax ((p (syntax-rules () ((_) (let-syntax ((q (syntax-rules () ((_) {first})))) (q)))))) (p))");
    format!("(f) (letrec-syntax ({cm} {cn}) {start})")
}

fn lambdas(n: usize, formals: &str, inner: &str) -> String {
    format!("{}{inner}{}", format!("(lambda ({formals}) ").repeat(n), ")".repeat(n))
}

fn literals(p: &[usize]) -> String {
    let rules = format!("(syntax-rules ({} v) ((_ {}) 1))", some(p[2].min(7), "x"), some(p[3], "v"));
    counted(p[0], 0, &lambdas(p[1], "v", &format!("(let-syntax ((c {rules})) 1)")))
}

/// Name `v` compared with a literal by fifteen rules for each of so many elements; it stands in a template.
fn compared(elements: usize) -> String {
    let rules = some(15, "((_ v (... ...) 2) 1)");
    format!("(let-syntax ((c (syntax-rules (v) {rules} ((_ x (... ...)) 1)))) (c {}))", some(elements, "v"))
}

/// A name bound at each of many steps, then compared with a literal by fifteen rules for each of many elements.
fn bound_each_step(p: &[usize]) -> String {
    let rules = some(15, "((_ (v 1) ... 2) 1)");
    counted(p[0], 1, &format!("(let-syntax ((c (syntax-rules (v) {rules} ((_ x ...) 1)))) (c {}))", some(p[1], "(v 1)")))
}

/// The same by rules in which an ellipsis stands for itself.
fn bound_and_compared(p: &[usize]) -> String {
    counted(p[0], 1, &compared(p[1]))
}

/// The same inside a lambda of a name of the same number and other marks.
fn bound_inside_another(p: &[usize]) -> String {
    let recipe = counted(p[0], 1, &compared(p[1]));
    format!("(f) (lambda (x) {})", recipe.strip_prefix("(f) ").expect("an operation"))
}

/// The same inside a lambda of the same name with a mark more.
fn bound_inside_marked(p: &[usize]) -> String {
    let first = "(let-syntax ((r (syntax-rules () ((_ v) (lambda (x) v))))) (r (cm 0 0 x)))";
    counted_by(first, p[0], &|next| lambdas(1, "v", next), &compared(p[1]))
}

/// Names of one number, doubled so many times by a template that inserts them and passes them, all bound, and the last one compared.
fn doubled(p: &[usize]) -> String {
    let times = p[0].clamp(3, 7);
    let double: String = (0..times)
        .map(|i| {
            let both = if i % 2 == 0 { "a ... b (... ...)" } else { "b (... ...) a ..." };
            let inner = format!("(syntax-rules () ((_ b (... ...)) (d{} {both})))", i + 1);
            format!("(d{i} (syntax-rules () ((_ a ...) (let-syntax ((q {inner})) (q a ...)))))")
        })
        .collect();
    let formals = "t u w y z r s v";
    let bound = format!("((_ {formals}) (lambda ({formals}) {})) ((_ {formals} a ...) (lambda ({formals}) (d{times} a ...)))", compared(p[1]));
    format!("(f) (letrec-syntax ({double} (d{times} (syntax-rules () {bound}))) (d0 x))")
}

/// Two names that are the same, passed side by side through many steps, bound in turn by so many lambdas, and one of them compared.
fn side_by_side(p: &[usize]) -> String {
    let recipe = counted(p[0], 0, &lambdas(p[1], "v", &lambdas(p[1], "u", &compared(p[2]))));
    recipe.replace(" v)", " v u)").replace("(v u)", "(v)").replace("(cm 0 0 x)", "(cm 0 0 x x)")
}

/// Many references to a name with many marks, under so many lambdas of it.
fn looked_up(p: &[usize]) -> String {
    counted(p[0], 0, &lambdas(p[1], "v", &format!("(f {})", some(p[2], "v"))))
}

/// Lambdas of eight names of one number, nested.
fn eight_formals(p: &[usize]) -> String {
    let names = ["x", "y", "z", "u", "v", "w", "r", "s"];
    let chain = (0..8).rev().fold(lambdas(p[0], &names.join(" "), &format!("(f {})", some(p[1], names[7]))), |inner, i| {
        let before = names[..i].join(" ");
        format!("(let-syntax ((k{i} (syntax-rules () ((_ {} {before}) {inner})))) (k{i} t {before}))", names[i])
    });
    format!("(f) {chain}")
}

/// The same names, each a step's own.
fn eight_own_formals(p: &[usize]) -> String {
    let names = ["x", "y", "z", "u", "v", "w", "r", "s"];
    let one_more: String = (0..8)
        .map(|i| {
            let before = names[..i].join(" ");
            let more = format!("(let-syntax ((h (syntax-rules () ((_) (k{} {before} t))))) (h))", i + 1);
            format!("(k{i} (syntax-rules () ((_ {before}) {more})))")
        })
        .collect();
    let bound = lambdas(p[0], &names.join(" "), &format!("(f {})", some(p[1], names[7])));
    format!("(f) (letrec-syntax ({one_more} (k8 (syntax-rules () ((_ {}) {bound})))) (k0))", names.join(" "))
}

/// A mark that stays and a lambda at each level: macros that define macros.
fn marks_and_lambdas(p: &[usize]) -> String {
    let inner = (0..p[0]).fold(format!("(f {})", some(p[1], "t")), |inner, i| {
        format!("(let-syntax ((k{i} (syntax-rules () ((_) (lambda (t) {inner}))))) (k{i}))")
    });
    format!("(f) {inner}")
}

/// The same at each of many steps, and the name compared.
fn marks_and_lambdas_each_step(p: &[usize]) -> String {
    let level = |next: &str| format!("(let-syntax ((h (syntax-rules () ((_) (lambda (v) {next}))))) (h))");
    counted_by("(cm 0 0 x)", p[0], &level, &compared(p[1]))
}

pub const FAMILIES: &[Family] = &[
    Family {
        name: "variables deep under an ellipsis that takes nothing, beside a product of copies",
        most: &[1_000, 12, 12, 60, 60],
        recipe: |p| {
            let deep = nested(p[0], &format!("{} {}", some(p[1], "_"), variables(p[2])));
            once(
                &format!("((_ (x ...) ((y) ...) ({deep}) ...) (quote ((x y ...) ...)))"),
                &format!("({}) ({})", some(p[3], "1"), some(p[4], "(1)")),
            )
        },
    },
    Family {
        name: "occurrences of a variable whose list is empty, in a product of copies",
        most: &[1_000, 1_000, 60, 60],
        recipe: |p| {
            let rule = format!("((_ (x ...) ((y) ...) (a ... {})) (quote ((x (y ({}) ...) ...) ...)))", some(p[0], "_"), some(p[1], "a"));
            once(&rule, &format!("({}) ({}) ({})", some(p[2], "1"), some(p[3], "(1)"), some(p[0], "1")))
        },
    },
    Family {
        name: "a variable behind an inner ellipsis, under an ellipsis that another drives",
        most: &[1_000, 1_000, 20],
        recipe: |p| {
            let row = format!("({})", some(p[1], "1"));
            once("((_ (b ...) (a ... c) ...) (f (f b c ...) ...))", &format!("({}) {}", some(p[0], "1"), some(p[2], &row)))
        },
    },
    Family {
        name: "ellipses over an empty row in each of many copies",
        most: &[60, 65, 900],
        recipe: |p| {
            let rule = format!("((_ (x ...) (y ...) (z ...)) (quote ((x (y {}) ...) ...)))", some(p[2], "z ..."));
            once(&rule, &format!("({}) ({}) ()", some(p[0], "1"), some(p[1], "1")))
        },
    },
    Family {
        name: "lists that drive one ellipsis, in each copy of another",
        most: &[12, 200, 60],
        recipe: |p| {
            let lists = p[0].min(12);
            let pattern: String = (0..lists).map(|i| format!("(a{i} ...) ")).collect();
            let element: String = (0..lists).map(|i| format!("a{i} ")).collect();
            let list = format!("({})", some(p[1], "1"));
            once(
                &format!("((_ (x ...) {pattern}) (f (f x (f {element}) ...) ...))"),
                &format!("({}) {}", some(p[2], "1"), some(lists, &list)),
            )
        },
    },
    Family {
        name: "ellipses over one another, then too little fuel",
        most: &[60, 900, 60],
        recipe: |p| {
            let opening: String = (0..p[0]).map(|i| format!("({} ", if i == 0 { "1" } else { "x" })).collect();
            let rule = format!("((_ (x ...) (y ...)) (f {opening}x {} ...{}))", some(p[2], "y ..."), ") ...".repeat(p[0]));
            once(&rule, &format!("({}) ()", some(p[1], "1")))
        },
    },
    Family {
        name: "a pattern of elements after an ellipsis, tried by sixteen rules",
        most: &[100, 1_000],
        recipe: |p| {
            let rules: String = (0..15).map(|_| format!("((_ a ... {} 2) 1)", some(p[0], "_"))).collect();
            format!("() (let-syntax ((m (syntax-rules () {rules}((_ a ...) 1)))) (m {}))", some(p[1], "1"))
        },
    },
    Family {
        name: "sixteen rules of deep lists, tried at each of many steps",
        most: &[50, 50],
        recipe: |p| {
            let deep = |end: &str| nested(p[0], end);
            let rules: String = (0..15).map(|_| format!("((_ {}) 1)", deep(&format!("{} 2", some(p[1], "_"))))).collect();
            format!("() (letrec-syntax ((m (syntax-rules () {rules} ((_ a) (m a))))) (m {}))", deep(&format!("{} 1", some(p[1], "1"))))
        },
    },
    Family { name: "literals of many marks, under lambdas of the name", most: &[16, 200, 7, 1_500], recipe: literals },
    Family { name: "a name bound at each step, compared by fifteen rules", most: &[16, 1_500], recipe: bound_each_step },
    Family { name: "the same, where an ellipsis stands for itself", most: &[16, 1_500], recipe: bound_and_compared },
    Family { name: "the same, inside a lambda of other marks", most: &[16, 1_500], recipe: bound_inside_another },
    Family { name: "the same, inside a lambda with a mark more", most: &[16, 1_500], recipe: bound_inside_marked },
    Family { name: "names of one number, doubled and bound, the last compared by fifteen rules", most: &[7, 1_500], recipe: doubled },
    Family { name: "two names that are the same, side by side", most: &[16, 100, 1_500], recipe: side_by_side },
    Family { name: "references to a name of many marks, under lambdas of it", most: &[16, 200, 1_500], recipe: looked_up },
    Family { name: "lambdas of eight names of one number", most: &[180, 1_000], recipe: eight_formals },
    Family { name: "the same, each a step's own", most: &[180, 1_000], recipe: eight_own_formals },
    Family { name: "a mark that stays and a lambda at each level", most: &[64, 1_500], recipe: marks_and_lambdas },
    Family { name: "the same at each of many steps, the name compared", most: &[16, 1_500], recipe: marks_and_lambdas_each_step },
    Family {
        name: "literals in fifteen rules, compared at each step",
        most: &[60, 8],
        recipe: |p| {
            let list = some(p[0], "q");
            let rules: String = (0..15).map(|_| format!("((_ ({list} 2)) 1)")).collect();
            format!("() (letrec-syntax ((m (syntax-rules ({}) {rules} ((_ a) (m a))))) (m ({list} 1)))", some(p[1].clamp(1, 8), "q"))
        },
    },
    Family {
        name: "two macros that make one another's rules",
        most: &[60, 60],
        recipe: |p| {
            let made = format!(
                "(let-syntax ((k (syntax-rules () ((_ y (... ...)) (f {} y (... ...)))))) (k {}))",
                some(p[0], "x"),
                some(p[1], "x")
            );
            format!("(f) (letrec-syntax ((m (syntax-rules () ((_ x) {made})))) (m (m (m t))))")
        },
    },
];

/// Two families' bodies as operands of one application, so that both work on one arena.
pub fn joined(first: &str, second: &str) -> String {
    let body = |recipe: &str| recipe.split_once(") ").expect("operations and an expression").1.to_string();
    format!("(f) (f {} {})", body(first), body(second))
}

/// Parameters at random, more often small or large.
pub fn parameters(random: &mut Random, family: &Family) -> Vec<usize> {
    family
        .most
        .iter()
        .map(|&most| match random.below(4) {
            0 => 1 + random.below(most),
            1 => most,
            2 => 1 + random.below(4),
            _ => 1 + most / (1 + random.below(8)),
        })
        .collect()
}

/// One parameter changed.
pub fn changed(random: &mut Random, family: &Family, parameters: &[usize]) -> Vec<usize> {
    let mut changed = parameters.to_vec();
    let at = random.below(changed.len());
    let old = changed[at];
    changed[at] = match random.below(5) {
        0 => old * 2,
        1 => old / 2,
        2 => old + 1 + random.below(8),
        3 => old.saturating_sub(1 + random.below(8)),
        _ => 1 + random.below(family.most[at]),
    }
    .clamp(1, family.most[at]);
    changed
}

/// The item table of a text of names, integers and lists, however deep; none where it has more than 4,096 items or 1,024 names.
pub fn table(text: &str) -> Option<Vec<u32>> {
    let spaced = text.replace('(', " ( ").replace(')', " ) ");
    let words: Vec<&str> = spaced.split_whitespace().collect();
    let mut names: HashMap<String, u32> = BASE.iter().zip(0..).map(|(name, number)| (name.to_string(), number)).collect();
    let items = Table::read(&words, &mut |word| {
        let next = names.len() as u32;
        *names.entry(word.to_string()).or_insert(next)
    });
    (items.len() <= 3 * 4_096 && names.len() <= 1_024).then_some(items)
}

const BASE: [&str; 8] = ["quote", "if", "lambda", "let-syntax", "letrec-syntax", "syntax-rules", "...", "_"];
