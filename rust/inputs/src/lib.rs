//! What tests are run on: random recipes, over few names so that they meet, in [`terms`] random core terms, and in [`rows`] and [`runs`]
//! those with known answers.

pub mod items;
pub mod known;
pub mod pairs;
pub mod patterns;
pub mod renderings;
pub mod rows;
pub mod runs;
pub mod slow;
pub mod terms;

use std::path::{Path, PathBuf};

/// The repository.
pub fn top() -> PathBuf {
    Path::new(env!("CARGO_MANIFEST_DIR")).join("../..")
}

/// A number from the environment: `INPUTS=1000000 SEED=7 cargo test --release` makes a long run.
pub fn setting(name: &str, default: u64) -> u64 {
    std::env::var(name).ok().and_then(|v| v.parse().ok()).unwrap_or(default)
}

/// Runs in a thread with so many bytes of stack.
pub fn in_stack<T: Send>(bytes: usize, run: impl FnOnce() -> T + Send) -> T {
    std::thread::scope(|scope| std::thread::Builder::new().stack_size(bytes).spawn_scoped(scope, run).unwrap().join().unwrap())
}

/// A small generator of numbers (xorshift), so that a seed gives one run.
pub struct Random(u64);

impl Random {
    pub fn new(seed: u64) -> Random {
        Random(seed.wrapping_mul(0x9e37_79b9_7f4a_7c15) | 1)
    }

    pub fn below(&mut self, n: usize) -> usize {
        self.0 ^= self.0 << 13;
        self.0 ^= self.0 >> 7;
        self.0 ^= self.0 << 17;
        (self.0 >> 11) as usize % n
    }

    pub fn pick<'a>(&mut self, list: &[&'a str]) -> &'a str {
        list[self.below(list.len())]
    }

    pub fn chance(&mut self, percent: usize) -> bool {
        self.below(100) < percent
    }
}

/// Fuels to try again with, after a run of that sum with that fuel: about both, the least, the most, and one at random.
pub fn fuels(random: &mut Random, sum: u32, fuel: u32) -> Vec<u32> {
    let any = random.below(700) as u32;
    let most = if random.chance(5) { 8_192 } else { fuel + 100 };
    vec![0, sum / 2, sum.saturating_sub(1), sum, sum + 1, fuel / 2, fuel + 1, any, most]
}

const NAMES: &[&str] = &["t", "x", "y", "a", "b", "else", "m", "k", "if", "lambda", "quote", "op", "syntax-rules", "_"];
const VARIABLES: &[&str] = &["t", "x", "y", "a", "b"];
const MACROS: &[&str] = &["m", "k", "w", "t", "if"];

/// Numbers, those of a row of one value.
pub const NUMBERS: &[&[&str]] = &[
    &["1", "1.0", "01", "1.0000"],
    &["0", "0.0", "-0", "-0.00"],
    &["0.8", "0.80", "00.800"],
    &["-0.5", "-0.5000"],
    &["-214748.3648"],
    &["8", "8.00"],
];

/// A number that reading takes.
pub fn number(random: &mut Random) -> &'static str {
    let row = NUMBERS[random.below(NUMBERS.len())];
    random.pick(row)
}

/// What may be meant at a place: names that stand for something, and macros with how many operands each takes.
#[derive(Clone, Default)]
struct Scope {
    variables: Vec<&'static str>,
    macros: Vec<(&'static str, usize)>,
}

pub struct Recipes<'a> {
    random: &'a mut Random,
    /// How much more may be made, so that recipes stay small.
    left: i32,
}

impl Recipes<'_> {
    pub fn recipe(random: &mut Random) -> String {
        let mut r = Recipes { random, left: 70 };
        let (operations, variables) = [("()", vec![]), ("(op)", vec!["op"]), ("(op t)", vec!["op", "t"])][r.random.below(3)].clone();
        let scope = Scope { variables, macros: Vec::new() };
        let expression = if r.random.chance(40) { r.lambda(5, &scope) } else { r.macros(5, &scope) };
        format!("{operations} {expression}")
    }

    fn expression(&mut self, depth: usize, scope: &Scope) -> String {
        self.left -= 1;
        if depth == 0 || self.left < 0 {
            return self.leaf(scope);
        }
        match self.random.below(16) {
            0 | 1 => self.leaf(scope),
            2..=4 => self.lambda(depth, scope),
            5 => format!("(if {})", self.operands(3, depth, scope)),
            6 if self.random.chance(30) => format!("(quote {})", self.random.pick(&["t", "(x t)", "1", "()", "0.80", "(-0.5 t 1.0)"])),
            7..=9 => self.macros(depth, scope),
            10 => format!("({} {})", self.leaf(scope), self.operands(1, depth, scope)),
            _ if scope.macros.is_empty() => self.private(depth, scope),
            _ => {
                let (name, arity) = scope.macros[self.random.below(scope.macros.len())];
                let arity = if self.random.chance(5) { arity + 1 } else { arity };
                format!("({name} {})", self.operands(arity, depth, scope))
            }
        }
    }

    fn operands(&mut self, count: usize, depth: usize, scope: &Scope) -> String {
        (0..count).map(|_| self.expression(depth - 1, scope)).collect::<Vec<_>>().join(" ")
    }

    fn leaf(&mut self, scope: &Scope) -> String {
        match self.random.below(20) {
            0 => self.random.pick(NAMES).to_string(),
            1 => number(self.random).to_string(),
            _ if scope.variables.is_empty() => "#f".to_string(),
            _ => scope.variables[self.random.below(scope.variables.len())].to_string(),
        }
    }

    fn lambda(&mut self, depth: usize, scope: &Scope) -> String {
        let formals = self.formals();
        let body = self.expression(depth - 1, &scope.with(&formals));
        format!("(lambda ({}) {body})", formals.join(" "))
    }

    /// One or two names, now and then the same.
    fn formals(&mut self) -> Vec<&'static str> {
        (0..1 + self.random.below(2)).map(|_| self.random.pick(VARIABLES)).collect()
    }

    /// A name bound and used at once, as private names are.
    fn private(&mut self, depth: usize, scope: &Scope) -> String {
        let t = self.random.pick(VARIABLES);
        let inner = scope.with(&[t]);
        format!("((lambda ({t}) (if {t} {})) {})", self.operands(2, depth, &inner), self.leaf(scope))
    }

    fn macros(&mut self, depth: usize, scope: &Scope) -> String {
        self.left -= 6;
        if depth < 2 || self.left < 0 {
            return self.leaf(scope);
        }
        let recursive = self.random.chance(50);
        let entries: Vec<(&str, usize)> = (0..1 + self.random.below(2)).map(|_| (self.random.pick(MACROS), self.random.below(4))).collect();
        let mut inner = scope.clone();
        inner.macros.extend(&entries);
        let rules_scope = if recursive { inner.clone() } else { scope.clone() };
        let texts: Vec<String> = entries.iter().map(|(name, arity)| format!("({name} {})", self.rules(*arity, depth, &rules_scope))).collect();
        let form = if recursive { "letrec-syntax" } else { "let-syntax" };
        format!("({form} ({}) {})", texts.join(" "), self.expression(depth - 1, &inner))
    }

    fn rules(&mut self, arity: usize, depth: usize, scope: &Scope) -> String {
        let literals = if self.random.chance(25) { self.random.pick(&["else", "t", "x else"]) } else { "" };
        let rules: Vec<String> = (0..1 + self.random.below(2)).map(|_| self.rule(arity, depth, scope)).collect();
        format!("(syntax-rules ({literals}) {})", rules.join(" "))
    }

    fn rule(&mut self, arity: usize, depth: usize, scope: &Scope) -> String {
        let mut variables: Vec<&'static str> = Vec::new();
        let mut pattern = vec!["_".to_string()];
        for _ in 0..arity {
            let v = self.random.pick(VARIABLES);
            pattern.push(match self.random.below(12) {
                0 => "else".to_string(),
                1 => number(self.random).to_string(),
                _ if variables.contains(&v) => "_".to_string(),
                _ => {
                    variables.push(v);
                    v.to_string()
                }
            });
        }
        if let (Some(last), true) = (variables.last(), self.random.chance(15)) {
            if pattern.last().map(String::as_str) == Some(last) {
                pattern.push("...".to_string());
                let head = scope.macros.first().map_or("op", |m| m.0);
                return format!("(({}) ({head} {last} ...))", pattern.join(" "));
            }
        }
        let inner = scope.with(&variables);
        let template = if self.random.chance(60) { self.private(depth.max(1), &inner) } else { self.expression(depth - 1, &inner) };
        format!("(({}) {template})", pattern.join(" "))
    }
}

impl Scope {
    fn with(&self, names: &[&'static str]) -> Scope {
        let mut scope = self.clone();
        scope.variables.extend(names);
        scope.variables.extend(names);
        scope
    }
}
