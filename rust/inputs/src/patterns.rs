//! Recipes about rules: patterns with nested ellipses and elements after them, ellipses of an author's choice, templates that repeat
//! their variables, escapes, macros that make macros, uses that mostly fit.

use crate::{number, Random, NUMBERS};

const VARIABLES: &[&str] = &["a", "b", "c", "d", "e", "t", "x", "y"];
const LITERALS: &[&str] = &["else", "=>", "t"];
const INSERTED: &[&str] = &["op", "t", "x", "if", "quote", "lambda", "else", "m", "k"];
const CHOSEN: &[&str] = &["e", "t", "m", "if", "else", "op", "_", "..."];

/// Rules that a template makes, with E for their ellipsis, and a use of them.
const MADE: &[(&str, &str)] = &[
    ("((_ p E) (op p E))", "(n 1 t x)"),
    ("((_ p E q) (op q (op p) E))", "(n 1 2 x)"),
    ("((_ (p E) E) (quote (n (p q E) E)))", "(n (1 2) ())"),
    ("((_ (p q E) E) (op (op p q E) E))", "(n (1 2) (3))"),
    ("((_ p E) (quote (p E (E (p E)))))", "(n x 2)"),
];

enum Pattern {
    Variable(&'static str),
    Literal(&'static str),
    Wildcard,
    /// Out of a row of numbers of one value.
    Number(&'static [&'static str], &'static str),
    /// Elements, and which of them is repeated.
    List(Vec<Pattern>, Option<usize>),
}

pub struct Rules<'a> {
    random: &'a mut Random,
    literals: Vec<&'static str>,
    /// Variables of the rule at hand, each with the ellipses over it.
    variables: Vec<(&'static str, usize)>,
    /// The ellipsis of the rules at hand.
    dots: &'static str,
    /// How many elements most repeated ones of a use get, so that lists are often of one length.
    length: usize,
}

impl Rules<'_> {
    /// One or two macros with rules of one or two patterns, and a body of uses.
    pub fn recipe(random: &mut Random) -> String {
        let literals = (0..random.below(3)).map(|_| random.pick(LITERALS)).collect();
        let length = random.below(4);
        let mut r = Rules { random, literals, variables: Vec::new(), dots: "...", length };
        let form = r.random.pick(&["let-syntax", "letrec-syntax"]);
        let mut entries = String::new();
        let mut uses = Vec::new();
        for name in ["m", "k"].iter().take(1 + r.random.below(2)) {
            let chosen = match r.random.below(10) {
                0 => r.random.pick(CHOSEN),
                1..=3 => "dots",
                _ => "",
            };
            r.dots = if chosen.is_empty() { "..." } else { chosen };
            let mut rules = String::new();
            for _ in 0..1 + r.random.below(2) {
                let pattern = if r.random.chance(25) { r.rows() } else { r.list(3, 0) };
                // quoted, all of it is seen in the term
                let template = match r.random.below(10) {
                    0 => r.made(),
                    1..=4 => format!("(quote {})", r.template(4, 0)),
                    _ => r.template(4, 0),
                };
                let first = if r.random.chance(5) { r.random.pick(&["...", "dots", "m", "t"]) } else { "_" };
                rules += &format!(" ({} {template})", text_of(first, r.dots, &pattern));
                uses.push(r.used(name, &pattern));
                r.variables.clear();
            }
            entries += &format!("({name} (syntax-rules{} ({}){rules}))", after_space(chosen), r.literals.join(" "));
        }
        let body = if r.random.chance(50) { uses.swap_remove(r.random.below(uses.len())) } else { format!("(op {})", uses.join(" ")) };
        let formal = r.random.pick(&["t", "x", "else", "a"]);
        let operations = if r.random.chance(3) { r.random.pick(&["(op op)", "(op if)", "(op 1)", "(op ())"]) } else { "(op)" };
        let expression = format!("({form} ({entries}) (lambda ({formal}) {body}))");
        let outside = r.random.pick(&["dots", "dots t", "e x"]);
        if r.random.chance(10) { format!("{operations} (lambda ({outside}) {expression})") } else { format!("{operations} {expression}") }
    }

    fn list(&mut self, depth: usize, ellipses: usize) -> Pattern {
        let count = self.random.below(4);
        let repeated = (count > 0 && ellipses < 3 && self.random.chance(45)).then(|| self.random.below(count));
        let elements = (0..count).map(|i| self.pattern(depth - 1, ellipses + usize::from(repeated == Some(i))));
        Pattern::List(elements.collect(), repeated)
    }

    /// Two lists that may differ in length, so that one ellipsis over both is ground 17.
    fn rows(&mut self) -> Pattern {
        self.variables.extend([("a", 1), ("b", 1)]);
        Pattern::List(["a", "b"].map(|x| Pattern::List(vec![Pattern::Variable(x)], Some(0))).into(), None)
    }

    fn pattern(&mut self, depth: usize, ellipses: usize) -> Pattern {
        match self.random.below(20) {
            0 => {
                let row = NUMBERS[self.random.below(NUMBERS.len())];
                Pattern::Number(row, self.random.pick(row))
            }
            1 => Pattern::Wildcard,
            2 if !self.literals.is_empty() => Pattern::Literal(self.literals[self.random.below(self.literals.len())]),
            3..=8 if depth > 0 => self.list(depth, ellipses),
            _ => {
                // beside a chosen ellipsis `...` is a variable too
                let x = if self.dots != "..." && self.random.chance(10) { "..." } else { self.random.pick(VARIABLES) };
                if self.variables.iter().any(|(y, _)| *y == x) && self.random.chance(97) {
                    return Pattern::Wildcard;
                }
                self.variables.push((x, ellipses));
                Pattern::Variable(x)
            }
        }
    }

    /// A template under so many ellipses, its variables under as many as they want or more, now and then not.
    fn template(&mut self, depth: usize, ellipses: usize) -> String {
        if depth == 0 || self.random.chance(25 - 10 * ellipses.min(2)) {
            return self.leaf(ellipses);
        }
        match self.random.below(30) {
            0 => return self.escape(depth - 1, ellipses),
            1 => return self.made(),
            _ => {}
        }
        let mut elements = vec![self.random.pick(&["op", "op", "op", "op", "m", "k", "if"]).to_string()];
        for _ in 0..self.random.below(4) {
            let over = self.variables.iter().any(|(_, d)| *d > 0);
            if over && self.random.chance(50) {
                elements.push(self.repeated(depth - 1, ellipses + 1));
                elements.push(self.dots.to_string());
            } else {
                elements.push(self.template(depth - 1, ellipses));
            }
        }
        format!("({})", elements.join(" "))
    }

    /// An element under its own ellipsis and those outside it, mostly with a variable that drives it.
    fn repeated(&mut self, depth: usize, ellipses: usize) -> String {
        let element = self.template(depth, ellipses);
        let driving: Vec<(&str, usize)> = self.variables.iter().filter(|(_, d)| *d > 0).copied().collect();
        let (x, d) = driving[self.random.below(driving.len())];
        match self.random.below(8) {
            0 => element,
            1 | 2 if d <= ellipses => x.to_string(),
            _ if d <= ellipses => format!("(op {x} {element})"),
            _ => format!("(op {x} {} {element})", self.dots),
        }
    }

    /// A template inside which an ellipsis is an ordinary name, now and then of another length.
    fn escape(&mut self, depth: usize, ellipses: usize) -> String {
        let dots = self.dots;
        let escaped = match self.random.below(6) {
            0 => dots.to_string(),
            1 => format!("({} {dots} {dots})", self.leaf(ellipses)),
            2 => format!("({dots} {})", self.leaf(ellipses)),
            3 => format!("({dots} (op {} {dots}) {dots})", self.leaf(ellipses)),
            4 => format!("{} {dots}", self.leaf(ellipses)),
            _ => self.template(depth, ellipses),
        };
        format!("({dots} {escaped})")
    }

    /// A form whose rules have an ellipsis of their own: escaped each time or all together, or chosen, now and then by the use.
    fn made(&mut self) -> String {
        let (rule, used) = MADE[self.random.below(MADE.len())];
        let dots = self.dots;
        let each = format!("({dots} {dots})");
        let plain: Vec<&'static str> = self.variables.iter().filter(|(_, d)| *d == 0).map(|(x, _)| *x).chain(["dots", "q"]).collect();
        let given = plain[self.random.below(plain.len())];
        let (chosen, own, whole) = match self.random.below(6) {
            0 if dots == "..." => ("", &each[..], false),
            0 => (&each[..], &each[..], false),
            1 => (given, given, false),
            2 => (given, self.random.pick(&["dots", "t"]), false),
            3 => ("dots", "dots", true),
            4 => ("", "...", dots == "..."),
            _ => (&each[..], &each[..], false),
        };
        let form = format!("(let-syntax ((n (syntax-rules{} () {}))) {used})", after_space(chosen), rule.replace('E', own));
        if whole { format!("({dots} {form})") } else { form }
    }

    fn leaf(&mut self, ellipses: usize) -> String {
        let fitting: Vec<&str> = self.variables.iter().filter(|(_, d)| *d <= ellipses).map(|(x, _)| *x).collect();
        let driving: Vec<&str> = self.variables.iter().filter(|(_, d)| *d > 0 && *d <= ellipses).map(|(x, _)| *x).collect();
        match self.random.below(20) {
            0 => self.random.pick(VARIABLES).to_string(),
            1..=3 => self.random.pick(INSERTED).to_string(),
            4 => number(self.random).to_string(),
            _ if !driving.is_empty() => driving[self.random.below(driving.len())].to_string(),
            _ if !fitting.is_empty() => fitting[self.random.below(fitting.len())].to_string(),
            _ => self.random.pick(INSERTED).to_string(),
        }
    }

    /// A use of the name that a pattern fits, now and then damaged.
    fn used(&mut self, name: &str, pattern: &Pattern) -> String {
        let Pattern::List(elements, repeated) = pattern else { return format!("({name})") };
        format!("({name} {})", self.fitting(elements, *repeated))
    }

    fn fitting(&mut self, elements: &[Pattern], repeated: Option<usize>) -> String {
        let mut texts = Vec::new();
        for (i, p) in elements.iter().enumerate() {
            let times = if repeated == Some(i) { self.times() } else { 1 };
            texts.extend((0..times).map(|_| self.fits(p)));
        }
        match self.random.below(60) {
            0 | 1 => texts.push("1".to_string()),
            2 => drop(texts.pop()),
            _ => {}
        }
        texts.join(" ")
    }

    fn times(&mut self) -> usize {
        if self.random.chance(60) {
            return self.length;
        }
        self.random.below(4)
    }

    fn fits(&mut self, pattern: &Pattern) -> String {
        match pattern {
            Pattern::Number(..) if self.random.chance(10) => number(self.random).to_string(),
            Pattern::Number(row, _) if self.random.chance(30) => self.random.pick(row).to_string(),
            Pattern::Number(_, text) => text.to_string(),
            Pattern::Literal(x) => x.to_string(),
            Pattern::List(elements, repeated) => format!("({})", self.fitting(elements, *repeated)),
            Pattern::Variable(_) | Pattern::Wildcard => match self.random.below(8) {
                0 => "(op t x)".to_string(),
                1 => "(quote (t 1))".to_string(),
                2 => "(lambda (t) (op t))".to_string(),
                3 => self.random.pick(INSERTED).to_string(),
                4 => self.random.pick(VARIABLES).to_string(),
                5 => self.random.pick(&["(m 1)", "dots", "..."]).to_string(),
                _ => "t".to_string(),
            },
        }
    }
}

/// The ellipsis of an author's choice, where there is one.
fn after_space(chosen: &str) -> String {
    if chosen.is_empty() { String::new() } else { format!(" {chosen}") }
}

fn text_of(head: &str, dots: &str, pattern: &Pattern) -> String {
    match pattern {
        Pattern::Variable(x) | Pattern::Literal(x) | Pattern::Number(_, x) => x.to_string(),
        Pattern::Wildcard => "_".to_string(),
        Pattern::List(elements, repeated) => {
            let mut texts: Vec<String> = elements.iter().map(|p| text_of("", dots, p)).collect();
            if let Some(i) = repeated {
                texts.insert(i + 1, dots.to_string());
            }
            if !head.is_empty() {
                texts.insert(0, head.to_string());
            }
            format!("({})", texts.join(" "))
        }
    }
}
