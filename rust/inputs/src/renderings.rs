//! A supplier's texts of a term: its variables named anew over few names, with or without care for what a name hides, and damaged ones.

use crate::Random;

/// Names of a supplier, operations and such as forms have elsewhere among them.
const POOL: &[&str] = &["t", "x", "y", "a", "op", "t.1", "_", "...", "let-syntax", "v0", "o0", "else"];

/// Tokens to put into a text.
const TOKENS: &[&str] = &[
    "quote", "if", "lambda", "op", "t", "x", "zz", "o0", "_", "5", "1.0", "0.80", "-0.5", "#t", "#f", "()", "(", ")", "(quote 5)",
    "(quote t)", "(quote (t 1.0))", "(lambda () 1)", "(lambda (t t) t)", "$", "1.", "99999999999", "(lambda (a b c d e f g h i) a)",
];

/// A written term.
enum Written {
    Atom(String),
    List(Vec<Written>),
}

/// Parentheses and what stands between them.
fn tokens(text: &str) -> Vec<String> {
    text.replace('(', " ( ").replace(')', " ) ").split_whitespace().map(str::to_string).collect()
}

impl Written {
    fn of(text: &str) -> Written {
        let mut open = vec![Vec::new()];
        for token in tokens(text) {
            match &token[..] {
                "(" => open.push(Vec::new()),
                ")" => {
                    let list = Written::List(open.pop().unwrap());
                    open.last_mut().unwrap().push(list);
                }
                _ => open.last_mut().unwrap().push(Written::Atom(token)),
            }
        }
        open.pop().unwrap().pop().expect("a term")
    }

    fn is_form(&self, name: &str) -> bool {
        matches!(self, Written::List(list) if matches!(list.first(), Some(Written::Atom(a)) if a == name))
    }

    fn text(&self) -> String {
        match self {
            Written::Atom(a) => a.clone(),
            Written::List(list) => format!("({})", list.iter().map(Written::text).collect::<Vec<_>>().join(" ")),
        }
    }

    /// Variables and operations of an expression.
    fn references(&self) -> Vec<&str> {
        match self {
            Written::Atom(a) if is_variable(a) || is_operation(a) => vec![a],
            Written::List(list) if !self.is_form("quote") => list.iter().flat_map(Written::references).collect(),
            _ => Vec::new(),
        }
    }
}

fn is_variable(atom: &str) -> bool {
    atom.starts_with('v')
}

fn is_operation(atom: &str) -> bool {
    atom.starts_with('o')
}

struct Renderer<'a> {
    random: &'a mut Random,
    operations: &'a [String],
    careful: bool,
    /// A supplier's name and the variable that it is, the innermost last.
    scope: Vec<(String, String)>,
    /// Whether each name so far means what it stands for.
    faithful: bool,
}

/// The supplier's text of a term as it is written, the recipe's operations spelled out, and whether each reference has its own binder. It
/// has, where care is taken.
pub fn rendering(random: &mut Random, term: &str, operations: &[String], careful: bool) -> (String, bool) {
    let mut r = Renderer { random, operations, careful, scope: Vec::new(), faithful: true };
    let text = r.expression(&Written::of(term));
    (text, r.faithful)
}

impl Renderer<'_> {
    /// The name of an operation, or of a variable whose lambda stands round this place.
    fn name(&self, atom: &str) -> Option<String> {
        if is_operation(atom) {
            return Some(self.operations[atom[1..].parse::<usize>().expect("o and a place")].clone());
        }
        self.scope.iter().find(|(_, variable)| variable == atom).map(|(name, _)| name.clone())
    }

    fn expression(&mut self, t: &Written) -> String {
        match t {
            Written::Atom(a) if is_variable(a) || is_operation(a) => {
                let name = self.name(a).expect("a variable inside its lambda");
                let meant = self.scope.iter().rev().find(|(other, _)| *other == name).map(|(_, variable)| variable);
                self.faithful &= meant == if is_variable(a) { Some(a) } else { None };
                name
            }
            Written::Atom(_) => t.text(),
            Written::List(_) if t.is_form("quote") => t.text(),
            Written::List(list) if t.is_form("lambda") => self.lambda(&list[1], &list[2]),
            Written::List(list) => {
                let parts: Vec<String> = list.iter().map(|t| self.expression(t)).collect();
                format!("({})", parts.join(self.random.pick(&[" ", " ", " ", "\n  "])))
            }
        }
    }

    /// With care no formal has the name of something outside that the body refers to, though often one that it hides; without, often so.
    fn lambda(&mut self, formals: &Written, body: &Written) -> String {
        let Written::List(formals) = formals else { panic!("a list of formals") };
        let referred: Vec<String> = body.references().into_iter().filter_map(|a| self.name(a)).collect();
        let near = if self.careful { self.scope.iter().map(|(name, _)| name.clone()).collect() } else { referred.clone() };
        let mut names: Vec<String> = Vec::new();
        while names.len() < formals.len() {
            let name = match self.random.below(10) {
                0 => format!("n{}", self.random.below(100)),
                1..=4 if !near.is_empty() => near[self.random.below(near.len())].clone(),
                _ => self.random.pick(POOL).to_string(),
            };
            if !names.contains(&name) && !(self.careful && referred.contains(&name)) {
                names.push(name);
            }
        }
        let outside = self.scope.len();
        self.scope.extend(names.iter().cloned().zip(formals.iter().map(Written::text)));
        let body = self.expression(body);
        self.scope.truncate(outside);
        format!("(lambda ({}) {body})", names.join(" "))
    }
}

/// A text with tokens dropped, doubled, changed or put in, or cut off; now and then a byte of it changed.
pub fn damaged(random: &mut Random, text: &str) -> Vec<u8> {
    let mut list = tokens(text);
    for _ in 0..1 + random.below(3) {
        let atoms: Vec<usize> = (0..list.len()).filter(|&i| !"()".contains(&list[i][..])).collect();
        let at = if atoms.is_empty() || random.chance(20) { random.below(list.len().max(1)) } else { atoms[random.below(atoms.len())] };
        match random.below(7) {
            0 if at < list.len() => drop(list.remove(at)),
            1 if at < list.len() => list.insert(at, list[at].clone()),
            2..=4 if at < list.len() => list[at] = random.pick(TOKENS).to_string(),
            5 if at < list.len() => list.swap(at, 0),
            6 if random.chance(20) => list.truncate(at),
            _ => list.insert(at, random.pick(TOKENS).to_string()),
        }
    }
    let mut bytes = list.join(" ").into_bytes();
    if random.chance(5) && !bytes.is_empty() {
        let at = random.below(bytes.len());
        bytes[at] = random.below(256) as u8;
    }
    bytes
}
