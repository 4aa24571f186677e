//! The core term: its words, ground 19, its text and ground 20.

use crate::text::{Datum, Number};
use crate::Ground;

#[derive(Clone, Debug, PartialEq)]
pub enum Term {
    Variable(u32),
    Operation(u32),
    Number(Number),
    Boolean(bool),
    Quoted(Datum),
    If(Box<[Term; 3]>),
    /// The first variable's number, the formals' name numbers, the body.
    Lambda(u32, Vec<u32>, Box<Term>),
    Application(Box<Term>, Vec<Term>),
}

impl Term {
    pub fn words(&self) -> Vec<u32> {
        let mut out = Vec::new();
        self.put(&mut out);
        out
    }

    fn put(&self, out: &mut Vec<u32>) {
        match self {
            Term::Variable(n) => out.extend([0, *n]),
            Term::Operation(n) => out.extend([1, *n]),
            Term::Number(n) => put_number(*n, out),
            Term::Boolean(b) => out.extend([3, u32::from(*b)]),
            Term::Quoted(d) => put_datum(d, out),
            Term::If(parts) => {
                out.push(6);
                parts.iter().for_each(|t| t.put(out));
            }
            Term::Lambda(first, names, body) => {
                out.extend([7, *first, names.len() as u32]);
                out.extend(names);
                body.put(out);
            }
            Term::Application(head, operands) => {
                out.extend([8, operands.len() as u32]);
                head.put(out);
                operands.iter().for_each(|t| t.put(out));
            }
        }
    }
}

fn put_datum(d: &Datum, out: &mut Vec<u32>) {
    match d {
        Datum::Number(n) => put_number(*n, out),
        Datum::Boolean(b) => out.extend([3, u32::from(*b)]),
        Datum::Name(n) => out.extend([4, *n]),
        Datum::List(list) => {
            out.extend([5, list.len() as u32]);
            list.iter().for_each(|d| put_datum(d, out));
        }
    }
}

fn put_number(n: Number, out: &mut Vec<u32>) {
    match n.places {
        0 => out.extend([2, n.value as u32]),
        places => out.extend([9, n.value as u32, places]),
    }
}

/// Its digits, the last of them behind a dot, and at least one before it.
fn decimal(n: Number) -> String {
    let (sign, size) = (if n.value < 0 { "-" } else { "" }, n.value.unsigned_abs());
    let (whole, part) = (size / 10u32.pow(n.places), size % 10u32.pow(n.places));
    format!("{sign}{whole}.{part:0places$}", places = n.places as usize)
}

/// The slot of a name that can be written: it lies in the name table, with a length of 1 to 63.
pub fn spelled(names: &[u8], n: u32) -> Option<&[u8]> {
    let slot = names.get(64 * n as usize..)?.get(..64)?;
    (n < 1_024 && (1..=63).contains(&slot[0])).then(|| &slot[1..=slot[0] as usize])
}

struct Decoder<'a> {
    words: &'a [u32],
    operations: u32,
    /// Whether a name number may stand in the term.
    named: &'a dyn Fn(u32) -> bool,
    variables: u64,
    scope: Vec<(u64, u64)>,
}

/// Exactly one term; none is ground 19.
pub fn decode(words: &[u32], operations: u32, names: &[u8]) -> Option<Term> {
    decode_with(words, operations, &|n| spelled(names, n).is_some())
}

/// The same where neither a count of operations nor a name table is given.
pub fn decode_unnamed(words: &[u32]) -> Option<Term> {
    decode_with(words, 256, &|n| n < 1_024)
}

fn decode_with(words: &[u32], operations: u32, named: &dyn Fn(u32) -> bool) -> Option<Term> {
    if operations > 256 {
        return None;
    }
    let mut d = Decoder { words, operations, named, variables: 0, scope: Vec::new() };
    let term = d.term()?;
    d.words.is_empty().then_some(term)
}

impl Decoder<'_> {
    fn word(&mut self) -> Option<u32> {
        let (first, rest) = self.words.split_first()?;
        self.words = rest;
        Some(*first)
    }

    fn name(&mut self) -> Option<u32> {
        self.word().filter(|n| (self.named)(*n))
    }

    fn terms(&mut self, count: u32) -> Option<Vec<Term>> {
        (0..count).map(|_| self.term()).collect()
    }

    fn term(&mut self) -> Option<Term> {
        if let 2..=5 | 9 = self.words.first()? {
            return Some(match self.datum()? {
                Datum::Number(n) => Term::Number(n),
                Datum::Boolean(b) => Term::Boolean(b),
                quoted => Term::Quoted(quoted),
            });
        }
        Some(match self.word()? {
            0 => {
                let n = self.word()?;
                self.scope.iter().find(|(first, end)| (*first..*end).contains(&u64::from(n)))?;
                Term::Variable(n)
            }
            1 => Term::Operation(self.word().filter(|n| *n < self.operations)?),
            6 => Term::If(Box::new([self.term()?, self.term()?, self.term()?])),
            7 => {
                let (first, count) = (self.word()?, self.word()?);
                if u64::from(first) != self.variables || count > 8 {
                    return None;
                }
                let names = (0..count).map(|_| self.name()).collect::<Option<_>>()?;
                self.variables += u64::from(count);
                self.scope.push((u64::from(first), self.variables));
                let body = self.term()?;
                self.scope.pop();
                Term::Lambda(first, names, Box::new(body))
            }
            8 => {
                let count = self.word()?;
                Term::Application(Box::new(self.term()?), self.terms(count)?)
            }
            _ => return None,
        })
    }

    fn datum(&mut self) -> Option<Datum> {
        Some(match self.word()? {
            2 => Datum::Number(Number { value: self.word()? as i32, places: 0 }),
            3 => Datum::Boolean(self.word().filter(|b| *b < 2)? == 1),
            4 => Datum::Name(self.name()?),
            5 => {
                let count = self.word()?;
                Datum::List((0..count).map(|_| self.datum()).collect::<Option<_>>()?)
            }
            9 => {
                let value = self.word()? as i32;
                Datum::Number(Number { value, places: self.word().filter(|places| (1..=4).contains(places))? })
            }
            _ => return None,
        })
    }
}

struct Writer<'a> {
    names: &'a [u8],
    /// The name of each variable so far, by its number.
    called: Vec<u32>,
    out: Vec<u8>,
}

/// The text of exactly one term; none is ground 19.
pub fn text(words: &[u32], operations: u32, names: &[u8]) -> Option<Vec<u8>> {
    let term = decode(words, operations, names)?;
    let mut w = Writer { names, called: Vec::new(), out: Vec::new() };
    w.term(&term);
    Some(w.out)
}

impl Writer<'_> {
    fn put(&mut self, text: &str) {
        self.out.extend(text.as_bytes());
    }

    fn name(&mut self, n: u32) {
        self.out.extend(spelled(self.names, n).expect("a decoded name can be written"));
    }

    /// Its number, and the name that its formal had.
    fn variable(&mut self, n: u32) {
        self.put(&format!("v{n}."));
        self.name(self.called[n as usize]);
    }

    /// Each after a space but the first.
    fn spaced<T>(&mut self, list: impl IntoIterator<Item = T>, put: impl Fn(&mut Self, T)) {
        for (i, t) in list.into_iter().enumerate() {
            if i > 0 {
                self.put(" ");
            }
            put(self, t);
        }
    }

    fn term(&mut self, t: &Term) {
        match t {
            Term::Variable(n) => self.variable(*n),
            Term::Operation(n) => self.put(&format!("o{n}")),
            Term::Number(n) => self.number(*n),
            Term::Boolean(b) => self.boolean(*b),
            Term::Quoted(d) => {
                self.put("(quote ");
                self.datum(d);
                self.put(")");
            }
            Term::If(parts) => {
                self.put("(if ");
                self.spaced(parts.iter(), Self::term);
                self.put(")");
            }
            Term::Lambda(first, names, body) => {
                self.called.extend(names);
                self.put("(lambda (");
                self.spaced((*first..).take(names.len()), Self::variable);
                self.put(") ");
                self.term(body);
                self.put(")");
            }
            Term::Application(head, operands) => {
                self.put("(");
                self.spaced(std::iter::once(&**head).chain(operands), Self::term);
                self.put(")");
            }
        }
    }

    fn datum(&mut self, d: &Datum) {
        match d {
            Datum::Number(n) => self.number(*n),
            Datum::Boolean(b) => self.boolean(*b),
            Datum::Name(n) => self.name(*n),
            Datum::List(list) => {
                self.put("(");
                self.spaced(list, Self::datum);
                self.put(")");
            }
        }
    }

    fn boolean(&mut self, b: bool) {
        self.put(if b { "#t" } else { "#f" });
    }

    fn number(&mut self, n: Number) {
        self.put(&if n.places == 0 { n.value.to_string() } else { decimal(n) });
    }
}

/// The whole call: the ground and the text's length.
pub fn write_call(words: &[u32], operations: u32, names: &[u8], out: &mut [u8]) -> (Ground, u32) {
    let Some(text) = text(words, operations, names) else { return (19, 0) };
    if text.len() > out.len() {
        return (20, 0);
    }
    out[..text.len()].copy_from_slice(&text);
    (0, text.len() as u32)
}
