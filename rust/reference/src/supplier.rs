//! Request L4: a supplier's core text held against our term. Both become terms whose names are numbered by spelling and whose variables
//! are numbered as lambdas bind them; then it is our term where the two are equal.

use crate::core::{decode, spelled, Term};
use crate::expand::operation_numbers;
use crate::table;
use crate::text::{read_into, Datum, Recipe};
use crate::Ground;

/// Numbers of names by their spelling, whichever table has them.
#[derive(Default)]
struct Spellings(Vec<Vec<u8>>);

impl Spellings {
    fn number(&mut self, name: &[u8]) -> u32 {
        let known = self.0.iter().position(|other| other == name);
        known.unwrap_or_else(|| {
            self.0.push(name.to_vec());
            self.0.len() - 1
        }) as u32
    }

    fn datum(&mut self, d: &Datum, name: &impl Fn(u32) -> Vec<u8>) -> Datum {
        match d {
            Datum::Name(n) => Datum::Name(self.number(&name(*n))),
            Datum::List(list) => Datum::List(list.iter().map(|d| self.datum(d, name)).collect()),
            other => other.clone(),
        }
    }
}

/// Our term and the recipe's names.
struct Ours<'a> {
    term: Term,
    operations: Vec<u32>,
    names: &'a [u8],
}

impl Ours<'_> {
    fn name(&self, n: u32) -> Vec<u8> {
        spelled(self.names, n).expect("ground 19 has been tested").to_vec()
    }

    /// The term with operations and quoted names by spelling, and no heed paid to the name words.
    fn by_spelling(&self, t: &Term, spellings: &mut Spellings) -> Term {
        let mut all = |list: &[Term]| list.iter().map(|t| self.by_spelling(t, spellings)).collect::<Vec<_>>();
        match t {
            Term::Operation(place) => Term::Operation(spellings.number(&self.name(self.operations[*place as usize]))),
            Term::Quoted(d) => Term::Quoted(spellings.datum(d, &|n| self.name(n))),
            Term::If(parts) => Term::If(Box::new(all(&parts[..]).try_into().expect("three parts"))),
            Term::Lambda(first, names, body) => Term::Lambda(*first, vec![0; names.len()], Box::new(self.by_spelling(body, spellings))),
            Term::Application(head, operands) => {
                let operands = all(operands);
                Term::Application(Box::new(self.by_spelling(head, spellings)), operands)
            }
            other => other.clone(),
        }
    }
}

/// Grounds 7, 10 and 19.
fn ours<'a>(items: &[u32], names: &'a [u8], words: &[u32]) -> Result<Ours<'a>, Ground> {
    let (list, _) = table::elements(items).ok_or(7u32)?;
    let operations = operation_numbers(&list).ok_or(10u32)?;
    let term = decode(words, operations.len() as u32, names).ok_or(19u32)?;
    if !operations.iter().all(|&n| spelled(names, n).is_some()) {
        return Err(19);
    }
    Ok(Ours { term, operations, names })
}

/// What an expression of the grammar is.
enum Shape<'a> {
    Constant(Term),
    Quoted(&'a Datum),
    Name(u32),
    If(&'a [Datum]),
    Lambda(Vec<u32>, &'a Datum),
    Application(&'a [Datum]),
}

/// A name that may be bound: neither quote, if nor lambda.
fn ordinary(d: &Datum) -> Option<u32> {
    match d {
        Datum::Name(n) if *n > 2 => Some(*n),
        _ => None,
    }
}

fn shape(d: &Datum) -> Option<Shape<'_>> {
    let list = match d {
        Datum::Number(n) => return Some(Shape::Constant(Term::Number(*n))),
        Datum::Boolean(b) => return Some(Shape::Constant(Term::Boolean(*b))),
        Datum::Name(_) => return ordinary(d).map(Shape::Name),
        Datum::List(list) => &list[..],
    };
    match list {
        [] => None,
        [Datum::Name(0), rest @ ..] => match rest {
            [d @ (Datum::Name(_) | Datum::List(_))] => Some(Shape::Quoted(d)),
            _ => None,
        },
        [Datum::Name(1), parts @ ..] => (parts.len() == 3).then_some(Shape::If(parts)),
        [Datum::Name(2), rest @ ..] => {
            let [Datum::List(formals), body] = rest else { return None };
            let formals = formals.iter().map(ordinary).collect::<Option<Vec<u32>>>()?;
            let distinct = (0..formals.len()).all(|i| !formals[..i].contains(&formals[i]));
            (formals.len() <= 8 && distinct).then_some(Shape::Lambda(formals, body))
        }
        _ => Some(Shape::Application(list)),
    }
}

/// Whether an element is in the grammar: ground 21.
fn in_grammar(d: &Datum) -> bool {
    match shape(d) {
        None => false,
        Some(Shape::Constant(_) | Shape::Quoted(_) | Shape::Name(_)) => true,
        Some(Shape::Lambda(_, body)) => in_grammar(body),
        Some(Shape::If(parts) | Shape::Application(parts)) => parts.iter().all(in_grammar),
    }
}

/// A supplier's text on its way to a term.
struct Theirs<'a> {
    names: &'a [Vec<u8>],
    /// The operations' spellings.
    operations: Vec<Vec<u8>>,
    spellings: &'a mut Spellings,
    variables: u32,
    /// The names bound round an expression, the innermost last, and the variable that each is.
    scope: Vec<(u32, u32)>,
}

impl Theirs<'_> {
    /// None where a name is neither bound nor an operation: ground 22.
    fn term(&mut self, d: &Datum) -> Option<Term> {
        Some(match shape(d).expect("ground 21 has been tested") {
            Shape::Constant(t) => t,
            Shape::Quoted(d) => Term::Quoted(self.spellings.datum(d, &|n| self.names[n as usize].clone())),
            Shape::Name(n) => match self.scope.iter().rev().find(|(name, _)| *name == n) {
                Some((_, variable)) => Term::Variable(*variable),
                None => {
                    let name = self.operations.iter().find(|name| **name == self.names[n as usize])?;
                    Term::Operation(self.spellings.number(name))
                }
            },
            Shape::If(parts) => Term::If(Box::new(self.terms(parts)?.try_into().expect("three parts"))),
            Shape::Lambda(formals, body) => {
                let (first, outside) = (self.variables, self.scope.len());
                self.variables += formals.len() as u32;
                self.scope.extend(formals.iter().copied().zip(first..));
                let body = self.term(body)?;
                self.scope.truncate(outside);
                Term::Lambda(first, vec![0; formals.len()], Box::new(body))
            }
            Shape::Application(list) => {
                let mut terms = self.terms(list)?;
                Term::Application(Box::new(terms.remove(0)), terms)
            }
        })
    }

    fn terms(&mut self, list: &[Datum]) -> Option<Vec<Term>> {
        list.iter().map(|d| self.term(d)).collect()
    }
}

/// Grounds 21 and 22, then whether it is our term.
fn held(ours: &Ours, read: &Recipe) -> Result<bool, Ground> {
    let element = &read.elements[0];
    if !in_grammar(element) {
        return Err(21);
    }
    let mut spellings = Spellings::default();
    let own = ours.by_spelling(&ours.term, &mut spellings);
    let operations = ours.operations.iter().map(|&n| ours.name(n)).collect();
    let mut theirs = Theirs { names: &read.names, operations, spellings: &mut spellings, variables: 0, scope: Vec::new() };
    Ok(theirs.term(element).ok_or(22u32)? == own)
}

/// The whole call: a recipe's items and names, our term's words, a supplier's text and the two tables that it is read into.
pub fn compare(
    items: &[u32], names: &[u8], words: &[u32], text: &[u8], text_items: &mut [u32], text_names: &mut [u8],
) -> Result<bool, Ground> {
    let ours = ours(items, names, words)?;
    let read = read_into(text, 1, text_items, text_names)?;
    let answer = held(&ours, &read);
    if answer.is_err() {
        text_items.fill(0);
        text_names.fill(0);
    }
    answer
}
