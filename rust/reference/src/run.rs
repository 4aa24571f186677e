//! Request L11: the value of a core term. Terms are boxed, a call's variables are one rib, and evaluation recurs as deep as it is nested:
//! who calls it sees to the stack.

use crate::core::{decode_unnamed, Term};
use crate::text::Datum;
use crate::Ground;
use std::fmt;
use std::rc::Rc;

/// The largest budget.
pub const BUDGET: u32 = 65_535;

/// The least words of the lent table.
pub fn table_words(budget: u32) -> usize {
    16 * (budget as usize + 1)
}

/// Values, a quoted datum as it stands in the term.
#[derive(Clone)]
enum Value<'a> {
    Integer(i32),
    Boolean(bool),
    Datum(&'a Datum),
    Closure(Closure<'a>),
    Operation(u32),
}

/// A lambda's variables and body, and the variables round it where it was evaluated.
#[derive(Clone)]
struct Closure<'a> {
    first: u32,
    count: usize,
    body: &'a Term,
    scope: Scope<'a>,
}

type Scope<'a> = Option<Rc<Rib<'a>>>;

/// The operands of a call as its closure's variables, before those round its lambda.
struct Rib<'a> {
    first: u32,
    values: Vec<Value<'a>>,
    outside: Scope<'a>,
}

fn lookup<'a>(mut scope: &Scope<'a>, n: u32) -> Option<Value<'a>> {
    while let Some(rib) = scope {
        let place = n.checked_sub(rib.first).map(|place| place as usize);
        if let Some(value) = place.and_then(|place| rib.values.get(place)) {
            return Some(value.clone());
        }
        scope = &rib.outside;
    }
    None
}

struct Evaluator {
    budget: u32,
    units: u32,
}

impl Evaluator {
    fn value<'a>(&mut self, t: &'a Term, scope: &Scope<'a>) -> Result<Value<'a>, Ground> {
        if self.units == self.budget {
            return Err(27);
        }
        self.units += 1;
        match t {
            Term::Variable(n) => lookup(scope, *n).ok_or(25),
            Term::Operation(place) if *place > 3 => Err(25),
            Term::Operation(place) => Ok(Value::Operation(*place)),
            Term::Number(n) if n.places > 0 => Err(25),
            Term::Number(n) => Ok(Value::Integer(n.value)),
            Term::Boolean(b) => Ok(Value::Boolean(*b)),
            Term::Quoted(d) => Ok(Value::Datum(d)),
            Term::If(parts) => match self.value(&parts[0], scope)? {
                Value::Boolean(false) => self.value(&parts[2], scope),
                _ => self.value(&parts[1], scope),
            },
            Term::Lambda(first, names, body) => {
                Ok(Value::Closure(Closure { first: *first, count: names.len(), body, scope: scope.clone() }))
            }
            Term::Application(head, operands) => {
                let head = self.value(head, scope)?;
                let operands = operands.iter().map(|t| self.value(t, scope)).collect::<Result<Vec<_>, _>>()?;
                self.apply(head, operands)
            }
        }
    }

    /// The tests of the head, of the number of operands, then of their kinds.
    fn apply<'a>(&mut self, head: Value<'a>, operands: Vec<Value<'a>>) -> Result<Value<'a>, Ground> {
        match head {
            Value::Closure(closure) => {
                if operands.len() != closure.count {
                    return Err(26);
                }
                let rib = Rib { first: closure.first, values: operands, outside: closure.scope };
                self.value(closure.body, &Some(Rc::new(rib)))
            }
            Value::Operation(place) => match &operands[..] {
                [Value::Integer(a), Value::Integer(b)] => operation(place, *a, *b).ok_or(25),
                [_, _] => Err(25),
                _ => Err(26),
            },
            _ => Err(25),
        }
    }
}

/// Sum, difference, less, equal; none where the result is outside 32 bits.
fn operation<'a>(place: u32, a: i32, b: i32) -> Option<Value<'a>> {
    match place {
        0 => a.checked_add(b).map(Value::Integer),
        1 => a.checked_sub(b).map(Value::Integer),
        2 => Some(Value::Boolean(a < b)),
        _ => Some(Value::Boolean(a == b)),
    }
}

/// Whether a quoted datum stands in a term that begins at a word; then that becomes its place, else the place behind the term.
fn found(t: &Term, datum: &Datum, at: &mut usize) -> bool {
    let mut within = |own: usize, parts: &[&Term]| {
        *at += own;
        parts.iter().any(|t| found(t, datum, at))
    };
    match t {
        Term::Quoted(d) if std::ptr::eq(d, datum) => true,
        Term::If(parts) => within(1, &[&parts[0], &parts[1], &parts[2]]),
        Term::Lambda(_, names, body) => within(3 + names.len(), &[body]),
        Term::Application(head, operands) => within(2, &std::iter::once(&**head).chain(operands).collect::<Vec<_>>()),
        leaf => within(leaf.words().len(), &[]),
    }
}

/// The place of a quoted datum's first word in its term.
fn place(term: &Term, datum: &Datum) -> usize {
    let mut at = 0;
    assert!(found(term, datum, &mut at), "a quoted datum of the term");
    at
}

/// The whole result: of a quoted datum its place, of a closure or operation that it is one.
#[derive(Clone, Copy, Debug, PartialEq, Eq)]
pub enum Answer {
    Integer(i32),
    Boolean(bool),
    Datum(usize),
    Closure,
    Operation,
}

impl fmt::Display for Answer {
    fn fmt(&self, f: &mut fmt::Formatter<'_>) -> fmt::Result {
        match self {
            Answer::Integer(n) => write!(f, "{n}"),
            Answer::Boolean(b) => f.write_str(if *b { "#t" } else { "#f" }),
            Answer::Datum(place) => write!(f, "datum {place}"),
            Answer::Closure => f.write_str("closure"),
            Answer::Operation => f.write_str("operation"),
        }
    }
}

/// The result and its units.
pub type Ran = Result<(Answer, u32), Ground>;

/// Grounds 19, 8 and 9, in this order.
fn tested(words: &[u32], budget: u32, table: usize) -> Result<Term, Ground> {
    let term = decode_unnamed(words).ok_or(19u32)?;
    if budget > BUDGET {
        return Err(8);
    }
    if table < table_words(budget) {
        return Err(9);
    }
    Ok(term)
}

fn evaluated(term: &Term, budget: u32) -> Ran {
    let mut evaluator = Evaluator { budget, units: 0 };
    let answer = match evaluator.value(term, &None)? {
        Value::Integer(n) => Answer::Integer(n),
        Value::Boolean(b) => Answer::Boolean(b),
        Value::Datum(d) => Answer::Datum(place(term, d)),
        Value::Closure(_) => Answer::Closure,
        Value::Operation(_) => Answer::Operation,
    };
    Ok((answer, evaluator.units))
}

/// The whole call. Once its tests are passed the table ends zeroed.
pub fn run(words: &[u32], budget: u32, table: &mut [u32]) -> Ran {
    let term = tested(words, budget, table.len())?;
    table.fill(0);
    evaluated(&term, budget)
}

/// What the program that runs a recipe prints.
pub fn printed(ran: &Ran) -> String {
    match ran {
        Ok((answer, units)) => format!("accepted {units}\n{answer}\n"),
        Err(ground) => format!("refused {ground}\n"),
    }
}
