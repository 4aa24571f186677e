//! What running a term gives.

use std::fmt;

/// The value of a whole term: a quoted datum by the place of its first word, a closure or operation without contents.
#[derive(Clone, Copy, Debug, PartialEq, Eq)]
pub enum Value {
    Integer(i32),
    Boolean(bool),
    Datum(usize),
    Closure,
    Operation,
}

/// A value, and the units that it took.
#[derive(Clone, Copy, Debug, PartialEq, Eq)]
pub struct Ran {
    pub value: Value,
    pub units: u32,
}

/// By the numbers of a call that accepts: the kind, its word or place, a second word that is not used, the units.
pub fn ran([kind, word, _, units]: [u64; 4]) -> Ran {
    let value = match kind {
        1 => Value::Integer(word as u32 as i32),
        2 => Value::Boolean(word == 1),
        3 => Value::Datum(word as usize),
        4 => Value::Closure,
        _ => Value::Operation,
    };
    Ran { value, units: units as u32 }
}

impl fmt::Display for Value {
    fn fmt(&self, f: &mut fmt::Formatter<'_>) -> fmt::Result {
        match self {
            Value::Integer(n) => write!(f, "{n}"),
            Value::Boolean(b) => f.write_str(if *b { "#t" } else { "#f" }),
            Value::Datum(place) => write!(f, "datum {place}"),
            Value::Closure => f.write_str("closure"),
            Value::Operation => f.write_str("operation"),
        }
    }
}
