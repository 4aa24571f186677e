//! The recipe text: tokens, two elements, items and names (grounds 2 to 6). A supplier's text has one element.

use crate::{Ground, BASE_NAMES};

/// Its value without the dot, and its places: none for an integer, 1 to 4 for a decimal. A pattern's number matches an equal one.
#[derive(Clone, Copy, Debug, PartialEq)]
pub struct Number {
    pub value: i32,
    pub places: u32,
}

#[derive(Clone, Debug, PartialEq)]
pub enum Datum {
    Number(Number),
    Boolean(bool),
    Name(u32),
    List(Vec<Datum>),
}

#[derive(Clone, Debug)]
pub struct Recipe {
    pub elements: Vec<Datum>,
    pub names: Vec<Vec<u8>>,
}

enum Token {
    Open,
    Close,
    Boolean(bool),
    Number(Number),
    Name(Vec<u8>),
}

fn in_run(byte: u8) -> bool {
    byte.is_ascii_lowercase() || byte.is_ascii_digit() || b"!?*<=>/+-._".contains(&byte)
}

/// The token at the front of a text that starts with no separator, and the bytes it takes.
fn token(text: &[u8]) -> Result<(Token, usize), Ground> {
    match text[0] {
        b'(' => Ok((Token::Open, 1)),
        b')' => Ok((Token::Close, 1)),
        b'#' => match text.get(1) {
            Some(b't') => Ok((Token::Boolean(true), 2)),
            Some(b'f') => Ok((Token::Boolean(false), 2)),
            _ => Err(3),
        },
        byte if in_run(byte) => {
            let end = text.iter().position(|&b| !in_run(b)).unwrap_or(text.len());
            Ok((run(&text[..end])?, end))
        }
        _ => Err(3),
    }
}

fn run(bytes: &[u8]) -> Result<Token, Ground> {
    let unsigned = bytes.strip_prefix(b"-").unwrap_or(bytes);
    if unsigned.first().is_some_and(u8::is_ascii_digit) {
        return number(unsigned, unsigned.len() < bytes.len()).map(Token::Number);
    }
    if bytes.len() > 63 || bytes == b"." {
        return Err(3);
    }
    Ok(Token::Name(bytes.to_vec()))
}

/// Digits, or digits, a dot and one to four digits; the range is that of the digits without the dot.
fn number(unsigned: &[u8], minus: bool) -> Result<Number, Ground> {
    let (whole, places) = match unsigned.iter().position(|&b| b == b'.') {
        None => (unsigned, &[][..]),
        Some(dot) => (&unsigned[..dot], &unsigned[dot + 1..]),
    };
    let dotted = whole.len() < unsigned.len();
    if ![whole, places].concat().iter().all(u8::is_ascii_digit) || dotted && !(1..=4).contains(&places.len()) {
        return Err(3);
    }
    let size = whole.iter().chain(places).fold(0u64, |n, d| (n * 10 + u64::from(d - b'0')).min(1 << 40));
    let value = if minus { -(size as i64) } else { size as i64 };
    let value = i32::try_from(value).map_err(|_| 4u32)?;
    Ok(Number { value, places: places.len() as u32 })
}

/// Grounds 2 to 6.
pub fn read(text: &[u8]) -> Result<Recipe, Ground> {
    read_elements(text, 2)
}

/// The same of a text with so many elements.
fn read_elements(text: &[u8], elements: usize) -> Result<Recipe, Ground> {
    if text.len() > 65_535 {
        return Err(2);
    }
    let mut names: Vec<Vec<u8>> = BASE_NAMES.iter().map(|n| n.as_bytes().to_vec()).collect();
    let mut open: Vec<Vec<Datum>> = vec![Vec::new()];
    let mut count = 0;
    let mut rest = text;
    while let Some(&byte) = rest.first() {
        if b" \t\n\r".contains(&byte) {
            rest = &rest[1..];
            continue;
        }
        let (token, taken) = token(rest)?;
        rest = &rest[taken..];
        if let Token::Close = token {
            if open.len() == 1 {
                return Err(5);
            }
            let list = Datum::List(open.pop().unwrap());
            open.last_mut().unwrap().push(list);
            continue;
        }
        if open.len() == 1 && open[0].len() == elements {
            return Err(5);
        }
        count += 1;
        if count > 2_047 {
            return Err(6);
        }
        let datum = match token {
            Token::Open if open.len() == 65 => return Err(6),
            Token::Open => {
                open.push(Vec::new());
                continue;
            }
            Token::Boolean(b) => Datum::Boolean(b),
            Token::Number(n) => Datum::Number(n),
            Token::Name(bytes) => Datum::Name(match names.iter().position(|n| *n == bytes) {
                Some(number) => number as u32,
                None if names.len() == 1_024 => return Err(6),
                None => {
                    names.push(bytes);
                    names.len() as u32 - 1
                }
            }),
            Token::Close => unreachable!(),
        };
        open.last_mut().unwrap().push(datum);
    }
    if open.len() != 1 || open[0].len() != elements {
        return Err(5);
    }
    Ok(Recipe { elements: open.pop().unwrap(), names })
}

impl Recipe {
    /// The item table's words: a pair, then its head, then its tail.
    pub fn words(&self) -> Vec<u32> {
        let mut items = Vec::new();
        place_list(&self.elements, &mut items);
        items.concat()
    }

    /// The names in the list of operations, spelled out.
    pub fn operations(&self) -> Vec<String> {
        let spelled = |d: &Datum| if let Datum::Name(n) = d { String::from_utf8(self.names[*n as usize].clone()).ok() } else { None };
        if let Datum::List(list) = &self.elements[0] { list.iter().filter_map(spelled).collect() } else { Vec::new() }
    }

    /// The name table's bytes.
    pub fn name_table(&self) -> Vec<u8> {
        let slot = |name: &Vec<u8>| {
            let mut slot = vec![name.len() as u8];
            slot.extend(name);
            slot.resize(64, 0);
            slot
        };
        self.names.iter().flat_map(slot).collect()
    }
}

fn place_list(list: &[Datum], items: &mut Vec<[u32; 3]>) -> u32 {
    let at = items.len();
    items.push([0, 0, 0]);
    if let Some((head, tail)) = list.split_first() {
        let head = place(head, items);
        let tail = place_list(tail, items);
        items[at] = [4, head, tail];
    }
    at as u32
}

fn place(datum: &Datum, items: &mut Vec<[u32; 3]>) -> u32 {
    match datum {
        Datum::List(list) => return place_list(list, items),
        Datum::Number(n) => items.push([if n.places == 0 { 1 } else { 5 }, n.value as u32, n.places]),
        Datum::Boolean(b) => items.push([2, u32::from(*b), 0]),
        Datum::Name(n) => items.push([3, *n, 0]),
    }
    items.len() as u32 - 1
}

/// A text of so many elements into lent tables: grounds 1 to 6.
pub fn read_into(text: &[u8], elements: usize, items: &mut [u32], names: &mut [u8]) -> Result<Recipe, Ground> {
    if items.len() < 12_288 || names.len() < 65_536 {
        return Err(1);
    }
    let read = read_elements(text, elements);
    if let Err(2) = read {
        return read;
    }
    items.fill(0);
    names.fill(0);
    let recipe = read?;
    let (words, table) = (recipe.words(), recipe.name_table());
    items[..words.len()].copy_from_slice(&words);
    names[..table.len()].copy_from_slice(&table);
    Ok(recipe)
}

/// The whole call over lent tables: the ground, N and the count of names.
pub fn read_call(text: &[u8], items: &mut [u32], names: &mut [u8]) -> (Ground, u32, u32) {
    match read_into(text, 2, items, names) {
        Err(ground) => (ground, 0, 0),
        Ok(recipe) => (0, recipe.words().len() as u32 / 3, recipe.names.len() as u32),
    }
}
