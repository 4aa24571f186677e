//! Pairs of a recipe and a supplier's text: what is lent to a comparison, mostly right, now and then damaged in each of its parts.

use crate::tables;
use inputs::renderings::{damaged, rendering};
use inputs::{patterns::Rules, Random, Recipes};
use reference::expand::{run, table_words};
use reference::{core, text};

/// A recipe's text, and what is lent of it with our term and a supplier's text.
pub struct Pair {
    pub recipe: String,
    pub items: Vec<u32>,
    pub names: Vec<u8>,
    pub words: Vec<u32>,
    pub text: Vec<u8>,
}

const FUEL: u32 = 512;

/// A recipe that expansion accepts, its term and a rendering of it.
pub fn rendered(random: &mut Random, careful: bool) -> Pair {
    loop {
        let source = if random.chance(70) { Recipes::recipe(random) } else { Rules::recipe(random) };
        let Ok(recipe) = text::read(source.as_bytes()) else { continue };
        let (items, names) = (recipe.words(), recipe.name_table());
        let (work, core) = table_words(items.len() / 3, FUEL);
        let words = run(&items, FUEL, work, core).core;
        let Some(term) = core::text(&words, 256, &names) else { continue };
        let (text, _) = rendering(random, &String::from_utf8(term).unwrap(), &recipe.operations(), careful);
        return Pair { recipe: source, items, names, words, text: text.into_bytes() };
    }
}

/// The same, often damaged.
pub fn pair(random: &mut Random) -> Pair {
    let careful = random.chance(50);
    let mut pair = rendered(random, careful);
    if random.chance(40) {
        pair.text = damaged(random, &String::from_utf8(pair.text).unwrap());
    }
    match random.below(20) {
        0 => tables::damage(random, &mut pair.items),
        1 => damage_words(random, &mut pair.words),
        2 => pair.words = rendered(random, true).words,
        3 | 4 => damage_names(random, &mut pair.names),
        5 => pair.text = large(random),
        6 => pair.items = operations(random),
        _ => {}
    }
    pair
}

fn damage_words(random: &mut Random, words: &mut Vec<u32>) {
    let at = random.below(words.len());
    match random.below(4) {
        0 => words.truncate(at),
        1 => words.insert(at, random.below(10) as u32),
        2 => words[at] = [u32::MAX, 1_023, 1_024, 256][random.below(4)],
        _ => words[at] = random.below(12) as u32,
    }
}

/// A byte changed, more often a length or a first byte, or bytes cut off.
fn damage_names(random: &mut Random, names: &mut Vec<u8>) {
    let at = random.below(names.len());
    match random.below(5) {
        0 => names.truncate(at),
        1 => names[at - at % 64] = [0, 1, 2, 63, 64, 255][random.below(6)],
        2 => names[at - at % 64 + 1] = b"tixo"[random.below(4)],
        3 => {
            let (from, to) = (64 * random.below(names.len() / 64), at - at % 64);
            names.copy_within(from..from + 64, to);
        }
        _ => names[at] = random.below(256) as u8,
    }
}

/// A text about a limit of reading.
fn large(random: &mut Random) -> Vec<u8> {
    let n = random.below(6);
    let text = match random.below(4) {
        0 => format!("(op{})", " 1".repeat(2_042 + n)),
        1 => format!("{}op{}", "(".repeat(61 + n), ")".repeat(61 + n)),
        2 => format!("(quote ({}))", (0..1_012 + n).map(|i| format!(" n{i}")).collect::<String>()),
        _ => format!("{}5", " ".repeat(65_532 + n)),
    };
    text.into_bytes()
}

/// A table whose first element is not always operations.
fn operations(random: &mut Random) -> Vec<u32> {
    let list = random.pick(&["(op op)", "(op if)", "(1)", "(op)", "(t op)", "5"]);
    text::read(format!("{list} 5").as_bytes()).expect("a recipe").words()
}
