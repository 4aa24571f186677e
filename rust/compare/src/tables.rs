//! Item tables, read or made otherwise: permuted, deep, broken.

use inputs::{patterns::Rules, Random, Recipes};
use reference::text;

/// An item table of a random recipe, often laid out or damaged in ways that reading never gives.
pub fn table(random: &mut Random) -> Vec<u32> {
    if random.chance(2) {
        return nested(random);
    }
    let source = if random.chance(50) { Recipes::recipe(random) } else { Rules::recipe(random) };
    let Ok(recipe) = text::read(source.as_bytes()) else { return Vec::new() };
    let mut words = recipe.words();
    if random.chance(40) {
        words = permuted(random, &words);
    }
    if random.chance(6) {
        damage(random, &mut words);
    }
    words
}

/// The same tree with its items in another order: parents before what they refer to.
fn permuted(random: &mut Random, words: &[u32]) -> Vec<u32> {
    let mut order: Vec<usize> = Vec::new();
    let mut open = vec![0usize];
    while !open.is_empty() {
        let i = open.swap_remove(random.below(open.len()));
        order.push(i);
        if words[3 * i] == 4 {
            open.extend([words[3 * i + 1] as usize, words[3 * i + 2] as usize]);
        }
    }
    let mut place = vec![0u32; words.len() / 3];
    order.iter().enumerate().for_each(|(new, &old)| place[old] = new as u32);
    let mut out = Vec::new();
    for &i in &order {
        let [kind, a, b] = [words[3 * i], words[3 * i + 1], words[3 * i + 2]];
        out.extend(if kind == 4 { [4, place[a as usize], place[b as usize]] } else { [kind, a, b] });
    }
    out
}

pub fn damage(random: &mut Random, words: &mut Vec<u32>) {
    let at = random.below(words.len());
    match random.below(9) {
        0 => words.truncate(at),
        1 => words.truncate(at - at % 3),
        2 => words.extend([0, 0, 0]),
        3 => words[at] = [u32::MAX, 1_023, 1_024, 5, 6][random.below(5)],
        4 => words[at - at % 3..][..3].copy_from_slice(&[5, random.below(100) as u32, random.below(7) as u32]),
        5 if words[at] > 0 => words[at] -= 1,
        _ => words[at] = random.below(words.len() / 3 + 2) as u32,
    }
}

/// Lists nested deeper than reading lets them be: `(f (f ... 1))`, or quoted, or heads of one another.
fn nested(random: &mut Random) -> Vec<u32> {
    let most = [60, 300, 1_020][random.below(3)];
    let depth = 1 + random.below(most);
    let shape = random.below(3);
    let mut out: Vec<[u32; 3]> = vec![[4, 1, 2], [4, 3, 4], [4, 0, 5], [3, 8, 0], [0, 0, 0], [0, 0, 0]];
    if shape == 1 {
        out[2][1] = 6;
        out.extend([[4, 7, 8], [3, 0, 0], [4, 0, 9], [0, 0, 0]]);
    }
    let mut waiting = if shape == 1 { 8 } else { 2 };
    for _ in 0..depth {
        let n = out.len() as u32;
        out[waiting][1] = n;
        match shape {
            0 => {
                out.extend([[4, n + 1, n + 2], [3, 8, 0], [4, 0, n + 3], [0, 0, 0]]);
                waiting = n as usize + 2;
            }
            _ => {
                out.extend([[4, 0, n + 1], [0, 0, 0]]);
                waiting = n as usize;
            }
        }
    }
    let n = out.len() as u32;
    out[waiting][1] = n;
    out.push([1, 7, 0]);
    out.concat()
}
