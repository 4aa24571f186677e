//! Writing beside the second expander's: the answer and every byte of the output, on terms and damaged words.

use compare::refusal;
use inputs::{setting, Random, Recipes};
use reference::{core, expand, text};

/// Ground and length of a call.
fn write(words: &[u32], operations: u32, names: &[u8], out: &mut [u8]) -> (u32, u32) {
    match grebetallboy::write(words, operations, names, out) {
        Ok(length) => (0, length as u32),
        Err(error) => (refusal(error).ground, 0),
    }
}

/// Words of an accepted recipe or made up, often damaged.
fn words(random: &mut Random, recipe: &text::Recipe) -> Vec<u32> {
    let mut words = expand::run(&recipe.words(), 300, 1 << 20, 1 << 20).core;
    if words.is_empty() {
        words = (0..random.below(12)).map(|_| random.below(11) as u32).collect();
    }
    for _ in 0..random.below(3) {
        let at = random.below(words.len().max(1));
        match random.below(8) {
            0 => words.truncate(at),
            6 | 7 => damage_names(random, &mut words),
            1 if at < words.len() => words[at] = random.below(10) as u32,
            2 if at < words.len() => words[at] = [u32::MAX, 1 << 31, 1_023, 1_024, 256][random.below(5)],
            3 => words.insert(at.min(words.len()), random.below(10) as u32),
            4 => drop(words.splice(at..at, decimal(random))),
            _ => {}
        }
    }
    words
}

/// Another number, a word more or a word less among the names of a lambda, or another count of them.
fn damage_names(random: &mut Random, words: &mut Vec<u32>) {
    let lambdas: Vec<usize> = (3..words.len()).filter(|&at| words[at - 3] == 7).collect();
    if lambdas.is_empty() {
        return;
    }
    let at = lambdas[random.below(lambdas.len())];
    match random.below(8) {
        0 => drop(words.remove(at)),
        1 => words.insert(at, random.below(20) as u32),
        2 => words[at - 1] = random.below(10) as u32,
        3 => words[at] = [u32::MAX, 1 << 31, 1_023, 1_024][random.below(4)],
        _ => words[at] = random.below(20) as u32,
    }
}

/// The words of a decimal, now and then of no places or too many; any value, small ones more often.
fn decimal(random: &mut Random) -> [u32; 3] {
    let value = (random.below(1 << 32) as u32) >> random.below(32);
    [9, if random.chance(50) { value } else { value.wrapping_neg() }, random.below(6) as u32]
}

#[test]
fn writing() {
    let mut random = Random::new(setting("SEED", 1) + 1);
    let mut grounds = [0u64; 21];
    for _ in 0..setting("INPUTS", 4_000) * 5 {
        let Ok(recipe) = text::read(Recipes::recipe(&mut random).as_bytes()) else { continue };
        let words = words(&mut random, &recipe);
        let mut names = recipe.name_table();
        if random.chance(20) {
            let at = random.below(names.len());
            let at = if random.chance(50) { at - at % 64 } else { at };
            names[at] = [0, 1, 63, 64, random.below(256) as u8][random.below(5)];
        }
        let operations = [0, 1, 2, 255, 256, 257][random.below(6)];
        let length = core::text(&words, operations, &names).map_or(40, |t| t.len() + random.below(4)).saturating_sub(random.below(3));
        let mut out = vec![random.below(256) as u8; length];
        let mut out2 = out.clone();
        let answer = write(&words, operations, &names, &mut out);
        assert_eq!(answer, core::write_call(&words, operations, &names, &mut out2), "{words:?} {operations}");
        assert!(out == out2, "{words:?}");
        grounds[answer.0 as usize] += 1;
    }
    println!("grounds of writing: {} accepted, {} of 19, {} of 20", grounds[0], grounds[19], grounds[20]);
    assert!([0, 19, 20].iter().all(|&g| grounds[g] > 0));
}
