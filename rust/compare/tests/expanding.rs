//! Expansion beside the second expander's: the answer and every word of both lent tables, on tables read and made otherwise, with
//! lent tables dirty, short, exact and over-long.

use compare::{dirty, expanded, tables};
use inputs::{setting, Random};
use reference::expand;

/// Compares one call; answers its ground.
fn compare(random: &mut Random, items: &[u32], fuel: u32) -> u32 {
    let (work, core) = grebetallboy::table_words(items.len() / 3, fuel.min(8_193));
    let lent = |random: &mut Random, words: usize| match random.below(40) {
        0 => words.saturating_sub(1),
        1..=9 => words + random.below(50),
        _ => words,
    };
    let (work, core) = (lent(random, work), lent(random, core));
    let (mut work, mut core) = (dirty(random, work), dirty(random, core));
    let (mut work2, mut core2) = (work.clone(), core.clone());
    let answer = expanded(items, fuel, &mut work, &mut core);
    assert_eq!(answer, expand::expand_call(items, fuel, &mut work2, &mut core2), "{items:?} fuel {fuel}");
    assert!(work == work2 && core == core2, "{items:?} fuel {fuel}");
    answer.0
}

#[test]
fn expanding() {
    let mut random = Random::new(setting("SEED", 1) + 2);
    let mut grounds = [0u64; 19];
    for _ in 0..setting("INPUTS", 4_000) * 4 {
        let items = tables::table(&mut random);
        let fuel = [0, 1, 10, 60, 200, 300, 512, 8_192, 8_193][random.below(9)];
        grounds[compare(&mut random, &items, fuel) as usize] += 1;
    }
    println!("grounds of expansion: {grounds:?}");
    assert!([0, 7, 8, 9, 10, 11, 12, 13, 14, 15, 16, 17, 18].iter().all(|&g| grounds[g] > 0), "{grounds:?}");
}
