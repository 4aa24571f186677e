//! Running beside the second evaluator: the answer and every word of what is lent, on terms with known values, random and damaged ones, at
//! budgets about their units; and on recipes, through expansion.

use compare::filing::{ran, run, Tables};
use compare::{dirty, tables};
use grebetallboy::{run_recipe, run_words};
use inputs::runs::{self, Source};
use inputs::terms::{damage, renamed, Terms};
use inputs::{in_stack, rows, setting, Random};
use reference::expand::{expand_call, table_words};
use reference::run::{printed, run as second};
use std::collections::BTreeMap;

const STACK: usize = 1 << 30;
const MOST: u32 = 65_535;

/// Both answers in the same table, which ends alike.
fn both(words: &[u32], budget: u32, mut table: Vec<u32>) -> String {
    let mut table2 = table.clone();
    let answer = ran(grebetallboy::run(words, budget, &mut table));
    assert_eq!(answer, printed(&second(words, budget, &mut table2)), "{words:?} at {budget} in {} words", table.len());
    assert!(table == table2, "{words:?} at {budget} in {} words", table.len());
    answer
}

#[test]
fn known() {
    in_stack(STACK, || {
        for row in runs::all() {
            let words = match &row.source {
                Source::Words(words) => words.clone(),
                Source::Recipe(recipe) => {
                    if row.budget == MOST {
                        assert_eq!(run(recipe.as_bytes()), row.output, "{}", row.name);
                    }
                    reference::expanded(recipe.as_bytes()).expect(recipe).1
                }
            };
            assert_eq!(both(&words, row.budget, vec![9; row.table]), row.output, "{}", row.name);
        }
        for (recipe, output) in rows::run_examples() {
            assert_eq!(run(&recipe), output, "{}", String::from_utf8_lossy(&recipe));
        }
    });
}

/// What may be lent for a budget: mostly what it takes, at times a word less or some more.
fn lent(random: &mut Random, budget: u32) -> usize {
    let words = run_words(budget.min(MOST));
    match random.below(30) {
        0 => words - 1,
        1 => random.below(words),
        2 | 3 => words + random.below(40),
        _ => words,
    }
}

/// The refusal, or of what kind the value is.
fn kind(answer: &str) -> &str {
    match answer.split_once('\n') {
        Some((_, value)) if value.starts_with(|c: char| c == '-' || c.is_ascii_digit()) => "integer",
        Some((_, value)) if value.starts_with("datum") => "datum",
        Some((refusal, "")) => refusal,
        Some((_, value)) => value.trim_end(),
        None => answer,
    }
}

#[test]
fn random_terms() {
    in_stack(STACK, || {
        let mut random = Random::new(setting("SEED", 1) + 6);
        let mut answers: BTreeMap<String, u64> = BTreeMap::new();
        for _ in 0..setting("INPUTS", 4_000) {
            let mut words = Terms::words(&mut random);
            let whole = random.chance(90);
            if !whole {
                damage(&mut random, &mut words);
            }
            let most = if random.chance(10) { MOST } else { 2_000 };
            let units = match second(&words, most, &mut vec![0; run_words(most)]) {
                Ok((_, units)) => units,
                Err(_) => 1 + random.below(most as usize) as u32,
            };
            if whole {
                let at = |words: &[u32]| both(words, units, vec![7; run_words(units)]);
                assert_eq!(at(&renamed(&mut random, &words)), at(&words), "{words:?}: names do not count");
            }
            let beyond = [MOST + 1, u32::MAX][random.below(2)];
            let last = if random.chance(5) { beyond } else { most };
            for budget in [0, 1, units - 1, units, (units + 1).min(MOST), last] {
                let length = lent(&mut random, budget);
                let table = dirty(&mut random, length);
                let answer = both(&words, budget, table);
                *answers.entry(kind(&answer).to_string()).or_default() += 1;
            }
        }
        println!("answers of running: {answers:?}");
        let grounds = [8, 9, 19, 25, 26, 27].map(|ground| format!("refused {ground}"));
        let values = ["integer", "#t", "#f", "datum", "closure", "operation"];
        assert!(grounds.iter().map(|g| &g[..]).chain(values).all(|answer| answers.contains_key(answer)), "{answers:?}");
    });
}

/// Ground, counts and every word of the four tables: expansion's, then running's.
#[test]
fn random_recipes() {
    in_stack(STACK, || {
        let mut random = Random::new(setting("SEED", 1) + 7);
        let mut grounds = [0u64; 28];
        for _ in 0..setting("INPUTS", 4_000) {
            let items = tables::table(&mut random);
            let fuel = if random.chance(3) { 8_193 } else { [0, 30, 300][random.below(3)] };
            let budget = if random.chance(3) { MOST + 1 } else { [0, 3, 20, 300][random.below(4)] };
            let (work, core) = table_words(items.len() / 3, fuel.min(8_192));
            let short = |random: &mut Random, words: usize| if random.chance(2) { words.saturating_sub(1) } else { words };
            let (work, core) = (short(&mut random, work), short(&mut random, core));
            let length = lent(&mut random, budget);
            let (mut work, mut core, mut table) = (dirty(&mut random, work), dirty(&mut random, core), dirty(&mut random, length));
            let (mut work2, mut core2, mut table2) = (work.clone(), core.clone(), table.clone());
            let answer = run_recipe(&items, fuel, &mut work, &mut core, budget, &mut table);
            let counts = answer.err().map_or((0, 0), |error| (compare::refusal(error).steps, compare::refusal(error).sum));
            let (ground, steps, sum, length) = expand_call(&items, fuel, &mut work2, &mut core2);
            let (expected, counts2) = match ground {
                0 => (second(&core2[..length as usize], budget, &mut table2), (0, 0)),
                ground => (Err(ground), (steps, sum)),
            };
            grounds[expected.err().unwrap_or(0) as usize] += 1;
            assert_eq!((ran(answer), counts), (printed(&expected), counts2), "{items:?} {fuel} {budget}");
            assert!(work == work2 && core == core2 && table == table2, "{items:?} {fuel} {budget}");
        }
        println!("grounds of running recipes: {grounds:?}");
        assert!([0, 7, 8, 9, 11, 18, 25, 27].iter().all(|&g| grounds[g] > 0) && grounds[19] == 0, "{grounds:?}");
    });
}

/// Tables that another call left are as good as fresh ones.
#[test]
fn one_table() {
    let (work, core) = grebetallboy::table_words(4_095, 8_192);
    let mut tables = Tables::new(work, core);
    for _ in 0..2 {
        for (recipe, output) in rows::run_examples() {
            assert_eq!(ran(tables.value(&recipe, 8_192, 2_000)), output);
        }
    }
}
