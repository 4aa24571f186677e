//! Request L11 in the second evaluator: terms with known values; and of random terms, that an outcome other than 27 stands at every larger
//! budget, that the units are the least budget, and that the numbers of names change nothing.
//! `TERMS=1000000 SEED=7 cargo test --release --test running` makes a long run.

use inputs::runs::{self, Source};
use inputs::terms::{damage, renamed, Terms};
use inputs::{in_stack, setting, Random};
use reference::run::{printed, run, table_words, Ran};

/// The words of what is run.
fn words(source: &Source) -> Vec<u32> {
    match source {
        Source::Words(words) => words.clone(),
        Source::Recipe(recipe) => reference::expanded(recipe.as_bytes()).expect(recipe).1,
    }
}

#[test]
fn known() {
    assert!(runs::request().len() > 25 && runs::proved().len() > 25 && runs::known().len() > 90);
    in_stack(256 << 20, || {
        for row in runs::all() {
            let mut table = vec![9; row.table];
            let ran = run(&words(&row.source), row.budget, &mut table);
            assert_eq!(printed(&ran), row.output, "{}: {:?}", row.name, row.source);
            let left = if matches!(ran, Err(19 | 8 | 9)) { 9 } else { 0 };
            assert!(table.iter().all(|word| *word == left), "{}", row.name);
        }
    });
}

/// The same words at another budget.
fn at(words: &[u32], budget: u32) -> Ran {
    run(words, budget, &mut vec![0; table_words(budget)])
}

#[test]
fn budgets() {
    in_stack(1 << 30, || {
        let mut random = Random::new(setting("SEED", 1) + 11);
        let (mut accepted, mut ends) = (0, [0; 28]);
        let terms = setting("TERMS", 4_000);
        for _ in 0..terms {
            let words = Terms::words(&mut random);
            let budget = [3, 30, 300, 3_000, 30_000][random.below(5)];
            let ran = at(&words, budget);
            ends[ran.err().unwrap_or(0) as usize] += 1;
            if ran != Err(27) {
                let larger = budget + random.below((65_536 - budget) as usize) as u32;
                assert_eq!(at(&words, larger), ran, "{words:?} at {budget} and {larger}");
            }
            if let Ok((_, units)) = ran {
                accepted += 1;
                assert_eq!((at(&words, units), at(&words, units - 1)), (ran, Err(27)), "{words:?}");
            }
            assert_eq!(at(&renamed(&mut random, &words), budget), ran, "{words:?}");
        }
        println!("{accepted} accepted, {} of 25, {} of 26, {} of 27, {} of 19", ends[25], ends[26], ends[27], ends[19]);
        assert!(accepted > terms / 4 && [25, 26, 27].iter().all(|&g| ends[g] > terms / 100) && ends[19] == 0, "{accepted} {ends:?}");
    });
}

/// Damaged words are refused or run, and nothing else.
#[test]
fn damaged() {
    in_stack(1 << 30, || {
        let mut random = Random::new(setting("SEED", 1) + 12);
        let mut refused = 0;
        let terms = setting("TERMS", 4_000);
        for _ in 0..terms {
            let mut words = Terms::words(&mut random);
            damage(&mut random, &mut words);
            refused += u64::from(at(&words, 300) == Err(19));
        }
        assert!(refused > terms / 4 && refused < terms, "{refused}");
    });
}
