//! Request L9 tried on calls of the expansion service, each with tables of other lengths and other words in them: with any fuel from the
//! first call's sum on the answer is the same and so are the core words, and with less the ground is 18.

use compare::{dirty, expanded, tables};
use inputs::{fuels, setting, Random};

/// What a call answers in dirty tables that pass ground 9, and the term's words. Grounds up to 10 leave the tables alone; past those the
/// work table ends zeroed, and so does the core table behind the term.
fn called(random: &mut Random, items: &[u32], fuel: u32) -> ((u32, u32, u32, u32), Vec<u32>) {
    let (work, core) = grebetallboy::table_words(items.len() / 3, fuel);
    let (work, core) = (work + random.below(50), core + random.below(50));
    let lent = (dirty(random, work), dirty(random, core));
    let (mut work, mut core) = lent.clone();
    let answer = expanded(items, fuel, &mut work, &mut core);
    if (1..=10).contains(&answer.0) {
        assert!((&work, &core) == (&lent.0, &lent.1), "{items:?} fuel {fuel}");
    } else {
        assert!(work.iter().chain(&core[answer.3 as usize..]).all(|&w| w == 0), "{items:?} fuel {fuel}");
    }
    core.truncate(answer.3 as usize);
    (answer, core)
}

/// Calls with a fuel and then with others; answers the ground with the first.
fn compare(random: &mut Random, items: &[u32]) -> u32 {
    let most = [0, 20, 300, 600][random.below(4)];
    let first = called(random, items, most);
    let (ground, _, sum, _) = first.0;
    for fuel in fuels(random, sum, most) {
        let again = called(random, items, fuel);
        let short = again.0.0 == 18;
        if ground == 18 {
            assert!(fuel > most || short, "{items:?} 18 with fuel {most}, not with {fuel}");
        } else if fuel < sum {
            assert!(short, "{items:?} sum {sum}, not 18 with fuel {fuel}");
        } else {
            assert_eq!(first, again, "{items:?} fuel {most}, then {fuel}");
        }
    }
    ground
}

#[test]
fn more_fuel_changes_18_alone() {
    let mut random = Random::new(setting("SEED", 1) + 9);
    let mut grounds = [0u64; 19];
    for _ in 0..setting("INPUTS", 4_000) {
        let items = tables::table(&mut random);
        grounds[compare(&mut random, &items) as usize] += 1;
    }
    println!("grounds of the first calls: {grounds:?}");
    assert!([0, 7, 10, 11, 12, 13, 14, 15, 16, 17, 18].iter().all(|&g| grounds[g] > 0), "{grounds:?}");
}
