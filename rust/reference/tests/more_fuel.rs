//! Request L9 tried on random recipes: with any fuel from a run's sum on the whole run is the same, and with less it is 18.
//! `RECIPES=1000000 SEED=7 cargo test --release --test more_fuel` makes a long run.

use inputs::{fuels, in_stack, patterns::Rules, setting, Random, Recipes};
use reference::expand::{run, table_words, Run};
use reference::text;

/// The run in tables just long enough.
fn tried(items: &[u32], fuel: u32) -> Run {
    let (work, core) = table_words(items.len() / 3, fuel);
    run(items, fuel, work, core)
}

/// Tries a recipe with a fuel and then with others; answers its ground with the first.
fn try_recipe(source: &str, random: &mut Random) -> Option<u32> {
    let items = text::read(source.as_bytes()).ok()?.words();
    let most = [0, 20, 300, 600][random.below(4)];
    let first = tried(&items, most);
    let ground = first.outcome.err().unwrap_or(0);
    for fuel in fuels(random, first.sum, most) {
        let again = tried(&items, fuel);
        let short = again.outcome == Err(18);
        match ground {
            18 => assert!(fuel > most || short, "{source}\n18 with fuel {most}, not with {fuel}"),
            _ => assert!(if fuel < first.sum { short } else { again == first }, "{source}\nfuel {most}, then {fuel}"),
        }
    }
    Some(ground)
}

#[test]
fn more_fuel_changes_18_alone() {
    let body = || {
        let mut random = Random::new(setting("SEED", 1) + 9);
        let mut grounds = [0u64; 19];
        for _ in 0..setting("RECIPES", 5_000) {
            let source = if random.chance(50) { Recipes::recipe(&mut random) } else { Rules::recipe(&mut random) };
            if let Some(ground) = try_recipe(&source, &mut random) {
                grounds[ground as usize] += 1;
            }
        }
        println!("grounds: {grounds:?}");
        assert!([0, 10, 11, 12, 13, 14, 15, 16, 17, 18].iter().all(|&g| grounds[g] > 0), "{grounds:?}");
    };
    in_stack(256 << 20, body);
}
