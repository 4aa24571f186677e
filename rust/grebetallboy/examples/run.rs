//! Runs the recipe on standard input and prints its value and the units that it took, or why it is refused.
//! `cargo run --example run < recipe.scm`

use grebetallboy::{read, run_recipe, run_words, table_words, Error, Ran, ITEM_WORDS, NAME_BYTES};
use std::io::Read;

const FUEL: u32 = 8_192;
const BUDGET: u32 = 65_535;

fn value(text: &[u8]) -> Result<Ran, Error> {
    let (mut items, mut names) = (vec![0; ITEM_WORDS], vec![0; NAME_BYTES]);
    let recipe = read(text, &mut items, &mut names)?;
    let (work, core) = table_words(recipe.items, FUEL);
    let (mut work, mut core, mut table) = (vec![0; work], vec![0; core], vec![0; run_words(BUDGET)]);
    run_recipe(&items[..3 * recipe.items], FUEL, &mut work, &mut core, BUDGET, &mut table)
}

fn main() {
    let mut text = Vec::new();
    std::io::stdin().read_to_end(&mut text).expect("a recipe on standard input");
    match value(&text) {
        Ok(ran) => println!("{} units\n{}", ran.units, ran.value),
        Err(refused) => {
            println!("{refused}");
            std::process::exit(1);
        }
    }
}
