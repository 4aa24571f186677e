//! Expands the recipe on standard input and prints its core term, or why it is refused.
//! `cargo run --example expand < recipe.scm`

use grebetallboy::{expand, read, table_words, write, Error, ITEM_WORDS, NAME_BYTES, TEXT_RATE};
use std::io::Read;

const FUEL: u32 = 512;

fn term(text: &[u8]) -> Result<String, Error> {
    let (mut items, mut names) = (vec![0; ITEM_WORDS], vec![0; NAME_BYTES]);
    let recipe = read(text, &mut items, &mut names)?;
    let (work, core) = table_words(recipe.items, FUEL);
    let (mut work, mut core) = (vec![0; work], vec![0; core]);
    let run = expand(&items[..3 * recipe.items], FUEL, &mut work, &mut core)?;
    let mut out = vec![0; TEXT_RATE * run.length];
    let length = write(&core[..run.length], 256, &names, &mut out)?;
    Ok(format!("{} steps, {} items\n{}", run.steps, run.sum, String::from_utf8_lossy(&out[..length])))
}

fn main() {
    let mut text = Vec::new();
    std::io::stdin().read_to_end(&mut text).expect("a recipe on standard input");
    match term(&text) {
        Ok(term) => println!("{term}"),
        Err(refused) => {
            println!("{refused}");
            std::process::exit(1);
        }
    }
}
