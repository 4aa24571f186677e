//! Expands a recipe and holds a supplier's text against its term: prints `yes`, `no`, or why it is refused.
//! `cargo run --example compare recipe.scm text`

use grebetallboy::{compare, expand, read, table_words, Error, ITEM_WORDS, NAME_BYTES};

const FUEL: u32 = 512;

fn held(recipe: &[u8], text: &[u8]) -> Result<bool, Error> {
    let (mut items, mut names) = (vec![0; ITEM_WORDS], vec![0; NAME_BYTES]);
    let (mut text_items, mut text_names) = (items.clone(), names.clone());
    let recipe = read(recipe, &mut items, &mut names)?;
    let items = &items[..3 * recipe.items];
    let (work, core) = table_words(recipe.items, FUEL);
    let (mut work, mut core) = (vec![0; work], vec![0; core]);
    let run = expand(items, FUEL, &mut work, &mut core)?;
    compare(items, &names, &core[..run.length], text, &mut text_items, &mut text_names)
}

fn main() {
    let mut files = std::env::args().skip(1).map(|file| std::fs::read(file).expect("a file"));
    let (recipe, text) = (files.next().expect("a recipe"), files.next().expect("a supplier's text"));
    match held(&recipe, &text) {
        Ok(yes) => println!("{}", if yes { "yes" } else { "no" }),
        Err(refused) => {
            println!("{refused}");
            std::process::exit(1);
        }
    }
}
