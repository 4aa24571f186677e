//! A second expander, written from documents 01 and 02 alone. Marks and bindings are carried through the whole tree at once.
//!
//! The modules follow the paper: [`text`] reads a recipe text, [`table`] holds the item table and its layout,
//! [`tree`] the trees with their marks and bindings, [`rules`] what macros are, [`expand`] the forms and the run,
//! [`core`] the core term, its words and its text, [`supplier`] a supplier's expansion held against ours, [`run`] the value of a term.

pub mod core;
pub mod expand;
pub mod rules;
pub mod run;
pub mod supplier;
pub mod table;
pub mod text;
pub mod tree;

/// A ground for refusing, 1 to 22 and 25 to 27.
pub type Ground = u32;

/// Names 0 to 7.
pub const BASE_NAMES: [&str; 8] = [
    "quote", "if", "lambda", "let-syntax", "letrec-syntax", "syntax-rules", "...", "_",
];

/// Words of the work and core tables that the filing program lends.
const FILING_WORK: usize = 16_368;
const FILING_CORE: usize = 2_046;

/// What the filing program prints for a text, with fuel 512.
pub fn file(text: &[u8], fuel: u32) -> String {
    let recipe = match text::read(text) {
        Ok(recipe) => recipe,
        Err(ground) => return format!("refused {ground} 0 0\n"),
    };
    let run = expand::run(&recipe.words(), fuel, FILING_WORK, FILING_CORE);
    match run.outcome {
        Err(ground) => format!("refused {ground} {} {}\n", run.steps, run.sum),
        Ok(()) => {
            let term = core::text(&run.core, 256, &recipe.name_table()).expect("an accepted run's words are a term");
            format!("accepted {} {}\n{}\n", run.steps, run.sum, String::from_utf8_lossy(&term))
        }
    }
}

/// The most fuel, and the most items of a recipe.
const FUEL: u32 = 8_192;
const ITEMS: usize = 4_096;

/// A recipe and the words of its term, with the most fuel and the largest tables.
pub fn expanded(text: &[u8]) -> Result<(text::Recipe, Vec<u32>), Ground> {
    let recipe = text::read(text)?;
    let (work, core) = expand::table_words(ITEMS, FUEL);
    let run = expand::run(&recipe.words(), FUEL, work, core);
    run.outcome.map(|()| (recipe, run.core))
}

/// What the program that holds a supplier's text against a recipe prints.
pub fn compare(recipe: &[u8], text: &[u8]) -> String {
    let (recipe, core) = match expanded(recipe) {
        Ok(expansion) => expansion,
        Err(ground) => return format!("refused {ground} recipe\n"),
    };
    let (mut items2, mut names2) = (vec![0; 12_288], vec![0; 65_536]);
    match supplier::compare(&recipe.words(), &recipe.name_table(), &core, text, &mut items2, &mut names2) {
        Ok(true) => "yes\n".to_string(),
        Ok(false) => "no\n".to_string(),
        Err(ground) => format!("refused {ground} text\n"),
    }
}

/// What the program that runs a recipe prints, with the largest budget.
pub fn run(recipe: &[u8]) -> String {
    let ran = expanded(recipe).and_then(|(_, core)| run::run(&core, run::BUDGET, &mut vec![0; run::table_words(run::BUDGET)]));
    run::printed(&ran)
}
