//! The services one after another, as the programs run them.

use grebetallboy::{compare, expand, read, run_recipe, run_words, write, Error, Expanded, Ran, Refused, ITEM_WORDS, NAME_BYTES, TEXT_RATE};

/// The tables that the filing program lends, with any fuel.
pub struct Tables {
    items: Vec<u32>,
    names: Vec<u8>,
    work: Vec<u32>,
    core: Vec<u32>,
    pub out: Vec<u8>,
    text_items: Vec<u32>,
    text_names: Vec<u8>,
    /// For running.
    rows: Vec<u32>,
}

impl Tables {
    pub fn new(work: usize, core: usize) -> Tables {
        let (items, names, out) = (vec![0; ITEM_WORDS], vec![0; NAME_BYTES], vec![0; TEXT_RATE * core]);
        let (text_items, text_names) = (items.clone(), names.clone());
        Tables { items, names, work: vec![0; work], core: vec![0; core], out, text_items, text_names, rows: Vec::new() }
    }

    /// Reads and expands; answers the items and what expansion says.
    pub fn expand(&mut self, text: &[u8], fuel: u32) -> Result<(usize, Expanded), Error> {
        let recipe = read(text, &mut self.items, &mut self.names)?;
        Ok((recipe.items, expand(&self.items[..3 * recipe.items], fuel, &mut self.work, &mut self.core)?))
    }

    /// Reads and expands a recipe, and holds a supplier's text against its term.
    pub fn compare(&mut self, recipe: &[u8], text: &[u8], fuel: u32) -> Result<bool, Error> {
        let (items, term) = self.expand(recipe, fuel)?;
        self.held(items, term.length, text)
    }

    /// Holds a text against the term of the recipe that was expanded last, given its items and words.
    pub fn held(&mut self, items: usize, words: usize, text: &[u8]) -> Result<bool, Error> {
        let (items, words) = (&self.items[..3 * items], &self.core[..words]);
        compare(items, &self.names, words, text, &mut self.text_items, &mut self.text_names)
    }

    /// Reads, expands and writes; answers steps, sum and the text's length.
    pub fn run(&mut self, text: &[u8], fuel: u32) -> Result<(u32, u32, usize), Error> {
        let (_, term) = self.expand(text, fuel)?;
        let length = write(&self.core[..term.length], 256, &self.names, &mut self.out)?;
        Ok((term.steps, term.sum, length))
    }

    /// Reads, expands and runs, with a table for just that budget.
    pub fn value(&mut self, text: &[u8], fuel: u32, budget: u32) -> Result<Ran, Error> {
        self.rows.resize(run_words(budget), 0);
        let recipe = read(text, &mut self.items, &mut self.names)?;
        run_recipe(&self.items[..3 * recipe.items], fuel, &mut self.work, &mut self.core, budget, &mut self.rows)
    }

    /// Zeroes what document 01 asks a call to zero: the least that the services can take.
    pub fn zero(&mut self) {
        for table in [&mut self.items, &mut self.work, &mut self.core] {
            std::hint::black_box(table).fill(0);
        }
        std::hint::black_box(&mut self.names).fill(0);
    }
}

/// What the filing program prints.
pub fn file(text: &[u8], fuel: u32) -> String {
    let mut tables = Tables::new(16_368, 2_046);
    match tables.run(text, fuel) {
        Ok((steps, sum, length)) => format!("accepted {steps} {sum}\n{}\n", String::from_utf8_lossy(&tables.out[..length])),
        Err(Error::Refused(Refused { ground, steps, sum })) => format!("refused {ground} {steps} {sum}\n"),
        Err(error) => panic!("{error}"),
    }
}

/// What is printed of a run.
pub fn ran(answer: Result<Ran, Error>) -> String {
    match answer {
        Ok(ran) => format!("accepted {}\n{}\n", ran.units, ran.value),
        Err(Error::Refused(refused)) => format!("refused {}\n", refused.ground),
        Err(error) => panic!("{error}"),
    }
}

/// What the program that runs a recipe prints.
pub fn run(text: &[u8]) -> String {
    let (work, core) = grebetallboy::table_words(4_095, 8_192);
    ran(Tables::new(work, core).value(text, 8_192, 65_535))
}
