//! The stack that the deepest inputs take: bytes in all and for each level, found by lending less and less, beside the bytes that the
//! wrapper sees to.

use super::grouped;
use crate::deep;
use grebetallboy::{
    calls, compare_stack, expand_stack, run_recipe_stack, run_stack, run_words, table_words, write_stack, ITEM_WORDS, NAME_BYTES,
};
use std::fmt::Write;
use std::process::{Command, Stdio};

/// A call to measure: its name, how many levels it has, the bytes it may take, and the call itself.
type Measured = (String, usize, usize, Box<dyn FnOnce() + Send>);

fn expand(items: &[u32], fuel: u32) {
    let (work, core) = table_words(items.len() / 3, fuel);
    let (mut work, mut core, mut counts) = (vec![0; work], vec![0; core], [0; 3]);
    let (w, c) = ((work.as_mut_ptr(), work.len()), (core.as_mut_ptr(), core.len()));
    // SAFETY: each pointer has its table's length behind it; too little stack ends the process, as it is meant to.
    unsafe { calls::grebetallboy_expand(items.as_ptr(), items.len(), fuel, w.0, w.1, c.0, c.1, counts.as_mut_ptr(), 3) };
}

fn write(words: &[u32]) {
    let (mut out, mut counts) = (vec![0; words.len()], [0; 3]);
    let names = [];
    // SAFETY: as in `expand`.
    unsafe {
        let o = (out.as_mut_ptr(), out.len());
        calls::grebetallboy_write(words.as_ptr(), words.len(), 256, names.as_ptr(), 0, o.0, o.1, counts.as_mut_ptr(), 3)
    };
}

/// Holds a text against our words, of a recipe without operations.
fn compare(words: &[u32], text: &[u8]) {
    let (items, names, mut counts) = (deep::NO_OPERATIONS, [], [0; 3]);
    let (mut text_items, mut text_names) = (vec![0; ITEM_WORDS], vec![0; NAME_BYTES]);
    // SAFETY: as in `expand`.
    unsafe {
        let (w, t, i, n) = (words.as_ptr(), text.as_ptr(), text_items.as_mut_ptr(), text_names.as_mut_ptr());
        let (w, t, i, n) = ((w, words.len()), (t, text.len()), (i, text_items.len()), (n, text_names.len()));
        calls::grebetallboy_compare(items.as_ptr(), 15, names.as_ptr(), 0, w.0, w.1, t.0, t.1, i.0, i.1, n.0, n.1, counts.as_mut_ptr(), 3)
    };
}

fn run(words: &[u32]) {
    let (mut table, mut counts) = (vec![0; run_words(9)], [0; 4]);
    // SAFETY: as in `expand`.
    unsafe { calls::grebetallboy_run(words.as_ptr(), words.len(), 9, table.as_mut_ptr(), table.len(), counts.as_mut_ptr(), 4) };
}

fn run_recipe(items: &[u32], fuel: u32) {
    let (work, core) = table_words(items.len() / 3, fuel);
    let (mut work, mut core, mut table, mut counts) = (vec![0; work], vec![0; core], vec![0; run_words(9)], [0; 4]);
    // SAFETY: as in `expand`.
    unsafe {
        let (w, c, t) = ((work.as_mut_ptr(), work.len()), (core.as_mut_ptr(), core.len()), (table.as_mut_ptr(), table.len()));
        calls::grebetallboy_run_recipe(items.as_ptr(), items.len(), fuel, w.0, w.1, c.0, c.1, 9, t.0, t.1, counts.as_mut_ptr(), 4)
    };
}

fn measured() -> Vec<Measured> {
    let mut all: Vec<Measured> = Vec::new();
    for (name, items, fuel, depth) in deep::inputs() {
        let (most, most_run, run) = (expand_stack(items.len() / 3, fuel), run_recipe_stack(items.len() / 3, fuel), items.clone());
        all.push((format!("expanding {name}"), depth, most, Box::new(move || expand(&items, fuel))));
        all.push((format!("running {name}"), depth, most_run, Box::new(move || run_recipe(&run, fuel))));
    }
    let levels = 40_000;
    for (name, opening) in [("if", &[6][..]), ("quoted lists", &[5, 1]), ("lambdas", &[7, 0, 0]), ("applications", &[8, 0])] {
        for (whole, end) in [("", &[2, 0][..]), (", broken off", &[])] {
            let words = [&opening.repeat(levels), end].concat();
            let (compared, run_words) = (words.clone(), words.clone());
            all.push((format!("writing nested {name}{whole}"), levels, write_stack(words.len()), Box::new(move || write(&words))));
            let most = compare_stack(compared.len());
            all.push((format!("comparing nested {name}{whole}"), levels, most, Box::new(move || compare(&compared, b"5"))));
            all.push((format!("running nested {name}{whole}"), levels, run_stack(run_words.len()), Box::new(move || run(&run_words))));
        }
    }
    for (name, lists, text, term) in deep::texts() {
        for (other, words) in [("", term), (", another term", vec![2, 6])] {
            let (most, text) = (compare_stack(words.len()), text.clone());
            all.push((format!("comparing {name}{other}"), lists, most, Box::new(move || compare(&words, text.as_bytes()))));
        }
    }
    all
}

/// One call in a thread with so many bytes of stack.
pub fn call(place: usize, bytes: usize) {
    let run = measured().swap_remove(place).3;
    std::thread::Builder::new().stack_size(bytes).spawn(run).unwrap().join().unwrap();
}

/// Whether it ends, in a process of its own: this program is given the word `stack` and the two numbers.
fn fits(place: usize, bytes: usize) -> bool {
    let own = std::env::current_exe().unwrap();
    let run = Command::new(own).args(["stack", &place.to_string(), &bytes.to_string()]).stderr(Stdio::null()).status();
    run.unwrap().success()
}

pub fn table() -> String {
    let mut out = "| input | levels | in all | bytes a level | at most |\n|---|---|---|---|---|\n".to_string();
    for (place, (name, depth, most, _)) in measured().into_iter().enumerate() {
        let (mut low, mut high) = (0, 64 << 20);
        while high - low > 4_096 {
            let middle = (low + high) / 2;
            if fits(place, middle) {
                high = middle;
            } else {
                low = middle;
            }
        }
        writeln!(
            out,
            "| {name} | {} | {} KiB | {} | {} KiB |",
            grouped(depth),
            grouped(high >> 10),
            grouped(high / depth),
            grouped(most >> 10)
        )
        .unwrap();
    }
    out
}
