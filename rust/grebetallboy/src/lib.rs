//! The proved services, called from Rust. They test everything that they are lent, so each call is safe for any slices.
//!
//! Stack is no part of the proofs. A call takes at most [`READ_STACK`], [`expand_stack`], [`write_stack`], [`compare_stack`],
//! [`run_stack`] or [`run_recipe_stack`] bytes of it. Where the caller's thread has as much left, the call is made there; where it has
//! not, or where the system does not tell (it is asked on Linux), on a thread of its own with as much; and where the system gives no such
//! thread, the call is not made, no table is touched, and the answer is [`Error::NoStack`]. So no slices and no thread make a call overrun
//! its stack.

pub mod calls;
mod refused;
mod stack;
mod value;

pub use refused::{meaning, Error, Refused};
pub use value::{Ran, Value};

/// Words of an item table and bytes of a name table to lend for reading.
pub const ITEM_WORDS: usize = 12_288;
pub const NAME_BYTES: usize = 65_536;

/// Words of a work table and of a core table to lend for expanding `items` items with some fuel.
pub fn table_words(items: usize, fuel: u32) -> (usize, usize) {
    let need = items + fuel as usize;
    (24 * need, 3 * need)
}

/// Words of a table to lend for running with a budget.
pub fn run_words(budget: u32) -> usize {
    16 * (budget as usize + 1)
}

/// Bytes of output for each word of a core term that hold its text, whatever the term (of up to 10^9 words).
pub const TEXT_RATE: usize = 57;

/// Bytes of stack that reading takes at most.
pub const READ_STACK: usize = 16 << 10;

/// Bytes of stack that expanding takes at most. A table of more than 4,096 items and fuel above 8,192 are refused before they matter.
pub fn expand_stack(items: usize, fuel: u32) -> usize {
    (256 << 10) + 512 * (items.min(4_096) + fuel.min(8_192) as usize)
}

/// Bytes of stack that writing takes at most: each word may open a part of the term inside the one before, and the names of some
/// 6,000 variables are noted.
pub fn write_stack(words: usize) -> usize {
    words.saturating_mul(256).saturating_add(48 << 10)
}

/// Bytes of stack that comparing takes at most: testing our words as writing does, and going into the lists of a text, 64 at most.
pub fn compare_stack(words: usize) -> usize {
    words.saturating_mul(256).saturating_add(128 << 10)
}

/// Bytes of stack that running so many words takes at most: testing them as writing does, finding where each part ends in the same way,
/// and tables of its own.
pub fn run_stack(words: usize) -> usize {
    words.saturating_mul(256).saturating_add(256 << 10)
}

/// Bytes of stack that running a recipe takes at most: its term is no deeper than what expanding goes through.
pub fn run_recipe_stack(items: usize, fuel: u32) -> usize {
    expand_stack(items, fuel)
}

#[derive(Clone, Copy, Debug, PartialEq, Eq)]
pub struct Read {
    pub items: usize,
    pub names: usize,
}

#[derive(Clone, Copy, Debug, PartialEq, Eq)]
pub struct Expanded {
    pub steps: u32,
    pub sum: u32,
    pub length: usize,
}

/// A call with so much stack and a table for its numbers, which it answers: three, and of running four.
fn call<const N: usize>(bytes: usize, run: impl FnOnce(*mut u64, usize) -> u32 + Send) -> Result<[u64; N], Error> {
    let counted = || {
        let mut counts = [0; N];
        (run(counts.as_mut_ptr(), counts.len()), counts)
    };
    match stack::with(bytes, counted) {
        Some((0, counts)) => Ok(counts),
        Some((ground, counts)) => Err(Error::Refused(Refused { ground, steps: counts[0] as u32, sum: counts[1] as u32 })),
        None => Err(Error::NoStack(bytes)),
    }
}

/// Reads a recipe text into an item table and a name table.
pub fn read(text: &[u8], items: &mut [u32], names: &mut [u8]) -> Result<Read, Error> {
    // SAFETY: each pointer has its slice's length behind it, the slices do not overlap, and the stack is lent.
    let run = |counts, length| unsafe {
        let (i, n) = (items.as_mut_ptr(), names.as_mut_ptr());
        calls::grebetallboy_read(text.as_ptr(), text.len(), i, items.len(), n, names.len(), counts, length)
    };
    call(READ_STACK, run).map(|[items, names, _]| Read { items: items as usize, names: names as usize })
}

/// Expands an item table; an accepted term's words begin the core table.
/// Where neither 8, 9 nor 18 is answered, the sum is the least fuel that gives this answer, and every fuel from it to 8,192 gives it
/// too, in tables for that fuel.
pub fn expand(items: &[u32], fuel: u32, work: &mut [u32], core: &mut [u32]) -> Result<Expanded, Error> {
    // SAFETY: as in `read`.
    let run = |counts, length| unsafe {
        let (w, c) = (work.as_mut_ptr(), core.as_mut_ptr());
        calls::grebetallboy_expand(items.as_ptr(), items.len(), fuel, w, work.len(), c, core.len(), counts, length)
    };
    let accepted = |[steps, sum, length]: [u64; 3]| Expanded { steps: steps as u32, sum: sum as u32, length: length as usize };
    call(expand_stack(items.len() / 3, fuel), run).map(accepted)
}

/// Writes the text of a core term: its length.
pub fn write(words: &[u32], operations: u32, names: &[u8], out: &mut [u8]) -> Result<usize, Error> {
    // SAFETY: as in `read`.
    let run = |counts, length| unsafe {
        let (n, o) = (names.as_ptr(), out.as_mut_ptr());
        calls::grebetallboy_write(words.as_ptr(), words.len(), operations, n, names.len(), o, out.len(), counts, length)
    };
    call(write_stack(words.len()), run).map(|[length, _, _]| length as usize)
}

/// Holds a supplier's text against our term, given the recipe's items and names: whether it is our term up to the choice of bound names.
/// The text is read into its own two tables.
pub fn compare(
    items: &[u32], names: &[u8], words: &[u32], text: &[u8], text_items: &mut [u32], text_names: &mut [u8],
) -> Result<bool, Error> {
    // SAFETY: as in `read`.
    let run = |counts, length| unsafe {
        let (i, n, w, t) = ((items.as_ptr(), items.len()), (names.as_ptr(), names.len()), (words.as_ptr(), words.len()), text.as_ptr());
        let (i2, n2) = ((text_items.as_mut_ptr(), text_items.len()), (text_names.as_mut_ptr(), text_names.len()));
        calls::grebetallboy_compare(i.0, i.1, n.0, n.1, w.0, w.1, t, text.len(), i2.0, i2.1, n2.0, n2.1, counts, length)
    };
    call(compare_stack(words.len()), run).map(|[yes, _, _]| yes == 1)
}

/// Runs a core term: its value and the units that it took, at most the budget.
/// Where 27 is not answered, every larger budget up to 65,535 gives this answer too, in a table for that budget; the units are the least
/// budget that accepts.
pub fn run(words: &[u32], budget: u32, table: &mut [u32]) -> Result<Ran, Error> {
    // SAFETY: as in `read`.
    let run = |counts, length| unsafe {
        calls::grebetallboy_run(words.as_ptr(), words.len(), budget, table.as_mut_ptr(), table.len(), counts, length)
    };
    call(run_stack(words.len()), run).map(value::ran)
}

/// Expands an item table and runs its term, whose words begin the core table. What expanding refuses has its number and counts.
pub fn run_recipe(items: &[u32], fuel: u32, work: &mut [u32], core: &mut [u32], budget: u32, table: &mut [u32]) -> Result<Ran, Error> {
    // SAFETY: as in `read`.
    let run = |counts, length| unsafe {
        let (i, w, c) = ((items.as_ptr(), items.len()), (work.as_mut_ptr(), work.len()), (core.as_mut_ptr(), core.len()));
        let (t, n) = (table.as_mut_ptr(), table.len());
        calls::grebetallboy_run_recipe(i.0, i.1, fuel, w.0, w.1, c.0, c.1, budget, t, n, counts, length)
    };
    call(run_recipe_stack(items.len() / 3, fuel), run).map(value::ran)
}
