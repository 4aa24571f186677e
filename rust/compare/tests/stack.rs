//! The inputs that take the most stack, from a thread with little of it, against the second expander in a thread with much.

use compare::deep;
use compare::filing::ran;
use grebetallboy::{compare, expand, read, run_recipe, run_words, table_words, write};
use grebetallboy::{Error, Read, Refused, ITEM_WORDS, NAME_BYTES, TEXT_RATE};
use inputs::{in_stack, known};
use reference::{core, expand::run, run as second};

/// The system gives a thread no less than some 16 KiB.
const LITTLE: usize = 1;
const MUCH: usize = 1 << 30;
/// The largest budget.
const MOST: u32 = 65_535;

#[test]
fn texts() {
    for (source, (ground, items, names)) in known::readings() {
        let (mut i, mut n) = (vec![9; ITEM_WORDS], vec![9; NAME_BYTES]);
        let answer = in_stack(LITTLE, || read(&source, &mut i, &mut n));
        let refused = Err(Error::Refused(Refused { ground, steps: 0, sum: 0 }));
        assert_eq!(answer, if ground == 0 { Ok(Read { items: items as usize, names: names as usize }) } else { refused });
    }
}

#[test]
fn deepest_tables() {
    let names = known::longest_names();
    for (name, items, fuel, depth) in deep::inputs() {
        assert!(items.len() <= 3 * 4_096, "{name}: {} items", items.len() / 3);
        let (work, core) = table_words(items.len() / 3, fuel);
        let (answer, term) = in_stack(LITTLE, || {
            let (mut work, mut core) = (vec![1; work], vec![1; core]);
            let answer = expand(&items, fuel, &mut work, &mut core);
            let words = core[..answer.map_or(0, |run| run.length)].to_vec();
            let mut out = vec![0; TEXT_RATE * words.len()];
            write(&words, 256, &names, &mut out).expect(name);
            (answer, words)
        });
        let run = in_stack(MUCH, || run(&items, fuel, work, core));
        assert_eq!(answer.map(|a| (a.steps, a.sum)), Ok((run.steps, run.sum)), "{name}");
        assert_eq!(term, run.core, "{name}");
        assert!(term.len() > 2 * depth || run.steps as usize >= depth, "{name}: {} words, {} steps", term.len(), run.steps);
        let value = in_stack(LITTLE, || {
            let (mut work, mut core, mut table) = (vec![1; work], vec![1; core], vec![1; run_words(MOST)]);
            run_recipe(&items, fuel, &mut work, &mut core, MOST, &mut table)
        });
        assert_eq!(ran(value), in_stack(MUCH, || second::printed(&second::run(&run.core, MOST, &mut vec![1; run_words(MOST)]))), "{name}");
    }
}

/// Words that open a part inside a part, as a term or broken off: an if in an if, a list in a quoted list, and so on.
#[test]
fn deepest_words() {
    let zero = [2, 0];
    let shapes: [(&[u32], usize); 6] = [(&[6], 2), (&[5, 1], 0), (&[7, 0, 0], 0), (&[8, 0], 0), (&[8, 1], 1), (&[8, 1, 2, 0], 0)];
    for (opening, behind) in shapes {
        for levels in [1, 100, 12_000, 40_000] {
            let open = opening.repeat(levels);
            let whole = [&open[..], &zero, &zero.repeat(levels * behind)].concat();
            for words in [&whole, &open] {
                let (mut table, mut table2) = (vec![7; run_words(MOST)], vec![7; run_words(MOST)]);
                let answer = in_stack(LITTLE, || grebetallboy::run(words, MOST, &mut table));
                let known = in_stack(MUCH, || second::run(words, MOST, &mut table2));
                assert_eq!(ran(answer), second::printed(&known), "{opening:?} {levels} times");
                assert!(table == table2);
                for bytes in [0, whole.len(), TEXT_RATE * whole.len()] {
                    let (mut out, mut out2) = (vec![7; bytes], vec![7; bytes]);
                    let answer = in_stack(LITTLE, || write(words, 256, &[], &mut out));
                    let (ground, length) = in_stack(MUCH, || core::write_call(words, 256, &[], &mut out2));
                    let known = if ground == 0 { Ok(length as usize) } else { Err(Error::Refused(Refused { ground, steps: 0, sum: 0 })) };
                    assert_eq!(answer, known, "{opening:?} {levels} times, {bytes} bytes");
                    assert!(out == out2);
                }
            }
        }
    }
}

/// A supplier's texts, against the term that each is, and against another of few words.
#[test]
fn deepest_texts() {
    for (name, _, text, term) in deep::texts() {
        for (words, answer) in [(&term[..], true), (&[2, 6], false)] {
            let (mut i, mut n) = (vec![9; ITEM_WORDS], vec![9; NAME_BYTES]);
            let held = in_stack(LITTLE, || compare(&deep::NO_OPERATIONS, &[], words, text.as_bytes(), &mut i, &mut n));
            assert_eq!(held, Ok(answer), "{name}");
        }
    }
}

/// More words than most systems give stack for. They are one leaf and what is left over, so where there is stack they are refused.
#[test]
fn no_stack() {
    let words = vec![0; 1 << 28];
    let answer = write(&words, 256, &[], &mut []);
    let expected = [Error::NoStack(grebetallboy::write_stack(words.len())), Error::Refused(Refused { ground: 19, steps: 0, sum: 0 })];
    assert!(expected.contains(&answer.unwrap_err()), "{answer:?}");
}
