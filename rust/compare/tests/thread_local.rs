//! In a program with much thread-local data, which the stack of each new thread holds too: the deepest input, from a thread with little
//! stack.

use compare::deep;
use grebetallboy::{expand, table_words};
use inputs::in_stack;
use std::cell::Cell;

const BYTES: usize = 1 << 20;

thread_local!(static DATA: [Cell<u8>; BYTES] = const { [const { Cell::new(7) }; BYTES] });

#[test]
fn deepest_table() {
    let items = deep::nested_lists(2_044);
    let (work, core) = table_words(items.len() / 3, 0);
    let (steps, data) = in_stack(256 << 10, || {
        let (mut work, mut core) = (vec![1; work], vec![1; core]);
        let steps = expand(&items, 0, &mut work, &mut core).expect("a term").steps;
        (steps, DATA.with(|data| data.iter().all(|byte| byte.get() == 7)))
    });
    assert_eq!((steps, data), (0, true));
}
