//! The item table and its layout (ground 7).

use crate::text::Number;
use crate::tree::{Name, Tree};

fn item(words: &[u32], i: usize) -> [u32; 3] {
    [words[3 * i], words[3 * i + 1], words[3 * i + 2]]
}

fn good(words: &[u32], n: usize, i: usize) -> bool {
    let above = |j: u32| (j as usize) > i && (j as usize) < n;
    match item(words, i) {
        [0, a, b] => a == 0 && b == 0,
        [1, _, b] => b == 0,
        [2, a, b] => a < 2 && b == 0,
        [3, a, b] => a < 1_024 && b == 0,
        [4, a, b] => above(a) && above(b) && matches!(words[3 * b as usize], 0 | 4),
        [5, _, b] => (1..=4).contains(&b),
        _ => false,
    }
}

/// The two elements, or none where it is ground 7.
pub fn elements(words: &[u32]) -> Option<(Tree, Tree)> {
    let n = words.len() / 3;
    if words.len() != 3 * n || !(5..=4_096).contains(&n) || !(0..n).all(|i| good(words, n, i)) {
        return None;
    }
    let mut referred = vec![0; n];
    for i in 0..n {
        if let [4, a, b] = item(words, i) {
            referred[a as usize] += 1;
            referred[b as usize] += 1;
        }
    }
    if referred[1..].iter().any(|&times| times != 1) {
        return None;
    }
    let Tree::List(mut two) = tree(words, 0) else { return None };
    let (expression, operations) = (two.pop()?, two.pop()?);
    (two.is_empty() && operations.list().is_some()).then_some((operations, expression))
}

fn tree(words: &[u32], mut i: usize) -> Tree {
    match item(words, i) {
        [1 | 5, a, b] => return Tree::Number(Number { value: a as i32, places: b }),
        [2, a, _] => return Tree::Boolean(a == 1),
        [3, a, _] => {
            return Tree::Name(Name { number: a, marks: Default::default(), binding: None, item: i as u32, produced: false })
        }
        _ => {}
    }
    let mut list = Vec::new();
    while let [4, a, b] = item(words, i) {
        list.push(tree(words, a as usize));
        i = b as usize;
    }
    Tree::List(list)
}
