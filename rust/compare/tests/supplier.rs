//! A supplier's text held against our term, beside the second expander: the answer and every word and byte of the text's two tables, on
//! pairs with known answers, on renderings of random terms, and on damaged ones.

use compare::pairs::{self, Pair};
use compare::{dirty, dirty_bytes, refusal};
use inputs::{in_stack, pairs as known, setting, Random};
use reference::expand::{run, table_words};
use reference::{supplier, text};
use std::collections::BTreeMap;

/// Yes, no or the ground of a call.
fn compare(pair: &Pair, items: &mut [u32], names: &mut [u8]) -> Result<bool, u32> {
    grebetallboy::compare(&pair.items, &pair.names, &pair.words, &pair.text, items, names).map_err(|error| refusal(error).ground)
}

/// Both answers in the same two tables, which end alike.
fn both(pair: &Pair, mut items: Vec<u32>, mut names: Vec<u8>) -> String {
    let (mut items2, mut names2) = (items.clone(), names.clone());
    let answer = compare(pair, &mut items, &mut names);
    let shown = || format!("{}\n{:?}\n{}", pair.recipe, pair.words, String::from_utf8_lossy(&pair.text));
    let second = supplier::compare(&pair.items, &pair.names, &pair.words, &pair.text, &mut items2, &mut names2);
    assert_eq!(answer, second, "{}", shown());
    assert!(items == items2 && names == names2, "{}", shown());
    answer.map_or_else(|ground| format!("refused {ground}"), |yes| if yes { "yes" } else { "no" }.to_string())
}

/// A recipe's own tables and term with a text.
fn of_texts(recipe: &[u8], text: &[u8]) -> Pair {
    let read = text::read(recipe).unwrap();
    let items = read.words();
    let (work, core) = table_words(items.len() / 3, 512);
    let words = run(&items, 512, work, core).core;
    Pair { recipe: String::from_utf8_lossy(recipe).into(), items, names: read.name_table(), words, text: text.to_vec() }
}

#[test]
fn known_pairs() {
    for row in known::known() {
        let mut pair = of_texts(row.recipe.as_bytes(), row.text.as_bytes());
        pair.words = row.words.map_or(pair.words, <[u32]>::to_vec);
        (pair.items, pair.names) = row.tables(pair.items, pair.names);
        assert_eq!(both(&pair, vec![9; row.lent.0], vec![9; row.lent.1]), row.answer, "{}", row.name);
    }
    let request = known::request().into_iter().map(|(_, recipe, text, answer)| (recipe.into_bytes(), text.into_bytes(), answer));
    let proved = known::proved().into_iter().map(|(recipe, text, answer)| (recipe.into_bytes(), text.into_bytes(), answer));
    for (recipe, text, answer) in request.chain(proved).chain(known::examples()) {
        assert_eq!(both(&of_texts(&recipe, &text), vec![9; 12_290], vec![9; 65_540]), answer, "{}", String::from_utf8_lossy(&text));
    }
}

#[test]
fn random_pairs() {
    let body = || {
        let mut random = Random::new(setting("SEED", 1) + 4);
        let mut answers: BTreeMap<String, u64> = BTreeMap::new();
        for _ in 0..setting("INPUTS", 4_000) {
            let pair = pairs::pair(&mut random);
            let others = [(12_287, 65_536), (12_288, 65_535), (12_300, 65_600)];
            let (words, bytes) = others.get(random.below(30)).copied().unwrap_or((12_288, 65_536));
            let (items, names) = (dirty(&mut random, words), dirty_bytes(&mut random, bytes));
            *answers.entry(both(&pair, items, names)).or_default() += 1;
        }
        println!("answers of the comparison: {answers:?}");
        let grounds = [1, 2, 3, 4, 5, 6, 7, 10, 19, 21, 22].map(|ground| format!("refused {ground}"));
        assert!(grounds.iter().map(|g| &g[..]).chain(["yes", "no"]).all(|answer| answers.contains_key(answer)), "{answers:?}");
    };
    in_stack(256 << 20, body);
}

/// Every rendering that takes care of what its names hide is our term.
#[test]
fn renderings() {
    let mut random = Random::new(setting("SEED", 1) + 5);
    for _ in 0..setting("INPUTS", 4_000) / 2 {
        let pair = in_stack(64 << 20, || pairs::rendered(&mut random, true));
        assert_eq!(both(&pair, vec![7; 12_288], vec![7; 65_536]), "yes");
    }
}
