//! Request L4 in the second expander: pairs with known answers, and random renderings of random terms. One that takes care of what its
//! names hide gets yes, one that does not gets yes just where each reference still has its own binder, and neither is refused.
//! `RECIPES=1000000 SEED=7 cargo test --release --test supplier` makes a long run.

use inputs::renderings::{damaged, rendering};
use inputs::{in_stack, pairs, patterns::Rules, setting, Random, Recipes};
use reference::expand::{run, table_words};
use reference::supplier::compare;
use reference::{core, text, Ground};

const FUEL: u32 = 300;

fn said(answer: Result<bool, Ground>) -> String {
    match answer {
        Ok(yes) => if yes { "yes" } else { "no" }.to_string(),
        Err(ground) => format!("refused {ground}"),
    }
}

/// What a recipe expands to.
fn expansion(items: &[u32]) -> Vec<u32> {
    let (work, core) = table_words(items.len() / 3, FUEL);
    run(items, FUEL, work, core).core
}

#[test]
fn known() {
    for pair in pairs::known() {
        let recipe = text::read(pair.recipe.as_bytes()).unwrap();
        let words = pair.words.map_or_else(|| expansion(&recipe.words()), <[u32]>::to_vec);
        let (items, names) = pair.tables(recipe.words(), recipe.name_table());
        let (mut items2, mut names2) = (vec![9; pair.lent.0], vec![9; pair.lent.1]);
        let answer = compare(&items, &names, &words, pair.text.as_bytes(), &mut items2, &mut names2);
        assert_eq!(said(answer), pair.answer, "{}", pair.name);
        let (zero, kept) = (items2.iter().all(|w| *w == 0), items2.iter().all(|w| *w == 9));
        let (zeros, left) = (names2.iter().all(|b| *b == 0), names2.iter().all(|b| *b == 9));
        match answer {
            Err(1 | 2 | 7 | 10 | 19) => assert!(kept && left, "{}", pair.name),
            Err(_) => assert!(zero && zeros, "{}", pair.name),
            Ok(_) => assert!(!zero && !kept && items2[12_285..].iter().all(|w| *w == 0), "{}", pair.name),
        }
    }
}

#[test]
fn of_the_request() {
    let rows = pairs::request();
    assert!(rows.len() > 15, "{} rows", rows.len());
    for (name, recipe, text, answer) in rows {
        assert_eq!(reference::compare(recipe.as_bytes(), text.as_bytes()), pairs::line(&answer), "{name}: {recipe}\n{text}");
    }
}

/// A text's own tables after yes: items of one element, the eight names and its own.
#[test]
fn tables_left() {
    let recipe = text::read(b"() 5").unwrap();
    let (mut items, mut names) = (vec![9; 12_288], vec![9; 65_536]);
    assert_eq!(compare(&recipe.words(), &recipe.name_table(), &[2, 5], b"5", &mut items, &mut names), Ok(true));
    assert_eq!(items[..9], [4, 1, 2, 1, 5, 0, 0, 0, 0]);
    assert!(items[9..].iter().all(|w| *w == 0));
    assert_eq!(names[..512], text::read(b"1 1").unwrap().name_table());
    assert!(names[512..].iter().all(|b| *b == 0));
}

#[derive(Default, Debug)]
struct Count {
    yes: u64,
    no: u64,
    damaged: std::collections::BTreeMap<String, u64>,
}

fn try_recipe(source: &str, random: &mut Random, count: &mut Count) {
    let Ok(recipe) = text::read(source.as_bytes()) else { return };
    let (items, names) = (recipe.words(), recipe.name_table());
    let words = expansion(&items);
    if words.is_empty() {
        return;
    }
    let term = String::from_utf8(core::text(&words, 256, &names).expect("a term")).unwrap();
    let (mut items2, mut names2) = (vec![0; 12_288], vec![0; 65_536]);
    let mut held = |text: &[u8]| said(compare(&items, &names, &words, text, &mut items2, &mut names2));
    for careful in [true, false] {
        let (text, faithful) = rendering(random, &term, &recipe.operations(), careful);
        assert!(faithful || !careful, "{text}");
        assert_eq!(held(text.as_bytes()), if faithful { "yes" } else { "no" }, "{source}\n{term}\n{text}");
        *if faithful { &mut count.yes } else { &mut count.no } += 1;
        *count.damaged.entry(held(&damaged(random, &text))).or_default() += 1;
    }
}

#[test]
fn renderings() {
    let body = || {
        let mut random = Random::new(setting("SEED", 1) + 4);
        let recipes = setting("RECIPES", 5_000);
        let mut count = Count::default();
        for _ in 0..recipes {
            let source = if random.chance(70) { Recipes::recipe(&mut random) } else { Rules::recipe(&mut random) };
            try_recipe(&source, &mut random, &mut count);
        }
        println!("{count:?}");
        assert!(count.yes > recipes / 10 && count.no > recipes / 100, "{count:?}");
        let answers = ["yes", "no", "refused 3", "refused 4", "refused 5", "refused 21", "refused 22"];
        assert!(answers.iter().all(|answer| count.damaged.contains_key(*answer)), "{count:?}");
    };
    in_stack(256 << 20, body);
}
