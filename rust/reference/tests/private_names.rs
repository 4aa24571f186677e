//! Demand 3 tried on random recipes, with the new name unused anywhere and with one that is new to its template alone: the two runs have
//! the same outcome and counts, and the second's words are those of the first's term with the new number at each formal that is a copy.
//! `RECIPES=1000000 SEED=7 cargo test --release --test private_names` makes a long run.

use inputs::{in_stack, known, patterns::Rules, setting, Random, Recipes};
use reference::core::{decode, Term};
use reference::expand::{run, Event, Run};
use reference::rules::{self, Ellipsis};
use reference::tree::{Binding, Name, Tree};
use reference::{table, text};
use std::collections::{HashMap, HashSet};

const FUEL: u32 = 300;
const WORDS: usize = 1 << 20;

/// The list whose head is the name of an item.
fn form(t: &Tree, item: u32) -> Option<&[Tree]> {
    let list = t.list()?;
    match list.first().and_then(Tree::name) {
        Some(x) if x.item == item => Some(list),
        _ => list.iter().find_map(|t| form(t, item)),
    }
}

/// A rule of a form, as far as its pieces exist: the numbers of its variables and of an ellipsis of the author's choice, and its template.
struct Place {
    variables: HashSet<u32>,
    template: Tree,
}

fn places(form: &[Tree]) -> Vec<Place> {
    let mut out = Vec::new();
    for entry in form.get(1).and_then(Tree::list).unwrap_or(&[]) {
        let Some([_, rules_form]) = entry.list() else { continue };
        let Some(parsed) = rules::parse(rules_form) else { continue };
        let texts = rules_form.list().unwrap().iter().rev().take(parsed.len()).rev();
        out.extend(parsed.iter().zip(texts).map(|(rule, text)| {
            let chosen = if let Ellipsis::Chosen(x) = &rule.ellipsis { Some(x) } else { None };
            let variables = rule.variables.iter().map(|(x, _)| x).chain(chosen).map(|x| x.number).collect();
            Place { variables, template: text.list().unwrap()[1].clone() }
        }));
    }
    out
}

/// What the first run says of the copies of these items.
struct Shown {
    hidden: bool,
    lookups: usize,
}

fn copy(items: &HashSet<u32>, x: &Name) -> bool {
    x.produced && items.contains(&x.item)
}

/// The bindings of a run, with their own names.
fn own(run: &Run) -> HashMap<Binding, &Name> {
    run.events.iter().filter_map(|e| if let Event::Binds(b, x) = e { Some((*b, x)) } else { None }).collect()
}

fn shown(run: &Run, items: &HashSet<u32>) -> Shown {
    let copy = |x: &Name| copy(items, x);
    let own = own(run);
    let mut answer = Shown { hidden: true, lookups: 0 };
    for event in &run.events {
        match event {
            Event::Looked(x) if copy(x) => {
                answer.lookups += 1;
                answer.hidden &= x.binding.is_some_and(|b| copy(own[&b]));
            }
            Event::Quoted(x) if copy(x) => answer.hidden = false,
            _ => {}
        }
    }
    answer
}

#[derive(Default, Debug)]
struct Count {
    hidden: usize,
    with_lookups: usize,
    name_words_differ: usize,
    differ_where_shown: usize,
}

/// A term with other names at its formals, given each variable's number and name.
fn called(t: &Term, name: &dyn Fn(u32, u32) -> u32) -> Term {
    match t {
        Term::Lambda(first, names, body) => {
            let names = (*first..).zip(names).map(|(variable, &n)| name(variable, n)).collect();
            Term::Lambda(*first, names, Box::new(called(body, name)))
        }
        Term::If(parts) => Term::If(Box::new(parts.each_ref().map(|t| called(t, name)))),
        Term::Application(head, operands) => {
            Term::Application(Box::new(called(head, name)), operands.iter().map(|t| called(t, name)).collect())
        }
        other => other.clone(),
    }
}

/// The words of a run's term with the new number at each formal that is a copy; none where it is refused.
fn renamed(run: &Run, items: &HashSet<u32>, new: u32) -> Vec<u32> {
    let Some(term) = decode(&run.core, 256, &known::longest_names()) else { return Vec::new() };
    let own = own(run);
    called(&term, &|variable, old| if copy(items, own[&Binding::Variable(variable)]) { new } else { old }).words()
}

/// Outcome and counts of the first run, and these words.
fn agree(first: &Run, words: &[u32], second: &Run) -> bool {
    first.outcome == second.outcome && first.steps == second.steps && first.sum == second.sum && second.core == words
}

fn try_recipe(source: &str, random: &mut Random, count: &mut Count) {
    let Ok(recipe) = text::read(source.as_bytes()) else { return };
    let words = recipe.words();
    let Some((_, expression)) = table::elements(&words) else { return };
    let first = run(&words, FUEL, WORDS, WORDS);
    let reached: HashSet<u32> =
        first.events.iter().filter_map(|e| if let Event::Reached(x) = e { (!x.produced).then_some(x.item) } else { None }).collect();
    for item in reached {
        for place in places(form(&expression, item).expect("a reached form stands in the recipe")) {
            let numbers: HashSet<u32> = place.template.names().iter().map(|x| x.number).collect();
            for &old in numbers.iter().filter(|n| !matches!(n, 6 | 7) && !place.variables.contains(n)) {
                let items: HashSet<u32> = place.template.names().iter().filter(|x| x.number == old).map(|x| x.item).collect();
                let said = shown(&first, &items);
                if said.hidden && said.lookups == 0 && !random.chance(5) {
                    continue;
                }
                let local = random.below(recipe.names.len() + 2) as u32;
                let unused = recipe.names.len() as u32;
                let fresh = |n: u32| !matches!(n, 6 | 7) && !numbers.contains(&n) && !place.variables.contains(&n);
                for new in [unused, local].into_iter().filter(|n| fresh(*n)) {
                    let mut changed = words.clone();
                    items.iter().for_each(|i| changed[3 * *i as usize + 1] = new);
                    let expected = renamed(&first, &items, new);
                    let equal = agree(&first, &expected, &run(&changed, FUEL, WORDS, WORDS));
                    if said.hidden {
                        assert!(equal, "{source}\nold {old} new {new} items {items:?}");
                        count.hidden += 1;
                        count.with_lookups += usize::from(said.lookups > 0);
                        count.name_words_differ += usize::from(expected != first.core);
                    } else {
                        count.differ_where_shown += usize::from(!equal);
                    }
                }
            }
        }
    }
}

#[test]
fn private_names_never_show() {
    let body = || {
        let mut random = Random::new(setting("SEED", 1));
        let recipes = setting("RECIPES", 5_000);
        let mut count = Count::default();
        for _ in 0..recipes {
            let source = if random.chance(60) { Recipes::recipe(&mut random) } else { Rules::recipe(&mut random) };
            try_recipe(&source, &mut random, &mut count);
        }
        println!("{recipes} recipes: {count:?}");
        let met = [count.with_lookups, count.name_words_differ, count.differ_where_shown];
        assert!(met.iter().all(|&n| n as u64 > recipes / 100), "{count:?}");
    };
    in_stack(256 << 20, body);
}

/// A recipe's words, the items of its names that are spelled so, the words with a new number there, and that number.
fn renaming(source: &str, name: &str) -> (Vec<u32>, HashSet<u32>, Vec<u32>, u32) {
    let recipe = text::read(source.as_bytes()).unwrap();
    let (words, new) = (recipe.words(), recipe.names.len() as u32);
    let old = recipe.names.iter().position(|n| n == name.as_bytes()).unwrap() as u32;
    let items: HashSet<u32> = (0..words.len() / 3).filter(|&i| words[3 * i..][..3] == [3, old, 0]).map(|i| i as u32).collect();
    let mut changed = words.clone();
    items.iter().for_each(|i| changed[3 * *i as usize + 1] = new);
    (words, items, changed, new)
}

/// A private name as a formal: its name word is the new number then, and no other word differs.
#[test]
fn a_copy_is_a_formal() {
    let source = "() (lambda (t) (let-syntax ((or2 (syntax-rules () ((_ a b) ((lambda (p) (if p p b)) a))))) (or2 #f t)))";
    let (words, items, changed, new) = renaming(source, "p");
    let (first, second) = (run(&words, FUEL, WORDS, WORDS), run(&changed, FUEL, WORDS, WORDS));
    let differ: Vec<usize> = (0..first.core.len()).filter(|&i| first.core[i] != second.core[i]).collect();
    assert_eq!((&differ[..], second.core[differ[0]]), (&[9][..], new), "{:?}", first.core);
    assert!(agree(&first, &renamed(&first, &items, new), &second));
}

/// A private macro name is no formal: nothing differs.
#[test]
fn no_copy_is_a_formal() {
    let source = "() (let-syntax ((m (syntax-rules () ((_ a) (let-syntax ((p (syntax-rules () ((_) a)))) (p)))))) (lambda (t) (m t)))";
    let (words, items, changed, new) = renaming(source, "p");
    let (first, second) = (run(&words, FUEL, WORDS, WORDS), run(&changed, FUEL, WORDS, WORDS));
    assert!(shown(&first, &items).lookups > 0 && agree(&first, &first.core, &second));
    assert_eq!(renamed(&first, &items, new), first.core);
}

/// An author's ellipsis counts as a variable: where it is renamed in the template alone, rules break, and no copy has been seen.
#[test]
fn a_chosen_ellipsis_is_not_private() {
    let source = "(list) (let-syntax ((m (syntax-rules dots () ((_ a dots) (list a dots))))) (m 1 2))";
    let recipe = text::read(source.as_bytes()).unwrap();
    let words = recipe.words();
    let dots = recipe.names.iter().position(|name| name == b"dots").unwrap() as u32;
    let item = words.chunks(3).rposition(|item| item == [3, dots, 0]).unwrap();
    let mut renamed = words.clone();
    renamed[3 * item + 1] = recipe.names.len() as u32;
    let (first, second) = (run(&words, FUEL, WORDS, WORDS), run(&renamed, FUEL, WORDS, WORDS));
    let said = shown(&first, &HashSet::from([item as u32]));
    assert!(said.hidden && said.lookups == 0);
    assert_eq!((first.outcome, second.outcome), (Ok(()), Err(15)));
}
