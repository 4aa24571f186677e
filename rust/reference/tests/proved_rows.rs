//! The second expander on the recipes whose answers are proved of the definition, and on those of examples/.

use inputs::{in_stack, pairs, rows};
use reference::{compare, expand, file, text};

#[test]
fn expansions() {
    let rows = rows::expansions();
    assert!(rows.len() > 150, "{} rows", rows.len());
    for (recipe, fuel, answer) in rows {
        let items = text::read(recipe.as_bytes()).expect(&recipe).words();
        let (work, core) = expand::table_words(items.len() / 3, fuel);
        let run = in_stack(64 << 20, || expand::run(&items, fuel, work, core));
        assert_eq!((run.outcome.err().unwrap_or(0), run.steps, run.sum, run.core), answer, "{recipe} fuel {fuel}");
    }
}

#[test]
fn outputs() {
    let rows = rows::outputs();
    assert!(rows.len() > 12, "{} rows", rows.len());
    for (recipe, fuel, output) in rows {
        assert_eq!(file(recipe.as_bytes(), fuel), output, "{recipe}");
    }
}

/// What is printed for a pair.
fn compared(recipe: &[u8], text: &[u8]) -> String {
    in_stack(64 << 20, || compare(recipe, text))
}

/// Recipes with a supplier's text.
#[test]
fn proved_pairs() {
    let rows = pairs::proved();
    assert!(rows.len() > 20, "{} rows", rows.len());
    for (recipe, text, answer) in rows {
        assert_eq!(compared(recipe.as_bytes(), text.as_bytes()), pairs::line(&answer), "{recipe}\n{text}");
    }
    let rows = pairs::printed();
    assert!(rows.len() > 10, "{} rows", rows.len());
    for (recipe, text, output) in rows {
        assert_eq!(compared(recipe.as_bytes(), text.as_bytes()), output, "{recipe}\n{text}");
    }
}

#[test]
fn examples() {
    let rows = rows::examples();
    assert!(rows.len() > 2, "{} recipes", rows.len());
    for (recipe, output) in rows {
        assert_eq!(file(&recipe, 512), output, "{}", String::from_utf8_lossy(&recipe));
    }
    let run = rows::run_examples();
    assert!(run.len() > 2, "{} recipes", run.len());
    for (recipe, output) in run {
        assert_eq!(in_stack(64 << 20, || reference::run(&recipe)), output, "{}", String::from_utf8_lossy(&recipe));
    }
    let pairs = pairs::examples();
    assert!(["yes", "no"].iter().all(|answer| pairs.iter().any(|pair| pair.2 == *answer)));
    for (recipe, text, answer) in pairs {
        assert_eq!(compared(&recipe, &text), pairs::line(&answer), "{}", String::from_utf8_lossy(&text));
    }
}
