//! The recipes of requests L2 and L3 in Chez Scheme and Guile, where they are on the path: whether they give the same term, or refuse as
//! is done here.
//! `cargo run --release --bin others`

use compare::scheme;
use inputs::rows;

const CHEZ: &str = "(print-gensym #f)
(define (try e) (call/cc (lambda (k) (with-exception-handler (lambda (c) (k 'refused)) (lambda () (expand e))))))\n";
const GUILE: &str = "(use-modules (language tree-il))
(define (try e) (catch #t (lambda () (tree-il->scheme (macroexpand e))) (lambda arguments 'refused)))\n";

/// A recipe that only an ellipsis of the author's choice lets through.
const CHOSEN: &str = "() (let-syntax ((m (syntax-rules dots () ((_ a dots) (quote (a dots)))))) (m 1 2))";

/// Operations and expression of a recipe, as they are written.
fn parts(recipe: &str) -> (&str, &str) {
    let (operations, expression) = recipe.split_once(") ").expect("a list of operations, and an expression");
    (&operations[1..], expression)
}

/// What another expander makes of each recipe, its operations bound round it: a line each, as `write` writes it.
fn theirs(expander: fn(&str) -> Option<String>, prelude: &str, recipes: &[&str]) -> Option<Vec<String>> {
    let tried = |recipe: &&str| {
        let (operations, expression) = parts(recipe);
        format!("(write (try '(lambda ({operations}) {expression}))) (newline)\n")
    };
    let lines = expander(&(prelude.to_string() + &recipes.iter().map(tried).collect::<String>()))?;
    Some(lines.lines().map(str::to_string).collect())
}

/// The same for the second expander, whose term has no variables in these recipes.
fn ours(recipe: &str) -> String {
    let output = reference::file(recipe.as_bytes(), 512);
    let Some(term) = output.lines().nth(1) else { return "refused".to_string() };
    let (operations, _) = parts(recipe);
    let named = operations.split_whitespace().enumerate().fold(term.to_string(), |term, (i, name)| term.replace(&format!("o{i}"), name));
    format!("(lambda ({operations}) {named})")
}

/// Whether rules of a recipe choose their ellipsis.
fn chooses(recipe: &str) -> bool {
    recipe.match_indices("(syntax-rules ").any(|(at, head)| !recipe[at + head.len()..].starts_with('('))
}

fn main() {
    let rows: Vec<(String, String, String)> = ["L02", "L03"].into_iter().flat_map(rows::request).collect();
    let recipes: Vec<&str> = rows.iter().map(|(_, recipe, _)| &recipe[..]).chain([CHOSEN]).collect();
    let others = [("Chez", theirs(scheme::chez, CHEZ, &recipes)), ("Guile", theirs(scheme::guile, GUILE, &recipes))];
    println!("| recipe | here | {} | {} |\n|---|---|---|---|", others[0].0, others[1].0);
    for (i, (name, recipe, output)) in rows.iter().enumerate() {
        let own = ours(recipe);
        let said = |lines: &Option<Vec<String>>| match lines {
            None => "not on the path".to_string(),
            Some(lines) if chooses(recipe) && lines[rows.len()] == "refused" => "has no chosen ellipsis".to_string(),
            Some(lines) if lines[i] == own => "agrees".to_string(),
            Some(lines) => format!("`{}`", lines[i]),
        };
        println!("| {name} | {} | {} | {} |", output.lines().next().unwrap(), said(&others[0].1), said(&others[1].1));
    }
}
