//! Recipes with right answers: those proved of the definition, whose rows are read from the specs themselves, those of examples/, and
//! those of the change requests, a file of `requests/` for each.

use crate::top;
use std::path::{Path, PathBuf};

pub(crate) fn spec(path: &str) -> String {
    let path = top().join("crates").join(path);
    let lines = std::fs::read_to_string(&path).unwrap_or_else(|e| panic!("{}: {e}", path.display()));
    lines.lines().filter(|line| !line.trim_start().starts_with("--")).collect::<Vec<_>>().join("\n")
}

/// A quoted text at the front, and what follows it.
pub(crate) fn quoted(s: &str) -> Option<(String, &str)> {
    let (body, rest) = s.trim_start().strip_prefix('"')?.split_once('"')?;
    Some((body.replace("\\n", "\n").replace("\\t", "\t").replace("\\r", "\r"), rest))
}

fn number(s: &str) -> Option<(u32, &str)> {
    let s = s.trim_start();
    let end = s.find(|c: char| !c.is_ascii_digit()).unwrap_or(s.len());
    Some((s[..end].parse().ok()?, &s[end..]))
}

/// A recipe, its fuel, and ground, steps, sum and words.
pub type Row = (String, u32, (u32, u32, u32, Vec<u32>));

/// `gives "recipe" steps sum (word ∷ .. ∷ [])`, `refuses "recipe" ground steps sum` and `turns_back "recipe" ground`, under
/// `with_fuel n (` at times.
fn rows_of(specs: &str) -> Vec<Row> {
    let mut rows = Vec::new();
    for (at, word) in ["gives \"", "refuses \"", "turns_back \""].into_iter().flat_map(|word| specs.match_indices(word)) {
        let fuel = specs[..at].trim_end().strip_suffix('(').and_then(|s| s.trim_end().rsplit_once("with_fuel "));
        let fuel = fuel.and_then(|(_, n)| n.trim().parse().ok()).unwrap_or(512);
        let (recipe, rest) = quoted(&specs[at + word.len() - 1..]).unwrap();
        let (a, rest) = number(rest).unwrap();
        let answer = if word.starts_with("turns_back") {
            (a, 0, 0, Vec::new())
        } else {
            let (b, rest) = number(rest).unwrap();
            if word.starts_with("gives") {
                let (words, _) = rest.split_once('(').unwrap().1.split_once(')').unwrap();
                (0, a, b, words.split('∷').filter_map(|w| w.trim().parse().ok()).collect())
            } else {
                (a, b, number(rest).unwrap().0, Vec::new())
            }
        };
        rows.push((recipe, fuel, answer));
    }
    rows
}

/// The files of a crate's specs that have rows, `Rows.antt` and others whose names begin so, and what stands in each.
fn row_files(of: &str) -> Vec<(String, String)> {
    let folder = top().join("crates").join(of).join("specs");
    let mut files: Vec<String> = folder.read_dir().unwrap().map(|entry| entry.unwrap().file_name().into_string().unwrap()).collect();
    files.retain(|file| file.starts_with("Rows") && file.ends_with(".antt"));
    files.sort();
    files.into_iter().map(|file| (file.clone(), spec(&format!("{of}/specs/{file}")))).collect()
}

/// The rows of the definition of expansion, by file.
pub fn expansion_files() -> Vec<(String, Vec<Row>)> {
    row_files("expansion").into_iter().map(|(file, specs)| (file, rows_of(&specs))).collect()
}

pub fn expansions() -> Vec<Row> {
    expansion_files().into_iter().flat_map(|(_, rows)| rows).collect()
}

/// A recipe, its fuel, and the whole output: `row "recipe" "output"` and `row_with fuel "recipe" "output"`.
pub type Output = (String, u32, String);

fn outputs_of(specs: &str) -> Vec<Output> {
    let mut rows = Vec::new();
    for (at, word) in specs.match_indices("row \"").chain(specs.match_indices("row_with ")) {
        let rest = &specs[at + word.trim_end_matches('"').len()..];
        let (fuel, rest) = if word == "row_with " { number(rest).unwrap_or((0, "")) } else { (512, rest) };
        let Some((recipe, rest)) = quoted(rest) else { continue };
        let Some((output, _)) = quoted(rest) else { continue };
        rows.push((recipe, fuel, output));
    }
    rows
}

/// The outputs of the filing program, by file.
pub fn output_files() -> Vec<(String, Vec<Output>)> {
    row_files("output").into_iter().map(|(file, specs)| (file, outputs_of(&specs))).collect()
}

pub fn outputs() -> Vec<Output> {
    output_files().into_iter().flat_map(|(_, rows)| rows).collect()
}

/// The text of each recipe of examples/, and what the filing program prints for it.
pub fn examples() -> Vec<(Vec<u8>, String)> {
    beside_recipes("out")
}

/// The text of each recipe of examples/ that is run, and what is printed for it then.
pub fn run_examples() -> Vec<(Vec<u8>, String)> {
    beside_recipes("ran")
}

/// The recipes of examples/ that have a file with such an ending beside them.
fn beside_recipes(ending: &str) -> Vec<(Vec<u8>, String)> {
    let files = top().join("examples").read_dir().unwrap().map(|entry| entry.unwrap().path());
    let recipes = files.filter(|path| path.extension().is_some_and(|e| e == ending));
    recipes.map(|path| (std::fs::read(path.with_extension("scm")).unwrap(), std::fs::read_to_string(path).unwrap())).collect()
}

/// The folder of the change requests' recipes.
pub(crate) fn folder() -> PathBuf {
    Path::new(env!("CARGO_MANIFEST_DIR")).join("requests")
}

/// What is said of each recipe of the change requests, its text, and what is printed for it.
pub fn requests() -> Vec<(String, String, String)> {
    let files = folder().read_dir().unwrap().map(|entry| entry.unwrap().path()).filter(|path| path.extension().is_some_and(|e| e == "txt"));
    files.flat_map(|path| request(path.file_stem().unwrap().to_str().unwrap())).collect()
}

/// Those of one request, as `L02`: a row's lines, an empty one between rows.
pub fn request(name: &str) -> Vec<(String, String, String)> {
    let text = std::fs::read_to_string(folder().join(name).with_extension("txt")).unwrap();
    let row = |row: &str| {
        let mut lines = row.splitn(3, '\n').map(str::to_string);
        let mut line = || lines.next().unwrap_or_else(|| panic!("three lines or more: {row}"));
        (line(), line(), format!("{}\n", line()))
    };
    text.trim_end().split("\n\n").map(row).collect()
}
