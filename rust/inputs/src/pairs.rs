//! Pairs of a recipe and a supplier's text with known answers: `yes`, `no`, or `refused` and the ground.

use crate::rows::{folder, quoted, spec};
use crate::top;
use std::path::{Path, PathBuf};

/// A recipe and a supplier's text, with what is changed of the tables lent.
pub struct Pair {
    pub name: &'static str,
    pub recipe: &'static str,
    /// Our term's words where they are not the recipe's expansion.
    pub words: Option<&'static [u32]>,
    /// Another first word of the recipe's item table, and another byte of its name table, by slot and place.
    pub item: Option<u32>,
    pub byte: Option<(usize, usize, u8)>,
    /// How many bytes of the name table are lent.
    pub names: usize,
    /// Words and bytes of the text's own tables.
    pub lent: (usize, usize),
    pub text: String,
    pub answer: &'static str,
}

fn pair(name: &'static str, recipe: &'static str, text: &str, answer: &'static str) -> Pair {
    Pair { name, recipe, words: None, item: None, byte: None, names: 65_536, lent: (12_288, 65_536), text: text.to_string(), answer }
}

impl Pair {
    /// The tables of a reading of the recipe, as they are lent.
    pub fn tables(&self, mut items: Vec<u32>, mut names: Vec<u8>) -> (Vec<u32>, Vec<u8>) {
        names.resize(65_536, 0);
        items[0] = self.item.unwrap_or(items[0]);
        if let Some((slot, at, byte)) = self.byte {
            names[64 * slot + at] = byte;
        }
        names.truncate(self.names);
        (items, names)
    }
}

/// What texts alone do not show: tables and words that no reading or expansion leaves, the order of the grounds, limits.
pub fn known() -> Vec<Pair> {
    let bad = "5 5";
    let long = " ".repeat(65_536);
    let wide = |n: usize| format!("(f{})", " 1".repeat(n));
    let nested = |n: usize| format!("{}f{}", "(".repeat(n), ")".repeat(n));
    let deep = |n: usize| format!("{}5{}", "(lambda (a b c d e f g h) ".repeat(n), ")".repeat(n));
    let with_words = |name, recipe, words, text, answer| Pair { words: Some(words), ..pair(name, recipe, text, answer) };
    let spoiled = |name, recipe, words, byte, text, answer| Pair { byte: Some(byte), ..with_words(name, recipe, words, text, answer) };
    vec![
        pair("an element is missing", "() 5", "", "refused 5"),
        spoiled("every operation's slot, though the term uses none", "(f g) 5", &[2, 5], (9, 0, 0), "5", "refused 19"),
        spoiled("an operation's length past its slot", "(f g) 5", &[2, 5], (9, 0, 64), "5", "refused 19"),
        Pair { names: 640, ..pair("the last operation's slot ends the name table", "(f g) g", "g", "yes") },
        Pair { names: 639, ..pair("a byte less", "(f g) 5", "5", "refused 19") },
        with_words("the recipe's operation count, not 256", "(f) 5", &[1, 1], "f", "refused 19"),
        with_words("the last operation", "(f) 5", &[1, 0], "f", "yes"),
        Pair { lent: (12_287, 65_536), ..pair("the text's own items", "() 5", "5", "refused 1") },
        Pair { lent: (12_288, 65_535), ..pair("the text's own names", "() 5", "5", "refused 1") },
        Pair { lent: (12_300, 65_600), ..pair("longer tables", "() 5", "5", "yes") },
        with_words("a decimal", "() 5", &[9, 80, 2], "0.80", "yes"),
        with_words("places are part of the term", "() 5", &[9, 80, 2], "0.8", "no"),
        with_words("name words are tested, then not heeded", "() (quote t)", &[7, 0, 1, 8, 0, 0], "(lambda (x) x)", "yes"),
        with_words("a name word without a slot", "() 5", &[7, 0, 1, 8, 0, 0], "(lambda (x) x)", "refused 19"),
        with_words("two terms", "() 5", &[2, 5, 2, 5], "5", "refused 19"),
        with_words("no words", "() 5", &[], "5", "refused 19"),
        Pair { item: Some(5), ..with_words("7 before all", "(f f) 5", &[], bad, "refused 7") },
        Pair { lent: (0, 0), ..with_words("10 before 19", "(f f) 5", &[], bad, "refused 10") },
        Pair { lent: (0, 0), ..with_words("19 before 1", "() 5", &[2], bad, "refused 19") },
        Pair { lent: (0, 0), ..pair("1 before 2", "() 5", &long, "refused 1") },
        pair("2 before 5", "() 5", &long, "refused 2"),
        pair("the longest text", "() 5", &long[1..], "refused 5"),
        pair("the widest text", "(f) 5", &wide(2_045), "no"),
        pair("an element more", "(f) 5", &wide(2_046), "refused 6"),
        pair("the deepest text", "(f) 5", &nested(64), "no"),
        pair("a list deeper", "(f) 5", &nested(65), "refused 6"),
        pair("504 names in scope", "() 5", &deep(63), "no"),
        spoiled("two operations spelled alike: the first", "(f g) 5", &[1, 0], (9, 1, b'f'), "f", "yes"),
        spoiled("two operations spelled alike: the second", "(f g) 5", &[1, 1], (9, 1, b'f'), "f", "yes"),
        spoiled("its own name is gone", "(f g) 5", &[1, 1], (9, 1, b'f'), "g", "refused 22"),
        spoiled("an operation spelled if: the form wins", "(of) 5", &[1, 0], (8, 1, b'i'), "if", "refused 21"),
        spoiled("bytes behind a name's length", "(f g) 5", &[1, 0], (8, 2, b'f'), "f", "yes"),
        spoiled("a longer length byte", "(f g) 5", &[1, 0], (8, 0, 2), "f", "refused 22"),
        spoiled("a form's name spelled otherwise", "() 5", &[4, 1], (1, 1, b'o'), "(quote of)", "yes"),
        spoiled("a quoted name of length 0", "() 5", &[4, 1], (1, 0, 0), "(quote if)", "refused 19"),
        pair("5 before 21", "() 5", "() 5", "refused 5"),
        pair("6 before 21", "() 5", &format!("(() {}", "(".repeat(64)), "refused 6"),
        pair("an application of nothing bound", "() 5", "(x 5)", "refused 22"),
        pair("a lambda hides what is no operation", "() 5", "((lambda (x) 5) (lambda (y) x))", "refused 22"),
    ]
}

/// What is said of each pair of request L4, its recipe, its text, and the answer.
pub fn request() -> Vec<(String, String, String, String)> {
    let text = std::fs::read_to_string(folder().join("L04.pairs")).unwrap();
    let row = |row: &str| {
        let lines: Vec<String> = row.lines().map(str::to_string).collect();
        let [name, recipe, text, answer] = &lines[..] else { panic!("four lines: {row}") };
        (name.clone(), recipe.clone(), text.clone(), answer.clone())
    };
    text.trim_end().split("\n\n").map(row).collect()
}

/// A recipe of examples/, a supplier's text beside it, and the answer, by which the text's file is named.
pub fn examples() -> Vec<(Vec<u8>, Vec<u8>, String)> {
    let files = top().join("examples").read_dir().unwrap().map(|entry| entry.unwrap().path());
    let pair = |path: PathBuf| {
        let answer = path.extension()?.to_str()?;
        let read = |path: &Path| std::fs::read(path).unwrap();
        ["yes", "no"].contains(&answer).then(|| (read(&path.with_extension("scm")), read(&path), answer.to_string()))
    };
    files.filter_map(pair).collect()
}

/// The pairs proved of the definition: `row recipe "text" answer`, the recipe quoted or by a name that is given it.
pub fn proved() -> Vec<(String, String, String)> {
    let row = |(recipe, text, rest): (String, String, &str)| {
        let answer = rest.lines().next().unwrap_or("");
        (recipe, text, answer.trim_matches([' ', '∷', '(', ')']).replace("refused_on", "refused"))
    };
    rows(&spec("comparison/specs/Rows.antt"), row)
}

/// What the comparing program prints where the recipe is accepted and the comparison answers so.
pub fn line(answer: &str) -> String {
    let whose = if answer.starts_with("refused") { " text" } else { "" };
    format!("{answer}{whose}\n")
}

/// The pairs whose whole output is proved: `row recipe "text" "output"`.
pub fn printed() -> Vec<(String, String, String)> {
    let row = |(recipe, text, rest): (String, String, &str)| (recipe, text, quoted(rest).expect("an output").0);
    rows(&spec("comparison_output/specs/Rows.antt"), row)
}

fn rows(specs: &str, row: impl Fn((String, String, &str)) -> (String, String, String)) -> Vec<(String, String, String)> {
    let names = spec("comparison/specs/Rows.antt");
    let given = |name: &str| {
        let definition = names.lines().find_map(|line| line.strip_prefix(name)?.trim_start().strip_prefix('='))?;
        quoted(definition).map(|(recipe, _)| recipe)
    };
    let parts = |rest: &'_ str| -> Option<(String, String, usize)> {
        let (recipe, after) = quoted(rest).or_else(|| rest.split_once(' ').and_then(|(name, after)| Some((given(name)?, after))))?;
        let (text, after) = quoted(after)?;
        Some((recipe, text, rest.len() - after.len()))
    };
    let found = specs.match_indices("\n    row ").filter_map(|(at, word)| {
        let rest = &specs[at + word.len()..];
        parts(rest).map(|(recipe, text, end)| row((recipe, text, &rest[end..])))
    });
    found.collect()
}
