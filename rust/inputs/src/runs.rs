//! Terms with known values: those of request L11, those proved of the definition, and more of each ground.

use crate::rows::{folder, spec};

/// What is run: a recipe's term, or words.
#[derive(Clone, Debug)]
pub enum Source {
    Recipe(String),
    Words(Vec<u32>),
}

/// What is run, its budget, the words of the lent table, and what is printed.
pub struct Row {
    pub name: String,
    pub source: Source,
    pub budget: u32,
    pub table: usize,
    pub output: String,
}

/// Words of a table that are enough for a budget.
pub fn table_words(budget: u32) -> usize {
    16 * (budget as usize + 1)
}

fn numbers(line: &str) -> Vec<u32> {
    line.split_whitespace().map(|n| n.parse().unwrap_or_else(|e| panic!("{line}: {e}"))).collect()
}

/// Those of the request: a row's lines, an empty one between rows. What is run is a recipe or words; beside the budget may stand the
/// table's words.
pub fn request() -> Vec<Row> {
    let text = std::fs::read_to_string(folder().join("L11.runs")).unwrap();
    let row = |row: &str| {
        let [name, source, given, output] = row.splitn(4, '\n').collect::<Vec<_>>()[..] else { panic!("four lines or more: {row}") };
        let source = if source.starts_with('(') { Source::Recipe(source.to_string()) } else { Source::Words(numbers(source)) };
        let given = numbers(given);
        let table = given.get(1).map_or(table_words(given[0]), |words| *words as usize);
        Row { name: name.to_string(), source, budget: given[0], table, output: format!("{output}\n") }
    };
    text.trim_end().split("\n\n").map(row).collect()
}

/// The rows proved of the definition: `row (word ∷ .. ∷ []) budget table (outcome)`.
pub fn proved() -> Vec<Row> {
    let specs = spec("evaluation/specs/Rows.antt");
    let row = |(at, word): (usize, &str)| {
        let (words, rest) = specs[at + word.len()..].split_once(')').unwrap();
        let (given, outcome) = rest.lines().next().unwrap().split_once('(').unwrap();
        let words = words.split('∷').filter_map(|word| word.trim().parse().ok()).collect();
        let [budget, table] = numbers(given)[..] else { panic!("{rest}") };
        let outcome: Vec<&str> = outcome.split([' ', '(', ')', '∷']).filter(|word| !word.is_empty()).collect();
        Row { name: outcome.join(" "), source: Source::Words(words), budget, table: table as usize, output: printed(&outcome) }
    };
    specs.match_indices("\n    row (").map(row).collect()
}

/// What is printed for an outcome of the definition.
fn printed(outcome: &[&str]) -> String {
    let number = |n: &str| n.parse::<i64>().unwrap_or_else(|e| panic!("{outcome:?}: {e}"));
    let (value, units) = match *outcome {
        ["unfit" | "refused_on", ground] => return format!("refused {ground}\n"),
        ["accepted", "number", "pos", n, units] => (n.to_string(), units),
        ["accepted", "number", "negsuc", n, units] => ((-1 - number(n)).to_string(), units),
        ["accepted", "boolean", b, units] => (if b == "true" { "#t" } else { "#f" }.to_string(), units),
        ["accepted", "datum", at, units] => (format!("datum {at}"), units),
        ["accepted", what, units] => (what.to_string(), units),
        _ => panic!("{outcome:?}"),
    };
    format!("accepted {units}\n{value}\n")
}

/// The operations of the recipes here.
const OPERATIONS: &str = "(sum difference less equal other)";

/// Expressions with their value and units, or the ground, at a budget that is enough.
const EXPRESSIONS: &[(&str, &str)] = &[
    // a variable's value is the one where its lambda was evaluated
    ("((lambda (x) ((lambda (f) ((lambda (x) (f)) 2)) (lambda () x))) 1)", "accepted 12\n1\n"),
    ("((lambda (make) (sum ((make 1)) ((make 2)))) (lambda (x) (lambda () x)))", "accepted 17\n3\n"),
    ("((lambda (x) ((lambda (y) (difference x y)) (sum x 1))) 5)", "accepted 13\n-1\n"),
    // the innermost of two namesakes
    ("((lambda (x) ((lambda (x) x) 2)) 1)", "accepted 7\n2\n"),
    // head first, then operands from the left: whichever refuses first
    ("((1) (sum))", "refused 25\n"),
    ("((sum) (1))", "refused 26\n"),
    ("(sum (1) (sum))", "refused 25\n"),
    ("(sum (sum) (1))", "refused 26\n"),
    ("(1 (sum))", "refused 26\n"),
    ("((lambda () 1) (1))", "refused 25\n"),
    // heads that are no functions
    ("(#t 1 2)", "refused 25\n"),
    ("((quote sum) 1 2)", "refused 25\n"),
    ("((quote ()))", "refused 25\n"),
    // numbers of operands
    ("(less)", "refused 26\n"),
    ("(sum 1 2 3)", "refused 26\n"),
    ("(sum #t #t #t)", "refused 26\n"),
    ("((lambda () 1) 1)", "refused 26\n"),
    ("((lambda (a b c d e f g h) h) 1 2 3 4 5 6 7)", "refused 26\n"),
    ("((lambda (a b c d e f g h) h) 1 2 3 4 5 6 7 8)", "accepted 11\n8\n"),
    ("((lambda (a b c d e f g h) a) 1 2 3 4 5 6 7 8)", "accepted 11\n1\n"),
    // kinds
    ("(sum #t 1)", "refused 25\n"),
    ("(sum 1 #f)", "refused 25\n"),
    ("(less (quote a) 1)", "refused 25\n"),
    ("(equal 1 (quote (1)))", "refused 25\n"),
    ("(difference sum 1)", "refused 25\n"),
    ("(sum 1 (lambda () 1))", "refused 25\n"),
    // the ends of 32 bits
    ("(sum 2147483647 0)", "accepted 4\n2147483647\n"),
    ("(sum 2147483646 2)", "refused 25\n"),
    ("(sum -2147483648 -1)", "refused 25\n"),
    ("(sum -2147483648 2147483647)", "accepted 4\n-1\n"),
    ("(difference -2147483648 1)", "refused 25\n"),
    ("(difference 0 -2147483648)", "refused 25\n"),
    ("(difference -1 -2147483648)", "accepted 4\n2147483647\n"),
    ("(difference 2147483647 -1)", "refused 25\n"),
    // less and equal are signed
    ("(less -1 0)", "accepted 4\n#t\n"),
    ("(less 2147483647 -2147483648)", "accepted 4\n#f\n"),
    ("(less 1 1)", "accepted 4\n#f\n"),
    ("(equal -1 -1)", "accepted 4\n#t\n"),
    ("(equal 1 -1)", "accepted 4\n#f\n"),
    // only #f is false
    ("(if #f 1 2)", "accepted 3\n2\n"),
    ("(if (quote ()) 1 2)", "accepted 3\n1\n"),
    ("(if (lambda () #f) 1 2)", "accepted 3\n1\n"),
    ("(if sum 1 2)", "accepted 3\n1\n"),
    ("(if (less 2 1) 1 2)", "accepted 6\n2\n"),
    // a branch that is not taken, a body that is not begun
    ("(if #t 1 (1))", "accepted 3\n1\n"),
    ("(if #f other 0.80)", "refused 25\n"),
    ("(if #f other 2)", "accepted 3\n2\n"),
    ("(if #t 1 0.80)", "accepted 3\n1\n"),
    ("((lambda (f) 3) (lambda () (other 0.80)))", "accepted 4\n3\n"),
    // decimals and other operations in a quoted list are data
    ("(quote (0.80 other #t (1)))", "accepted 1\ndatum 0\n"),
    ("(sum other 1)", "refused 25\n"),
    ("(sum 0.8 1)", "refused 25\n"),
    // 25 of a node comes before what is behind it
    ("(other (sum))", "refused 25\n"),
    ("(sum 0.80 (sum))", "refused 25\n"),
    // quoted data by their places
    ("(if #t (quote a) (quote b))", "accepted 3\ndatum 3\n"),
    ("(if #f (quote a) (quote b))", "accepted 3\ndatum 5\n"),
    ("((lambda (x y z) y) (quote a) (quote (b (c 1.5))) (quote d))", "accepted 6\ndatum 12\n"),
    ("((lambda (x) (if x (quote (a b c)) (quote b))) #f)", "accepted 6\ndatum 17\n"),
    ("((lambda (x) ((lambda () (if x (quote (1)) x)))) 1)", "accepted 8\ndatum 14\n"),
    ("(((lambda (x) (lambda (y) x)) (quote (q))) 1)", "accepted 7\ndatum 14\n"),
    // and what is no datum
    ("((lambda (x) x) sum)", "accepted 4\noperation\n"),
    ("((lambda (x) (lambda () x)) 1)", "accepted 4\nclosure\n"),
    ("(((lambda (x) (lambda () x)) #t))", "accepted 6\n#t\n"),
];

/// Words that are not exactly one term.
const NO_TERMS: &[&str] = &[
    "",
    "2",
    "2 5 2",
    "2 5 2 5",
    "0 0",
    "10 0",
    "3 2",
    "9 1 0",
    "9 1 5",
    "5 1 0 0",
    "5 1 1 0",
    "5 4294967295",
    "8 4294967295 2 1",
    "8 0",
    "6 2 1 2 1",
    "7 1 0 2 5",
    "7 0 9 0 0 0 0 0 0 0 0 0 2 5",
    "7 0 1 1024 2 5",
    "7 0 1 0 0 1",
    "8 1 7 0 1 0 0 0 0 0",
    "8 1 7 0 1 0 0 0 7 0 0 2 1",
    "4 4294967295",
];

fn words_row(name: &str, words: &[u32], budget: u32, table: usize, output: &str) -> Row {
    Row { name: name.to_string(), source: Source::Words(words.to_vec()), budget, table, output: output.to_string() }
}

/// What recipes do not show: words that no expansion leaves, the order of the grounds, limits.
fn words() -> Vec<Row> {
    let row = |name, words: &[u32], budget, output| words_row(name, words, budget, table_words(budget), output);
    let mut rows: Vec<Row> = NO_TERMS.iter().map(|words| row(words, &numbers(words), 9, "refused 19\n")).collect();
    let long = [&[8, 40_000, 2, 1][..], &[2, 1].repeat(40_000)].concat();
    rows.extend([
        row("a datum behind a long branch", &[&[6, 3, 0], &long[..], &[4, 8]].concat(), 3, "accepted 3\ndatum 80007\n"),
        row("an operand behind a long branch", &[&[8, 2, 1, 0, 6, 3, 1, 2, 1], &long[..], &[2, 2]].concat(), 6, "accepted 6\n3\n"),
        row("operands of a long application", &long, 9, "refused 27\n"),
        row("an operation beyond the four at no budget", &[1, 4], 0, "refused 27\n"),
        row("a decimal at no budget", &[9, 80, 2], 0, "refused 27\n"),
        row("the last operation is one when it is not evaluated", &[6, 3, 0, 1, 255, 2, 1], 3, "accepted 3\n1\n"),
        row("names below 1,024 need no slot", &[7, 0, 1, 1_023, 0, 0], 1, "accepted 1\nclosure\n"),
        row("a quoted name needs none", &[4, 1_023], 1, "accepted 1\ndatum 0\n"),
        row("-1 as a word", &[2, u32::MAX], 1, "accepted 1\n-1\n"),
        row("a datum behind eight name words", &[7, 0, 8, 1, 2, 3, 4, 5, 6, 7, 8, 4, 8], 1, "accepted 1\nclosure\n"),
        row(
            "and applied",
            &[8, 8, 7, 0, 8, 1, 2, 3, 4, 5, 6, 7, 8, 4, 8, 2, 0, 2, 0, 2, 0, 2, 0, 2, 0, 2, 0, 2, 0, 2, 0],
            11,
            "accepted 11\ndatum 13\n",
        ),
        words_row("19 before 8", &[2], 65_536, 1_048_592, "refused 19\n"),
        words_row("19 before 9", &[2], 9, 159, "refused 19\n"),
        words_row("8 before 9", &[2, 5], 65_536, 0, "refused 8\n"),
        words_row("8 in a table for it", &[2, 5], 65_536, 1_048_592, "refused 8\n"),
        words_row("the largest word as budget", &[2, 5], u32::MAX, 1_048_576, "refused 8\n"),
        words_row("a word less than the largest budget takes", &[2, 5], 65_535, 1_048_575, "refused 9\n"),
        words_row("the largest budget", &[2, 5], 65_535, 1_048_576, "accepted 1\n5\n"),
        words_row("no words for budget 0", &[2, 5], 0, 0, "refused 9\n"),
        words_row("a word less for budget 0", &[2, 5], 0, 15, "refused 9\n"),
        words_row("longer tables", &[2, 5], 1, 100, "accepted 1\n5\n"),
        words_row("9 before 27", &[2, 5], 0, 15, "refused 9\n"),
    ]);
    rows
}

/// `1 + .. + n` by self application: its recipe.
pub fn sum_to(n: u32) -> String {
    let recur = "(lambda (f n) (if (less n 1) 0 (sum n (f f (difference n 1)))))";
    format!("(sum difference less equal) ((lambda (f n) (f f n)) {recur} {n})")
}

/// The deepest recursion of the largest budget, and one deeper.
fn deep() -> [Row; 2] {
    let row = |name: &str, n: u32, output: &str| Row {
        name: name.to_string(),
        source: Source::Recipe(sum_to(n)),
        budget: 65_535,
        table: table_words(65_535),
        output: output.to_string(),
    };
    [row("the deepest sum", 4_368, "accepted 65534\n9541896\n"), row("one deeper", 4_369, "refused 27\n")]
}

pub fn known() -> Vec<Row> {
    let row = |(expression, output): &(&str, &str)| Row {
        name: expression.to_string(),
        source: Source::Recipe(format!("{OPERATIONS} {expression}")),
        budget: 99,
        table: table_words(99),
        output: output.to_string(),
    };
    EXPRESSIONS.iter().map(row).chain(words()).chain(deep()).collect()
}

/// All rows.
pub fn all() -> Vec<Row> {
    request().into_iter().chain(proved()).chain(known()).collect()
}
