//! The examples, in C and in Rust, run on recipes and on a pair of texts; and the C header's numbers are the wrapper's.

use grebetallboy::{compare_stack, expand_stack, run_recipe_stack, run_stack, run_words, table_words, write_stack};
use grebetallboy::{ITEM_WORDS, NAME_BYTES, READ_STACK, TEXT_RATE};
use std::io::Write;
use std::path::{Path, PathBuf};
use std::process::{Command, Stdio};

const RECIPE: &str = "() (let-syntax ((or2 (syntax-rules () ((_ a b) ((lambda (t) (if t t b)) a))))) (lambda (t) (or2 #f t)))";
const TERM: &str = "1 steps, 21 items\n(lambda (v0.t) ((lambda (v1.t) (if v1.t v1.t v0.t)) #f))\n";

fn printed(program: &mut Command, text: &str) -> String {
    let mut child = program.stdin(Stdio::piped()).stdout(Stdio::piped()).spawn().expect("the example starts");
    child.stdin.take().unwrap().write_all(text.as_bytes()).unwrap();
    String::from_utf8(child.wait_with_output().unwrap().stdout).unwrap()
}

fn top() -> PathBuf {
    Path::new(env!("CARGO_MANIFEST_DIR")).join("../..")
}

/// Compiles a C program, and runs it with some arguments on a text, each time.
fn in_c(name: &str, source: &Path, runs: &[(&[PathBuf], &str)]) -> Vec<String> {
    let library = std::env::var_os("GREBETALLBOY_LIB").map_or(top().join("target/staticlib"), PathBuf::from).join("libgrebetallboy.a");
    let program = std::env::temp_dir().join(format!("grebetallboy-{name}-{}", std::process::id()));
    let mut cc = Command::new("cc");
    cc.args(["-std=c99", "-Wall", "-Wextra", "-Werror", "-I"]).arg(top().join("include")).args([source, &library]).arg("-o").arg(&program);
    assert!(cc.status().expect("a C compiler").success());
    let answers = runs.iter().map(|(arguments, text)| printed(Command::new(&program).args(*arguments), text)).collect();
    std::fs::remove_file(program).unwrap();
    answers
}

#[test]
fn c_example() {
    assert_eq!(in_c("expand", &top().join("examples/expand.c"), &[(&[], RECIPE), (&[], "() (f 1)")]), [TERM, "refused with 11\n"]);
}

/// A recipe of examples/ and a supplier's text: what is asked, and what is printed in C and in Rust.
fn pairs() -> [([PathBuf; 2], &'static str, String); 3] {
    let pair = |text: &str| ["private-name.scm", text].map(|file| top().join("examples").join(file));
    let outside = format!("refused with 5: {}\n", grebetallboy::meaning(5).unwrap());
    [
        (pair("private-name.yes"), "yes\n", "yes\n".to_string()),
        (pair("private-name.no"), "no\n", "no\n".to_string()),
        (pair("private-name.scm"), "refused with 5\n", outside),
    ]
}

#[test]
fn c_compare() {
    let pairs = pairs();
    let runs: Vec<(&[PathBuf], &str)> = pairs.iter().map(|(files, ..)| (&files[..], "")).collect();
    assert_eq!(in_c("compare", &top().join("examples/compare.c"), &runs), pairs.each_ref().map(|pair| pair.1));
}

/// Recipes to be run, with what is printed in C and in Rust: those of examples/, of each kind of value, and two that are refused.
fn runs() -> Vec<(String, String, String)> {
    let recipe = |name: &str| std::fs::read_to_string(top().join("examples").join(name)).unwrap();
    let known = [
        (&recipe("die-groups-80.scm")[..], "283 units\n2\n"),
        (&recipe("die-groups-90.scm"), "258 units\n3\n"),
        (&recipe("same-die.scm"), "195 units\n#t\n"),
        ("() -5", "1 units\n-5\n"),
        ("() (if #t #f 1)", "3 units\n#f\n"),
        ("() (if #f 1 (quote die))", "3 units\ndatum 5\n"),
        ("() (lambda () 1)", "1 units\nclosure\n"),
        ("(sum) sum", "1 units\noperation\n"),
    ];
    let accepted = known.map(|(recipe, printed)| (recipe.to_string(), printed.to_string(), printed.to_string()));
    let refused = [("() (1)", 25), ("() (f 1)", 11)].map(|(recipe, ground)| {
        let why = grebetallboy::meaning(ground).unwrap();
        (recipe.to_string(), format!("refused with {ground}\n"), format!("refused with {ground}: {why}\n"))
    });
    accepted.into_iter().chain(refused).collect()
}

#[test]
fn c_run() {
    let runs = runs();
    let texts: Vec<(&[PathBuf], &str)> = runs.iter().map(|(recipe, ..)| (&[][..], &recipe[..])).collect();
    assert_eq!(in_c("run", &top().join("examples/run.c"), &texts), runs.iter().map(|run| run.1.clone()).collect::<Vec<_>>());
}

#[test]
fn rust_run() {
    for (recipe, _, answer) in runs() {
        assert_eq!(printed(&mut example("run"), &recipe), answer, "{recipe}");
    }
}

const NUMBERS: &str = r#"
#include "grebetallboy.h"
#include <stdio.h>

int main(void)
{
    size_t numbers[] = { GREBETALLBOY_ITEM_WORDS, GREBETALLBOY_NAME_BYTES, GREBETALLBOY_WORK_WORDS(7, 5), GREBETALLBOY_CORE_WORDS(7, 5),
                         GREBETALLBOY_TEXT_BYTES(7), GREBETALLBOY_READ_STACK, GREBETALLBOY_EXPAND_STACK(7, 5), GREBETALLBOY_WRITE_STACK(7),
                         GREBETALLBOY_COMPARE_STACK(7), GREBETALLBOY_RUN_WORDS(7), GREBETALLBOY_RUN_STACK(7),
                         GREBETALLBOY_RUN_RECIPE_STACK(7, 5) };
    for (size_t i = 0; i < sizeof numbers / sizeof *numbers; i++)
        printf("%zu ", numbers[i]);
    return 0;
}
"#;

#[test]
fn c_numbers() {
    let source = std::env::temp_dir().join(format!("grebetallboy-numbers-{}.c", std::process::id()));
    std::fs::write(&source, NUMBERS).unwrap();
    let told = in_c("numbers", &source, &[(&[], "")]).remove(0);
    std::fs::remove_file(source).unwrap();
    let (work, core) = table_words(7, 5);
    let own = [ITEM_WORDS, NAME_BYTES, work, core, 7 * TEXT_RATE, READ_STACK, expand_stack(7, 5), write_stack(7), compare_stack(7)];
    let running = [run_words(7), run_stack(7), run_recipe_stack(7, 5)];
    assert_eq!(told.split_whitespace().map(|n| n.parse().unwrap()).collect::<Vec<usize>>(), [&own[..], &running].concat());
}

/// The rate by which the proved writer goes.
#[test]
fn text_rate() {
    let writer = std::fs::read_to_string(top().join("crates/writer/src/lib.rt")).unwrap();
    assert!(writer.contains(&format!("const TEXT_RATE: usize = {TEXT_RATE};")));
}

fn example(name: &str) -> Command {
    let mut cargo = Command::new(env!("CARGO"));
    cargo.current_dir(env!("CARGO_MANIFEST_DIR")).args(["run", "--offline", "--quiet", "--example", name]);
    cargo
}

#[test]
fn rust_example() {
    assert_eq!(printed(&mut example("expand"), RECIPE), TERM);
    assert_eq!(printed(&mut example("expand"), "() (f 1)"), "refused with 11: a name that is looked up means nothing\n");
}

#[test]
fn rust_compare() {
    for (files, _, answer) in pairs() {
        assert_eq!(printed(example("compare").arg("--").args(files), ""), answer);
    }
}
