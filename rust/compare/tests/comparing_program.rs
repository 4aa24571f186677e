//! The comparing program itself, on files: pairs with known outputs, those of examples/, and what is no pair of texts. It stands where
//! `rt run` in its crate's folder puts it, and `rt ci`.

use inputs::{pairs, top};
use std::path::{Path, PathBuf};
use std::process::Command;

/// What it prints on standard output and on standard error.
fn run(arguments: &[&Path]) -> (String, String) {
    let program = top().join("crates/compare_expansions/out/compare_expansions");
    let output = Command::new(&program).args(arguments).output().unwrap_or_else(|e| panic!("{}: {e}", program.display()));
    assert!(output.status.success(), "{arguments:?}");
    (String::from_utf8(output.stdout).unwrap(), String::from_utf8(output.stderr).unwrap())
}

/// A file with some bytes, and its name.
fn file(name: &str, bytes: &[u8]) -> PathBuf {
    let path = std::env::temp_dir().join(format!("grebetallboy-{name}-{}", std::process::id()));
    std::fs::write(&path, bytes).unwrap();
    path
}

fn printed(recipe: &[u8], text: &[u8]) -> String {
    let files = [file("recipe", recipe), file("text", text)];
    let (out, error) = run(&[&files[0], &files[1]]);
    files.iter().for_each(|file| std::fs::remove_file(file).unwrap());
    assert_eq!(error, "");
    out
}

/// A recipe that begins with eighty pasted macros, in five forms of sixteen, each with a private t; the first and the last are used.
fn eighty_macros() -> String {
    let rules = |i: usize| format!("(m{i} (syntax-rules () ((_ a b) ((lambda (t) (if t t b)) a))))");
    let form = |k: usize| format!("(let-syntax ({}) ", (16 * k..16 * (k + 1)).map(rules).collect::<String>());
    format!("() {}(m0 0 (m79 1 2)){}", (0..5).map(form).collect::<String>(), ")".repeat(5))
}

#[test]
fn program() {
    for (recipe, text, output) in pairs::printed() {
        assert_eq!(printed(recipe.as_bytes(), text.as_bytes()), output, "{recipe}\n{text}");
    }
    for (recipe, text, answer) in pairs::examples() {
        assert_eq!(printed(&recipe, &text), pairs::line(&answer), "{}", String::from_utf8_lossy(&text));
    }
    assert_eq!(printed(eighty_macros().as_bytes(), b"((lambda (t) (if t t ((lambda (t) (if t t 2)) 1))) 0)"), "yes\n");
    let spaces = |n: usize| [&b" ".repeat(n)[..], b"5"].concat();
    assert_eq!(printed(b"() 5", &spaces(65_534)), "yes\n");
    assert_eq!(printed(b"() 5", &spaces(65_535)), "refused 2 text\n");
    assert_eq!(printed(b"() 5", &spaces(200_000)), "refused 2 text\n");
    assert_eq!(printed(&[&spaces(65_535)[..], b" 5"].concat(), b"5"), "refused 2 recipe\n");
    let recipe = file("recipe", b"() 5");
    let missing = std::env::temp_dir().join("grebetallboy-no-such-file");
    let folder = std::env::temp_dir();
    let usage = "usage: compare_expansions RECIPE TEXT\n";
    for arguments in [&[][..], &[&recipe], &[&recipe, &recipe, &recipe]] {
        assert_eq!(run(&arguments.iter().map(|path: &&PathBuf| path.as_path()).collect::<Vec<_>>()), (String::new(), usage.to_string()));
    }
    for arguments in [[&missing, &recipe], [&recipe, &missing], [&folder, &recipe], [&recipe, &folder]] {
        let (out, error) = run(&arguments.map(PathBuf::as_path));
        let name = arguments.iter().find(|path| **path != &recipe).unwrap();
        assert!(out.is_empty() && error.starts_with(&format!("{}: ", name.display())), "{arguments:?}: {out}{error}");
    }
    std::fs::remove_file(recipe).unwrap();
}
