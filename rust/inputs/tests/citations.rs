//! docs/CLAIMS.md cites what there is: each path exists, and each name is declared in the file or folder that stands with it, else in a
//! crate that its section has cited. Other documents' paths exist too.

use inputs::top;
use std::collections::HashMap;
use std::path::{Path, PathBuf};

/// Spans that cite nothing.
const PLAIN: &[&str] = &["rt check", "requires", "...", "_"];

fn document(name: &str) -> String {
    std::fs::read_to_string(top().join(name)).unwrap()
}

/// A line cut at its backticks: text, span, text, span, .., text.
fn pieces(line: &str) -> Vec<&str> {
    line.split('`').collect()
}

fn is_path(span: &str) -> bool {
    !span.contains([' ', ':', '<']) && (span.contains('/') || [".antt", ".rt", ".rs", ".md", ".h"].iter().any(|end| span.ends_with(end)))
}

/// The files or folders that a path means: of the repository, of a crate, or beside the path before it; `*` is any end of a name.
fn found(span: &str, before: Option<&Path>) -> Vec<PathBuf> {
    let beside = before.and_then(Path::parent).map(|folder| folder.join(span));
    let places = [Some(top().join(span)), Some(top().join("crates").join(span)), beside];
    let matching = |place: &PathBuf| {
        let Some((start, end)) = place.to_str().unwrap().split_once('*') else { return vec![place.clone()] };
        let folder = Path::new(start).parent().unwrap();
        let fits = |path: &PathBuf| path.to_str().is_some_and(|p| p.starts_with(start) && p.ends_with(end));
        files(folder).into_iter().filter(fits).collect()
    };
    places.iter().flatten().flat_map(matching).filter(|path| path.exists() || code_of(path).is_some_and(|code| code.exists())).collect()
}

/// The code whose proofs a folder is for: src for proofs, src/M.rt for proofs/M. A proof that is found by search has no file there.
fn code_of(path: &Path) -> Option<PathBuf> {
    let folder = crate_of(path)?;
    let module = path.strip_prefix(folder.join("proofs")).ok()?;
    let code = folder.join("src").join(module);
    Some(if module.as_os_str().is_empty() { code } else { code.with_extension("rt") })
}

/// The file, or all files of a folder.
fn files(path: &Path) -> Vec<PathBuf> {
    let Ok(entries) = path.read_dir() else { return vec![path.to_path_buf()] };
    entries.flat_map(|entry| files(&entry.unwrap().path())).collect()
}

/// Whether a line declares a name: in specs before the line's first colon, in code behind fn, struct or enum.
fn declares(line: &str, name: &str, code: bool) -> bool {
    let line = line.trim_start();
    if code {
        let mut words = line.split(|c: char| !c.is_alphanumeric() && c != '_').skip_while(|w| !["fn", "struct", "enum"].contains(w));
        return words.nth(1) == Some(name);
    }
    let fits = |word: &str| word == name || name.strip_prefix("..").is_some_and(|end| word.ends_with(end));
    !line.starts_with("--") && line.contains(':') && line.split(':').next().unwrap().split_whitespace().any(fits)
}

/// Whether a name is declared in a file or folder: `module::name` in the file or crate of that name; in a folder of proofs, a function that
/// is proved there.
fn is_declared(name: &str, path: &Path) -> bool {
    let (module, name) = name.rsplit_once("::").unwrap_or(("", name));
    let parts = |file: &Path| file.with_extension("").iter().map(|part| part.to_string_lossy().to_string()).collect::<Vec<_>>();
    let files = files(path).into_iter().chain(code_of(path).iter().flat_map(|code| files(code))).collect::<Vec<_>>();
    files.iter().filter(|file| module.is_empty() || parts(file).iter().any(|part| part == module)).any(|file| {
        let lines = || std::fs::read_to_string(file).unwrap();
        match file.extension().and_then(|end| end.to_str()) {
            Some("antt") => lines().lines().any(|line| declares(line, name, false)),
            Some("rt") => lines().lines().any(|line| declares(line, name, true)),
            _ => false,
        }
    })
}

/// The crate that a path is in.
fn crate_of(path: &Path) -> Option<PathBuf> {
    let within = path.strip_prefix(top().join("crates")).ok()?;
    Some(top().join("crates").join(within.components().next()?))
}

/// The names of a cell that stand with a path, `name` in `path` or `path` (`name`), with that path; others with none.
fn cited(cell: &str) -> Vec<(&str, Option<&str>)> {
    let pieces = pieces(cell);
    let (mut out, mut waiting, mut open): (Vec<(&str, Option<&str>)>, Vec<(&str, Option<&str>)>, Option<&str>) = Default::default();
    for (i, span) in pieces.iter().enumerate().skip(1).step_by(2) {
        let text = pieces[i - 1];
        if text.contains(')') {
            open = None;
            out.append(&mut waiting);
        }
        if is_path(span) {
            let held = text.ends_with(" in ").then_some(*span);
            out.extend(waiting.drain(..).map(|(name, other)| (name, held.or(other))));
            out.push((span, None));
            open = pieces.get(i + 1).filter(|behind| **behind == " (").map(|_| *span);
        } else if !PLAIN.contains(span) {
            waiting.push((span, open));
        }
    }
    out.extend(waiting);
    out
}

#[test]
fn claims() {
    let text = document("docs/CLAIMS.md");
    let (mut crates, mut before, mut code): (Vec<PathBuf>, Option<PathBuf>, bool) = (Vec::new(), None, false);
    let (mut names, mut paths, mut wrong) = (0, 0, Vec::new());
    for line in text.lines() {
        code ^= line.starts_with("```");
        if line.starts_with('#') {
            crates.clear();
        }
        if code || line.starts_with("```") {
            continue;
        }
        let cells: Vec<Vec<(&str, Option<&str>)>> = line.split(" | ").map(cited).collect();
        let mut places: HashMap<&str, Vec<PathBuf>> = HashMap::new();
        for (span, _) in cells.iter().flatten().filter(|(span, _)| is_path(span)) {
            let found = found(span, before.as_deref());
            paths += 1;
            if found.is_empty() {
                wrong.push(format!("no {span}"));
            }
            crates.extend(found.iter().filter_map(|path| crate_of(path)));
            before = found.first().cloned().or(before);
            places.insert(span, found);
        }
        for (name, place) in cells.iter().flatten().filter(|(span, _)| !is_path(span)) {
            names += 1;
            let within = place.map_or(&crates, |place| &places[place]);
            if !within.iter().any(|place| is_declared(name, place)) {
                wrong.push(format!("{name} is not declared in {}", place.unwrap_or("a crate of its section")));
            }
        }
    }
    assert!(wrong.is_empty(), "{wrong:#?}");
    assert!(names > 60 && paths > 60, "{names} names, {paths} paths");
}

#[test]
fn paths_of_other_documents() {
    let mut wrong = Vec::new();
    for name in ["README.md", "docs/ARCHITECTURE.md", "docs/DECISIONS.md", "docs/BENCHMARKS.md"] {
        for span in document(name).lines().flat_map(|line| pieces(line).into_iter().skip(1).step_by(2).map(str::to_string).collect::<Vec<_>>()) {
            let cites = span.contains('/') && is_path(&span) && Path::new(&span).extension().is_some() && !span.contains("NAME");
            if cites && !span.starts_with("target/") && !span.starts_with("specs/") && found(&span, None).is_empty() {
                wrong.push(format!("{name}: no {span}"));
            }
        }
    }
    assert!(wrong.is_empty(), "{wrong:#?}");
}
