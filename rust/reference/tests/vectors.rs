//! The second expander on texts, tables, words and recipes with known answers.

use inputs::{in_stack, known, rows};
use reference::{core, expand, file, text};

#[test]
fn readings() {
    for (source, answer) in known::readings() {
        let (mut items, mut names) = (vec![9; 12_300], vec![9; 65_540]);
        assert_eq!(text::read_call(&source, &mut items, &mut names), answer, "{}", String::from_utf8_lossy(&source));
    }
}

#[test]
fn layouts() {
    for row in known::layouts() {
        let run = in_stack(256 << 20, || expand::run(&row.items, row.fuel, row.work, row.core));
        assert_eq!(run.outcome.err().unwrap_or(0), row.ground, "{}", row.name);
    }
    assert_eq!(expand::run(&known::layouts()[0].items, 0, 120, 15).core, [2, 5]);
    assert_eq!(expand::run(&known::decimal_operand(), 0, 264, 33).core, [8, 1, 1, 0, 9, 80, 2]);
    let (items, words) = known::two_formals();
    let reading = text::read(b"() (lambda (t u) u)").unwrap();
    assert_eq!(items, reading.words());
    assert_eq!(expand::expand_call(&items, 0, &mut [3; 360], &mut [3; 45]), (0, 0, 0, 7));
    assert_eq!(expand::run(&items, 0, 360, 45).core, words);
}

#[test]
fn words() {
    let names = known::names();
    for (words, operations, known) in known::WORDS {
        let text = core::text(words, *operations, &names).map(|text| String::from_utf8(text).unwrap());
        assert_eq!(text.as_deref(), *known, "{words:?}");
    }
    for (words, given, known) in known::NAMED {
        let text = core::text(words, 256, &known::table_of(given)).map(|text| String::from_utf8(text).unwrap());
        assert_eq!(text.as_deref(), *known, "{words:?}");
    }
    for words in [&[4, 1_023][..], &[7, 0, 1, 1_023, 2, 5]] {
        assert_eq!(core::text(words, 256, &names[..65_535]), None);
    }
    let mut out = [7; 19];
    assert_eq!(core::write_call(&[7, 0, 1, 8, 0, 0], 0, &names, &mut out), (20, 0));
    assert_eq!(out, [7; 19]);
}

#[test]
fn requests() {
    let rows = rows::requests();
    assert!(rows.len() > 6, "{} rows", rows.len());
    for (name, recipe, output) in rows {
        assert_eq!(file(recipe.as_bytes(), 512), output, "{name}: {recipe}");
    }
}

/// Rows of the specs that no reader finds would be tried nowhere: how many each file has.
#[test]
fn rows_of_the_specs() {
    let expansions: Vec<(String, usize)> = rows::expansion_files().into_iter().map(|(file, rows)| (file, rows.len())).collect();
    let outputs: Vec<(String, usize)> = rows::output_files().into_iter().map(|(file, rows)| (file, rows.len())).collect();
    let named = |rows: &[(&str, usize)]| rows.iter().map(|(file, n)| (format!("{file}.antt"), *n)).collect::<Vec<_>>();
    let more = [("RowsFuel", 18), ("RowsMore", 34), ("RowsShapes", 65), ("RowsTables", 0)];
    assert_eq!(expansions, named(&[&[("Rows", 62), ("RowsDepths", 15), ("RowsEllipses", 55), ("RowsEvents", 0)][..], &more].concat()));
    assert_eq!(outputs, named(&[("Rows", 18), ("RowsDecimals", 9)]));
}
