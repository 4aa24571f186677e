//! The numbers of README.md: each smallest input that it gives gets its number, and the wrapper says of each what it means.

use compare::filing::{file, run};
use compare::refusal;
use grebetallboy::{compare, expand, meaning, read, write, Error, Refused};
use inputs::top;

fn ground<T>(answer: Result<T, Error>) -> u32 {
    answer.err().map_or(0, |error| refusal(error).ground)
}

/// The cells of each row: the number, what it means, and an input.
fn rows() -> Vec<(u32, String, String)> {
    let readme = std::fs::read_to_string(top().join("README.md")).unwrap();
    let row = |line: &str| {
        let mut cells = line.strip_prefix("| ")?.strip_suffix(" |")?.split(" | ");
        Some((cells.next()?.parse().ok()?, cells.next()?.to_string(), cells.next()?.to_string()))
    };
    readme.lines().filter_map(row).collect()
}

#[test]
fn meanings() {
    let rows = rows();
    assert_eq!(rows.iter().map(|row| row.0).collect::<Vec<_>>(), (1..=22).chain(25..=27).collect::<Vec<_>>());
    for (number, said, _) in rows {
        assert_eq!(meaning(number), Some(&said[..]));
    }
    assert_eq!([0, 23, 24, 28].map(meaning), [None; 4]);
    let refused = Refused { ground: 14, steps: 0, sum: 0 };
    assert_eq!(refused.to_string(), "refused with 14: two names bound by one form are the same");
    assert_eq!(Error::from(refused).to_string(), refused.to_string());
}

#[test]
fn recipe_texts() {
    let recipe = |(number, _, input): (u32, String, String)| {
        let recipe = input.strip_prefix('`')?.strip_suffix('`')?;
        (!recipe.contains('`')).then(|| (number, recipe.to_string()))
    };
    let rows: Vec<(u32, String)> = rows().into_iter().filter_map(recipe).collect();
    assert_eq!(rows.iter().map(|(number, _)| *number).collect::<Vec<_>>(), [3, 4, 5, 7, 10, 11, 12, 13, 14, 15, 16, 17, 18]);
    for (number, recipe) in rows {
        assert!(file(recipe.as_bytes(), 512).starts_with(&format!("refused {number} ")), "{recipe}");
    }
    assert_eq!(file(&[b' '; 65_536], 512), "refused 2 0 0\n");
    assert_eq!(file(format!("() {}", "(".repeat(65)).as_bytes(), 512), "refused 6 0 0\n");
    assert_eq!(file(format!("() ({})", " 1".repeat(83)).as_bytes(), 512), "refused 9 0 0\n");
}

/// Those that running gets: a recipe, and the word `run` behind it.
#[test]
fn run_recipes() {
    let recipe = |(number, _, input): (u32, String, String)| Some((number, input.strip_prefix('`')?.strip_suffix("`, run")?.to_string()));
    let rows: Vec<(u32, String)> = rows().into_iter().filter_map(recipe).collect();
    assert_eq!(rows.iter().map(|(number, _)| *number).collect::<Vec<_>>(), [25, 26, 27]);
    for (number, recipe) in rows {
        assert_eq!(run(recipe.as_bytes()), format!("refused {number}\n"), "{recipe}");
    }
}

#[test]
fn calls() {
    assert_eq!(ground(read(b"() 1", &mut [0; 12_287], &mut [0; 65_536])), 1);
    assert_eq!(ground(read(b"() 1", &mut [0; 12_288], &mut [0; 65_535])), 1);
    let items = [4, 1, 2, 0, 0, 0, 4, 3, 4, 1, 5, 0, 0, 0, 0];
    assert_eq!(ground(expand(&items, 8_193, &mut [], &mut [])), 8);
    assert_eq!(ground(expand(&items, 0, &mut [0; 119], &mut [0; 15])), 9);
    assert_eq!(ground(expand(&items, 0, &mut [0; 120], &mut [0; 14])), 9);
    assert_eq!(ground(write(&[8, 0], 256, &[], &mut [0; 10])), 19);
    assert_eq!(ground(write(&[2, 0], 256, &[], &mut [])), 20);
    assert_eq!(ground(grebetallboy::run(&[8, 0], 0, &mut [0; 16])), 19);
    assert_eq!(ground(grebetallboy::run(&[2, 5], 65_536, &mut [])), 8);
    assert_eq!(ground(grebetallboy::run(&[2, 5], 0, &mut [0; 15])), 9);
    assert_eq!(ground(grebetallboy::run(&[2, 5], 0, &mut [0; 16])), 27);
    for (text, number) in [("()", 21), ("x", 22)] {
        assert_eq!(ground(compare(&items, &[], &[2, 5], text.as_bytes(), &mut [0; 12_288], &mut [0; 65_536])), number);
    }
}
