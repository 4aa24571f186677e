//! The proved services on texts, tables and words with known answers: every number, and every word and byte of what they are lent, which
//! the second expander says.

use compare::deep::many_variables;
use compare::refusal;
use grebetallboy::{expand, read, write, Error};
use inputs::{in_stack, known};
use reference::{core, expand::expand_call, text};

/// Ground of an answer, 0 where it is accepted, and its number of some kind.
fn told<T: Default>(answer: Result<T, Error>) -> (u32, T) {
    answer.map_or_else(|error| (refusal(error).ground, T::default()), |told| (0, told))
}

/// One text after another into the same two tables.
#[test]
fn readings() {
    let (mut items, mut names) = (vec![9; 12_290], vec![9; 65_540]);
    let (mut items2, mut names2) = (items.clone(), names.clone());
    for (source, answer) in known::readings() {
        let told = told(read(&source, &mut items, &mut names).map(|read| (read.items as u32, read.names as u32)));
        assert_eq!((told.0, told.1 .0, told.1 .1), answer, "{}", String::from_utf8_lossy(&source));
        text::read_call(&source, &mut items2, &mut names2);
        assert!(items == items2 && names == names2, "{}", String::from_utf8_lossy(&source));
    }
    for (words, bytes, ground) in [(12_287, 65_540, 1), (12_290, 65_535, 1), (12_288, 65_536, 0)] {
        assert_eq!(told(read(b"1 2", &mut items[..words], &mut names[..bytes]).map(|_| ())).0, ground);
        text::read_call(b"1 2", &mut items2[..words], &mut names2[..bytes]);
        assert!(items == items2 && names == names2);
    }
}

#[test]
fn layouts() {
    in_stack(256 << 20, || {
        for row in known::layouts() {
            let (mut work, mut core) = (vec![3; row.work], vec![4; row.core]);
            let (mut work2, mut core2) = (work.clone(), core.clone());
            let (ground, length) = told(expand(&row.items, row.fuel, &mut work, &mut core).map(|run| run.length));
            assert_eq!(ground, row.ground, "{}", row.name);
            let second = expand_call(&row.items, row.fuel, &mut work2, &mut core2);
            assert_eq!(second, (ground, 0, 0, length as u32), "{}", row.name);
            assert!(work == work2 && core == core2, "{}", row.name);
        }
    });
}

#[test]
fn words() {
    let names = known::names();
    for (words, operations, known) in known::WORDS {
        let mut out = [b'.'; 64];
        let (ground, length) = told(write(words, *operations, &names, &mut out));
        assert_eq!(ground, if known.is_some() { 0 } else { 19 }, "{words:?}");
        assert_eq!(&out[..length], known.unwrap_or("").as_bytes(), "{words:?}");
        assert!(out[length..].iter().all(|byte| *byte == b'.'), "{words:?}");
    }
    for (words, given, known) in known::NAMED {
        let mut out = [b'.'; 64];
        let (ground, length) = told(write(words, 256, &known::table_of(given), &mut out));
        assert_eq!((ground, &out[..length]), (if known.is_some() { 0 } else { 19 }, known.unwrap_or("").as_bytes()), "{words:?}");
    }
    for words in [&[4, 1_023][..], &[7, 0, 1, 1_023, 2, 5]] {
        assert_eq!(told(write(words, 256, &names[..65_535], &mut [0; 64])).0, 19);
    }
    let mut out = [7; 19];
    assert_eq!(told(write(&[7, 0, 1, 8, 0, 0], 0, &names, &mut out)).0, 20);
    assert_eq!(out, [7; 19]);
    assert_eq!(core::text(&[7, 0, 1, 8, 0, 0], 0, &names).map(|text| text.len()), Some(20));
}

/// A term that expansion gives, with its formals' names.
#[test]
fn formals() {
    let (items, words) = known::two_formals();
    let (mut work, mut core) = ([3; 360], [3; 45]);
    assert_eq!(told(expand(&items, 0, &mut work, &mut core).map(|run| run.length)), (0, 7));
    assert_eq!((&core[..7], &core[7..], &work[..]), (&words[..], &[0; 38][..], &[0; 360][..]));
}

/// Terms with so many variables, up to the most that expansion gives and past it, each of which is used far from its lambda.
#[test]
fn variables() {
    let names = known::longest_names();
    for count in [8, 64, 512, 4_096, 6_136, 6_144, 6_152, 8_000] {
        let words = many_variables(count);
        let known = in_stack(256 << 20, || core::text(&words, 256, &names)).expect("a term");
        let mut out = vec![7; known.len() + 1];
        assert_eq!(told(write(&words, 256, &names, &mut out)), (0, known.len()), "{count}");
        assert!(out[..known.len()] == known && out[known.len()] == 7, "{count}");
        assert_eq!(told(write(&words, 256, &names, &mut out[1..known.len()])).0, 20, "{count}");
    }
}

/// The deepest terms that fit in the longest core table, applications and lambdas without operands and variables.
#[test]
fn deep_terms() {
    for (opening, levels, bytes) in [(&[8, 0][..], 18_431, 36_863), (&[7, 0, 0], 12_287, 147_445)] {
        let words = [&opening.repeat(levels)[..], &[2, 5]].concat();
        assert_eq!(told(write(&words, 1, &[], &mut vec![0; 262_144])), (0, bytes));
    }
}
