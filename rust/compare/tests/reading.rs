//! Reading beside the second expander's: the answer and every word and byte of both tables, on recipes and damaged texts.

use compare::{dirty, dirty_bytes, refusal};
use inputs::{setting, Random, Recipes};
use reference::text;

/// Ground, items and names of a call.
fn read(source: &[u8], items: &mut [u32], names: &mut [u8]) -> (u32, u32, u32) {
    match grebetallboy::read(source, items, names) {
        Ok(read) => (0, read.items as u32, read.names as u32),
        Err(error) => (refusal(error).ground, 0, 0),
    }
}

/// A text a little below or past a limit of reading: elements, names, nesting, bytes.
fn large(random: &mut Random) -> String {
    let n = random.below(10);
    let letter = |random: &mut Random| b"abcxyz-+*"[random.below(9)] as char;
    match random.below(4) {
        0 => format!("() ({})", " 1".repeat(2_040 + n)),
        1 => format!("() ({})", (0..1_010 + n).map(|i| format!(" {}{i}{}", letter(random), letter(random))).collect::<String>()),
        2 => format!("() {}{}", "(".repeat(60 + n), ")".repeat(60 + n)),
        _ => format!("() {}{}7", "0".repeat(65_527 + n), random.pick(&["", ".", ".00"])),
    }
}

/// Numbers to put into a text: the last that are read and the first that are not, and such as are no numbers.
const NUMBERS: &[&str] = &[
    " -2147483648 ", "99999999999", " -214748.3648 ", " -214748.3649 ", " 21474836.47 ", " 21474836.48 ", " 99999999999.1 ",
    " 99999999999.", " 1.", "0.12345", "1.2.3", "1.-2", " .5 ", "-0.0", " 00.80 ", ".1", ".12",
];

/// A recipe or a large text, often damaged: bytes changed, dropped, doubled or cut off.
fn damaged(random: &mut Random) -> Vec<u8> {
    let mut bytes = if random.chance(5) { large(random) } else { Recipes::recipe(random) }.into_bytes();
    for _ in 0..random.below(4) {
        let at = random.below(bytes.len().max(1));
        match random.below(6) {
            0 => bytes.truncate(at),
            1 if at < bytes.len() => drop(bytes.remove(at)),
            2 if at < bytes.len() => bytes[at] = random.below(256) as u8,
            3 | 4 => bytes.splice(at..at, random.pick(NUMBERS).bytes()).for_each(drop),
            _ => bytes.splice(at..at, [b"()#tf.-1 \t"[random.below(10)]]).for_each(drop),
        }
    }
    bytes
}

#[test]
fn reading() {
    let mut random = Random::new(setting("SEED", 1));
    let mut grounds = [0u64; 7];
    for _ in 0..setting("INPUTS", 4_000) {
        let source = damaged(&mut random);
        let lengths = [12_287, 12_288, 12_288, 12_300][random.below(4)];
        let bytes = [65_535, 65_536, 65_536, 65_600][random.below(4)];
        let (mut items, mut names) = (dirty(&mut random, lengths), dirty_bytes(&mut random, bytes));
        let (mut items2, mut names2) = (items.clone(), names.clone());
        let answer = read(&source, &mut items, &mut names);
        assert_eq!(answer, text::read_call(&source, &mut items2, &mut names2), "{}", String::from_utf8_lossy(&source));
        assert!(items == items2 && names == names2, "{}", String::from_utf8_lossy(&source));
        grounds[answer.0 as usize] += 1;
    }
    println!("grounds of reading: {grounds:?}");
    assert!(grounds.iter().all(|&count| count > 0), "{grounds:?}");
}
