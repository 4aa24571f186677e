//! Texts, item tables and words with known answers, one by one.

use crate::items::Table;

/// Texts, and ground, items and names of reading each.
pub fn readings() -> Vec<(Vec<u8>, (u32, u32, u32))> {
    let refused = |ground| (ground, 0, 0);
    let (long, longer) = ("a".repeat(63), "a".repeat(64));
    let nested = format!("(){}{}", "(".repeat(64), ")".repeat(64));
    let wide = |n: usize| format!("() ({})", " 1".repeat(n));
    let named = |n: usize| (0..n).map(|i| format!("n{i} ")).collect::<String>();
    let rows: &[(&str, (u32, u32, u32))] = &[
        ("#t#f", (0, 5, 8)),
        ("#tx", (0, 5, 9)),
        ("() #tx", refused(5)),
        ("(a)(b)", (0, 9, 10)),
        ("1(2)", (0, 7, 8)),
        ("() 1x", refused(3)),
        ("() -", (0, 5, 9)),
        ("() +5", (0, 5, 9)),
        ("() .", refused(3)),
        ("() ..", (0, 5, 9)),
        ("() ...", (0, 5, 8)),
        ("() 1.5", (0, 5, 8)),
        ("() .5", (0, 5, 9)),
        ("() -.5", (0, 5, 9)),
        ("() +1.5", (0, 5, 9)),
        ("() -0.0", (0, 5, 8)),
        ("() 1.", refused(3)),
        ("() -1.", refused(3)),
        ("() 1.2345", (0, 5, 8)),
        ("() 1.23456", refused(3)),
        ("() 1.2.3", refused(3)),
        ("() 1..2", refused(3)),
        ("() 1.-2", refused(3)),
        ("() 1.5x", refused(3)),
        ("() 1x.5", refused(3)),
        ("() 214748.3647", (0, 5, 8)),
        ("() 214748.3648", refused(4)),
        ("() 21474836.48", refused(4)),
        ("() -214748.3648", (0, 5, 8)),
        ("() -214748.3649", refused(4)),
        ("() -214748364.8", (0, 5, 8)),
        ("() 2147483647.0", refused(4)),
        ("() 99999999999.", refused(3)),
        ("() 99999999999.12345", refused(3)),
        ("() 99999999999.1x", refused(3)),
        ("() () 99999999999.1", refused(4)),
        ("() () 1.", refused(3)),
        ("() 1.5#t", refused(5)),
        ("0.5 -0.5", (0, 5, 8)),
        ("() 2147483647", (0, 5, 8)),
        ("() 2147483648", refused(4)),
        ("() -2147483648", (0, 5, 8)),
        ("() -2147483649", refused(4)),
        ("() 99999999999x", refused(3)),
        ("() () a$", refused(5)),
        ("() () 99999999999", refused(4)),
        ("() ())", refused(5)),
        (")", refused(5)),
        ("", refused(5)),
        ("()", refused(5)),
        ("() (", refused(5)),
        ("() A", refused(3)),
        (&format!("() {long}"), (0, 5, 9)),
        (&format!("() {longer}"), refused(3)),
        (&nested, (0, 131, 8)),
        (&format!("(){}", "(".repeat(65)), refused(6)),
        ("() () (", refused(5)),
        ("() #", refused(3)),
        ("() -0", (0, 5, 8)),
        ("1 2", (0, 5, 8)),
        ("()\t\r(quote if lambda let-syntax letrec-syntax syntax-rules ... _ t t x)", (0, 27, 10)),
        (&format!("() {}7", "0".repeat(70)), (0, 5, 8)),
        (&format!("() {}.7", "0".repeat(65_530)), (0, 5, 8)),
        (&format!("() {}7", "0".repeat(65_531)), (0, 5, 8)),
        (&format!("() {}7", "0".repeat(65_532)), refused(2)),
        ("() -1", (0, 5, 8)),
        ("() -x", (0, 5, 9)),
        ("() --1", (0, 5, 9)),
        ("() 1-", refused(3)),
        ("() -5-", refused(3)),
        ("() \u{b}", refused(3)),
        ("a$", refused(3)),
        ("() a#t", refused(5)),
        ("() #q", refused(3)),
        (&wide(2_045), (0, 4_095, 8)),
        (&wide(2_046), refused(6)),
        (&format!("() () {longer}"), refused(3)),
        (&format!("() ({})", named(1_016)), (0, 2_037, 1_024)),
        (&format!("() ({})", named(1_017)), refused(6)),
        (&format!("() ({} n7 if n1015)", named(1_016)), (0, 2_043, 1_024)),
        ("() (let-syntax ((or2 (syntax-rules () ((_ a b) ((lambda (t) (if t t b)) a))))) (lambda (t) (or2 #f t)))", (0, 67, 12)),
    ];
    let texts = rows.iter().map(|(text, answer)| (text.as_bytes().to_vec(), *answer));
    texts.chain([(b"() \x80".to_vec(), refused(3)), (vec![b' '; 65_535], refused(5)), (vec![b' '; 65_536], refused(2))]).collect()
}

/// An item table with fuel and lent tables of so many words, and the ground of expanding it, 0 where it is accepted.
pub struct Layout {
    pub name: &'static str,
    pub items: Vec<u32>,
    pub fuel: u32,
    pub work: usize,
    pub core: usize,
    pub ground: u32,
}

/// The words of a table, a byte each: a digit its value, x 1,023, y 1,024.
fn spelt(table: &str) -> Vec<u32> {
    let word = |c: char| match c {
        'x' => 1_023,
        'y' => 1_024,
        c => c.to_digit(10).unwrap(),
    };
    table.chars().filter(|c| *c != ' ').map(word).collect()
}

/// Tables of a few items, each spelt, with no fuel and ample tables.
const SMALL: &[(&str, &str, u32)] = &[
    ("two elements numbered otherwise than reading does", "421 443 000 000 150", 0),
    ("two elements", "412 000 434 150 000", 0),
    ("zeros behind the items", "412 000 434 150 000 000", 7),
    ("an integer with a third word", "412 000 434 151 000", 7),
    ("boolean 2", "412 000 434 220 000", 7),
    ("name 1,024", "412 000 434 3y0 000", 7),
    ("an item referred to twice", "412 000 444 150 000", 7),
    ("an integer as first element", "412 170 434 150 000", 7),
    ("three elements", "412 000 434 150 456 160 000", 7),
    ("four items", "412 000 433 000", 7),
    ("nothing", "", 7),
    ("two items and two words", "412 000 43", 7),
    ("boolean 1", "412 000 434 210 000", 0),
    ("name 1,023", "412 000 434 3x0 000", 11),
    ("kind 6", "412 000 434 600 000", 7),
    ("a decimal with one place", "412 000 434 581 000", 0),
    ("a decimal with four places", "412 000 434 584 000", 0),
    ("a decimal with no places", "412 000 434 580 000", 7),
    ("a decimal with five places", "412 000 434 585 000", 7),
    ("a decimal with 1,024 places", "412 000 434 58y 000", 7),
    ("a decimal as first element", "412 581 434 150 000", 7),
    ("a tail that is a decimal", "412 000 434 150 581", 7),
    ("an empty list with a word", "412 010 434 150 000", 7),
    ("a reference to itself", "412 000 424 150 000", 7),
    ("a reference past the items", "412 000 454 150 000", 7),
    ("a tail that is a name", "412 000 434 150 380", 7),
    ("an inner tail that is a name", "412 000 436 445 150 380 000", 7),
    ("one element", "414 423 150 000 000", 7),
    ("operation 7", "414 423 370 000 456 150 000", 10),
    ("an integer among the operations", "414 423 170 000 456 150 000", 10),
    ("a decimal among the operations", "414 423 571 000 456 150 000", 10),
    ("a list among the operations", "414 423 000 000 456 150 000", 10),
];

/// `(f) (f 0.80)`, whose term is 8, 1, 1, 0, 9, 80, 2.
pub fn decimal_operand() -> Vec<u32> {
    let expression = &mut |t: &mut Table| t.list(2, &mut |t, place| if place == 0 { t.name(8) } else { t.decimal(80, 2) });
    Table::recipe(&mut |t| t.list(1, &mut |t, _| t.name(8)), expression)
}

/// `() (lambda (t u) u)` and its term, of which t and u are 8 and 9.
pub fn two_formals() -> (Vec<u32>, [u32; 7]) {
    let formals = &mut |t: &mut Table| t.list(2, &mut |t, place| t.name(8 + place as u32));
    let part = &mut |t: &mut Table, place| match place {
        0 => t.name(2),
        1 => formals(t),
        _ => t.name(9),
    };
    (Table::recipe(&mut |t| t.empty(), &mut |t| t.list(3, part)), [7, 0, 2, 8, 9, 0, 1])
}

/// Item tables of grounds 7 to 10, and such as pass them.
pub fn layouts() -> Vec<Layout> {
    let ample = |name, items, ground| Layout { name, items, fuel: 0, work: 98_304, core: 12_288, ground };
    let bounded = |name, fuel, work, core, ground| Layout { name, items: spelt("412 000 434 150 000"), fuel, work, core, ground };
    let flat = |n: usize| Table::recipe(&mut |t| t.empty(), &mut |t| t.list(n, &mut |t, place| t.integer(place as u32)));
    let deep = |n: usize| Table::recipe(&mut |t| t.empty(), &mut |t| t.nest(n, &mut |t| t.empty()));
    let operations = |numbers: &[u32]| {
        let list = &mut |t: &mut Table| t.list(numbers.len(), &mut |t, place| t.name(numbers[place]));
        Table::recipe(list, &mut |t| t.integer(5))
    };
    let many = |n: u32| operations(&(8..8 + n).chain([1_023]).collect::<Vec<_>>());
    let small = SMALL.iter().map(|(name, table, ground)| ample(name, spelt(table), *ground));
    let more = vec![
        ample("4,095 items", flat(2_045), 0),
        ample("4,096 items", [flat(2_045), vec![0; 3]].concat(), 7),
        ample("4,097 items", flat(2_046), 7),
        ample("2,045 lists deep", deep(2_045), 13),
        ample("2,046 lists deep, two items cut off", deep(2_046)[..12_285].to_vec(), 7),
        bounded("120 work words and 15 core words", 0, 120, 15, 0),
        bounded("119 work words", 0, 119, 15, 9),
        bounded("14 core words", 0, 120, 14, 9),
        bounded("fuel 8,192", 8_192, 196_728, 24_591, 0),
        bounded("fuel 8,192 and a work word less", 8_192, 196_727, 24_591, 9),
        bounded("fuel 8,192 and a core word less", 8_192, 196_728, 24_590, 9),
        Layout { name: "an operation applied to a decimal", items: decimal_operand(), fuel: 0, work: 264, core: 33, ground: 0 },
        Layout { name: "the same in 32 core words", items: decimal_operand(), fuel: 0, work: 264, core: 32, ground: 9 },
        bounded("fuel 8,193", 8_193, 0, 0, 8),
        Layout { name: "operation 7 and no tables", items: spelt("414 423 370 000 456 150 000"), fuel: 0, work: 0, core: 0, ground: 9 },
        ample("one operation", operations(&[8]), 0),
        ample("two operations", operations(&[8, 9]), 0),
        ample("an operation twice", operations(&[8, 8]), 10),
        ample("a form name among the operations", operations(&[8, 2]), 10),
        ample("256 operations", many(255), 0),
        ample("257 operations", many(256), 10),
    ];
    small.chain(more).collect()
}

/// Words, the count of operations, and the text; none is ground 19. Name 8 is x, and 1,023 is z.
pub type Words = (&'static [u32], u32, Option<&'static str>);

pub const WORDS: &[Words] = &[
    (&[7, 0, 1, 8, 0, 0], 256, Some("(lambda (v0.x) v0.x)")),
    (&[6, 7, 0, 1, 8, 0, 0, 7, 0, 1, 8, 0, 0, 2, 0], 256, None),
    (&[6, 7, 0, 1, 8, 0, 0, 7, 1, 1, 8, 0, 0, 2, 0], 256, None),
    (&[6, 7, 0, 1, 8, 0, 0, 7, 1, 1, 1_023, 0, 1, 2, 0], 256, Some("(if (lambda (v0.x) v0.x) (lambda (v1.z) v1.z) 0)")),
    (&[7, 0, 2, 1_023, 8, 8, 1, 0, 1, 0, 0], 256, Some("(lambda (v0.z v1.x) (v1.x v0.z))")),
    (&[7, 0, 1, 9, 2, 5], 256, None),
    (&[7, 0, 1, 1_024, 2, 5], 256, None),
    (&[7, 0, 1, u32::MAX, 2, 5], 256, None),
    (&[7, 0, 2, 8, 9, 2, 5], 256, None),
    (&[7, 0, 1, 2, 5], 256, None),
    (&[7, 0, 1, 0, 0, 8], 256, None),
    (&[7, 0, 1, 8], 256, None),
    (&[7, 0, 2, 8], 256, None),
    (&[7, 0, 0, 8, 2, 5], 256, None),
    (&[5, 2, 4, 8, 5, 0], 256, Some("(quote (x ()))")),
    (&[5, 1, 0, 0], 256, None),
    (&[2, 5, 2, 6], 256, None),
    (&[8, 0], 256, None),
    (&[8, u32::MAX, 2, 0], 256, None),
    (&[3, 2], 256, None),
    (&[7, 1, 0, 2, 5], 256, None),
    (&[7, 0, 0, 2, 5], 256, Some("(lambda () 5)")),
    (&[7, 0, 8, 8, 8, 8, 8, 8, 8, 8, 1_023, 0, 7], 256, Some("(lambda (v0.x v1.x v2.x v3.x v4.x v5.x v6.x v7.z) v7.z)")),
    (&[7, 0, 9, 8, 8, 8, 8, 8, 8, 8, 8, 8, 2, 5], 256, None),
    (&[1, 255], 256, Some("o255")),
    (&[1, 255], 1, None),
    (&[1, 255], 257, None),
    (&[2, 1 << 31], 256, Some("-2147483648")),
    (&[2, (1 << 31) - 1], 256, Some("2147483647")),
    (&[9, 80, 2], 256, Some("0.80")),
    (&[9, -5i32 as u32, 1], 256, Some("-0.5")),
    (&[9, -5i32 as u32, 4], 256, Some("-0.0005")),
    (&[9, 0, 1], 256, Some("0.0")),
    (&[9, 123_400, 4], 256, Some("12.3400")),
    (&[9, 1 << 31, 4], 256, Some("-214748.3648")),
    (&[9, (1 << 31) - 1, 1], 256, Some("214748364.7")),
    (&[5, 3, 9, 8, 1, 4, 8, 9, 8, 3], 256, Some("(quote (0.8 x 0.008))")),
    (&[9, 8, 0], 256, None),
    (&[9, 8, 5], 256, None),
    (&[9, 8, u32::MAX], 256, None),
    (&[5, 1, 9, 8, 0], 256, None),
    (&[9, 8], 256, None),
    (&[9, 8, 1, 1], 256, None),
    (&[10, 8, 1], 256, None),
    (&[4, 1_023], 256, Some("(quote z)")),
    (&[4, 9], 256, None),
    (&[5, 0], 256, Some("(quote ())")),
    (&[7, 0, 1, 8, 8, 1, 0, 0, 7, 1, 0, 0, 0], 256, Some("(lambda (v0.x) (v0.x (lambda () v0.x)))")),
    (&[], 256, None),
];

/// Words, the names from number 8 on, and the text; none is ground 19.
pub type Named = (&'static [u32], &'static [&'static str], Option<&'static str>);

pub const NAMED: &[Named] = &[
    (&[7, 0, 2, 8, 9, 0, 1], &["t", "u"], Some("(lambda (v0.t v1.u) v1.u)")),
    (&[7, 0, 1, 1_024, 0, 0], &["t"], None),
    (&[7, 0, 1, 9, 0, 0], &["t"], None),
    (&[7, 0, 2, 8], &["t"], None),
];

/// A name table with these names from number 8 on.
pub fn table_of(given: &[&str]) -> Vec<u8> {
    let mut names = vec![0; 65_536];
    for (name, slot) in given.iter().zip(names.chunks_mut(64).skip(8)) {
        slot[0] = name.len() as u8;
        slot[1..=name.len()].copy_from_slice(name.as_bytes());
    }
    names
}

/// A name table in which each of the 1,024 names has 63 bytes.
pub fn longest_names() -> Vec<u8> {
    (0..1_024).flat_map(|n| [vec![63], format!("n{n:062}").into_bytes()].concat()).collect()
}

/// A name table for [`WORDS`].
pub fn names() -> Vec<u8> {
    let mut names = vec![0; 65_536];
    names[64 * 8..][..2].copy_from_slice(b"\x01x");
    names[64 * 1_023..][..2].copy_from_slice(b"\x01z");
    names
}
