//! docs/BENCHMARKS.md, printed whole, and the plot in it, docs/growth.svg: `cargo run --release --bin bench > ../docs/BENCHMARKS.md`.
//! With a word it prints one part alone: recipes, growth, numbers, variables, pairs, texts, units, values, worst, stack.

use compare::bench::{comparing, growth, plot, recipes, running, stack, tables, time, writing, MOST};

fn page() -> String {
    let (floor, recipes) = recipes::table();
    let curves = growth::curves();
    std::fs::write(inputs::top().join("docs/growth.svg"), plot::svg(&curves)).expect("docs/growth.svg is written");
    let mut largest = tables(MOST);
    let parts = [
        ("{floor}", format!("{floor:.1}")),
        ("{recipes}", recipes),
        ("{largest floor}", format!("{:.1}", time(|| largest.zero()))),
        ("{growth}", growth::table(&curves)),
        ("{numbers}", writing::numbers()),
        ("{variables}", writing::variables()),
        ("{pairs}", comparing::pairs()),
        ("{texts}", comparing::texts()),
        ("{units}", running::growth()),
        ("{values}", running::peers()),
        ("{worst}", running::worst()),
        ("{stack}", stack::table()),
    ];
    parts.into_iter().fold(include_str!("../bench/page.md").to_string(), |page, (place, text)| page.replace(place, text.trim_end()))
}

fn main() {
    let words: Vec<String> = std::env::args().skip(1).collect();
    let number = |i: usize| words[i].parse().expect("a number");
    let text = match words.first().map(String::as_str) {
        Some("recipes") => recipes::table().1,
        Some("growth") => growth::table(&growth::curves()),
        Some("numbers") => writing::numbers(),
        Some("variables") => writing::variables(),
        Some("pairs") => comparing::pairs(),
        Some("texts") => comparing::texts(),
        Some("units") => running::growth(),
        Some("values") => running::peers(),
        Some("worst") => running::worst(),
        Some("stack") if words.len() == 3 => return stack::call(number(1), number(2)),
        Some("stack") => stack::table(),
        _ => page(),
    };
    print!("{text}");
}
