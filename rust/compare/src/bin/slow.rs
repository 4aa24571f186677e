//! Looks for slow inputs: each family of `inputs::slow`, and families joined, is grown parameter by parameter towards what takes longest
//! within the limits of N and fuel; then the ten slowest are printed beside the second expander. `cargo run --release --bin slow SECONDS`

use inputs::slow::{changed, joined, parameters, table, Family, FAMILIES};
use inputs::Random;
use std::process::{Command, Stdio};
use std::time::{Duration, Instant};

const FUEL: u32 = 8_192;
/// A call that takes longer is ended; it counts as so long.
const MOST: Duration = Duration::from_secs(5);

/// Families by their places, each with its parameters.
type Input = Vec<(usize, Vec<usize>)>;

fn recipe(input: &Input) -> String {
    let one = |(place, parameters): &(usize, Vec<usize>)| (FAMILIES[*place].recipe)(parameters);
    input.iter().map(one).reduce(|first, second| joined(&first, &second)).expect("a family")
}

/// Milliseconds of one call, by the services and by the second expander; its ground.
fn measured(input: &Input) -> Option<(f64, f64, u32)> {
    let items = table(&recipe(input))?;
    let (work, core) = grebetallboy::table_words(items.len() / 3, FUEL);
    let (mut w, mut c) = (vec![0; work], vec![0; core]);
    let start = Instant::now();
    let (ground, ..) = compare::expanded(&items, FUEL, &mut w, &mut c);
    let own = start.elapsed().as_secs_f64() * 1e3;
    let start = Instant::now();
    drop(inputs::in_stack(1 << 30, || reference::expand::run(&items, FUEL, work, core)));
    Some((own, start.elapsed().as_secs_f64() * 1e3, ground))
}

fn written(input: &Input) -> String {
    let one = |(place, parameters): &(usize, Vec<usize>)| {
        format!("{place}:{}", parameters.iter().map(usize::to_string).collect::<Vec<_>>().join(","))
    };
    input.iter().map(one).collect::<Vec<_>>().join("+")
}

fn read(text: &str) -> Input {
    let number = |n: &str| n.parse().expect("a number");
    let one = |piece: &str| piece.split_once(':').map(|(place, p)| (number(place), p.split(',').map(number).collect())).expect("a family");
    text.split('+').map(one).collect()
}

/// In a process of its own, which is ended where it takes too long.
fn tried(input: &Input) -> Option<(f64, f64, u32)> {
    let mut child = Command::new(std::env::current_exe().unwrap()).arg(written(input)).stdout(Stdio::piped()).spawn().unwrap();
    let start = Instant::now();
    while child.try_wait().unwrap().is_none() {
        if start.elapsed() > MOST {
            child.kill().unwrap();
            child.wait().unwrap();
            return Some((MOST.as_secs_f64() * 1e3, f64::NAN, 0));
        }
        std::thread::sleep(Duration::from_millis(1));
    }
    let printed = String::from_utf8(child.wait_with_output().unwrap().stdout).unwrap();
    let mut words = printed.split_whitespace();
    Some((words.next()?.parse().ok()?, words.next()?.parse().ok()?, words.next()?.parse().ok()?))
}

fn begun(random: &mut Random, place: usize) -> (usize, Vec<usize>) {
    (place, parameters(random, &FAMILIES[place]))
}

fn main() {
    let word = std::env::args().nth(1).unwrap_or("60".to_string());
    let Ok(seconds) = word.parse() else {
        return measured(&read(&word)).into_iter().for_each(|(own, second, ground)| println!("{own} {second} {ground}"));
    };
    let (start, mut random) = (Instant::now(), Random::new(inputs::setting("SEED", 1)));
    let mut best: Vec<(Input, (f64, f64, u32))> = Vec::new();
    let mut climbed = 0;
    let due = || start.elapsed() >= Duration::from_secs(seconds);
    while !due() {
        let place = climbed % (FAMILIES.len() * 2);
        climbed += 1;
        let mut input = vec![begun(&mut random, place % FAMILIES.len())];
        if place >= FAMILIES.len() {
            let other = random.below(FAMILIES.len());
            input.push(begun(&mut random, other));
        }
        let mut here = tried(&input);
        for _ in 0..60 {
            if due() {
                break;
            }
            let at = random.below(input.len());
            let mut next = input.clone();
            let family: &Family = &FAMILIES[next[at].0];
            next[at].1 = changed(&mut random, family, &next[at].1);
            let there = tried(&next);
            if there.map_or(0.0, |t| t.0) >= here.map_or(0.0, |t| t.0) {
                (input, here) = (next, there);
            }
        }
        best.extend(here.map(|here| (input, here)));
        best.sort_by(|a, b| b.1 .0.total_cmp(&a.1 .0));
        best.dedup_by_key(|(input, _)| input.iter().map(|(place, _)| *place).collect::<Vec<_>>());
        best.truncate(30);
    }
    println!("| family | parameters | ground | ms | second expander, ms | times |\n|---|---|---|---|---|---|");
    for (input, (own, second, ground)) in best.iter().take(10) {
        let names: Vec<_> = input.iter().map(|(place, _)| FAMILIES[*place].name).collect();
        println!("| {} | {} | {ground} | {own:.1} | {second:.1} | {:.1} |", names.join("; beside "), written(input), own / second);
    }
}
