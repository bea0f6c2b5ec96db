// Runs the library's calls against an independent program that copies, and compares every word.
// Usage: outside [--short] [--group NAME] [--seed NUMBER] DRIVER-COMMAND...
mod axes;
mod cameras;
mod cases;
mod cycles;
mod desk;
mod driver;
mod five;
mod flat;
mod guards;
mod random;
mod reference;
mod repeats;
mod restart;
mod results;
mod sheets;
mod text;
mod ticks;
mod tiles;

const SEED: u64 = 20_240_601;

type Group = (&'static str, fn(&mut cases::Cases, u64));

/// The groups in the order in which they run, each with the seed that its place gives.
const GROUPS: [Group; 12] = [
    ("flat", flat::all),
    ("axes", axes::all),
    ("sheets", sheets::all),
    ("repeats", repeats::all),
    ("cameras", cameras::all),
    ("tiles", tiles::all),
    ("results", results::all),
    ("desk", desk::all),
    ("ticks", ticks::all),
    ("cycles", cycles::all),
    ("restart", restart::all),
    ("five", five::all),
];

/// Takes `--short`, `--group NAME` and `--seed NUMBER` from the front of the words.
fn options(words: &mut Vec<String>) -> (bool, Option<String>, u64) {
    let (mut short, mut group, mut seed) = (false, None, SEED);
    while words.first().map_or(false, |word| word.starts_with("--")) {
        match words.remove(0).as_str() {
            "--short" => short = true,
            "--group" => group = Some(words.remove(0)),
            "--seed" => seed = words.remove(0).parse().expect("a seed is a number"),
            word => panic!("{word} is no option"),
        }
    }
    (short, group, seed)
}

fn main() {
    let mut command: Vec<String> = std::env::args().skip(1).collect();
    let (short, group, seed) = options(&mut command);
    let known = |name: &String| GROUPS.iter().any(|g| g.0 == name);
    assert!(group.as_ref().map_or(true, known), "the groups are {}", GROUPS.map(|g| g.0).join(", "));
    let mut t = cases::Cases::new(driver::Driver::new(&command), short);
    guards::all(&mut t);
    for (place, (name, all)) in (0..).zip(GROUPS) {
        if group.as_deref().map_or(true, |wanted| wanted == name) {
            let before = t.failed;
            all(&mut t, seed + place);
            if t.failed > before {
                println!("{} failed in {}: tests/run --group {} --seed {} runs it alone", t.failed - before, name, name, seed);
            }
        }
    }
    let well = t.driver.end();
    t.verdict(well, || "the driver did not end well".to_string());
    println!("seeds {} to {}{}", seed, seed + 11, if short { ", short form" } else { "" });
    println!("{} passed, {} failed", t.passed, t.failed);
    std::process::exit(if t.failed == 0 { 0 } else { 1 });
}
