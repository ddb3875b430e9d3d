//! Holds the proved library against other implementations: first that all answer alike, then how long each takes.
//! `driver` compares on 3,000 cases and measures; `driver --compare N` compares on N cases and ends.

mod compare;
mod measure;
mod peers;
mod random;
mod scene;

const SEED: u64 = 20220517;

fn main() {
    let words: Vec<String> = std::env::args().skip(1).collect();
    let words: Vec<&str> = words.iter().map(String::as_str).collect();
    let (cases, timed) = match words[..] {
        [] => (3000, true),
        ["--compare", n] => (n.parse().expect("a number of cases"), false),
        _ => panic!("nothing, or --compare N"),
    };
    println!("seed {SEED}");
    let mut random = random::Random::new(SEED);
    let peers = peers::all();
    compare::compare(&mut random, &peers, cases);
    if timed {
        measure::measure(&mut random, &peers);
    }
}
