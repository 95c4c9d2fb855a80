//! `cargo run --release --offline --bin long -- [SEED [ROUNDS]]` runs that many rounds of each call, from that seed on, and prints
//! the count. A round that fails names its seed; `long SEED 1` runs it again.

use std::time::Instant;
use trials::rounds;

fn main() {
    let mut numbers = std::env::args().skip(1).map(|word| word.parse().expect("a seed and a count of rounds"));
    let seed = numbers.next().unwrap_or(1);
    let count = numbers.next().unwrap_or(100_000);
    for round in &rounds::ALL {
        let start = Instant::now();
        let answered = rounds::run(round, seed, count);
        let seconds = start.elapsed().as_secs_f64();
        println!("{:<12} {count} rounds agree, {seconds:.0} s: {}", round.call, tally(&answered));
    }
    println!("{} rounds from seed {seed} agree", count * rounds::ALL.len() as u64);
}

/// How often each number was answered.
fn tally(answered: &[u64; 18]) -> String {
    let some = answered.iter().enumerate().filter(|(_, times)| **times > 0);
    some.map(|(number, times)| format!("number {number} {times} times")).collect::<Vec<_>>().join(", ")
}
