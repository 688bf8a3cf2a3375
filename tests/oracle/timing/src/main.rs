//! `timing [STRANDS [SEED]]`: the proved library and the unchanged Rust on the same fresh strands,
//! by turns in one run; prints tables. It fails when the two leave other strands, never for a time.
//! `timing count WHO KIND N STEPS`: steps of one of them alone, to be counted (`count` in this folder).

mod budget;
mod clock;
mod count;
mod iteration;
mod processor;
mod roots;
mod seats;
mod state;
mod strand;
mod sweep;
mod tables;
mod whole;

use compare::rng::Rng;

fn main() {
    let words: Vec<String> = std::env::args().skip(1).collect();
    let words: Vec<&str> = words.iter().map(|word| word.as_str()).collect();
    match words[..] {
        ["count", who, kind, n, steps] => count::count(who, kind, number(n), number(steps)),
        [] => tables(6000, 1),
        [strands] => tables(number(strands), 1),
        [strands, seed] => tables(number(strands), number(seed) as u64),
        _ => panic!("timing [STRANDS [SEED]] or timing count WHO KIND N STEPS"),
    }
}

fn number(word: &str) -> usize {
    word.parse().expect("a number")
}

fn tables(strands: usize, seed: u64) {
    let rng = &mut Rng::new(seed);
    processor::print();
    whole::tables(rng, strands);
    iteration::tables(rng, strands / 4);
    budget::table(rng, strands / 10);
    roots::table(rng);
}
