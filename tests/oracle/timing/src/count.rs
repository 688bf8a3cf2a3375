//! Steps of one program alone, of which something else counts the instructions. The strands are laid
//! before the first step, as many for few steps as for many.

use crate::seats::{Asked, Seats, SEATS};
use crate::strand::{asked, six, Strand};
use compare::rng::Rng;

const BENCHES: usize = 20;

/// Each step is of another strand. Prints the iterations of ours.
pub fn count(who: &str, kind: &str, n: usize, steps: usize) {
    let rng = &mut Rng::new(1);
    let dynamic = match kind {
        "static" => false,
        "dynamic" => true,
        _ => panic!("static or dynamic"),
    };
    let strands: Vec<[Strand; SEATS]> = (0..BENCHES).map(|_| six(rng, n)).collect();
    let mut benches: Vec<Seats> = strands.iter().map(|six| Seats::of(six)).collect();
    let asked: Vec<Asked> = (strands.iter())
        .flat_map(|six| asked(six, dynamic))
        .collect();
    let mut iterations = 0;
    for step in 0..steps {
        let bench = &mut benches[step / SEATS];
        match who {
            "rust" => bench.rust(asked[step]),
            "ours" => iterations += accepted(bench.ours(asked[step])),
            _ => panic!("rust or ours"),
        }
    }
    println!("{iterations}");
}

fn accepted(numbers: machine::StepNumbers) -> usize {
    assert_eq!(numbers.refusal, 0);
    numbers.count
}
