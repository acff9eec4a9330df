//! Demand 3 on random lists of calls at two printers.

use crate::differential::keep;
use crate::interface::{engines, Counts};
use crate::lists::{play, Tally};
use crate::random::Random;

/// Makes about so many calls in lists. Answers whether demand 3 held throughout.
pub fn run(calls: u64, seed: u64) -> Result<bool, String> {
    let names: Vec<_> = engines().iter().map(|engine| engine.name()).collect();
    println!("demand 3: {calls} calls, seed {seed}, engines: {}", names.join(", "));
    let mut random = Random::new(seed);
    let (mut counts, mut tally) = (Counts::default(), Tally::default());
    while counts.total() < calls {
        let honest = random.percent(75);
        let length = random.within(20, 1500);
        if let Err(fault) = play(&mut random, honest, length, &mut counts, &mut tally) {
            println!("after {} calls: {}", counts.total(), fault.what);
            keep(&fault);
            return Ok(false);
        }
    }
    println!("{} calls, demand 3 held:", counts.total());
    counts.print();
    tally.print();
    Ok(true)
}
