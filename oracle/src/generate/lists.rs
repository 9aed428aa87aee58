//! Calls on a list: every call, the sixteenth addition, clearing and filling again.

use crate::random::Random;
use crate::tape::Tape;
use crate::values;

const FLAGS: [&str; 6] = ["s0", "s1", "c0", "c1", "k0", "k1"];

pub fn step(rng: &mut Random, tape: &mut Tape, turn: u64) {
    let calls = match turn % 8 {
        0 => vec![any(rng)],
        1 => flags(rng),
        2 => around_full(rng),
        _ => (0..1 + rng.below(12)).map(|_| any(rng)).collect(),
    };
    tape.text(&format!("T {}", calls.join(",")));
}

fn any(rng: &mut Random) -> String {
    match rng.below(8) {
        0 => "x".to_string(),
        1..=4 => rng.pick(&FLAGS).to_string(),
        _ => add(rng),
    }
}

/// Adding takes any number, so these are not held to what can be written.
fn add(rng: &mut Random) -> String {
    match rng.below(3) {
        0 => {
            let number = values::edge_number(rng);
            values::digital(rng, number)
        }
        1 => {
            let number = rng.byte();
            values::digital(rng, number)
        }
        _ => values::entry(rng),
    }
}

fn flags(rng: &mut Random) -> Vec<String> {
    let count = 1 + rng.below(10);
    (0..count).map(|_| rng.pick(&FLAGS).to_string()).collect()
}

fn around_full(rng: &mut Random) -> Vec<String> {
    let mut calls = Vec::new();
    for _ in 0..13 + rng.below(6) {
        if rng.chance(8) {
            calls.push(rng.pick(&FLAGS).to_string());
        }
        calls.push(add(rng));
    }
    for _ in 0..rng.below(6) {
        calls.push(any(rng));
    }
    calls
}
