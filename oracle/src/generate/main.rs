//! Prints a tape: `generate SEED LINES [FAMILY]`. Equal arguments give equal tapes everywhere.
//! `generate --families` prints the names of the families, one to a line.

mod aims;
mod bad;
mod bad_words;
mod behind;
mod big;
mod boundary;
mod damaged;
mod entries;
mod future;
mod limits;
mod lists;
#[path = "../mend.rs"]
mod mend;
mod packet;
mod parts;
mod pieces;
mod random;
mod refusals;
mod sections;
mod sequence;
mod short;
mod tape;
mod values;
mod writes;

use random::Random;
use tape::Tape;

/// Prints some lines; the turn lets a family go through its cases in order.
type Step = fn(&mut Random, &mut Tape, u64);

/// Name, share of the lines in hundredths, and what it prints.
struct Family(&'static str, u64, Step);

static FAMILIES: [Family; 15] = [
    Family("short", 8, short::step),
    Family("boundary", 10, boundary::step),
    Family("damaged", 12, damaged::step),
    Family("refusals", 14, refusals::step),
    Family("future", 6, future::step),
    Family("behind", 6, behind::step),
    Family("sequence", 15, sequence::step),
    Family("big", 1, big::step),
    Family("sections", 6, sections::step),
    Family("entries", 5, entries::step),
    Family("lists", 3, lists::step),
    Family("writes", 6, writes::step),
    Family("limits", 2, limits::step),
    Family("pieces", 4, pieces::step),
    Family("bad", 2, bad::step),
];

fn usage() -> ! {
    eprintln!("usage: generate SEED LINES [FAMILY], or generate --families, which names them");
    std::process::exit(2)
}

fn number(word: Option<&String>) -> u64 {
    match word.and_then(|word| word.parse().ok()) {
        Some(number) => number,
        None => usage(),
    }
}

fn chosen(name: Option<&String>) -> Vec<&'static Family> {
    let wanted = |family: &&Family| name.map_or(true, |name| family.0 == name);
    FAMILIES.iter().filter(wanted).collect()
}

/// Always goes on with the family that is furthest behind its share.
fn fill(rng: &mut Random, tape: &mut Tape, families: &[&Family]) {
    let mut printed = vec![0; families.len()];
    let mut turns = vec![0; families.len()];
    while tape.left() > 0 {
        let behind = |k: &usize| printed[*k] * 1000 / families[*k].1;
        let k = (0..families.len())
            .min_by_key(behind)
            .expect("one family at least");
        let before = tape.left();
        let Family(_, _, step) = families[k];
        step(rng, tape, turns[k]);
        printed[k] += before - tape.left();
        turns[k] += 1;
    }
}

fn main() -> std::io::Result<()> {
    let given: Vec<String> = std::env::args().skip(1).collect();
    if given == ["--families"] {
        for Family(name, ..) in &FAMILIES {
            println!("{}", name);
        }
        return Ok(());
    }
    let (seed, lines) = (number(given.first()), number(given.get(1)));
    let families = chosen(given.get(2));
    if families.is_empty() || given.len() > 3 {
        usage();
    }
    let mut tape = Tape::new(lines);
    fill(&mut Random::new(seed), &mut tape, &families);
    tape.finish()
}
