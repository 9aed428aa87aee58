//! Prints a small space of inputs whole, as lines or as a digest for each block.

mod digest;
#[allow(dead_code)] // The flags of a sweep's packets are those of its rows.
#[path = "../mend.rs"]
mod mend;
mod reader;
mod recipes;
#[path = "../tape/refusal.rs"]
mod refusal;
mod services;
#[allow(dead_code)] // Of the transcript's spellings a sweep needs only some.
#[path = "../tape/show.rs"]
mod show;
mod values;

use std::io::{self, BufWriter, Write};

type Sweep = fn(&mut dyn Write) -> io::Result<()>;

/// A further sweep is one more row.
const SWEEPS: [(&str, Sweep); 3] = [
    ("values", values::sweep),
    ("services", services::sweep),
    ("reader", reader::sweep),
];

fn main() -> io::Result<()> {
    let given: Vec<String> = std::env::args().skip(1).collect();
    for (name, sweep) in SWEEPS {
        if given == [name] {
            let mut out = BufWriter::new(io::stdout().lock());
            sweep(&mut out)?;
            return out.flush();
        }
    }
    eprintln!("usage: sweep NAME, where NAME is one of");
    for (name, _) in SWEEPS {
        eprintln!("  {}", name);
    }
    std::process::exit(2)
}
