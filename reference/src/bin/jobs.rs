//! Generated jobs on standard output, for tests in other languages. Each is
//! its length (32 bits, little-endian) and its bytes.
//!
//! `jobs clean SEED COUNT`: accepted jobs. `jobs dirty SEED COUNT`: accepted and
//! damaged ones with notes in bytes that nobody reads. `jobs shuffled SEED COUNT`:
//! with their nodes in any order. `jobs any SEED COUNT`: all of these, as they come.

use reference::generate;
use std::io::{self, BufWriter, Write};
use std::process::ExitCode;

fn main() -> ExitCode {
    let words: Vec<String> = std::env::args().skip(1).collect();
    let [kind, seed, count] = words.as_slice() else {
        return usage();
    };
    let (Ok(seed), Ok(count)) = (seed.parse::<u64>(), count.parse::<u64>()) else {
        return usage();
    };
    let make: fn(u64) -> Vec<u8> = match kind.as_str() {
        "clean" => |seed| generate::valid(seed).bytes,
        "dirty" => |seed| generate::dirty(seed).bytes,
        "shuffled" => |seed| generate::shuffled(seed).bytes,
        "any" => |seed| generate::case(seed).bytes,
        _ => return usage(),
    };
    match write_all(make, seed, count) {
        Ok(()) => ExitCode::SUCCESS,
        Err(error) => {
            eprintln!("jobs: {error}");
            ExitCode::FAILURE
        }
    }
}

fn usage() -> ExitCode {
    eprintln!("usage: jobs clean|dirty|shuffled|any SEED COUNT");
    ExitCode::from(2)
}

fn write_all(make: fn(u64) -> Vec<u8>, seed: u64, count: u64) -> io::Result<()> {
    let mut output = BufWriter::new(io::stdout().lock());
    for seed in seed..seed + count {
        let bytes = make(seed);
        output.write_all(&(bytes.len() as u32).to_le_bytes())?;
        output.write_all(&bytes)?;
    }
    output.flush()
}
