//! What the generated cases and pairs reach and find.

mod budgets;
mod coverage;
mod histories;
mod mistakes;
mod pairs;
mod rounds;
mod shrinking;

use std::sync::OnceLock;

use reference::generate::{self, Case, Pair};

const SEEDS: u64 = 20_000;

/// Pairs are dear to make, and each way to leak shows among these.
const PAIRS: u64 = 8_000;

/// The cases of all seeds, made once.
fn cases() -> &'static [Case] {
    static CASES: OnceLock<Vec<Case>> = OnceLock::new();
    CASES.get_or_init(|| (0..SEEDS).map(generate::case).collect())
}

/// The pairs, made once.
fn pairs() -> &'static [Pair] {
    static MADE: OnceLock<Vec<Pair>> = OnceLock::new();
    MADE.get_or_init(|| (0..PAIRS).map(generate::pair).collect())
}
