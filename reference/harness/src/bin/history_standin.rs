//! A stand-in for `history` over the fast version, with which the harness
//! itself is tried: the same events, the same text. Where STANDIN_MISTAKE names
//! a mistake it runs over the reference with that mistake; `None` is the
//! reference as it is.

use std::io::{self, BufReader, BufWriter, Write};

use harness::arguments::mistake_named;
use harness::frame;
use harness::histories::{Player, Standin};
use harness::input::next_event;

fn main() -> io::Result<()> {
    let mut input = BufReader::new(io::stdin().lock());
    let mut output = BufWriter::new(io::stdout().lock());
    let player = match std::env::var("STANDIN_MISTAKE") {
        Ok(name) => Player::Reference(mistake_named(&name)),
        Err(_) => Player::Fast,
    };
    let mut standin = Standin::new(player);
    while let Some(event) = next_event(&mut input)? {
        match event {
            Some(event) => write!(output, "{}", standin.play(&event))?,
            None => {
                write!(output, "{}", frame::TRUNCATED)?;
                break;
            }
        }
    }
    output.flush()
}
