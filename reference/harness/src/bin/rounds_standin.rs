//! A stand-in for `rounds` over the fast version, with which the harness itself is
//! tried: the same events, the same text. Where STANDIN_MISTAKE names a mistake it is
//! the reference with that mistake; `None` is the reference as it is.

use std::io::{self, BufReader, BufWriter, Write};

use harness::arguments::mistake_named;
use harness::frame;
use harness::input::next_event;
use harness::rounds::Player;

fn main() -> io::Result<()> {
    let mut input = BufReader::new(io::stdin().lock());
    let mut output = BufWriter::new(io::stdout().lock());
    let named = std::env::var("STANDIN_MISTAKE").ok();
    let mut player = Player::new(named.map(|name| mistake_named(&name)));
    while let Some(event) = next_event(&mut input)? {
        match event {
            Some(event) => write!(output, "{}", player.play(&event))?,
            None => {
                write!(output, "{}", frame::TRUNCATED)?;
                break;
            }
        }
    }
    output.flush()
}
