//! Orders of newcomers and turns through the `rounds` program, compared with the
//! reference.

use std::fmt::Write;

use reference::coverage::Coverage;
use reference::history::{stream, Event};
use reference::mistake::Mistake;
use reference::print;
use reference::rounds::{kind, Reply, Roof};

use crate::differential::Unlike;
use crate::frame;
use crate::histories::text as printed_text;
use crate::quick;
use crate::replay::Replay;

/// What is printed for the event of a number: "`newcomer K`, then `taken`, or `ending E
/// index I steps 0 lines 0` where it is turned back"; "`turn K`, then `idle` where there
/// is no run, or `run R took T`: R is the event that took the run in, T the steps of this
/// turn; where the run has ended, the outcome block of that run without its head line".
/// Events of the reply count from `first` on.
pub fn text(number: usize, reply: &Reply, first: usize) -> String {
    match reply {
        Reply::Taken => format!("newcomer {number}\ntaken\n"),
        Reply::TurnedBack(outcome) => format!("newcomer {number}\n{}", frame::text(outcome)),
        Reply::Idle => format!("turn {number}\nidle\n"),
        Reply::Turn { run, took, ended } => {
            let block = ended.as_ref().map_or(String::new(), frame::text);
            format!("turn {number}\nrun {} took {took}\n{block}", first + run)
        }
        Reply::Unknown => format!("unknown {number}\n"),
    }
}

/// What was printed for an order, event by event.
pub struct Told {
    /// The number of the first event.
    pub first: usize,
    pub parts: Vec<String>,
}

/// The parts of an output, one for each event.
pub fn split(text: &str) -> Vec<String> {
    const HEADS: [&str; 4] = ["newcomer ", "turn ", "unknown ", "truncated"];
    let mut parts: Vec<String> = Vec::new();
    for line in text.split_inclusive('\n') {
        if HEADS.iter().any(|head| line.starts_with(head)) || parts.is_empty() {
            parts.push(String::new());
        }
        parts.last_mut().expect("not empty").push_str(line);
    }
    parts
}

/// What orders go through.
#[derive(Clone, Debug)]
pub enum Through {
    Program(Replay),
    /// The fast version.
    Fast,
}

impl Through {
    pub fn name(&self) -> String {
        match self {
            Through::Program(program) => program.path.clone(),
            Through::Fast => String::from("the fast version"),
        }
    }

    /// What is printed for each order. One process plays them all: each ends with an
    /// empty roof.
    pub fn told(&self, orders: &[&[Event]]) -> Vec<Told> {
        let mut rest = match self {
            Through::Program(program) => {
                split(&printed_text(program.run(stream(&orders.concat()))))
            }
            Through::Fast => {
                let mut player = Player::new(None);
                let events = orders.iter().copied().flatten();
                events.map(|event| player.play(event)).collect()
            }
        };
        let mut all: Vec<Told> = Vec::new();
        let mut first = 0;
        for events in orders {
            let later = rest.split_off(events.len().min(rest.len()));
            all.push(Told { first, parts: rest });
            first += events.len();
            rest = later;
        }
        // What comes too much is left to the last.
        all.last_mut().expect("an order").parts.extend(rest);
        all
    }

    pub fn told_one(&self, events: &[Event]) -> Told {
        self.told(&[events]).pop().expect("one")
    }
}

/// Holds what was printed for an order to the reference, and counts what it reaches;
/// the number of the event that differs, and how.
pub fn check(
    events: &[Event],
    told: &Told,
    mistake: Mistake,
    coverage: &mut Coverage,
) -> Result<(), (usize, Unlike)> {
    let mut roof = Roof::new(mistake);
    let unlike = |place: usize, expected: String| {
        let got = told.parts.get(place).map_or("", |part| part);
        match got == expected {
            true => Ok(()),
            false => {
                let got = got.into();
                Err((place, Unlike { expected, got }))
            }
        }
    };
    for (place, event) in events.iter().enumerate() {
        let reply = coverage.add_round(&mut roof, event);
        unlike(place, text(told.first + place, &reply, told.first))?;
    }
    unlike(events.len(), String::new())
}

/// A program that plays events one after the other.
pub struct Player {
    roof: Side,
    number: usize,
}

enum Side {
    Fast(Box<fast::rounds::Roof>),
    Reference(Box<Roof>),
}

impl Player {
    /// The fast version, or the reference with a mistake.
    pub fn new(reference: Option<Mistake>) -> Player {
        let roof = match reference {
            None => Side::Fast(Box::default()),
            Some(mistake) => Side::Reference(Box::new(Roof::new(mistake))),
        };
        Player { roof, number: 0 }
    }

    /// What the program prints for an event.
    pub fn play(&mut self, event: &Event) -> String {
        let number = self.number;
        self.number += 1;
        let reply = match &mut self.roof {
            Side::Fast(roof) => fast_reply(roof, number, event),
            Side::Reference(roof) => roof.expect(event),
        };
        text(number, &reply, 0)
    }
}

fn fast_reply(roof: &mut fast::rounds::Roof, number: usize, event: &Event) -> Reply {
    let limits = event.limits();
    match event.kind {
        kind::NEWCOMER => {
            let area = fast::LINE_BYTES * limits.lines;
            let lent = quick::limits(&limits);
            match roof.newcomer(number as u64, &event.body, lent, area) {
                None => Reply::Taken,
                Some(answer) => Reply::TurnedBack(quick::turned_back(answer)),
            }
        }
        kind::TURN => match roof.turn() {
            None => Reply::Idle,
            Some(turn) => {
                let place = &roof.places[turn.place];
                let whole = |answer| quick::whole(answer, &place.area, &place.buffers);
                Reply::Turn {
                    run: place.name as usize,
                    took: u64::from(turn.took),
                    ended: turn.ended.map(whole),
                }
            }
        },
        _ => Reply::Unknown,
    }
}

/// An order in a form to read.
pub fn show(events: &[Event]) -> String {
    let mut text = String::new();
    for (number, event) in events.iter().enumerate() {
        let Event {
            budget,
            places,
            lines,
            body,
            ..
        } = event;
        match event.kind {
            kind::NEWCOMER => {
                writeln!(
                    text,
                    "newcomer {number}, budget {budget}, places {places}, lines {lines}"
                )
                .unwrap();
                text += &print::section(true, body);
            }
            kind::TURN => writeln!(text, "turn {number}").unwrap(),
            other => {
                writeln!(text, "event {number} of kind {other}, {} bytes", body.len()).unwrap()
            }
        }
    }
    text
}
