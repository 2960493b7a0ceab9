//! Histories through the `history` program, compared with the reference.

use std::fmt::Write;

use fast::follow::Record;
use fast::Buffers;
use reference::coverage::Coverage;
use reference::follow;
use reference::history::{self, kind, store, what, Entry, Event, Expected, Held, Model, RECORDS};
use reference::mistake::Mistake;
use reference::run::{self, Outcome, Standing};
use reference::table::Lent;
use reference::writer;
use reference::Level;

use crate::differential::Unlike;
use crate::frame;
use crate::quick;
use crate::replay::{Printed, Replay};

/// What is printed for the event of a number.
pub fn heading(event: &Event, number: usize) -> String {
    let name = match event.kind {
        kind::JOB => "job",
        kind::SCRIPT => "script",
        kind::POKE => "poke",
        kind::DUMP => "table",
        kind::WRITE => "written",
        _ => "unknown",
    };
    format!("{name} {number}\n")
}

/// "`written K ANSWER`, then `area ` and the whole area in hexadecimal"
fn written_text(number: usize, answer: usize, area: &[u8]) -> String {
    let mut text = format!("written {number} {answer}\narea ");
    for byte in area {
        for digit in [byte >> 4, byte & 15] {
            text.push(char::from(b"0123456789abcdef"[usize::from(digit)]));
        }
    }
    text.push('\n');
    text
}

/// "`record P FIRST RIGHT PARENT CHILDREN VALUE EXISTENCE CONTENT LIST`, further
/// fields behind": `LEFT LAST`. A table has many of them, so the digits are made by
/// hand.
fn push_record(text: &mut String, place: usize, record: &Lent) {
    text.push_str("record");
    for number in [
        place as i64,
        i64::from(record.first),
        i64::from(record.right),
        i64::from(record.parent),
        i64::from(record.children),
        i64::from(record.value),
        i64::from(record.existence),
        i64::from(record.content),
        i64::from(record.list),
        i64::from(record.left),
        i64::from(record.last),
    ] {
        text.push(' ');
        push_number(text, number);
    }
    text.push('\n');
}

fn push_number(text: &mut String, number: i64) {
    if number < 0 {
        text.push('-');
    }
    let start = text.len();
    let mut left = number.unsigned_abs();
    loop {
        text.insert(start, char::from(b'0' + (left % 10) as u8));
        left /= 10;
        if left == 0 {
            return;
        }
    }
}

fn variables_text(variables: &[(Level, i32)]) -> String {
    let text = |(level, value): &(Level, i32)| format!("variable {level} {value}\n");
    variables.iter().map(text).collect()
}

fn table_text(records: &[Lent], variables: &[(Level, i32)]) -> String {
    let mut text = String::new();
    for (place, record) in records.iter().enumerate() {
        push_record(&mut text, place, record);
    }
    text + &variables_text(variables)
}

/// The records and the rest of a dump's text.
fn parse_table(text: &str) -> Option<(Vec<Lent>, String)> {
    let mut records = Vec::new();
    let mut rest = String::new();
    for line in text.lines() {
        let Some(numbers) = line.strip_prefix("record ") else {
            writeln!(rest, "{line}").unwrap();
            continue;
        };
        let numbers: Vec<i64> = numbers
            .split(' ')
            .map(|word| word.parse().ok())
            .collect::<Option<_>>()?;
        let [place, first, right, parent, children, value, existence, content, list, left, last] =
            numbers[..]
        else {
            return None;
        };
        if !rest.is_empty() || place != records.len() as i64 {
            return None;
        }
        let word = |number: i64| u32::try_from(number).ok();
        let byte = |number: i64| u8::try_from(number).ok();
        records.push(Lent {
            first: word(first)?,
            right: word(right)?,
            parent: word(parent)?,
            children: word(children)?,
            value: i32::try_from(value).ok()?,
            existence: byte(existence)?,
            content: byte(content)?,
            list: byte(list)?,
            left: word(left)?,
            last: word(last)?,
        });
    }
    Some((records, rest))
}

/// The parts of an output, one for each event.
pub fn split(text: &str) -> Vec<String> {
    const HEADS: [&str; 7] = [
        "job ",
        "script ",
        "poke ",
        "table ",
        "written ",
        "unknown ",
        "truncated",
    ];
    let mut parts: Vec<String> = Vec::new();
    for line in text.split_inclusive('\n') {
        if HEADS.iter().any(|head| line.starts_with(head)) || parts.is_empty() {
            parts.push(String::new());
        }
        parts.last_mut().expect("not empty").push_str(line);
    }
    parts
}

/// What is wrong with an output.
#[derive(Clone, Debug, PartialEq, Eq)]
pub enum Wrong {
    /// At the event of this number.
    Unlike(usize, Unlike),
    /// The history pokes at places that only the program knows: a fault of the
    /// generator.
    Open(usize),
}

/// What was printed for a history, event by event.
pub struct Told {
    /// The number of the first event.
    pub first: usize,
    pub parts: Vec<String>,
}

/// Holds what was printed for a history to the reference, and counts what it
/// reaches.
pub fn check(
    events: &[Event],
    told: &Told,
    mistake: Mistake,
    coverage: &mut Coverage,
) -> Result<(), Wrong> {
    let mut model = Model::new(mistake);
    for (place, event) in events.iter().enumerate() {
        let got = told.parts.get(place).map_or("", |part| part);
        let head = heading(event, told.first + place);
        let expected = match coverage.add_event(&mut model, event) {
            Expected::Outcome(outcome) => head + &frame::text(&outcome),
            Expected::Poked | Expected::Unknown => head,
            Expected::Written { answer, area } => written_text(told.first + place, answer, &area),
            Expected::Table {
                records: Some(records),
                variables,
            } => head + &table_text(&records, &variables),
            Expected::Table {
                records: None,
                variables,
            } => learn(&mut model, head, &variables, got),
            Expected::Open => return Err(Wrong::Open(place)),
        };
        unlike(place, expected, got)?;
    }
    let more = told.parts.get(events.len()).map_or("", |part| part);
    unlike(events.len(), String::new(), more)
}

fn unlike(place: usize, expected: String, got: &str) -> Result<(), Wrong> {
    match got == expected {
        true => Ok(()),
        false => Err(Wrong::Unlike(
            place,
            Unlike {
                expected,
                got: got.into(),
            },
        )),
    }
}

/// The text of a dump that shows for the first time where nodes stand: what was
/// printed, if it may be so; else what is wrong with it.
fn learn(model: &mut Model, head: String, variables: &[(Level, i32)], got: &str) -> String {
    let rest = variables_text(variables);
    let shown = got.strip_prefix(&head).and_then(parse_table);
    match shown {
        Some((records, printed)) if printed == rest => match model.learn(&records) {
            Ok(()) => got.into(),
            Err(wrong) => format!("{head}({wrong})\n"),
        },
        _ => format!("{head}({RECORDS} records that hold the tree)\n{rest}"),
    }
}

/// What plays a history in place of the program.
#[derive(Clone, Copy, Debug, PartialEq, Eq)]
pub enum Player {
    Fast,
    /// The reference, as it is or with a planted mistake.
    Reference(Mistake),
}

/// A program that plays events one after the other.
pub struct Standin {
    player: Player,
    held: Held,
    /// What the last run left, for a mistake that looks at it.
    last: Option<Standing>,
    buffers: Box<Buffers>,
    number: usize,
}

impl Standin {
    pub fn new(player: Player) -> Standin {
        Standin {
            player,
            held: Held::new(),
            last: None,
            buffers: Buffers::new(),
            number: 0,
        }
    }

    /// What the program prints for an event.
    pub fn play(&mut self, event: &Event) -> String {
        let head = heading(event, self.number);
        self.number += 1;
        let outcome = match (event.kind, self.player) {
            (kind::POKE, _) => {
                for entry in Entry::all(&event.body) {
                    self.held.poke(&entry);
                    self.last = None;
                }
                return head;
            }
            (kind::DUMP, _) => {
                let records = &self.held.table[..event.lent()];
                return head + &table_text(records, self.held.variables());
            }
            (kind::WRITE, player) => return self.write(event, player),
            (kind::JOB, Player::Fast) => self.fast_job(event),
            (kind::SCRIPT, Player::Fast) => self.fast_script(event),
            (kind::JOB, Player::Reference(mistake)) => {
                let (outcome, after) =
                    run::start(&event.body, &event.limits(), mistake, &mut |_, _| {});
                self.keep(event, after);
                outcome
            }
            (kind::SCRIPT, Player::Reference(mistake)) => self.reference_script(event, mistake),
            _ => return head,
        };
        head + &frame::text(&outcome)
    }

    /// What stands, written as a job; the event has its number already.
    fn write(&self, event: &Event, player: Player) -> String {
        let mut area = event.area();
        let table = &self.held.table[..event.lent()];
        let variables = self.held.variables();
        let answer = match player {
            Player::Reference(mistake) => {
                let standing = follow::standing(table, variables, mistake);
                writer::write(&standing, event.lent(), &mut area, mistake)
            }
            Player::Fast => {
                let (levels, values): (Vec<u8>, Vec<i32>) = variables.iter().copied().unzip();
                fast::write::write(&records(table), &levels, &values, &mut area)
            }
        };
        written_text(self.number - 1, answer, &area)
    }

    /// Stores what stands now: its nodes from the last place lent on, but for
    /// the root, so that other places than a job's come up.
    fn keep(&mut self, event: &Event, after: Option<Standing>) {
        let Some(standing) = after else {
            return;
        };
        self.held.set_variables(&standing.variables);
        let mut places = vec![0];
        places.extend((1..event.lent()).rev().take(standing.tree.count() - 1));
        store(&standing.tree, &places, &mut self.held.table);
        self.last = Some(standing);
    }

    fn reference_script(&mut self, event: &Event, mistake: Mistake) -> Outcome {
        let table = &self.held.table[..event.lent()];
        let mut standing = follow::standing(table, self.held.variables(), mistake);
        if let (Ok(standing), Some(last)) = (&mut standing, &self.last) {
            standing.cursor = last.cursor.clone();
        }
        let (outcome, after) = follow::follow(
            &standing,
            &event.body,
            &event.limits(),
            mistake,
            &mut |_, _| {},
        );
        self.keep(event, after);
        outcome
    }

    fn fast_job(&mut self, event: &Event) -> Outcome {
        let (outcome, standing) = quick::job(&mut self.buffers, &event.body, &event.limits());
        if let Some(variables) = standing {
            self.held.set_variables(&variables);
            let mut table = records(&self.held.table[..event.lent()]);
            fast::follow::store_job(&self.buffers, &mut table);
            self.put(&table);
        }
        outcome
    }

    fn fast_script(&mut self, event: &Event) -> Outcome {
        let mut table = records(&self.held.table[..event.lent()]);
        let mut variables = self.held.variables().to_vec();
        let outcome = quick::script(
            &mut self.buffers,
            &event.body,
            &event.limits(),
            &mut table,
            &mut variables,
        );
        self.held.set_variables(&variables);
        self.put(&table);
        outcome
    }

    fn put(&mut self, table: &[Record]) {
        for (lent, record) in self.held.table.iter_mut().zip(table) {
            *lent = Lent {
                first: record.first,
                right: record.right,
                parent: record.parent,
                children: record.children,
                value: record.value as i32,
                existence: record.existence as u8,
                content: record.content as u8,
                list: record.list as u8,
                left: record.left,
                last: record.last,
            };
        }
    }
}

/// Lent records in the fast version's form.
pub fn records(table: &[Lent]) -> Vec<Record> {
    let record = |lent: &Lent| Record {
        first: lent.first,
        right: lent.right,
        parent: lent.parent,
        existence: u32::from(lent.existence),
        value: lent.value as u32,
        children: lent.children,
        content: u32::from(lent.content),
        list: u32::from(lent.list),
        left: lent.left,
        last: lent.last,
    };
    table.iter().map(record).collect()
}

/// What histories go through.
#[derive(Clone, Debug)]
pub enum Through {
    Program(Replay),
    Player(Player),
}

impl Through {
    pub fn name(&self) -> String {
        match self {
            Through::Program(program) => program.path.clone(),
            Through::Player(player) => format!("a stand-in, {player:?}"),
        }
    }

    /// What is printed for each history. One process plays them all, and
    /// between two of them all is made blank.
    pub fn told(&self, histories: &[&[Event]]) -> Vec<Told> {
        match self {
            Through::Program(program) => {
                let blank = history::stream(&[Event::blank()]);
                let input = histories.iter().map(|events| history::stream(events));
                let input: Vec<Vec<u8>> = input.collect();
                parted(histories, &text(program.run(input.join(&blank[..]))))
            }
            Through::Player(player) => histories.iter().map(|h| played(*player, h)).collect(),
        }
    }

    pub fn told_one(&self, events: &[Event]) -> Told {
        self.told(&[events]).pop().expect("one")
    }
}

/// What a program printed, and how it ended where that was not well.
pub fn text(printed: Printed) -> String {
    match printed.trouble {
        None => printed.text,
        Some(trouble) => format!("{}({trouble})\n", printed.text),
    }
}

/// The parts of each history in what one process printed. What comes too much
/// is left to the last.
fn parted(histories: &[&[Event]], text: &str) -> Vec<Told> {
    let mut rest = split(text);
    let mut all: Vec<Told> = Vec::new();
    let mut first = 0;
    for events in histories {
        if first > 0 && !rest.is_empty() {
            rest.remove(0);
        }
        let later = rest.split_off(events.len().min(rest.len()));
        all.push(Told { first, parts: rest });
        first += events.len() + 1;
        rest = later;
    }
    let last = all.last_mut().expect("a history");
    last.parts.extend(rest);
    all
}

fn played(player: Player, events: &[Event]) -> Told {
    let mut standin = Standin::new(player);
    let parts = events.iter().map(|event| standin.play(event)).collect();
    Told { first: 0, parts }
}

/// The first lines of what was printed: a table and a board may have many.
pub fn beginning(text: &str) -> String {
    text.split_inclusive('\n').take(40).collect()
}

/// Whether a program answers a stream whose last event is cut as it must: what the
/// events before it print, and that the rest is missing.
pub fn cut_is_told(
    program: &Replay,
    events: &[Event],
    told: impl Fn(&[Event]) -> Vec<String>,
) -> bool {
    let (last, before) = events.split_last().expect("an event");
    let start = history::stream(before);
    let end = history::stream(std::slice::from_ref(last));
    let whole = told(before).concat() + frame::TRUNCATED;
    let cuts = [1, 4, 15, 16, end.len() - 1];
    cuts.into_iter().filter(|&cut| cut < end.len()).all(|cut| {
        let printed = text(program.run([&start[..], &end[..cut]].concat()));
        if printed != whole {
            println!("a last event cut after {cut} bytes prints\n{printed}");
        }
        printed == whole
    })
}

/// A history in a form to read.
pub fn show(events: &[Event]) -> String {
    let mut text = String::new();
    for (number, event) in events.iter().enumerate() {
        let Event {
            budget,
            places,
            lines,
            body,
            ..
        } = event;
        let head = heading(event, number);
        write!(text, "{}", head.trim_end()).unwrap();
        match event.kind {
            kind::JOB | kind::SCRIPT => {
                writeln!(text, ", budget {budget}, places {places}, lines {lines}").unwrap();
                text += &reference::print::section(event.kind == kind::JOB, body);
            }
            kind::POKE => {
                writeln!(text).unwrap();
                for Entry { what, index, value } in Entry::all(body) {
                    let name = match what {
                        what::LEFT => "left of",
                        what::LAST => "last of",
                        _ => FIELDS.get(usize::from(what)).unwrap_or(&"nothing"),
                    };
                    writeln!(text, "  {name} {index} := {}", value as i32).unwrap();
                }
            }
            kind::DUMP => writeln!(text, ", places {places}").unwrap(),
            kind::WRITE => writeln!(text, ", places {places}, area {budget}").unwrap(),
            other => writeln!(text, ", kind {other}, {} bytes", body.len()).unwrap(),
        }
    }
    text
}

/// The fields that a poke sets, from 0 on.
const FIELDS: [&str; 11] = [
    "first of",
    "right of",
    "parent of",
    "children of",
    "value of",
    "existence of",
    "content of",
    "list of",
    "level of variable",
    "value of variable",
    "variables lent",
];
