//! The events of the `history` program, and what must come of them.
//!
//! Two things are left to the program: the place that a node gets, and what
//! free places hold. So after a run the table is not known until a dump shows
//! it; a [`Model`] knows the tree meanwhile, and learns the table from the dump.

use crate::follow;
use crate::job::MAX_VARIABLES;
use crate::mistake::Mistake;
use crate::run::{self, Limits, Observer, Outcome, Standing, MAX_PLACES};
use crate::table::{self, Fault, Lent, NO_LINK};
use crate::tree::Tree;
use crate::writer;
use crate::Level;

/// "The program has 513 node records, all blank at first, 65 places for
/// variables".
pub const RECORDS: usize = MAX_PLACES + 1;
pub const VARIABLES: usize = MAX_VARIABLES + 1;

/// "an area of `budget` bytes (at most 24,000), each of which was 170 before"
pub const MAX_AREA: usize = 24_000;
pub const AREA_BYTE: u8 = 170;

/// Kinds of events.
pub mod kind {
    pub const JOB: u32 = 0;
    pub const SCRIPT: u32 = 1;
    pub const POKE: u32 = 2;
    pub const DUMP: u32 = 3;
    pub const WRITE: u32 = 4;
}

/// "a header of 16 bytes (kind u32, length u32, budget u32, places u16, line
/// capacity u16) and `length` bytes"
#[derive(Clone, Debug, Default, PartialEq, Eq)]
pub struct Event {
    pub kind: u32,
    pub budget: u32,
    pub places: u16,
    pub lines: u16,
    pub body: Vec<u8>,
}

impl Event {
    pub fn write(&self, bytes: &mut Vec<u8>) {
        bytes.extend(self.kind.to_le_bytes());
        bytes.extend((self.body.len() as u32).to_le_bytes());
        bytes.extend(self.budget.to_le_bytes());
        bytes.extend(self.places.to_le_bytes());
        bytes.extend(self.lines.to_le_bytes());
        bytes.extend(&self.body);
    }

    pub fn dump() -> Event {
        Event {
            kind: kind::DUMP,
            places: RECORDS as u16,
            ..Event::default()
        }
    }

    pub fn poke(entries: &[Entry]) -> Event {
        Event {
            kind: kind::POKE,
            body: entries.iter().flat_map(Entry::bytes).collect(),
            ..Event::default()
        }
    }

    /// Makes all blank, as at first.
    pub fn blank() -> Event {
        let record = Lent::default();
        let mut entries: Vec<Entry> = (0..RECORDS)
            .flat_map(|place| Entry::of_record(place, &record))
            .collect();
        for place in 0..VARIABLES {
            entries.push(Entry::new(what::VARIABLE_LEVEL, place, 0));
            entries.push(Entry::new(what::VARIABLE_VALUE, place, 0));
        }
        entries.push(Entry::new(what::VARIABLES, 0, 0));
        Event::poke(&entries)
    }

    /// Records lent: "at most 513".
    pub fn lent(&self) -> usize {
        usize::from(self.places).min(RECORDS)
    }

    /// The area that what stands is written into.
    pub fn area(&self) -> Vec<u8> {
        vec![AREA_BYTE; (self.budget as usize).min(MAX_AREA)]
    }

    /// What the run of a job or script is lent.
    pub fn limits(&self) -> Limits {
        Limits {
            budget: u64::from(self.budget),
            places: self.lent(),
            variables: VARIABLES,
            lines: usize::from(self.lines),
        }
    }
}

/// The bytes of a sequence of events.
pub fn stream(events: &[Event]) -> Vec<u8> {
    let mut bytes = Vec::new();
    for event in events {
        event.write(&mut bytes);
    }
    bytes
}

/// "entries of 8: what u16, index u16, value u32"
#[derive(Clone, Copy, Debug, PartialEq, Eq)]
pub struct Entry {
    pub what: u16,
    pub index: u16,
    pub value: u32,
}

/// "What 0 to 7 sets a field of a node record (first, right, parent, children,
/// value, existence, content, list [...]), 8 a variable's level, 9 a variable's
/// value, 10 how many variables are lent (at most 65)."; "a request that adds a
/// field to the record adds its number from 16 on", which R-7 does.
pub mod what {
    pub const FIRST: u16 = 0;
    pub const RIGHT: u16 = 1;
    pub const PARENT: u16 = 2;
    pub const CHILDREN: u16 = 3;
    pub const VALUE: u16 = 4;
    pub const EXISTENCE: u16 = 5;
    pub const CONTENT: u16 = 6;
    pub const LIST: u16 = 7;
    pub const VARIABLE_LEVEL: u16 = 8;
    pub const VARIABLE_VALUE: u16 = 9;
    pub const VARIABLES: u16 = 10;
    pub const LEFT: u16 = 16;
    pub const LAST: u16 = 17;

    /// Whether it is a field of a node record.
    pub fn of_node(what: u16) -> bool {
        what <= LIST || what == LEFT || what == LAST
    }
}

impl Entry {
    pub fn new(what: u16, index: usize, value: u32) -> Entry {
        let index = index as u16;
        Entry { what, index, value }
    }

    pub fn bytes(&self) -> Vec<u8> {
        let mut bytes = self.what.to_le_bytes().to_vec();
        bytes.extend(self.index.to_le_bytes());
        bytes.extend(self.value.to_le_bytes());
        bytes
    }

    fn from(bytes: &[u8]) -> Entry {
        Entry {
            what: u16::from_le_bytes([bytes[0], bytes[1]]),
            index: u16::from_le_bytes([bytes[2], bytes[3]]),
            value: u32::from_le_bytes([bytes[4], bytes[5], bytes[6], bytes[7]]),
        }
    }

    /// The entries of a poke.
    pub fn all(body: &[u8]) -> Vec<Entry> {
        body.chunks_exact(8).map(Entry::from).collect()
    }

    /// Those that make `record` the record at `place`.
    pub fn of_record(place: usize, record: &Lent) -> [Entry; 10] {
        [
            (what::FIRST, record.first),
            (what::RIGHT, record.right),
            (what::PARENT, record.parent),
            (what::CHILDREN, record.children),
            (what::VALUE, record.value as u32),
            (what::EXISTENCE, u32::from(record.existence)),
            (what::CONTENT, u32::from(record.content)),
            (what::LIST, u32::from(record.list)),
            (what::LEFT, record.left),
            (what::LAST, record.last),
        ]
        .map(|(what, value)| Entry::new(what, place, value))
    }
}

/// What the program holds.
#[derive(Clone, Debug, PartialEq, Eq)]
pub struct Held {
    pub table: Vec<Lent>,
    variables: Vec<(Level, i32)>,
    /// "as many as the last job that was run has variables (0 at first)"
    lent: usize,
}

impl Held {
    pub fn new() -> Held {
        Held {
            table: vec![Lent::default(); RECORDS],
            variables: vec![(0, 0); VARIABLES],
            lent: 0,
        }
    }

    /// The lent variables.
    pub fn variables(&self) -> &[(Level, i32)] {
        &self.variables[..self.lent]
    }

    /// The variables of a job that was run.
    pub fn set_variables(&mut self, variables: &[(Level, i32)]) {
        self.lent = variables.len();
        self.variables[..self.lent].copy_from_slice(variables);
    }

    /// "An index that is not there is passed over".
    pub fn poke(&mut self, entry: &Entry) {
        let (index, value) = (usize::from(entry.index), entry.value);
        if entry.what == what::VARIABLES {
            self.lent = (value as usize).min(VARIABLES);
        }
        if let Some(variable) = self.variables.get_mut(index) {
            match entry.what {
                what::VARIABLE_LEVEL => variable.0 = value as u8,
                what::VARIABLE_VALUE => variable.1 = value as i32,
                _ => {}
            }
        }
        let Some(record) = self.table.get_mut(index) else {
            return;
        };
        match entry.what {
            what::FIRST => record.first = value,
            what::RIGHT => record.right = value,
            what::PARENT => record.parent = value,
            what::CHILDREN => record.children = value,
            what::VALUE => record.value = value as i32,
            what::EXISTENCE => record.existence = value as u8,
            what::CONTENT => record.content = value as u8,
            what::LIST => record.list = value as u8,
            what::LEFT => record.left = value,
            what::LAST => record.last = value,
            _ => {}
        }
    }
}

impl Default for Held {
    fn default() -> Held {
        Held::new()
    }
}

/// What must come of an event.
#[derive(Clone, Debug, PartialEq, Eq)]
pub enum Expected {
    /// Of a job or a script.
    Outcome(Outcome),
    Poked,
    /// Of a dump: the records, where they are known, and the lent variables.
    Table {
        records: Option<Vec<Lent>>,
        variables: Vec<(Level, i32)>,
    },
    /// Of what stands, written as a job: the answer, and the whole area.
    Written {
        answer: usize,
        area: Vec<u8>,
    },
    /// Of an event of no kind.
    Unknown,
    /// What comes depends on places that only the program knows.
    Open,
}

/// What is known of the program after some events.
pub struct Model {
    pub held: Held,
    mistake: Mistake,
    /// A tree that stands somewhere in the first places of the table, where no
    /// dump has shown it yet.
    hidden: Option<Hidden>,
}

struct Hidden {
    standing: Standing,
    places: usize,
    /// The most places that a run was lent since the last dump. Of the records
    /// from here on it is known what they hold.
    unsure: usize,
}

impl Model {
    pub fn new(mistake: Mistake) -> Model {
        Model {
            held: Held::new(),
            mistake,
            hidden: None,
        }
    }

    pub fn expect(&mut self, event: &Event) -> Expected {
        self.observe(event, &mut |_, _| {})
    }

    /// The same, with an observer of every step.
    pub fn observe(&mut self, event: &Event, observer: Observer) -> Expected {
        let limits = event.limits();
        let (outcome, after) = match event.kind {
            kind::JOB => run::start(&event.body, &limits, self.mistake, observer),
            kind::SCRIPT => {
                let Some(standing) = self.standing(limits.places) else {
                    return Expected::Open;
                };
                follow::follow(&standing, &event.body, &limits, self.mistake, observer)
            }
            kind::POKE => return self.poke(&event.body),
            kind::DUMP => return self.dump(event.lent()),
            kind::WRITE => return self.write(event),
            _ => return Expected::Unknown,
        };
        if let Some(standing) = after {
            self.held.set_variables(&standing.variables);
            let places = limits.places;
            let before = self.hidden.as_ref().map_or(0, |hidden| hidden.unsure);
            self.hidden = Some(Hidden {
                standing,
                places,
                unsure: before.max(places),
            });
        }
        Expected::Outcome(outcome)
    }

    /// What stands in the first `places` records; nothing where that depends on
    /// places that only the program knows.
    pub fn standing(&self, places: usize) -> Option<Result<Standing, Fault>> {
        match &self.hidden {
            None => {
                let table = &self.held.table[..places];
                Some(follow::standing(table, self.held.variables(), self.mistake))
            }
            Some(hidden) if places >= hidden.places => {
                let variables = self.held.variables();
                let checked = follow::standing(&[ROOT], variables, self.mistake);
                Some(checked.map(|standing| Standing {
                    variables: standing.variables,
                    ..hidden.standing.clone()
                }))
            }
            Some(_) => None,
        }
    }

    /// The tree that no dump has shown yet.
    pub fn hidden_tree(&self) -> Option<&Tree> {
        self.hidden.as_ref().map(|hidden| &hidden.standing.tree)
    }

    fn poke(&mut self, body: &[u8]) -> Expected {
        let entries = Entry::all(body);
        let at_nodes = entries.iter().any(|entry| what::of_node(entry.what));
        if self.hidden.is_some() && at_nodes {
            return Expected::Open;
        }
        for entry in &entries {
            self.held.poke(entry);
        }
        Expected::Poked
    }

    fn dump(&self, places: usize) -> Expected {
        let records = match &self.hidden {
            None => Some(self.held.table[..places].to_vec()),
            Some(_) if places < RECORDS => return Expected::Open,
            Some(_) => None,
        };
        Expected::Table {
            records,
            variables: self.held.variables().to_vec(),
        }
    }

    fn write(&self, event: &Event) -> Expected {
        let Some(standing) = self.standing(event.lent()) else {
            return Expected::Open;
        };
        let mut area = event.area();
        let answer = writer::write(&standing, event.lent(), &mut area, self.mistake);
        Expected::Written { answer, area }
    }

    /// Takes over a table that a dump of all records shows, or says what is
    /// wrong with it.
    pub fn learn(&mut self, records: &[Lent]) -> Result<(), String> {
        let Some(hidden) = self.hidden.take() else {
            return Ok(());
        };
        if records.len() != RECORDS {
            return Err(format!("{} records are shown", records.len()));
        }
        if records[hidden.unsure..] != self.held.table[hidden.unsure..] {
            return Err(String::from("a record behind the places lent has changed"));
        }
        match table::tree(&records[..hidden.places], Mistake::None) {
            Ok(tree) if tree == hidden.standing.tree => {
                self.held.table = records.to_vec();
                Ok(())
            }
            Ok(tree) => Err(format!("the table holds another tree: {tree:?}")),
            Err(fault) => Err(format!("the table holds no tree: {fault:?}")),
        }
    }
}

/// A root alone.
pub const ROOT: Lent = Lent {
    first: NO_LINK,
    right: NO_LINK,
    parent: NO_LINK,
    children: 0,
    value: 0,
    existence: 0,
    content: 0,
    list: 0,
    left: NO_LINK,
    last: NO_LINK,
};

/// Puts a tree into `table`, its nodes in preorder at the places given, the
/// first of which is 0.
pub fn store(tree: &Tree, places: &[usize], table: &mut [Lent]) {
    store_below(tree, NO_LINK, NO_LINK, &mut places.iter().copied(), table);
}

/// Gives the place of the node, which has no right sibling yet.
fn store_below(
    tree: &Tree,
    parent: u32,
    left: u32,
    places: &mut dyn Iterator<Item = usize>,
    table: &mut [Lent],
) -> u32 {
    let place = places.next().expect("a place for each node");
    table[place] = Lent {
        right: NO_LINK,
        parent,
        children: tree.children.len() as u32,
        value: tree.value,
        existence: tree.existence,
        content: tree.content,
        list: tree.list,
        first: NO_LINK,
        left,
        last: NO_LINK,
    };
    let mut last = NO_LINK;
    for child in &tree.children {
        let at = store_below(child, place as u32, last, places, table);
        match last {
            NO_LINK => table[place].first = at,
            left => table[left as usize].right = at,
        }
        last = at;
    }
    table[place].last = last;
    place as u32
}
