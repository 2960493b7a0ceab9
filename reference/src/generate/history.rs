//! Histories: jobs, follow-on scripts, pokes at what stands, dumps, and what stands
//! written as a job.
//!
//! Pokes put in whole tables, at scattered places and with anything in the free
//! ones, and break them: so what comes does not hang on the places that a
//! program gives its nodes. After a run single fields are poked only behind a
//! dump, which shows the places.

use super::nodes::{self, Growth};
use super::{damaged, levels_of, likely_mistake, script, trial_ending, valid_job};
use crate::arrange::in_order;
use crate::ending::Ending;
use crate::history::{kind, store, what, Entry, Event, Expected, Model, RECORDS, VARIABLES};
use crate::job::{self, command, Record, MAX_RECORDS, MAX_VARIABLES, RECORD_BYTES};
use crate::mistake::Mistake;
use crate::random::Random;
use crate::run::{Limits, Monitor, Standing, MAX_BUDGET, MAX_PLACES};
use crate::source::{nothing, remove_first_child};
use crate::table::{Lent, NO_LINK};
use crate::tree::Tree;
use crate::writer;

/// The history of a seed.
pub fn history(seed: u64) -> Vec<Event> {
    let mut random = Random::new(seed ^ 0x0068_6973_746f_7279);
    let mut writer = Writer::new(&mut random);
    match writer.random.below(8) {
        0 => {}
        1 | 2 => writer.new_table(),
        _ => writer.job(),
    }
    for _ in 0..writer.random.between(1, 7) {
        writer.turn();
    }
    writer.events
}

/// The history of a seed in which nodes are removed, and what stands then is
/// written, loaded into a fresh table and gone on with.
pub fn moved(seed: u64) -> Vec<Event> {
    let mut random = Random::new(seed ^ 0x006d_6f76_6564);
    let mut writer = Writer::new(&mut random);
    writer.resort();
    for _ in 0..writer.random.between(1, 2) {
        writer.prune();
        for _ in 0..writer.random.below(3) {
            writer.script();
        }
        writer.write_whole();
        writer.load_written();
    }
    writer.script();
    writer.write_whole();
    writer.events
}

struct Writer<'a> {
    random: &'a mut Random,
    /// A guess at what stands: right where the places do not matter.
    model: Model,
    events: Vec<Event>,
    /// Whether the program has shown its table since the last run.
    shown: bool,
    /// The places that the next run must be lent if not.
    least: usize,
}

impl<'a> Writer<'a> {
    fn new(random: &'a mut Random) -> Writer<'a> {
        Writer {
            random,
            model: Model::new(Mistake::None),
            events: Vec::new(),
            shown: true,
            least: 0,
        }
    }

    fn push(&mut self, event: Event) {
        let expected = self.model.expect(&event);
        debug_assert_ne!(expected, Expected::Open);
        if event.kind == kind::JOB || event.kind == kind::SCRIPT {
            self.shown = false;
            // Nothing runs over more places than a table may have.
            if event.lent() <= MAX_PLACES {
                self.least = self.least.max(event.lent());
            }
        }
        if event.kind == kind::DUMP && event.lent() == RECORDS {
            self.guess();
            self.shown = true;
            self.least = 0;
        }
        self.events.push(event);
    }

    /// Lets the model learn a table as a program might show it: the nodes in
    /// preorder.
    fn guess(&mut self) {
        let mut table = self.model.held.table.clone();
        if let Some(tree) = self.model.hidden_tree() {
            let places: Vec<usize> = (0..tree.count()).collect();
            store(tree, &places, &mut table);
        }
        // Where nothing was hidden the table was known, and stays.
        self.model.learn(&table).expect("the tree that stands");
    }

    fn poke(&mut self, entries: &[Entry]) {
        self.push(Event::poke(entries));
    }

    fn show(&mut self) {
        if !self.shown {
            self.push(Event::dump());
        }
    }

    fn turn(&mut self) {
        match self.random.weighted(&[9, 4, 5, 2, 2, 3, 2, 1, 2, 1, 3]) {
            0 => self.script(),
            1 => self.damaged_script(),
            2 => self.hostile_table(),
            3 => self.new_table(),
            4 => self.fill_free_places(),
            5 => self.poke_field(),
            6 => self.poke_variables(),
            7 => self.job(),
            8 => self.push(Event::dump()),
            9 => self.odd_event(),
            _ => self.write_back(),
        }
    }

    fn job(&mut self) {
        let (job, limits) = valid_job(self.random);
        let bytes = match self.random.below(6) {
            0 => damaged(self.random.draw()).bytes,
            _ => job.encode(),
        };
        self.push(Event {
            kind: kind::JOB,
            budget: limits.budget.min(5_000) as u32,
            places: limits.places as u16,
            lines: limits.lines as u16,
            body: bytes,
        });
    }

    /// A job with a tree in which there is something to remove.
    fn resort(&mut self) {
        let (mut job, _) = valid_job(self.random);
        let count = match self.random.below(50) {
            0 => MAX_PLACES,
            _ => self.random.between(4, 30),
        };
        let growth = Growth::some(self.random, Random::value);
        job.nodes = in_order(&nodes::grown(self.random, growth, count));
        job.script.clear();
        let places = match self.random.below(3) {
            0 => (count + self.random.below(5)).min(MAX_PLACES),
            _ => MAX_PLACES,
        };
        self.push(Event {
            kind: kind::JOB,
            budget: 1,
            places: places as u16,
            lines: 0,
            body: job.encode(),
        });
    }

    /// A script by which a node is removed.
    fn prune(&mut self) {
        let standing = self.standing();
        let levels = levels_of(&standing.variables);
        let goes_on = &mut |script: &[Record]| {
            let ending = trial_ending(&standing, script, Mistake::None);
            ![Ending::Rule, Ending::Missing, Ending::OutOfRange].contains(&ending)
        };
        let mut event = Event {
            kind: kind::SCRIPT,
            budget: 2_000,
            places: self.places().min(MAX_PLACES as u16),
            lines: 256,
            body: Vec::new(),
        };
        let mut drawn = (0..8).map(|_| script::pruning(self.random, &levels, goes_on));
        let script = drawn
            .find(|script| removes(&standing, script, &event.limits()))
            .unwrap_or_else(|| vec![remove_first_child()]);
        event.body = job::section(&script);
        self.push(event);
    }

    /// What stands, written into an area that is long enough mostly, over places that
    /// hold it mostly; then often the job that comes of it.
    fn write_back(&mut self) {
        let length = writer::written(&self.standing()).len();
        let area = match self.random.below(8) {
            0 => length - 1,
            1 => self.random.below(length),
            2 => self.random.pick(&[0, 1, 19, 24_000, 24_001, 70_000]),
            3 | 4 => length,
            _ => length + self.random.below(40),
        };
        let places = match self.random.below(8) {
            0 => RECORDS as u16,
            1 if self.shown => self.random.pick(&[0, 1, 2, 3]),
            _ => self.places(),
        };
        let body = vec![9; self.random.pick(&[0, 0, 0, 5])];
        self.write(area, places, body);
        if self.random.chance(1, 3) {
            self.load_written();
        }
    }

    /// The same, whole.
    fn write_whole(&mut self) {
        let length = writer::written(&self.standing()).len();
        let area = length + self.random.pick(&[0, 0, 1, 25]);
        let places = self.places().min(MAX_PLACES as u16);
        self.write(area, places, Vec::new());
    }

    fn write(&mut self, area: usize, places: u16, body: Vec<u8>) {
        self.push(Event {
            kind: kind::WRITE,
            budget: area as u32,
            places,
            lines: 0,
            body,
        });
    }

    /// The job that what stands is written as, in a fresh table.
    fn load_written(&mut self) {
        let standing = self.standing();
        let live = standing.tree.count();
        let places = match self.random.below(3) {
            0 => live,
            1 => (live + self.random.below(4)).min(MAX_PLACES),
            _ => MAX_PLACES,
        };
        self.push(Event {
            kind: kind::JOB,
            budget: 1,
            places: places as u16,
            lines: 0,
            body: writer::written(&standing),
        });
    }

    /// What stands, as far as is known; a root alone where nothing does.
    fn standing(&self) -> Standing {
        let places = if self.shown { RECORDS } else { self.least };
        match self.model.standing(places) {
            Some(Ok(standing)) => standing,
            _ => Standing {
                variables: self.model.held.variables().to_vec(),
                tree: alone(),
                cursor: Vec::new(),
            },
        }
    }

    /// Records of a script that gets on over what stands.
    fn records(&mut self) -> Vec<Record> {
        let mut standing = self.standing();
        standing.variables.truncate(MAX_VARIABLES);
        for variable in &mut standing.variables {
            variable.0 = variable.0.min(1);
        }
        let levels = levels_of(&standing.variables);
        let mistake = likely_mistake(self.random);
        let goes_on = &mut |script: &[Record]| {
            let ending = trial_ending(&standing, script, mistake);
            ![Ending::Rule, Ending::Missing, Ending::OutOfRange].contains(&ending)
        };
        match self.random.below(12) {
            0 => Vec::new(),
            1 => script::any(self.random, &levels, &mut |_| true),
            2 => script::endless(self.random, &levels, goes_on),
            _ => script::short(self.random, &levels, goes_on),
        }
    }

    fn script_event(&mut self) -> Event {
        let body = job::section(&self.records());
        let budget = match self.random.below(8) {
            0 => self.random.between(1, 20) as u32,
            1 => 5_000,
            _ => 2_000,
        };
        let lines = match self.random.below(6) {
            0 => self.random.below(4) as u16,
            _ => 256,
        };
        Event {
            kind: kind::SCRIPT,
            budget,
            places: self.places(),
            lines,
            body,
        }
    }

    /// Places that hold what stands: mostly as many as there are, or some more.
    fn places(&mut self) -> u16 {
        let least = match self.shown {
            true => self.used(),
            false => self.least,
        };
        let more = match self.random.below(6) {
            0 | 1 => least,
            2 => least + self.random.below(4),
            _ => MAX_PLACES,
        };
        more.clamp(least.min(RECORDS), RECORDS) as u16
    }

    /// One more than the last place that may hold a live node.
    fn used(&self) -> usize {
        let blank = Lent::default();
        let table = &self.model.held.table;
        table
            .iter()
            .rposition(|&record| record != blank)
            .map_or(1, |place| place + 1)
    }

    fn script(&mut self) {
        let event = self.script_event();
        self.push(event);
        if self.random.chance(1, 3) {
            self.show();
        }
    }

    /// A script that is to be turned away for its bytes, its budget or the
    /// places lent, and now and then for two of them.
    fn damaged_script(&mut self) {
        let mut event = self.script_event();
        for _ in 0..self.random.between(1, 2) {
            match self.random.below(6) {
                0 => {
                    let length = event.body.len();
                    let cut = length.saturating_sub(self.random.between(1, RECORD_BYTES - 1));
                    event.body.truncate(cut);
                    event.body.resize(cut + self.random.below(2), 5);
                }
                1 => {
                    let count = MAX_RECORDS + self.random.below(2);
                    event.body = job::section(&vec![nothing(); count]);
                }
                2 => self.break_record(&mut event),
                3 => event.budget = self.random.pick(&[0, MAX_BUDGET as u32 + 1, u32::MAX]),
                4 => event.places = self.random.pick(&[513, 514, 65_535]),
                _ => {
                    self.show();
                    event.places = self.random.pick(&[0, 1, 2, 3, 512]);
                }
            }
        }
        self.push(event);
    }

    /// A field out of range, or a block that does not fit.
    fn break_record(&mut self, event: &mut Event) {
        let mut records = job::records(&event.body);
        if records.is_empty() {
            records.push(nothing());
        }
        let place = self.random.below(records.len());
        let record = &mut records[place];
        match self.random.below(4) {
            0 => record.command = self.random.pick(&[20, 255]),
            1 => record.command = self.random.pick(&[2, 3, 4, 5]),
            2 => record.target = self.random.byte(),
            _ => {
                record.command = 6;
                record.left_kind = 1;
                record.left = self.model.held.variables().len() as u32;
            }
        }
        event.body = job::section(&records);
    }

    /// A tree at scattered places, with anything in the free ones.
    fn scattered(&mut self) -> (Vec<Lent>, Vec<usize>) {
        let growth = Growth::some(self.random, Random::value);
        let tree = match self.random.below(3) {
            0 => self.standing().tree,
            _ => Tree::from_records(&nodes::any(self.random, growth)),
        };
        let live = tree.count();
        let most = (live + self.random.pick(&[0, 1, 3, 10])).min(RECORDS);
        let mut others: Vec<usize> = (1..most).collect();
        let mut places = vec![0];
        while places.len() < live {
            let choice = self.random.below(others.len());
            places.push(others.swap_remove(choice));
        }
        let mut table: Vec<Lent> = (0..most).map(|_| anything(self.random, most)).collect();
        store(&tree, &places, &mut table);
        (table, places)
    }

    fn new_table(&mut self) {
        let (table, _) = self.scattered();
        self.put_table(&table);
        if self.random.chance(1, 2) {
            self.some_variables();
        }
        self.lend(table.len());
    }

    fn put_table(&mut self, table: &[Lent]) {
        self.show();
        let entries: Vec<Entry> = table
            .iter()
            .enumerate()
            .flat_map(|(place, record)| Entry::of_record(place, record))
            .collect();
        self.poke(&entries);
    }

    /// A script over the first `places` records.
    fn lend(&mut self, places: usize) {
        let mut event = self.script_event();
        event.places = places as u16;
        if self.random.chance(1, 8) {
            event.body.clear();
        }
        self.push(event);
    }

    fn some_variables(&mut self) {
        let count = match self.random.below(6) {
            0 => self.random.pick(&[0, 63, 64]),
            _ => self.random.between(1, 6),
        };
        let mut entries = vec![Entry::new(what::VARIABLES, 0, count as u32)];
        for index in 0..count {
            let level = self.random.pick(&[0, 0, 1, 1, 2, 3, 255]);
            let value = self.random.value() as u32;
            entries.push(Entry::new(what::VARIABLE_LEVEL, index, level));
            entries.push(Entry::new(what::VARIABLE_VALUE, index, value));
        }
        self.poke(&entries);
    }

    /// A table that no accepted job could hold, mostly; then often the same one
    /// mended.
    fn hostile_table(&mut self) {
        let (mut table, mut places) = match self.random.below(12) {
            0 => too_many(self.random),
            1 => (vec![Lent::default(); 3], vec![0]),
            _ => self.scattered(),
        };
        let whole = table.clone();
        for _ in 0..self.random.pick(&[1, 1, 1, 2]) {
            break_table(self.random, &mut table, &mut places);
        }
        self.put_table(&table);
        let lent = match self.random.below(6) {
            0 => RECORDS,
            1 => MAX_PLACES,
            _ => table.len(),
        };
        self.lend(lent);
        if self.random.chance(1, 3) {
            self.put_table(&whole);
            self.lend(whole.len());
        }
    }

    /// Anything in records behind those that are used.
    fn fill_free_places(&mut self) {
        self.show();
        let used = self.used();
        let more = self.random.between(1, 6);
        let mut entries = Vec::new();
        for place in used..(used + more).min(RECORDS) {
            let record = anything(self.random, used + more);
            entries.extend(Entry::of_record(place, &record));
        }
        self.poke(&entries);
        self.script();
    }

    /// Single fields of a table that a program has shown.
    fn poke_field(&mut self) {
        self.show();
        let mut entries = Vec::new();
        for _ in 0..self.random.between(1, 2) {
            let place = match self.random.below(4) {
                0 => 0,
                1 => self.random.pick(&[512, 513, 600]),
                _ => self.random.below(8),
            };
            let field = match self.random.below(10) as u16 {
                8 => what::LEFT,
                9 => what::LAST,
                field => field,
            };
            let value = match field {
                what::EXISTENCE..=what::LIST => self.random.pick(&[0, 0, 1, 1, 2, 255]),
                what::VALUE => self.random.value() as u32,
                what::CHILDREN => self.random.below(4) as u32,
                _ => self
                    .random
                    .pick(&[NO_LINK, NO_LINK, 0, 1, 2, 3, 65_536, 512]),
            };
            entries.push(Entry::new(field, place, value));
        }
        self.poke(&entries);
        let event = Event {
            places: self.random.pick(&[MAX_PLACES, RECORDS, 8, 3]) as u16,
            ..self.script_event()
        };
        self.push(event);
    }

    fn poke_variables(&mut self) {
        let lent = self.model.held.variables().len();
        let entry = match self.random.below(5) {
            0 => Entry::new(what::VARIABLES, 0, self.random.pick(&[0, 1, 3, 64, 65])),
            1 => {
                let level = self.random.pick(&[0, 1, 2, 255]);
                Entry::new(what::VARIABLE_LEVEL, self.random.below(lent + 1), level)
            }
            2 => Entry::new(what::VARIABLE_VALUE, VARIABLES + self.random.below(2), 7),
            _ => {
                let value = self.random.value() as u32;
                Entry::new(what::VARIABLE_VALUE, self.random.below(lent + 1), value)
            }
        };
        self.poke(&[entry]);
        self.script();
    }

    /// A kind that is none, a poke that sets nothing, or a body that is longer
    /// than any job or section.
    fn odd_event(&mut self) {
        let event = match self.random.below(4) {
            0 => Event {
                kind: self.random.pick(&[5, 6, 256, 65_536, u32::MAX]),
                body: vec![7; self.random.below(40)],
                ..Event::default()
            },
            1 => Event::poke(&[
                Entry::new(11, 0, 1),
                Entry::new(15, 3, 9),
                Entry::new(18, 1, 7),
            ]),
            _ => Event {
                kind: self.random.pick(&[kind::JOB, kind::SCRIPT]),
                budget: 10,
                places: 512,
                body: vec![0; self.random.pick(&[16_400, 23_056, 30_000, 70_000])],
                ..Event::default()
            },
        };
        self.push(event);
    }
}

/// Whether a script over what stands carries a removal out.
fn removes(standing: &Standing, script: &[Record], limits: &Limits) -> bool {
    let mut found = false;
    let monitor = Monitor::new(script, standing, limits, Mistake::None);
    monitor.run(&mut |_, record| {
        found |=
            [command::REMOVE_FIRST_CHILD, command::REMOVE_RIGHT_SIBLING].contains(&record.command);
    });
    found
}

fn alone() -> Tree {
    Tree {
        value: 0,
        existence: 0,
        content: 0,
        list: 0,
        children: Vec::new(),
    }
}

/// A free place may hold anything: here often what looks like a node.
fn anything(random: &mut Random, places: usize) -> Lent {
    let link = |random: &mut Random| match random.below(4) {
        0 => NO_LINK,
        1 => random.draw() as u32,
        _ => random.below(places) as u32,
    };
    Lent {
        first: link(random),
        right: link(random),
        parent: link(random),
        children: random.below(5) as u32,
        value: random.value(),
        existence: random.pick(&[0, 0, 1, 1, 2, 255]),
        content: random.pick(&[0, 1, 1, 77]),
        list: random.pick(&[0, 1, 1, 200]),
        left: link(random),
        last: link(random),
    }
}

/// 512 live nodes in 513 records, the last of them live; or 513 live nodes.
fn too_many(random: &mut Random) -> (Vec<Lent>, Vec<usize>) {
    let live = random.pick(&[MAX_PLACES, RECORDS]);
    let chain = random.chance(1, 2);
    let first = RECORDS - live + 1;
    let mut places = vec![0];
    places.extend(first..RECORDS);
    let mut table = vec![anything(random, RECORDS); RECORDS];
    for (index, &place) in places.iter().enumerate() {
        let next = places.get(index + 1).map_or(NO_LINK, |&next| next as u32);
        let before = index.checked_sub(1).map_or(NO_LINK, |i| places[i] as u32);
        let root = index == 0;
        table[place] = Lent {
            first: if chain || root { next } else { NO_LINK },
            right: if chain || root { NO_LINK } else { next },
            parent: if chain || root { before } else { 0 },
            children: match (chain, root) {
                (true, _) => (next != NO_LINK) as u32,
                (false, true) => live as u32 - 1,
                (false, false) => 0,
            },
            left: if chain || index < 2 { NO_LINK } else { before },
            last: match (chain, root) {
                (true, _) => next,
                (false, true) => places[live - 1] as u32,
                (false, false) => NO_LINK,
            },
            ..Lent::default()
        };
    }
    (table, places)
}

/// One of the ways to break a table whose live nodes stand at `places`, in
/// preorder; some leave a tree.
fn break_table(random: &mut Random, table: &mut Vec<Lent>, places: &mut Vec<usize>) {
    let some = random.pick(places);
    let other = random.pick(places) as u32;
    let count = table.len() as u32;
    let outside = [count, count + 1, 65_534, 65_536, 65_536 + other, u32::MAX];
    let record = &mut table[some];
    match random.below(17) {
        // A link to any live node: a ring, or a place that is reached twice.
        0 => record.first = other,
        1 => record.right = other,
        2 => record.first = some as u32,
        3 => record.right = some as u32,
        4 => record.first = random.pick(&outside),
        5 => record.right = random.pick(&outside),
        6 => record.parent = random.pick(&[other, NO_LINK, 0, count, 65_536]),
        7 => {
            let children = record.children;
            record.children = random.pick(&[
                children.wrapping_add(1),
                children.wrapping_sub(1),
                children.wrapping_add(65_536),
                0,
                u32::MAX,
            ]);
        }
        8 => root_with_sibling(random, table, places),
        9 => table[0].parent = random.pick(&[0, 1, count, 65_534]),
        10 => {
            let level = random.pick(&[2, 3, 128, 255]);
            set_level(random, record, level);
        }
        11 | 12 => {
            let level = random.pick(&[0, 1, 1, 2]);
            set_level(random, record, level);
        }
        // What the moves of R-7 go by: another node, itself, none, no place.
        13 => record.left = random.pick(&[other, some as u32, NO_LINK, record.right, outside[0]]),
        14 => record.last = random.pick(&[other, some as u32, NO_LINK, record.first, outside[0]]),
        15 => table[0].left = random.pick(&[0, 1, count, 65_534]),
        _ => {
            record.first = NO_LINK;
            record.children = random.pick(&[0, record.children]);
            record.last = random.pick(&[NO_LINK, record.last]);
        }
    }
}

fn set_level(random: &mut Random, record: &mut Lent, level: u8) {
    match random.below(3) {
        0 => record.existence = level,
        1 => record.content = level,
        _ => record.list = level,
    }
}

/// The root gets a right sibling that would do for a child.
fn root_with_sibling(random: &mut Random, table: &mut Vec<Lent>, places: &[usize]) {
    let free = (0..table.len()).find(|place| !places.contains(place));
    let place = match free {
        Some(place) => place,
        None if table.len() < RECORDS => {
            table.push(Lent::default());
            table.len() - 1
        }
        None => return,
    };
    table[0].right = place as u32;
    table[place] = Lent {
        first: NO_LINK,
        right: NO_LINK,
        parent: random.pick(&[NO_LINK, 0]),
        left: 0,
        last: NO_LINK,
        ..Lent::default()
    };
}
