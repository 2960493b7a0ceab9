//! What a set of cases has reached: commands carried out and the levels they
//! ran at, expressions, endings, stops by command, reasons for a refusal, and
//! levels of nodes.

use std::collections::BTreeMap;
use std::fmt;

use crate::ending::Ending;
use crate::follow;
use crate::generate::Case;
use crate::history::{self, Event, Expected, Model};
use crate::job::{self, command, kind, operator, Job, Record, Target, MAX_BLOCKS, READS};
use crate::mistake::{Mistake, RULED_COMMANDS};
use crate::rounds::{self, Reply, Roof, MAX_RUNS, TURN_STEPS};
use crate::run::{self, Outcome, State};
use crate::table::Fault;
use crate::tree::{Path, Tree};
use crate::{apart, join, Level, PUBLIC};

/// How often each thing came up, by its name.
#[derive(Clone, Debug, Default, PartialEq, Eq)]
pub struct Coverage {
    counts: BTreeMap<String, u64>,
    /// Of an order of newcomers and turns: a run has ended since the roof was empty.
    ended_before: bool,
}

/// What the steps of one case met, by number: a step is counted too often to be
/// named each time.
#[derive(Default)]
struct Steps {
    /// By command, context and cursor level.
    levels: [[[u64; 2]; 2]; command::COUNT],
    /// By operator and kinds.
    expressions: [[[u64; 4]; 4]; 6],
    deepest: u64,
    /// Public variables that took a number at a cursor level of 1.
    counted_under_cover: u64,
    /// Last children of existence 0 below a list of level 1.
    public_lasts: u64,
    /// The command that opened each open block, and where the cursor was.
    open: Vec<(u8, Path)>,
    /// Ifs that come back: inside another, inside a while, back to a node that
    /// has other siblings to its left.
    back_in_back: u64,
    back_in_while: u64,
    back_elsewhere: u64,
    /// What R-12 brings, by the place in [`SETS`].
    sets: [u64; SETS.len()],
    /// By command and the new node's levels.
    insertions: BTreeMap<(u8, [Level; 3]), u64>,
}

/// Lengths of runs, in steps, that are counted.
const LONG_RUNS: [u64; 4] = [100, 2_000, 100_000, 1_000_000];

impl Coverage {
    pub fn new() -> Coverage {
        Coverage::default()
    }

    /// Runs the reference on `case`, counts what it meets, and hands back the
    /// outcome.
    pub fn add(&mut self, case: &Case) -> Outcome {
        let mut steps = Steps::default();
        let outcome = run::observed(
            &case.bytes,
            &case.limits,
            Mistake::None,
            &mut |state, record| steps.add(state, record),
        );
        self.add_steps(&steps);
        self.count(ending_name(outcome.ending));
        if !outcome.ending.turned_back() {
            self.add_nodes(case);
        }
        for least in LONG_RUNS
            .into_iter()
            .filter(|&least| outcome.steps >= least)
        {
            self.count(length_name(least));
        }
        self.add_place(case, &outcome);
        outcome
    }

    pub fn of(&self, name: &str) -> u64 {
        self.counts.get(name).copied().unwrap_or(0)
    }

    /// The names of [`wanted`] that never came up.
    pub fn missing(&self) -> Vec<String> {
        self.missing_of(wanted())
    }

    /// The names of [`wanted_of_histories`] that never came up.
    pub fn missing_of_histories(&self) -> Vec<String> {
        self.missing_of(wanted_of_histories())
    }

    /// The names of [`wanted_of_rounds`] that never came up.
    pub fn missing_of_rounds(&self) -> Vec<String> {
        self.missing_of(wanted_of_rounds())
    }

    fn missing_of(&self, wanted: Vec<String>) -> Vec<String> {
        let never = |name: &String| self.of(name) == 0;
        wanted.into_iter().filter(never).collect()
    }

    /// Lets `model` take in an event of a history, counts what it meets, and
    /// hands back what must come.
    pub fn add_event(&mut self, model: &mut Model, event: &Event) -> Expected {
        self.count(event_name(event.kind));
        match event.kind {
            history::kind::SCRIPT => self.add_script(model, event),
            history::kind::WRITE => self.add_write(model, event),
            _ => model.expect(event),
        }
    }

    /// What stands, written as a job: each answer, and the edges of the area.
    fn add_write(&mut self, model: &mut Model, event: &Event) -> Expected {
        let expected = model.expect(event);
        if let Expected::Written { answer, area } = &expected {
            let rest = area.len().checked_sub(*answer);
            self.count(String::from(match (*answer, rest) {
                (10, _) => WRITE_TURNED_AWAY[0],
                (11, _) => WRITE_TURNED_AWAY[1],
                (14, _) => WRITE_TURNED_AWAY[2],
                (_, Some(0)) => WRITTEN[0],
                _ => WRITTEN[1],
            }));
        }
        expected
    }

    fn add_script(&mut self, model: &mut Model, event: &Event) -> Expected {
        let before = model.standing(event.lent());
        let fault = follow::records(&event.body, Mistake::None).err();
        let fault = fault.or(before.and_then(Result::err));
        let full = model.held.table.len() == event.lent();
        let mut steps = Steps::default();
        let expected = model.observe(event, &mut |state, record| steps.add(state, record));
        let Expected::Outcome(outcome) = &expected else {
            return expected;
        };
        self.count(script_ending_name(outcome.ending));
        match (outcome.ending, fault) {
            (Ending::Standing, Some(fault)) => self.count(fault_name(fault)),
            (Ending::Buffer, _) if full => self.count(String::from(MORE_PLACES)),
            _ => {}
        }
        for (command, by_context) in (0..).zip(&steps.levels) {
            let carried_out = by_context.iter().flatten().sum();
            self.count_all(follow_on_name(command), carried_out);
        }
        expected
    }

    /// Lets `roof` take in a newcomer or a turn, counts what it meets, and hands back
    /// what must come.
    pub fn add_round(&mut self, roof: &mut Roof, event: &Event) -> Reply {
        let before = roof.unended();
        let reply = roof.expect(event);
        self.count(round_event_name(event.kind));
        match &reply {
            Reply::Taken => {
                let between = self.ended_before && before > 0;
                self.count_all(String::from(PLACE_AGAIN), between as u64);
            }
            Reply::TurnedBack(outcome) => {
                self.count(newcomer_name(outcome.ending));
                let alone = || run::admitted(&event.body, &event.limits(), Mistake::None);
                if outcome.ending == Ending::NoPlace && alone().is_err() {
                    self.count(String::from(UNREAD));
                }
            }
            Reply::Turn { took, ended, .. } => self.add_turn(roof, *took, ended.as_ref(), before),
            Reply::Idle => self.count(String::from(IDLE)),
            Reply::Unknown => {}
        }
        let ended = matches!(&reply, Reply::Turn { ended: Some(_), .. });
        self.ended_before = roof.unended() > 0 && (ended || self.ended_before);
        reply
    }

    fn add_turn(&mut self, roof: &Roof, took: u64, ended: Option<&Outcome>, unended: usize) {
        self.count_all(String::from(FULL_CIRCLE), (unended == MAX_RUNS) as u64);
        let Some(outcome) = ended else {
            let state = roof.last().expect("the run that had the turn");
            let met = [
                true,
                !state.guards.is_empty(),
                state.guards.iter().any(|&guard| guard != PUBLIC),
                state.cursor_level != PUBLIC,
                !state.cursor.is_empty(),
                state.remembered.iter().any(Option::is_some),
                !state.lines.is_empty(),
            ];
            for (name, met) in AT_THE_EDGE.into_iter().zip(met) {
                self.count_all(String::from(name), met as u64);
            }
            return;
        };
        self.count(run_ending_name(outcome.ending));
        let edge = outcome.steps % TURN_STEPS == 0;
        match (outcome.ending, took) {
            (Ending::Finished, 0) if outcome.steps == 0 => self.count(String::from(EMPTY_SCRIPT)),
            (Ending::Finished | Ending::BudgetUsed, TURN_STEPS) => {
                self.count(edge_name(outcome.ending, outcome.steps))
            }
            (_, 0) if edge && outcome.steps > 0 => self.count(String::from(STOP_BEHIND)),
            _ => {}
        }
    }

    fn count(&mut self, name: String) {
        self.count_all(name, 1);
    }

    fn count_all(&mut self, name: String, count: u64) {
        if count > 0 {
            *self.counts.entry(name).or_insert(0) += count;
        }
    }

    fn add_steps(&mut self, steps: &Steps) {
        for (command, by_context) in (0..).zip(&steps.levels) {
            let carried_out = by_context.iter().flatten().sum();
            self.count_all(command_name(command), carried_out);
            for (context, by_cursor) in (0..).zip(by_context) {
                for (cursor, &count) in (0..).zip(by_cursor) {
                    self.count_all(levels_name(command, context, cursor), count);
                }
            }
        }
        for (operator, by_left) in (0..).zip(&steps.expressions) {
            for (left_kind, by_right) in (0..).zip(by_left) {
                for (right_kind, &count) in (0..).zip(by_right) {
                    let record = Record {
                        operator,
                        left_kind,
                        right_kind,
                        ..Record::default()
                    };
                    self.count_all(expression_name(&record), count);
                }
            }
        }
        self.count_all(String::from(DEEPEST), steps.deepest);
        self.count_all(String::from(COUNTED), steps.counted_under_cover);
        self.count_all(String::from(PUBLIC_LAST), steps.public_lasts);
        for (name, count) in SETS.into_iter().zip(steps.sets) {
            self.count_all(String::from(name), count);
        }
        self.count_all(String::from(BACK_IN_BACK), steps.back_in_back);
        self.count_all(String::from(BACK_IN_WHILE), steps.back_in_while);
        self.count_all(String::from(BACK_ELSEWHERE), steps.back_elsewhere);
        for (&(command, levels), &count) in &steps.insertions {
            self.count_all(insertion_name(command, levels), count);
        }
    }

    /// The levels of the nodes that an accepted job brings.
    fn add_nodes(&mut self, case: &Case) {
        for node in job::split(&case.bytes).expect("check 2 passed").nodes {
            self.count(node_name(
                [node.existence, node.content, node.list].map(some),
            ));
        }
    }

    /// Where a stop or a refusal came from.
    fn add_place(&mut self, case: &Case, outcome: &Outcome) {
        let at = |script: &[Record]| script.get(outcome.index).map(|record| record.command);
        match outcome.ending {
            Ending::Finished => {}
            Ending::Tree => {
                if shows(case, outcome, Mistake::TreeSetsCompared) {
                    self.count(String::from(APART_TREE));
                }
            }
            Ending::Field => {
                let parts = job::split(&case.bytes).expect("check 2 passed");
                let record = &parts.script[outcome.index];
                self.count(field_name(faulty_field(record, parts.variables.len())));
            }
            Ending::Spare => {
                let parts = job::split(&case.bytes).expect("check 2 passed");
                self.count(spare_name(spare_part(&parts)));
            }
            Ending::Block => {
                let script = job::split(&case.bytes).expect("check 2 passed").script;
                self.count(block_name(at(&script)));
            }
            ending if !ending.turned_back() => {
                let script = job::split(&case.bytes).expect("check 2 passed").script;
                let command = at(&script).expect("a stop has a record");
                self.count(stop_name(ending, command));
                if ending == Ending::Rule && shows(case, outcome, Mistake::SetsCompared) {
                    self.count(apart_stop_name(command));
                }
                if ending == Ending::Missing
                    && command == command::END
                    && place_taken(case, outcome)
                {
                    self.count(String::from(PLACE_TAKEN));
                }
            }
            _ => {}
        }
    }
}

/// Whether another node stands where the one stood that an end should have
/// brought back.
fn place_taken(case: &Case, outcome: &Outcome) -> bool {
    let mut taken = false;
    run::observed(&case.bytes, &case.limits, Mistake::None, &mut |state, _| {
        if state.steps == outcome.steps {
            let remembered = state.remembered.last().and_then(Option::as_ref);
            taken = remembered.is_some_and(|node| state.tree.stands(&node.place));
        }
    });
    taken
}

impl Steps {
    fn add(&mut self, state: &State, record: &Record) {
        self.add_block(state, record);
        let command = usize::from(record.command);
        let context = state.guards.iter().copied().fold(PUBLIC, join);
        let (outer, inner) = (some(context), some(state.cursor_level));
        self.levels[command][usize::from(outer)][usize::from(inner)] += 1;
        self.add_sets(state, record, context);
        if READS[command].expression {
            // The right side of operator 0 is ignored, and may be anything.
            let right_kind = match record.operator {
                operator::LEFT => 0,
                _ => record.right_kind,
            };
            let by_kinds = &mut self.expressions[usize::from(record.operator)];
            by_kinds[usize::from(record.left_kind)][usize::from(right_kind)] += 1;
        }
        self.deepest += (state.guards.len() == MAX_BLOCKS) as u64;
        if record.command == command::ASSIGN && state.cursor_level != PUBLIC {
            let (level, _) = state.variables[usize::from(record.target)];
            self.counted_under_cover += (level == PUBLIC) as u64;
        }
        if record.command == command::LAST_CHILD {
            let (_, above) = state.cursor.split_last().expect("a child");
            let public = state.tree.at(&state.cursor).existence == PUBLIC;
            self.public_lasts += (public && state.tree.at(above).list != PUBLIC) as u64;
        }
        let new_node = match (record.command, state.cursor.split_last()) {
            (command::NEW_FIRST_CHILD, _) => &state.tree.at(&state.cursor).children[0],
            (command::NEW_RIGHT_SIBLING, Some((place, above))) => {
                &state.tree.at(above).children[place + 1]
            }
            _ => return,
        };
        let insertion = (record.command, levels(new_node).map(some));
        *self.insertions.entry(insertion).or_insert(0) += 1;
    }

    /// What R-12 brings.
    fn add_sets(&mut self, state: &State, record: &Record, context: Level) {
        let mut met = |place: usize, met: bool| self.sets[place] += met as u64;
        met(
            0,
            record.command == command::PRINT && record.target != PUBLIC,
        );
        met(
            1,
            record.command == command::PRINT && context != PUBLIC && record.target != context,
        );
        met(2, record.command == command::COVER && record.sets[0] > 1);
        let joined = record.sets[0] != PUBLIC && record.sets[0] != state.cursor_level;
        met(3, record.command == command::COVER && joined);
        let inserts = [command::NEW_FIRST_CHILD, command::NEW_RIGHT_SIBLING];
        let inserted = inserts.contains(&record.command);
        met(4, inserted && record.sets[0] > 1 && record.target % 2 == 1);
        met(5, inserted && record.sets[1] > 1 && record.target >= 2);
        met(6, apart(context, state.cursor_level));
        let levels: Vec<Level> = state.variables.iter().map(|variable| variable.0).collect();
        met(
            7,
            levels
                .iter()
                .any(|&one| levels.iter().any(|&other| apart(one, other))),
        );
    }

    /// A block that was opened or closed.
    fn add_block(&mut self, state: &State, record: &Record) {
        if state.guards.len() > self.open.len() {
            if record.command == command::IF_BACK {
                let inside = |command| self.open.iter().any(|open| open.0 == command) as u64;
                self.back_in_back += inside(command::IF_BACK);
                self.back_in_while += inside(command::WHILE);
            }
            self.open.push((record.command, state.cursor.clone()));
        } else if state.guards.len() < self.open.len() {
            let (command, place) = self.open.pop().expect("a block is open");
            let comes_back = command == command::IF_BACK;
            self.back_elsewhere += (comes_back && place != state.cursor) as u64;
        }
    }
}

impl fmt::Display for Coverage {
    fn fmt(&self, f: &mut fmt::Formatter) -> fmt::Result {
        for (name, count) in &self.counts {
            writeln!(f, "{count:>10}  {name}")?;
        }
        Ok(())
    }
}

fn levels(node: &Tree) -> [Level; 3] {
    [node.existence, node.content, node.list]
}

/// 0 for nobody's matters, 1 for somebody's.
fn some(level: Level) -> Level {
    (level != PUBLIC) as Level
}

/// R-12, in a run.
const SETS: [&str; 8] = [
    "line for some readers",
    "line for more readers than the context needs",
    "cover of a set",
    "cover that joins a set to another",
    "new content of a set and the first party",
    "new list of a set and the first party",
    "context and cursor level apart",
    "variables of sets apart",
];

/// R-12, a 21 and a 6 that a comparison of numbers would not give.
fn apart_stop_name(command: u8) -> String {
    format!("stop 21 at command {command:02}, for sets apart")
}

const APART_TREE: &str = "refusal 06 for sets apart";

/// Whether a monitor with `mistake` ends in another way.
fn shows(case: &Case, outcome: &Outcome, mistake: Mistake) -> bool {
    let other = run::outcome_with(&case.bytes, &case.limits, mistake);
    (other.ending, other.index, other.steps) != (outcome.ending, outcome.index, outcome.steps)
}

/// Sixteen blocks open at once, in a run.
const DEEPEST: &str = "run with 16 open blocks";

/// a public counter steps while the cursor is covered.
const COUNTED: &str = "public variable assigned under cover";

/// the list level counts where no house child stands.
const PUBLIC_LAST: &str = "last child of existence 0 below a list that is not public";

/// R-6, ifs that come back.
const BACK_IN_BACK: &str = "if that comes back inside another";
const BACK_IN_WHILE: &str = "if that comes back inside a while";
const BACK_ELSEWHERE: &str = "if that comes back to a node with other siblings to its left";
const PLACE_TAKEN: &str = "stop 22 at command 05, another node in the place";

/// The fields that check 7 looks at.
const FIELDS: [&str; 8] = [
    "command",
    "variable as target",
    "mark",
    "operator",
    "left kind",
    "left variable",
    "right kind",
    "right variable",
];

/// The first of them that is out of range in a record that check 7 turned back.
fn faulty_field(record: &Record, variables: usize) -> &'static str {
    let Some(reads) = READS.get(record.command as usize) else {
        return FIELDS[0];
    };
    let kind_fault = |kind: u8| kind > kind::CHILDREN;
    match reads.target {
        Target::Variable if record.target as usize >= variables => FIELDS[1],
        Target::Mark if record.target > 3 => FIELDS[2],
        _ if record.operator > operator::MEAN => FIELDS[3],
        _ if kind_fault(record.left_kind) => FIELDS[4],
        _ if record.left_kind == kind::VARIABLE && record.left as usize >= variables => FIELDS[5],
        _ if kind_fault(record.right_kind) => FIELDS[6],
        _ => FIELDS[7],
    }
}

fn field_name(field: &str) -> String {
    format!("refusal 07 for the {field}")
}

/// What check 12 looks at.
const SPARE: [&str; 8] = [
    "variable",
    "node",
    "target",
    "operator or left kind",
    "right kind",
    "bytes 5 to 7",
    "left number",
    "right number",
];

/// The first of them that is not zero in a job that check 12 turned back.
fn spare_part(job: &Job) -> &'static str {
    let plain = job.plain(&READS, Mistake::None);
    if job.variables != plain.variables {
        return SPARE[0];
    }
    if job.nodes != plain.nodes {
        return SPARE[1];
    }
    let mut records = job.script.iter().zip(&plain.script);
    let (record, plain) = records
        .find(|(record, plain)| record != plain)
        .expect("a spare byte");
    match record {
        _ if record.target != plain.target => SPARE[2],
        _ if record.operator != plain.operator => SPARE[3],
        _ if record.left_kind != plain.left_kind => SPARE[3],
        _ if record.right_kind != plain.right_kind => SPARE[4],
        _ if (record.sets, record.spare) != (plain.sets, plain.spare) => SPARE[5],
        _ if record.left != plain.left => SPARE[6],
        _ => SPARE[7],
    }
}

fn spare_name(part: &str) -> String {
    format!("refusal 12 for the {part}")
}

fn node_name(levels: [Level; 3]) -> String {
    let [existence, content, list] = levels;
    format!("job with a node of levels {existence} {content} {list}")
}

/// The context and the cursor level that a command leaves.
fn levels_name(command: u8, context: Level, cursor: Level) -> String {
    format!("command {command:02}, then context {context} and cursor level {cursor}")
}

fn expression_name(record: &Record) -> String {
    let (operator, left, right) = (record.operator, record.left_kind, record.right_kind);
    match operator {
        operator::LEFT => format!("operator 0 of kind {left}"),
        _ => format!("operator {operator} of kinds {left} and {right}"),
    }
}

fn command_name(command: u8) -> String {
    format!("command {command:02} carried out")
}

fn ending_name(ending: Ending) -> String {
    format!("ending {:02}", ending.number())
}

fn length_name(steps: u64) -> String {
    format!("run of {steps:>7} steps or more")
}

fn stop_name(ending: Ending, command: u8) -> String {
    format!("stop {} at command {command:02}", ending.number())
}

fn insertion_name(command: u8, levels: [Level; 3]) -> String {
    let [existence, content, list] = levels;
    format!("insertion {command} with levels {existence} {content} {list}")
}

fn block_name(command: Option<u8>) -> String {
    match command {
        Some(command) => format!("refusal 08 at command {command:02}"),
        None => String::from("refusal 08 for an unclosed block"),
    }
}

/// 10 of a follow-on script: 513 places.
const MORE_PLACES: &str = "script turned away with 10 for 513 places";

/// What stands, written as a job.
const WRITE_TURNED_AWAY: [&str; 3] = [
    "writing turned away with 10",
    "writing turned away with 11",
    "writing turned away with 14",
];
const WRITTEN: [&str; 2] = [
    "written into an area as long as the job",
    "written into a longer area",
];

fn event_name(kind: u32) -> String {
    match kind {
        0..=4 => format!("event of kind {kind}"),
        _ => String::from("event of no kind"),
    }
}

fn script_ending_name(ending: Ending) -> String {
    format!("script, ending {:02}", ending.number())
}

fn fault_name(fault: Fault) -> String {
    format!("script turned away with 11 for {fault:?}")
}

fn follow_on_name(command: u8) -> String {
    format!("command {command:02} carried out in a script")
}

/// R-13, newcomers and turns.
const PLACE_AGAIN: &str = "newcomer taken where a run has ended and another has not";
const UNREAD: &str = "15 for a job that would be turned back";
const IDLE: &str = "turn with no run";
const FULL_CIRCLE: &str = "turn while eight runs are unended";
const EMPTY_SCRIPT: &str = "turn of an empty script";
const STOP_BEHIND: &str = "stop right behind a turn's last step, in the next turn";

/// What a turn leaves to the run's next turn.
const AT_THE_EDGE: [&str; 7] = [
    "turn that leaves the run unended",
    "turn that ends in an open block",
    "turn that ends under a guard that is not public",
    "turn that ends under cover",
    "turn that ends away from the root",
    "turn that ends in an if that comes back",
    "turn that ends behind a line",
];

fn round_event_name(kind: u32) -> String {
    String::from(match kind {
        rounds::kind::NEWCOMER => "newcomer",
        rounds::kind::TURN => "turn",
        _ => "event of no kind",
    })
}

fn newcomer_name(ending: Ending) -> String {
    format!("newcomer turned back with {:02}", ending.number())
}

fn run_ending_name(ending: Ending) -> String {
    format!("turn, ending {:02}", ending.number())
}

/// A run that ends right behind a turn's last step, in that turn.
fn edge_name(ending: Ending, steps: u64) -> String {
    let number = ending.number();
    format!("turn, ending {number:02} right behind step {steps}")
}

/// Everything that orders of newcomers and turns must reach: every kind of event, every
/// number for a newcomer, every ending of a run, the edges of turns, and all that
/// a turn can leave to the next.
pub fn wanted_of_rounds() -> Vec<String> {
    let mut names: Vec<String> = (0..=2).map(round_event_name).collect();
    // No job is turned back with 4, 11 or 14.
    let can_come =
        |ending: &Ending| ending.turned_back() && ![4, 11, 14].contains(&ending.number());
    names.extend(Ending::ALL.into_iter().filter(can_come).map(newcomer_name));
    let ends = |ending: &Ending| !ending.turned_back();
    names.extend(Ending::ALL.into_iter().filter(ends).map(run_ending_name));
    for steps in [TURN_STEPS, 2 * TURN_STEPS] {
        names.push(edge_name(Ending::Finished, steps));
        names.push(edge_name(Ending::BudgetUsed, steps));
    }
    let others = [
        PLACE_AGAIN,
        UNREAD,
        IDLE,
        FULL_CIRCLE,
        EMPTY_SCRIPT,
        STOP_BEHIND,
    ];
    names.extend(others.map(String::from));
    names.extend(AT_THE_EDGE.map(String::from));
    names
}

/// Everything that histories must reach: every kind of event, every ending that
/// a script can have, every reason for 11, every command in a script, and every answer of writing.
pub fn wanted_of_histories() -> Vec<String> {
    let mut names: Vec<String> = (0..=5).map(event_name).collect();
    // A script has no checks 1 to 6, none of an order of nodes, of an area or of a place.
    let can_end = |ending: &Ending| ![1, 2, 3, 4, 5, 6, 13, 14, 15].contains(&ending.number());
    names.extend(
        Ending::ALL
            .into_iter()
            .filter(can_end)
            .map(script_ending_name),
    );
    names.extend(Fault::ALL.map(fault_name));
    names.extend((0..command::COUNT as u8).map(follow_on_name));
    names.push(String::from(MORE_PLACES));
    names.extend(WRITE_TURNED_AWAY.map(String::from));
    names.extend(WRITTEN.map(String::from));
    names
}

/// Everything that a generator must reach: all commands at all levels that they
/// can leave, all operators with all kinds, all endings of a job, every stop at
/// every command that can give it, every reason for 7, 8 and 12, long runs, sixteen
/// open blocks, counting under cover, last children of a house list, ifs that come back inside others, inside
/// loops and to where much has changed, and nodes of all five combinations of levels.
pub fn wanted() -> Vec<String> {
    let mut names = Vec::new();
    names.extend((0..command::COUNT as u8).map(command_name));
    // No job by itself is turned back with 11, 14 or 15, and from R-12 on none with 4.
    let reachable = |ending: &Ending| ![4, 11, 14, 15].contains(&ending.number());
    names.extend(Ending::ALL.into_iter().filter(reachable).map(ending_name));
    names.extend(LONG_RUNS.map(length_name));
    let stops: [(Ending, &[u8]); 5] = [
        (
            Ending::Rule,
            &[1, 6, 7, 8, 9, 10, 11, 12, 13, 14, 15, 16, 18, 19],
        ),
        (Ending::Missing, &[5, 8, 9, 10, 12, 13, 14, 18, 19]),
        (Ending::TableFull, &[11, 12]),
        (Ending::LinesFull, &[6]),
        (Ending::OutOfRange, &[1, 2, 4, 6, 11, 12, 15, 17]),
    ];
    for (ending, commands) in stops {
        names.extend(commands.iter().map(|&command| stop_name(ending, command)));
    }
    names.extend((0..command::COUNT as u8).map(|c| stop_name(Ending::BudgetUsed, c)));
    let reasons = [
        Some(command::IF),
        Some(command::ELSE),
        Some(command::WHILE),
        Some(command::END),
        Some(command::IF_BACK),
        None,
    ];
    names.extend(reasons.into_iter().map(block_name));
    names.extend(FIELDS.map(field_name));
    names.extend(SPARE.map(spare_name));
    names.push(String::from(DEEPEST));
    names.push(String::from(COUNTED));
    names.push(String::from(PUBLIC_LAST));
    names.extend(SETS.map(String::from));
    names.extend(RULED_COMMANDS.map(apart_stop_name));
    names.push(String::from(APART_TREE));
    let back = [BACK_IN_BACK, BACK_IN_WHILE, BACK_ELSEWHERE, PLACE_TAKEN];
    names.extend(back.map(String::from));
    names.extend(wanted_levels());
    names.extend(wanted_expressions());
    for levels in [[0, 0, 0], [0, 0, 1], [0, 1, 0], [0, 1, 1], [1, 1, 1]] {
        names.push(node_name(levels));
        names.push(insertion_name(command::NEW_FIRST_CHILD, levels));
        names.push(insertion_name(command::NEW_RIGHT_SIBLING, levels));
    }
    names
}

/// By whether context and cursor level are 0: a move needs a context within the
/// cursor level; root leaves the context as cursor level, cover leaves a set, and an
/// if that comes back joins the context to it.
fn wanted_levels() -> Vec<String> {
    let can_leave = |command: u8, context: Level, cursor: Level| match command {
        command::ROOT => context == cursor,
        command::COVER => cursor != PUBLIC,
        command::UP
        | command::FIRST_CHILD
        | command::RIGHT_SIBLING
        | command::LEFT_SIBLING
        | command::LAST_CHILD => context <= cursor,
        // The context has joined it.
        command::IF_BACK => context <= cursor,
        _ => true,
    };
    let mut names = Vec::new();
    for command in 0..command::COUNT as u8 {
        for (context, cursor) in [(0, 0), (0, 1), (1, 0), (1, 1)] {
            if can_leave(command, context, cursor) {
                names.push(levels_name(command, context, cursor));
            }
        }
    }
    names
}

fn wanted_expressions() -> Vec<String> {
    let kinds = kind::CONSTANT..=kind::CHILDREN;
    let operators = operator::LEFT..=operator::MEAN;
    let mut names = Vec::new();
    for operator in operators {
        for left_kind in kinds.clone() {
            for right_kind in kinds.clone() {
                names.push(expression_name(&Record {
                    operator,
                    left_kind,
                    right_kind,
                    ..Record::default()
                }));
            }
        }
    }
    names.sort();
    names.dedup();
    names
}
