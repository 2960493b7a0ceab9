//! Checks 9 and 10, the steps of a run, and its whole outcome.

use std::borrow::Cow;

use crate::ending::Ending;
use crate::job::{self, command, kind, operator, Block, Job, Record};
use crate::mistake::Mistake;
use crate::tree::{Path, Row, Tree};
use crate::{apart, join, within, Level, HOUSE, PUBLIC};

pub const MAX_BUDGET: u64 = 1_000_000;
pub const MAX_PLACES: usize = 512;

/// The budget and the sizes of the lent buffers.
#[derive(Clone, Copy, Debug, PartialEq, Eq)]
pub struct Limits {
    pub budget: u64,
    /// Places of the node table.
    pub places: usize,
    /// Length of the variable buffer; of several slices, the shortest.
    pub variables: usize,
    /// Length of the line buffer.
    pub lines: usize,
}

impl Limits {
    /// A budget with buffers that every job fits into.
    pub fn ample(budget: u64) -> Limits {
        Limits {
            budget,
            places: MAX_PLACES,
            variables: job::MAX_VARIABLES,
            lines: 256,
        }
    }
}

/// "Answer: ending (0 for finished, else the number), record index, steps,
/// line count", with the lines themselves and the last state.
#[derive(Clone, Debug, PartialEq, Eq)]
pub struct Outcome {
    pub ending: Ending,
    pub index: usize,
    pub steps: u64,
    pub lines: Vec<Line>,
    /// None for a job turned back: it "changes no lent buffer".
    pub last: Option<Last>,
}

impl Outcome {
    /// The numbers of all lines.
    pub fn numbers(&self) -> Vec<i32> {
        self.lines.iter().map(|line| line.number).collect()
    }

    /// "A reader sees the lines whose set lies within their own".
    pub fn lines_for(&self, reader: Level) -> Vec<Line> {
        let seen = |line: &&Line| within(line.readers, reader);
        self.lines.iter().filter(seen).copied().collect()
    }
}

/// "A line keeps its reader set".
#[derive(Clone, Copy, Debug, PartialEq, Eq)]
pub struct Line {
    pub number: i32,
    pub readers: Level,
}

/// "Its last variables and tree are those that stand when it has ended."
#[derive(Clone, Debug, PartialEq, Eq)]
pub struct Last {
    /// Level and value of each variable.
    pub variables: Vec<(Level, i32)>,
    /// The tree in preorder.
    pub tree: Vec<Row>,
}

/// "a standing tree and variables over which script after script runs"
#[derive(Clone, Debug, PartialEq, Eq)]
pub struct Standing {
    /// Level and value of each variable.
    pub variables: Vec<(Level, i32)>,
    pub tree: Tree,
    /// Where the last script left the cursor: only a wrong monitor looks at it.
    pub cursor: Path,
}

impl Standing {
    /// What an accepted job brings.
    pub fn of(job: &Job) -> Standing {
        Standing {
            variables: job.variables.iter().map(|v| (v.level, v.value)).collect(),
            tree: Tree::from_records(&job.nodes),
            cursor: Path::new(),
        }
    }

    pub fn last(&self) -> Last {
        Last {
            variables: self.variables.clone(),
            tree: self.tree.preorder(),
        }
    }
}

/// What stands between two steps.
#[derive(Clone, Debug)]
pub struct State {
    pub variables: Vec<(Level, i32)>,
    pub tree: Tree,
    /// The working node.
    pub cursor: Path,
    pub cursor_level: Level,
    /// The guards of all open blocks, the outermost first.
    pub guards: Vec<Level>,
    /// What each of them remembers, if it is an if that comes back.
    pub remembered: Vec<Option<Remembered>>,
    /// The record to be carried out next.
    pub next: usize,
    pub steps: u64,
    pub lines: Vec<Line>,
}

/// "an if that remembers the working node and the cursor level"
#[derive(Clone, Debug)]
pub struct Remembered {
    /// The node's own name.
    pub node: u64,
    pub cursor_level: Level,
    /// Where it stood: only a wrong monitor looks at it.
    pub place: Path,
}

/// A name for each node of a tree, which no other node ever has: "If the
/// remembered node was removed meanwhile", another one may stand in its place.
#[derive(Clone, Debug)]
struct Names {
    name: u64,
    /// Children that are counted and are not there: only a wrong monitor has any.
    surplus: usize,
    children: Vec<Names>,
}

impl Names {
    /// Names from `next` on.
    fn of(tree: &Tree, next: &mut u64) -> Names {
        let name = *next;
        *next += 1;
        let children = tree.children.iter();
        Names {
            name,
            surplus: 0,
            children: children.map(|child| Names::of(child, next)).collect(),
        }
    }

    fn at(&self, path: &[usize]) -> &Names {
        path.iter().fold(self, |node, &place| &node.children[place])
    }

    fn at_mut(&mut self, path: &[usize]) -> &mut Names {
        path.iter()
            .fold(self, |node, &place| &mut node.children[place])
    }

    /// Where the node of a name stands, if it does.
    fn find(&self, name: u64) -> Option<Path> {
        if self.name == name {
            return Some(Path::new());
        }
        self.children.iter().enumerate().find_map(|(place, child)| {
            let mut path = child.find(name)?;
            path.insert(0, place);
            Some(path)
        })
    }
}

/// Called after each record carried out, with the state that it left.
pub type Observer<'a> = &'a mut dyn FnMut(&State, &Record);

/// The whole outcome of the job in `bytes` under `limits`.
pub fn outcome(bytes: &[u8], limits: &Limits) -> Outcome {
    outcome_with(bytes, limits, Mistake::None)
}

/// The same, by a monitor with a planted mistake.
pub fn outcome_with(bytes: &[u8], limits: &Limits, mistake: Mistake) -> Outcome {
    observed(bytes, limits, mistake, &mut |_, _| {})
}

/// The same, with an observer of every step.
pub fn observed(bytes: &[u8], limits: &Limits, mistake: Mistake, observer: Observer) -> Outcome {
    start(bytes, limits, mistake, observer).0
}

/// The same, with what stands then: "Its last variables and tree are those that
/// stand when it has ended." Nothing for a job turned back.
pub fn start(
    bytes: &[u8],
    limits: &Limits,
    mistake: Mistake,
    observer: Observer,
) -> (Outcome, Option<Standing>) {
    match admitted(bytes, limits, mistake) {
        Ok(monitor) => {
            let (outcome, after) = monitor.run_to_end(observer);
            (outcome, Some(after))
        }
        Err(refusal) => (refusal, None),
    }
}

/// The run of a job before its first step; the outcome of one turned back.
pub fn admitted(
    bytes: &[u8],
    limits: &Limits,
    mistake: Mistake,
) -> Result<Monitor<'static>, Outcome> {
    let job = job::decode_with(bytes, mistake)
        .map_err(|refusal| turned_back(refusal.ending, refusal.index))?;
    if let Some(ending) = check_limits(&job, limits) {
        return Err(turned_back(ending, 0));
    }
    let standing = Standing::of(&job);
    Ok(Monitor::new(job.script, &standing, limits, mistake))
}

/// "steps and lines are 0 for 1 to 10"
pub fn turned_back(ending: Ending, index: usize) -> Outcome {
    Outcome {
        ending,
        index,
        steps: 0,
        lines: Vec::new(),
        last: None,
    }
}

/// Checks 9 and 10.
fn check_limits(job: &Job, limits: &Limits) -> Option<Ending> {
    if !(1..=MAX_BUDGET).contains(&limits.budget) {
        return Some(Ending::Budget);
    }
    let table = (1..=MAX_PLACES).contains(&limits.places) && limits.places >= job.nodes.len();
    let variables = limits.variables >= job.variables.len();
    if table && variables {
        None
    } else {
        Some(Ending::Buffer)
    }
}

/// An expression's exact result and its level E.
struct Evaluated {
    result: i64,
    level: Level,
}

/// A run: what is fixed, and the state.
#[derive(Clone)]
pub struct Monitor<'a> {
    script: Cow<'a, [Record]>,
    /// For each if, else, while and end, the block that it belongs to.
    blocks: Vec<Option<Block>>,
    pub limits: Limits,
    mistake: Mistake,
    names: Names,
    next_name: u64,
    /// How many children the node had that was removed last, for a wrong monitor.
    freed: usize,
    pub state: State,
}

impl<'a> Monitor<'a> {
    /// The run of a script that passed its checks, before its first step.
    pub fn new(
        script: impl Into<Cow<'a, [Record]>>,
        standing: &Standing,
        limits: &Limits,
        mistake: Mistake,
    ) -> Monitor<'a> {
        let script = script.into();
        let mut blocks = vec![None; script.len()];
        for block in job::pair_blocks(&script, mistake).expect("check 8 is passed") {
            blocks[block.opening] = Some(block);
            blocks[block.end] = Some(block);
            if let Some(otherwise) = block.otherwise {
                blocks[otherwise] = Some(block);
            }
        }
        let state = State {
            variables: standing.variables.clone(),
            tree: standing.tree.clone(),
            // "The cursor starts at the root with cursor level 0."
            cursor: match mistake {
                Mistake::CursorStays => standing.cursor.clone(),
                _ => Path::new(),
            },
            cursor_level: PUBLIC,
            guards: Vec::new(),
            remembered: Vec::new(),
            next: 0,
            steps: 0,
            lines: Vec::new(),
        };
        let mut next_name = 0;
        let names = Names::of(&state.tree, &mut next_name);
        Monitor {
            script,
            blocks,
            limits: *limits,
            mistake,
            names,
            next_name,
            freed: 0,
            state,
        }
    }

    /// The whole run: how it ended, at which record, and what stands then.
    pub fn run(mut self, observer: Observer) -> (Ending, usize, State) {
        let ended = self.go_on(u64::MAX, observer);
        let (ending, index) = ended.expect("no budget is as large");
        (ending, index, self.state)
    }

    /// So many steps, or fewer where the run ends; how it ended and at which record,
    /// if it has. "At the script's end the run has finished, even with the budget
    /// used up. Otherwise, if the steps equal the budget, stop 25."
    pub fn go_on(&mut self, steps: u64, observer: Observer) -> Option<(Ending, usize)> {
        let mut left = steps;
        loop {
            let next = self.state.next;
            if next == self.script.len() {
                return Some((Ending::Finished, 0));
            }
            if self.state.steps == self.limits.budget {
                return Some(self.spent(next));
            }
            if left == 0 {
                return None;
            }
            let record = self.script[next];
            if let Err(ending) = self.carry_out(&record) {
                if self.mistake == Mistake::StopCountsStep {
                    self.state.steps += 1;
                }
                return Some((ending, next));
            }
            // "Each record carried out is one step".
            self.state.steps += 1;
            left -= 1;
            observer(&self.state, &record);
        }
    }

    /// The budget is used up in front of this record.
    fn spent(&mut self, next: usize) -> (Ending, usize) {
        match self.mistake {
            Mistake::SpentIsFinished => return (Ending::Finished, 0),
            Mistake::SpentPrintsSteps => self.state.lines.push(Line {
                number: self.state.steps as i32,
                readers: PUBLIC,
            }),
            _ => {}
        }
        (Ending::BudgetUsed, next)
    }

    /// The outcome of the run, and what stands then.
    pub fn run_to_end(mut self, observer: Observer) -> (Outcome, Standing) {
        let ended = self.go_on(u64::MAX, observer);
        self.ended(ended.expect("no budget is as large"))
    }

    /// The outcome of a run that has ended so, and what stands then.
    pub fn ended(self, (ending, index): (Ending, usize)) -> (Outcome, Standing) {
        let state = self.state;
        let after = Standing {
            variables: state.variables,
            tree: state.tree,
            cursor: state.cursor,
        };
        let outcome = Outcome {
            ending,
            index,
            steps: state.steps,
            lines: state.lines,
            last: Some(after.last()),
        };
        (outcome, after)
    }

    /// One record. A stop leaves the state as it was.
    fn carry_out(&mut self, record: &Record) -> Result<(), Ending> {
        match record.command {
            command::NOTHING => {}
            command::ASSIGN => self.assign(record)?,
            command::IF => return self.open_if(record, None),
            command::IF_BACK => return self.open_back(record),
            command::ELSE => return self.reach_else(),
            command::WHILE => return self.open_while(record),
            command::END => return self.close(),
            command::PRINT => self.print(record)?,
            command::ROOT => self.go_to_root()?,
            command::UP
            | command::FIRST_CHILD
            | command::RIGHT_SIBLING
            | command::LEFT_SIBLING
            | command::LAST_CHILD => self.go_to_neighbour(record)?,
            command::NEW_FIRST_CHILD => self.new_first_child(record)?,
            command::NEW_RIGHT_SIBLING => self.new_right_sibling(record)?,
            command::REMOVE_FIRST_CHILD => self.remove_first_child()?,
            command::REMOVE_RIGHT_SIBLING => self.remove_right_sibling()?,
            command::SET_VALUE => self.set_value(record)?,
            command::COVER => self.cover(record)?,
            other => unreachable!("command {other} does not pass check 7"),
        }
        self.state.next += 1;
        Ok(())
    }

    /// "The context level joins the guards of all open blocks."
    fn context(&self) -> Level {
        self.state.guards.iter().copied().fold(PUBLIC, join)
    }

    /// "C is context joined with cursor level."
    fn c(&self) -> Level {
        join(self.context(), self.state.cursor_level)
    }

    /// What the rules of 1 and 6 test: "the cursor level counts only where the
    /// expression reads value or children", and there E has it already.
    fn without_cursor(&self, expression: &Evaluated) -> Level {
        match self.mistake {
            Mistake::CursorLevelAlwaysCounts => join(expression.level, self.c()),
            Mistake::ContextForgotten => expression.level,
            _ => join(expression.level, self.context()),
        }
    }

    /// "not above means contained in".
    fn within(&self, a: Level, b: Level) -> bool {
        match self.mistake {
            Mistake::SetsCompared => a <= b,
            Mistake::SetsMeet => a & b != PUBLIC || a == PUBLIC,
            _ => within(a, b),
        }
    }

    /// A stop 21 where the rule of the record does not hold.
    fn rule(&self, holds: bool) -> Result<(), Ending> {
        let command = self.script[self.state.next].command;
        if holds || self.mistake == Mistake::NoRule(command) {
            Ok(())
        } else {
            Err(Ending::Rule)
        }
    }

    fn working_node(&self) -> &Tree {
        self.state.tree.at(&self.state.cursor)
    }

    fn block(&self) -> Block {
        self.blocks[self.state.next].expect("a record of a block")
    }

    /// Command 1: E joined with the context is not above its level.
    fn assign(&mut self, record: &Record) -> Result<(), Ending> {
        let expression = self.evaluate(record);
        let level = self.without_cursor(&expression);
        let target = record.target as usize;
        let rule = self.rule(self.within(level, self.state.variables[target].0));
        self.state.variables[target].1 = self.value(&expression, rule, Ok(()))?;
        Ok(())
    }

    /// Command 2: "push E; zero goes past else, or to end if none".
    fn open_if(&mut self, record: &Record, remembered: Option<Remembered>) -> Result<(), Ending> {
        let guard = self.evaluate(record);
        let value = self.guard_value(&guard)?;
        let block = self.block();
        self.push_guard(guard.level, remembered);
        self.state.next = match (value, block.otherwise) {
            (0, Some(otherwise)) => {
                if self.mistake == Mistake::ElseForgetsGuard {
                    self.state.guards.pop();
                    self.state.guards.push(PUBLIC);
                }
                otherwise + 1
            }
            (0, None) => block.end,
            _ => self.state.next + 1,
        };
        Ok(())
    }

    /// Command 17: "an if that remembers the working node and the cursor level,
    /// then joins the context, with its guard, to the cursor level", whatever
    /// the guard's value.
    fn open_back(&mut self, record: &Record) -> Result<(), Ending> {
        let around = self.context();
        let remembered = Remembered {
            node: self.names.at(&self.state.cursor).name,
            cursor_level: self.state.cursor_level,
            place: self.state.cursor.clone(),
        };
        self.open_if(record, Some(remembered))?;
        let context = match self.mistake {
            Mistake::BackLevelNotJoined => PUBLIC,
            Mistake::BackGuardNotJoined => around,
            _ => self.context(),
        };
        self.state.cursor_level = join(self.state.cursor_level, context);
        Ok(())
    }

    /// The end of such a block "brings both back, from either side of an else";
    /// 22 "If the remembered node was removed meanwhile".
    fn bring_back(&mut self, remembered: &Remembered) -> Result<(), Ending> {
        let found = match self.mistake {
            Mistake::BackToThePlace => {
                let place = &remembered.place;
                let stands = self.state.tree.stands(place);
                stands.then(|| place.clone())
            }
            Mistake::BackGoesOn => {
                let found = self.names.find(remembered.node);
                Some(found.unwrap_or(self.state.cursor.clone()))
            }
            _ => self.names.find(remembered.node),
        };
        let node = found.ok_or(Ending::Missing)?;
        if self.mistake != Mistake::BackLevelAlone {
            self.state.cursor = node;
        }
        self.state.cursor_level = match self.mistake {
            Mistake::BackNodeAlone => self.state.cursor_level,
            Mistake::BackResetsLevel => PUBLIC,
            _ => remembered.cursor_level,
        };
        Ok(())
    }

    /// Command 3: "when reached, go to end".
    fn reach_else(&mut self) -> Result<(), Ending> {
        self.state.next = self.block().end;
        Ok(())
    }

    /// Command 4: "nonzero: push E; zero: go past end, no push".
    fn open_while(&mut self, record: &Record) -> Result<(), Ending> {
        let guard = self.evaluate(record);
        if self.guard_value(&guard)? == 0 {
            self.state.next = self.block().end + 1;
        } else {
            self.push_guard(guard.level, None);
            self.state.next += 1;
        }
        Ok(())
    }

    fn push_guard(&mut self, level: Level, remembered: Option<Remembered>) {
        let level = match self.mistake {
            Mistake::GuardJoinsCursorLevel => join(level, self.c()),
            _ => level,
        };
        self.state.guards.push(level);
        self.state.remembered.push(remembered);
    }

    /// Command 5: "pop; of a while: back to it".
    fn close(&mut self) -> Result<(), Ending> {
        let block = self.block();
        if let Some(remembered) = self.state.remembered.last().cloned().flatten() {
            self.bring_back(&remembered)?;
        }
        self.state.guards.pop();
        self.state.remembered.pop();
        self.state.next = match self.script[block.opening].command {
            command::WHILE => block.opening,
            _ => self.state.next + 1,
        };
        Ok(())
    }

    /// Command 6: "takes its reader set from the target, and L must be contained in
    /// it", where L is E joined with the context (R-3); 24 where the line buffer is full.
    fn print(&mut self, record: &Record) -> Result<(), Ending> {
        let expression = self.evaluate(record);
        let level = self.without_cursor(&expression);
        let last_step = self.state.steps + 1 == self.limits.budget;
        let withheld = last_step && self.mistake == Mistake::LastStepHasNoLine;
        let room = match self.state.lines.len() == self.limits.lines || withheld {
            true => Err(Ending::LinesFull),
            false => Ok(()),
        };
        let tested = match self.mistake {
            Mistake::LineMustBePublic => PUBLIC,
            _ => record.target,
        };
        let rule = self.rule(self.within(level, tested));
        let number = self.value(&expression, rule, room)?;
        let readers = match self.mistake {
            Mistake::LineForAll => PUBLIC,
            Mistake::LineKeepsItsLevel => level,
            _ => record.target,
        };
        self.state.lines.push(Line { number, readers });
        Ok(())
    }

    /// The rule of 7 to 10, 16, 18 and 19: "context not above cursor level".
    fn move_rule(&self) -> Result<(), Ending> {
        self.rule(self.within(self.context(), self.state.cursor_level))
    }

    /// Command 7: "cursor level becomes the context".
    fn go_to_root(&mut self) -> Result<(), Ending> {
        if self.mistake != Mistake::MoveRaisesCursorLevel {
            self.move_rule()?;
        }
        self.state.cursor_level = match self.mistake {
            Mistake::RootResetsCursorLevel => PUBLIC,
            _ => self.context(),
        };
        self.state.cursor = Path::new();
        Ok(())
    }

    /// Commands 8, 9, 10: "cursor level joins the new node's existence"; 22
    /// before 21. "Command 18 moves to the left sibling and joins its existence to
    /// the cursor level. Command 19 moves to the last child and joins the parent's
    /// list level, because a house child may stand last in one run only."
    fn go_to_neighbour(&mut self, record: &Record) -> Result<(), Ending> {
        if self.mistake == Mistake::RuleBeforeMissing {
            self.move_rule()?;
        }
        let destination = match record.command {
            command::UP => self.up(),
            command::FIRST_CHILD => self.first_child(),
            command::LEFT_SIBLING => self.left_sibling(),
            command::LAST_CHILD => self.last_child(),
            _ => self.right_sibling(),
        }
        .ok_or(Ending::Missing)?;
        if self.mistake == Mistake::MoveRaisesCursorLevel {
            self.state.cursor_level = self.c();
        }
        self.move_rule()?;
        let existence = self.state.tree.at(&destination).existence;
        let joined = match (record.command, self.mistake) {
            (command::LAST_CHILD, Mistake::LastJoinsExistence) => existence,
            (command::LAST_CHILD, Mistake::LastJoinsNothing) => PUBLIC,
            (command::LAST_CHILD, _) => self.working_node().list,
            _ => existence,
        };
        self.state.cursor = destination;
        self.state.cursor_level = join(self.state.cursor_level, joined);
        Ok(())
    }

    fn up(&self) -> Option<Path> {
        let (_, above) = self.state.cursor.split_last()?;
        Some(above.to_vec())
    }

    fn first_child(&self) -> Option<Path> {
        self.working_node().children.first()?;
        let mut path = self.state.cursor.clone();
        path.push(0);
        Some(path)
    }

    fn left_sibling(&self) -> Option<Path> {
        let (&place, above) = self.state.cursor.split_last()?;
        let mut path = above.to_vec();
        match (place.checked_sub(1), self.mistake) {
            (Some(left), _) => path.push(left),
            // The parent of a first child.
            (None, Mistake::LeftOfFirstIsUp) => {}
            (None, _) => return None,
        }
        Some(path)
    }

    fn last_child(&self) -> Option<Path> {
        let last = self.working_node().children.len().checked_sub(1)?;
        let mut path = self.state.cursor.clone();
        path.push(match self.mistake {
            Mistake::LastIsFirst => 0,
            _ => last,
        });
        Some(path)
    }

    fn right_sibling(&self) -> Option<Path> {
        let (place, above) = self.state.cursor.split_last()?;
        self.state.tree.at(above).children.get(place + 1)?;
        let mut path = above.to_vec();
        path.push(place + 1);
        Some(path)
    }

    /// Command 11: "C not above the list level of the parent, nor the
    /// existence of the old first child". The parent is the working node.
    fn new_first_child(&mut self, record: &Record) -> Result<(), Ending> {
        let expression = self.evaluate(record);
        let parent = self.working_node();
        let rule = self.insertion_rule(parent, parent.children.first());
        let value = self.value(&expression, rule, self.insertion_room())?;
        let node = self.new_node(record, expression.level, value);
        let cursor = self.state.cursor.clone();
        self.insert(&cursor, 0, node);
        Ok(())
    }

    /// Command 12: "C not above the parent's list level, nor the existence of
    /// the old right neighbour"; 22 at the root.
    fn new_right_sibling(&mut self, record: &Record) -> Result<(), Ending> {
        let expression = self.evaluate(record);
        let (place, above) = self.state.cursor.split_last().ok_or(Ending::Missing)?;
        let parent = self.state.tree.at(above);
        let rule = self.insertion_rule(parent, parent.children.get(place + 1));
        let value = self.value(&expression, rule, self.insertion_room())?;
        let node = self.new_node(record, expression.level, value);
        let (above, place) = (above.to_vec(), place + 1);
        self.insert(&above, place, node);
        Ok(())
    }

    /// A new node, which has a name of its own.
    fn insert(&mut self, above: &Path, place: usize, node: Tree) {
        let mut named = Names::of(&node, &mut self.next_name);
        if self.mistake == Mistake::ReusedCountKept {
            named.surplus = self.freed;
        }
        self.names.at_mut(above).children.insert(place, named);
        let parent = self.state.tree.at_mut(above);
        parent.children.insert(place, node);
    }

    fn remove(&mut self, node: &Path) {
        let (&place, above) = node.split_last().expect("not the root");
        let parent = self.names.at_mut(above);
        let removed = parent.children.remove(place);
        self.freed = removed.children.len() + removed.surplus;
        if self.mistake == Mistake::RemovalNotCounted {
            parent.surplus += 1;
        }
        self.state.tree.at_mut(above).children.remove(place);
    }

    fn insertion_rule(&self, parent: &Tree, neighbour: Option<&Tree>) -> Result<(), Ending> {
        let c = self.c();
        self.rule(self.within(c, parent.list))?;
        let Some(old) = neighbour else {
            return Ok(());
        };
        match self.mistake {
            Mistake::InsertionIgnoresNeighbour => Ok(()),
            Mistake::NeighbourApartUntested if apart(c, old.existence) => Ok(()),
            _ => self.rule(self.within(c, old.existence)),
        }
    }

    /// 23: "every table place holds a live node".
    fn insertion_room(&self) -> Result<(), Ending> {
        let places = match self.mistake {
            Mistake::TableFullAt512 => MAX_PLACES,
            _ => self.limits.places,
        };
        if self.state.tree.count() == places {
            return Err(Ending::TableFull);
        }
        Ok(())
    }

    /// "content is L, and 1 if the mark is odd; list is C, and 1 if the mark
    /// is 2 or 3"; "Script byte 5 gives a set to join to a new node's content and byte
    /// 6 one for its list; the old mark still joins 1" (R-12)
    fn new_node(&self, record: &Record, e: Level, value: i32) -> Tree {
        let c = self.c();
        let l = match self.mistake {
            Mistake::NewContentForgetsCursorLevel => join(e, self.context()),
            _ => join(e, c),
        };
        let mark = record.target;
        let marked = |marked: bool, set: Level| match (marked, self.mistake) {
            (true, Mistake::MarkHidesSet) => HOUSE,
            (true, _) => join(HOUSE, set),
            (false, _) => set,
        };
        let [content, list] = match self.mistake {
            Mistake::NewSetsForgotten => [PUBLIC; 2],
            Mistake::NewSetsExchanged => [record.sets[1], record.sets[0]],
            _ => record.sets,
        };
        Tree {
            value,
            existence: c,
            content: join(l, marked(mark % 2 == 1, content)),
            list: join(c, marked(mark == 2 || mark == 3, list)),
            children: Vec::new(),
        }
    }

    /// Command 13: "with its subtree".
    fn remove_first_child(&mut self) -> Result<(), Ending> {
        let child = self.first_child().ok_or(Ending::Missing)?;
        self.removal_rule(&child)?;
        self.remove(&child);
        Ok(())
    }

    /// Command 14: "with its subtree".
    fn remove_right_sibling(&mut self) -> Result<(), Ending> {
        let sibling = self.right_sibling().ok_or(Ending::Missing)?;
        self.removal_rule(&sibling)?;
        self.remove(&sibling);
        Ok(())
    }

    /// "C not above its existence": of the node removed.
    fn removal_rule(&self, removed: &Path) -> Result<(), Ending> {
        let tested = match self.mistake {
            Mistake::RemovalTestsWorkingNode => &self.state.cursor,
            _ => removed,
        };
        self.rule(self.within(self.c(), self.state.tree.at(tested).existence))
    }

    /// Command 15: "L not above its content".
    fn set_value(&mut self, record: &Record) -> Result<(), Ending> {
        let expression = self.evaluate(record);
        let l = match self.mistake {
            Mistake::SettingForgetsCursorLevel => join(expression.level, self.context()),
            _ => join(expression.level, self.c()),
        };
        let rule = self.rule(self.within(l, self.working_node().content));
        let value = self.value(&expression, rule, Ok(()))?;
        let cursor = &self.state.cursor;
        self.state.tree.at_mut(cursor).value = value;
        Ok(())
    }

    /// Command 16: "joins the set in byte 5 to the cursor level, or 1 where it is
    /// zero" (R-12), with the rule of 7.
    fn cover(&mut self, record: &Record) -> Result<(), Ending> {
        self.move_rule()?;
        let set = match (record.sets[0], self.mistake) {
            (PUBLIC, _) | (_, Mistake::CoverIgnoresSet) => HOUSE,
            (set, Mistake::CoverAlwaysJoins1) => join(set, HOUSE),
            (set, _) => set,
        };
        self.state.cursor_level = match self.mistake {
            Mistake::CoverReplaces => set,
            _ => join(self.state.cursor_level, set),
        };
        Ok(())
    }

    /// The value that a command goes on with, where its rule holds (21) and there
    /// is room for what it makes (23, 24). 27: "a result outside signed 32 bits";
    /// "22, 21, 27, then 23 or 24".
    fn value(
        &self,
        expression: &Evaluated,
        rule: Result<(), Ending>,
        room: Result<(), Ending>,
    ) -> Result<i32, Ending> {
        let value = in_range(expression.result);
        match self.mistake {
            Mistake::RangeBeforeRule => value.and(rule).and(room)?,
            Mistake::RangeAfterRoom => rule.and(room)?,
            _ => rule.and(value.and(room))?,
        }
        value
    }

    /// The value of a guard: no rule is tested, and nothing is made.
    fn guard_value(&self, guard: &Evaluated) -> Result<i32, Ending> {
        match self.mistake {
            Mistake::GuardsWrap => Ok(guard.result as i32),
            _ => in_range(guard.result),
        }
    }

    /// "E is an expression's level: the join over the operands read".
    fn evaluate(&self, record: &Record) -> Evaluated {
        let left = self.operand(record.left_kind, record.left);
        if record.operator == operator::LEFT {
            return left;
        }
        let right = self.operand(record.right_kind, record.right);
        Evaluated {
            result: combine(record.operator, left.result, right.result, self.mistake),
            level: match self.mistake {
                Mistake::RightLevelForgotten => left.level,
                _ => join(left.level, right.level),
            },
        }
    }

    /// "a constant is 0, a variable its level, value the cursor level with the
    /// node's content, children the cursor level with its list level"
    fn operand(&self, kind: u8, number: u32) -> Evaluated {
        let node = self.working_node();
        match kind {
            kind::CONSTANT => Evaluated {
                result: i64::from(number as i32),
                level: PUBLIC,
            },
            kind::VARIABLE => {
                let (level, value) = self.state.variables[number as usize];
                Evaluated {
                    result: i64::from(value),
                    level,
                }
            }
            kind::VALUE => Evaluated {
                result: i64::from(node.value),
                level: match self.mistake {
                    Mistake::ValueForgetsCursorLevel => node.content,
                    _ => join(self.state.cursor_level, node.content),
                },
            },
            kind::CHILDREN => Evaluated {
                result: (node.children.len() + self.names.at(&self.state.cursor).surplus) as i64,
                level: match self.mistake {
                    Mistake::ChildrenForgetCursorLevel => node.list,
                    _ => join(self.state.cursor_level, self.children_level(node)),
                },
            },
            other => unreachable!("kind {other} does not pass check 7"),
        }
    }

    fn children_level(&self, node: &Tree) -> Level {
        match self.mistake {
            Mistake::ChildrenLevelFromChildren => node
                .children
                .iter()
                .map(|child| child.existence)
                .fold(PUBLIC, join),
            _ => node.list,
        }
    }
}

fn in_range(result: i64) -> Result<i32, Ending> {
    i32::try_from(result).map_err(|_| Ending::OutOfRange)
}

/// The exact result: a sum or difference may leave signed 32 bits. "The mean is
/// rounded down, below zero too, of the exact sum."
fn combine(operator: u8, left: i64, right: i64, mistake: Mistake) -> i64 {
    match (operator, mistake) {
        (operator::SUM, Mistake::SumSaturates) => {
            (left + right).clamp(i64::from(i32::MIN), i64::from(i32::MAX))
        }
        (operator::SUM, Mistake::SumWraps) => i64::from((left + right) as i32),
        (operator::DIFFERENCE, Mistake::DifferenceWraps) => i64::from((left - right) as i32),
        (operator::LESS, Mistake::LessIsUnsigned) => ((left as u32) < right as u32) as i64,
        (operator::MEAN, Mistake::MeanOfWrappedSum) => {
            i64::from((left + right) as i32).div_euclid(2)
        }
        (operator::MEAN, Mistake::MeanOfSumInRange) if i32::try_from(left + right).is_err() => {
            left + right
        }
        (operator::MEAN, Mistake::MeanRoundsTowardZero) => (left + right) / 2,
        (operator::SUM, _) => left + right,
        (operator::DIFFERENCE, _) => left - right,
        (operator::EQUAL, _) => (left == right) as i64,
        (operator::LESS, _) => (left < right) as i64,
        (operator::MEAN, _) => (left + right).div_euclid(2),
        (other, _) => unreachable!("operator {other} does not pass check 7"),
    }
}
