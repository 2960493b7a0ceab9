//! Scripts: simple commands, nested blocks, counted loops, loops over
//! children, and excursions of the cursor under cover.
//!
//! A script grows by pieces put in at one place; whoever asks for it may turn
//! a piece down, after a look at the whole script with the piece in it.

use super::Palette;
use crate::job::{command, Record, MAX_BLOCKS, MAX_RECORDS};
use crate::random::Random;
use crate::source::*;
use crate::{apart, join, within, Level, PUBLIC};

/// Commands with the rule of 7.
pub const MOVES: [u8; 7] = [
    command::ROOT,
    command::UP,
    command::FIRST_CHILD,
    command::RIGHT_SIBLING,
    command::COVER,
    command::LEFT_SIBLING,
    command::LAST_CHILD,
];

/// Commands that open, turn or close a block.
pub const BLOCK_COMMANDS: [u8; 5] = [
    command::IF,
    command::ELSE,
    command::WHILE,
    command::END,
    command::IF_BACK,
];

/// No statement starts beyond this length.
const ROOM: usize = MAX_RECORDS - 24;

/// Draws for a place before it is left empty.
const DRAWS: usize = 6;

/// Tells whether a script may stay as it has become.
pub type Accept<'a> = &'a mut dyn FnMut(&[Record]) -> bool;

/// A script that adds and removes nodes here and there.
pub fn pruning(random: &mut Random, levels: &Palette, accept: Accept) -> Vec<Record> {
    let mut writer = Writer::new(random, levels, accept);
    for _ in 0..writer.random.between(3, 12) {
        for _ in 0..writer.random.below(3) {
            writer.put_some(&mut Writer::some_move);
        }
        match writer.random.below(4) {
            0 | 1 => writer.put_some(&mut Writer::some_change),
            2 => {
                writer.put(&[remove_first_child()]);
            }
            _ => {
                writer.put(&[remove_right_sibling()]);
            }
        }
    }
    writer.script
}

/// A script of any size for variables of these levels.
pub fn any(random: &mut Random, levels: &Palette, accept: Accept) -> Vec<Record> {
    let statements = match random.below(100) {
        0 => 0,
        1 => 400,
        2..=9 => random.between(20, 60),
        _ => random.between(1, 12),
    };
    let depth = match random.below(50) {
        0 => MAX_BLOCKS,
        _ => random.between(1, 4),
    };
    let mut writer = Writer::new(random, levels, accept);
    if depth == MAX_BLOCKS {
        writer.nest(depth, PUBLIC);
    }
    for _ in 0..statements {
        writer.statement(depth, PUBLIC);
    }
    writer.script
}

/// A script of a few statements.
pub fn short(random: &mut Random, levels: &Palette, accept: Accept) -> Vec<Record> {
    let statements = random.between(2, 12);
    let mut writer = Writer::new(random, levels, accept);
    for _ in 0..statements {
        writer.statement(3, PUBLIC);
    }
    writer.script
}

/// A loop without an end.
pub fn endless(random: &mut Random, levels: &Palette, accept: Accept) -> Vec<Record> {
    let statements = random.between(1, 8);
    let mut writer = Writer::new(random, levels, accept);
    for _ in 0..writer.random.below(3) {
        writer.statement(2, PUBLIC);
    }
    if writer.put(&[repeat(1), end()]) {
        writer.place -= 1;
    }
    for _ in 0..statements {
        writer.statement(2, PUBLIC);
    }
    writer.script
}

/// A script that goes on excursions and shows what it can see afterwards.
pub fn probing(random: &mut Random, levels: &Palette, accept: Accept) -> Vec<Record> {
    let mut writer = Writer::new(random, levels, accept);
    for _ in 0..writer.random.between(1, 4) {
        for _ in 0..writer.random.below(2) {
            writer.statement(1, PUBLIC);
        }
        if writer.random.chance(1, 8) {
            writer.returned();
        } else {
            writer.excursion(PUBLIC);
            writer.show();
        }
    }
    writer.script
}

/// A script that moves or covers by `command` inside branches, goes on from there
/// and shows what it can see afterwards.
pub fn branching(
    random: &mut Random,
    levels: &Palette,
    accept: Accept,
    command: u8,
) -> Vec<Record> {
    let mut writer = Writer::new(random, levels, accept);
    for _ in 0..writer.random.between(1, 3) {
        for _ in 0..writer.random.below(3) {
            writer.put_some(&mut Writer::some_move);
        }
        writer.branched(command);
        writer.show();
    }
    writer.script
}

/// A script that goes to last children, changes something there and shows what it
/// can see afterwards.
pub fn going_last(random: &mut Random, levels: &Palette, accept: Accept) -> Vec<Record> {
    let mut writer = Writer::new(random, levels, accept);
    for _ in 0..writer.random.between(1, 3) {
        for _ in 0..writer.random.below(2) {
            writer.put_some(&mut Writer::some_move);
        }
        writer.put(&[last_child()]);
        for _ in 0..writer.random.between(1, 2) {
            writer.put_some(&mut Writer::some_change);
        }
        writer.show();
    }
    writer.script
}

/// A script that moves under one cover by a guard, puts on another, and shows what it
/// can see there.
pub fn covering_twice(random: &mut Random, levels: &Palette, accept: Accept) -> Vec<Record> {
    let mut writer = Writer::new(random, levels, accept);
    for _ in 0..writer.random.between(1, 2) {
        let (guard, level) = writer.guard();
        let first = match level {
            PUBLIC => writer.some_set(),
            level => level,
        };
        if writer.put(&[cover_with(first), when(guard), end()]) {
            writer.place -= 1;
            writer.put_some(&mut Writer::some_move);
            writer.place += 1;
        }
        let second = writer.some_set();
        writer.put(&[cover_with(second)]);
        writer.look();
    }
    writer.script
}

/// A script that puts in a node by a guard, removes one that stands there, and shows
/// what it can see afterwards.
pub fn beside(random: &mut Random, levels: &Palette, accept: Accept) -> Vec<Record> {
    let mut writer = Writer::new(random, levels, accept);
    for _ in 0..writer.random.between(1, 2) {
        match writer.random.chance(1, 2) {
            true => writer.children_of_a_set(),
            false => {
                for _ in 0..writer.random.below(2) {
                    writer.put_some(&mut Writer::some_move);
                }
            }
        }
        let (guard, _) = writer.guard();
        let insertion = writer
            .random
            .pick(&[new_first_child(0, 1), new_right_sibling(0, 1)]);
        writer.put(&[when(guard), insertion, end()]);
        let removal = match insertion.command {
            command::NEW_FIRST_CHILD => remove_first_child(),
            _ => remove_right_sibling(),
        };
        writer.put(&[removal]);
        writer.look();
        writer.show();
    }
    writer.script
}

/// Commands with a rule and without an expression.
const AT_ODDS: [u8; 9] = [
    command::ROOT,
    command::UP,
    command::FIRST_CHILD,
    command::RIGHT_SIBLING,
    command::REMOVE_FIRST_CHILD,
    command::REMOVE_RIGHT_SIBLING,
    command::COVER,
    command::LEFT_SIBLING,
    command::LAST_CHILD,
];

/// A script whose sets do not contain each other: mostly a rule stops it.
pub fn at_odds(random: &mut Random, levels: &Palette) -> Vec<Record> {
    let accept: Accept = &mut |_| true;
    let mut writer = Writer::new(random, levels, accept);
    writer.at_odds();
    writer.script
}

/// A script that goes away and stays there.
pub fn leaving(random: &mut Random, levels: &Palette, accept: Accept) -> Vec<Record> {
    let mut writer = Writer::new(random, levels, accept);
    for _ in 0..writer.random.below(3) {
        writer.statement(1, PUBLIC);
    }
    writer.away(PUBLIC);
    writer.script
}

/// A script that shows what it can see from where it starts.
pub fn looking(random: &mut Random, levels: &Palette, accept: Accept) -> Vec<Record> {
    let mut writer = Writer::new(random, levels, accept);
    writer.look();
    for _ in 0..writer.random.below(3) {
        writer.statement(1, PUBLIC);
        writer.look();
    }
    writer.script
}

/// A sum or difference at an end of the 32-bit range: the last that fits, or,
/// mostly, the first that does not.
pub fn at_the_edge(random: &mut Random) -> Expression {
    let more = random.chance(3, 4) as i32;
    let (most, least) = (constant(i32::MAX), constant(i32::MIN));
    random.pick(&[
        sum(most, constant(more)),
        sum(constant(more), most),
        sum(least, constant(-more)),
        difference(least, constant(more)),
        difference(most, constant(-more)),
    ])
}

/// How often a script makes each choice. Scripts that favour one choice reach
/// more than scripts that all favour the same.
struct Taste {
    /// House variable, children, value, any expression.
    guards: [usize; 4],
    /// Root, up, first child, right sibling, left sibling, last child.
    moves: [usize; 6],
    /// The commands 11 to 15.
    changes: [usize; 5],
    /// Out of six branches, those that come back.
    returning: usize,
    /// Out of eight branches away from the root, those that begin with cover.
    covering: usize,
    /// Out of ten expressions, those that read house variables where a rule
    /// may forbid it.
    daring: usize,
}

impl Taste {
    fn some(random: &mut Random) -> Taste {
        Taste {
            guards: random.pick(&[[4, 2, 1, 1], [1, 0, 0, 0], [1, 6, 0, 1], [2, 1, 4, 1]]),
            moves: random.pick(&[
                [2, 2, 4, 3, 0, 0],
                [1, 1, 6, 2, 0, 0],
                [1, 1, 3, 6, 1, 0],
                [4, 4, 4, 4, 2, 2],
                [1, 1, 3, 1, 3, 6],
            ]),
            changes: random.pick(&[
                [3, 3, 2, 2, 4],
                [1, 1, 0, 0, 6],
                [5, 1, 5, 1, 1],
                [1, 4, 1, 4, 1],
                [1, 1, 4, 4, 2],
            ]),
            returning: random.pick(&[0, 1, 4, 6]),
            covering: random.pick(&[0, 1, 6]),
            daring: random.pick(&[0, 1, 4]),
        }
    }
}

struct Writer<'a> {
    random: &'a mut Random,
    levels: &'a Palette,
    accept: Accept<'a>,
    taste: Taste,
    script: Vec<Record>,
    /// Where the next piece goes.
    place: usize,
    /// Variables that count the loops now open.
    counters: Vec<usize>,
}

impl<'a> Writer<'a> {
    fn new(random: &'a mut Random, levels: &'a Palette, accept: Accept<'a>) -> Writer<'a> {
        let (script, counters) = (Vec::new(), Vec::new());
        let taste = Taste::some(random);
        Writer {
            random,
            levels,
            accept,
            taste,
            script,
            place: 0,
            counters,
        }
    }

    /// Puts a piece in and goes past it, unless it is turned down.
    fn put(&mut self, piece: &[Record]) -> bool {
        let (start, end) = (self.place, self.place + piece.len());
        self.script.splice(start..start, piece.iter().copied());
        let stays = (self.accept)(&self.script);
        if stays {
            self.place = end;
        } else {
            self.script.drain(start..end);
        }
        stays
    }

    /// The first of a few draws that is not turned down.
    fn put_some(&mut self, draw: &mut dyn FnMut(&mut Self) -> Record) {
        for _ in 0..DRAWS {
            let record = draw(self);
            if self.put(&[record]) {
                return;
            }
        }
    }

    /// One statement, with at most `depth` blocks inside each other; `context`
    /// is the least context level it will run in.
    fn statement(&mut self, depth: usize, context: Level) {
        if self.script.len() > ROOM {
            return;
        }
        let choice = match depth {
            0 => 0,
            _ => self.random.weighted(&[14, 4, 3, 1, 2, 1]),
        };
        match choice {
            0 => self.put_some(&mut |writer| writer.simple(context)),
            1 => self.branch(depth, context),
            2 => self.counted_loop(depth, context),
            3 => drop(self.put(&[repeat(children()), remove_first_child(), end()])),
            4 => self.excursion(context),
            _ => self.sawn_off(context),
        }
    }

    fn body(&mut self, depth: usize, context: Level) {
        for _ in 0..self.random.between(0, 3) {
            self.statement(depth, context);
        }
    }

    /// If, with or without else.
    fn branch(&mut self, depth: usize, context: Level) {
        self.branch_with(context, &mut |writer, inner| writer.body(depth - 1, inner));
    }

    fn branch_with(&mut self, context: Level, body: &mut dyn FnMut(&mut Self, Level)) {
        let (opening, level) = self.opening();
        let inner = join(context, level);
        if self.random.chance(1, 2) {
            if self.put(&[opening, end()]) {
                self.place -= 1;
                body(self, inner);
                self.place += 1;
            }
        } else if self.put(&[opening, otherwise(), end()]) {
            self.place -= 2;
            body(self, inner);
            self.place += 1;
            body(self, inner);
            self.place += 1;
        }
    }

    /// The if of a branch, which comes back or not, and the part of its guard's
    /// level that the text shows.
    fn opening(&mut self) -> (Record, Level) {
        let (guard, level) = self.guard();
        match self.random.chance(self.taste.returning, 6) {
            true => (come_back(guard), level),
            false => (when(guard), level),
        }
    }

    /// An if that comes back to where much has changed meanwhile: its node has
    /// other neighbours, or was removed, itself or with one above it, and often
    /// another stands in its place.
    fn sawn_off(&mut self, context: Level) {
        for _ in 0..self.random.between(1, 3) {
            let down = self
                .random
                .pick(&[first_child(), right_sibling(), last_child()]);
            self.put(&[down]);
        }
        let (guard, level) = self.guard();
        if !self.put(&[come_back(guard), end()]) {
            return;
        }
        self.place -= 1;
        for _ in 0..self.random.between(1, 2) {
            self.put(&[up()]);
        }
        for _ in 0..self.random.between(1, 3) {
            match self.random.chance(1, 2) {
                true => drop(self.put(&[remove_first_child()])),
                false => self.put_some(&mut Self::some_change),
            }
        }
        self.body(0, join(context, level));
        self.place += 1;
    }

    /// `depth` blocks, one inside the other.
    fn nest(&mut self, depth: usize, context: Level) {
        if depth == 0 {
            return self.body(0, context);
        }
        let (opening, level) = self.opening();
        if self.put(&[opening, end()]) {
            self.place -= 1;
            self.nest(depth - 1, join(context, level));
            self.place += 1;
        }
    }

    /// A loop that runs a number of times, by a variable that counts down.
    fn counted_loop(&mut self, depth: usize, context: Level) {
        let Some(counter) = self.free_variable(context) else {
            return self.branch(depth, context);
        };
        let turns = match self.random.below(10) {
            0 => self.random.between(20, 300),
            _ => self.random.between(0, 4),
        };
        let guard = match self.random.chance(1, 2) {
            true => less(constant(0), variable(counter)),
            false => variable(counter).into(),
        };
        let count_down = assign(counter, difference(variable(counter), constant(1)));
        if self.put(&[
            assign(counter, turns as i32),
            repeat(guard),
            count_down,
            end(),
        ]) {
            self.counters.push(counter);
            self.place -= 2;
            self.body(depth - 1, join(context, self.levels.variables[counter]));
            self.place += 2;
            self.counters.pop();
        }
    }

    /// A variable whose level contains `least` and that counts no open loop.
    fn free_variable(&mut self, least: Level) -> Option<usize> {
        let free: Vec<usize> = (0..self.levels.variables.len())
            .filter(|index| !self.counters.contains(index))
            .filter(|&index| within(least, self.levels.variables[index]))
            .collect();
        (!free.is_empty()).then(|| self.random.pick(&free))
    }

    /// The shape of trial 6: away, and the root again.
    fn excursion(&mut self, context: Level) {
        self.away(context);
        self.put(&[root()]);
    }

    /// A branch that moves or changes the tree, and work where the cursor is
    /// then; half of the time under cover.
    fn away(&mut self, context: Level) {
        for _ in 0..self.random.below(3) {
            self.put_some(&mut Self::some_move);
        }
        if self.random.chance(1, 2) {
            self.put_some(&mut Self::some_cover);
        }
        let weights = self.random.pick(&[[4, 1, 1], [1, 4, 1], [1, 1, 4]]);
        self.branch_with(context, &mut |writer, inner| {
            if writer.random.chance(writer.taste.covering, 8) {
                writer.put_some(&mut Self::some_cover);
            }
            for _ in 0..writer.random.between(1, 2) {
                match writer.random.weighted(&weights) {
                    0 => writer.put_some(&mut Self::some_move),
                    1 => writer.put_some(&mut Self::some_change),
                    _ => writer.put_some(&mut |writer| writer.simple(inner)),
                }
            }
        });
        for seen in [value(), children()] {
            if self.random.chance(1, 3) {
                self.line(seen);
            }
        }
        for _ in 0..self.random.between(0, 3) {
            match self.random.weighted(&[3, 1, 1]) {
                0 => self.put_some(&mut Self::some_change),
                1 => self.put_some(&mut Self::some_move),
                _ => self.put_some(&mut Self::some_count),
            }
        }
    }

    /// A move under cover by a guard, and a look round after an if that came back
    /// to where the cursor is then.
    fn returned(&mut self) {
        let (guard, _) = self.guard();
        if self.put(&[cover(), when(guard), end()]) {
            self.place -= 1;
            self.put_some(&mut Self::some_move);
            self.place += 1;
        }
        self.put(&[come_back(1), end()]);
        self.look();
    }

    /// A move or a cover inside a branch, after a cover a move too; a look round from
    /// where the cursor is then, and changes there.
    fn branched(&mut self, command: u8) {
        let (guard, _) = self.guard();
        if self.put(&[when(guard), bare(command), end()]) && command == command::COVER {
            self.place -= 1;
            self.put_some(&mut Self::some_move);
            self.place += 1;
        }
        if self.random.chance(1, 2) {
            self.look();
        }
        for _ in 0..self.random.between(1, 2) {
            self.put_some(&mut Self::some_change);
        }
    }

    /// Prints what is public at the root and on a way down from it.
    fn show(&mut self) {
        self.put(&[root()]);
        self.look();
    }

    /// Prints what is public here and on a way from here.
    fn look(&mut self) {
        for _ in 0..self.random.between(1, 3) {
            self.line(value());
            self.line(children());
            self.put_some(&mut Self::some_move);
        }
        for index in 0..self.levels.variables.len().min(6) {
            let level = self.levels.variables[index];
            if level == PUBLIC || self.random.chance(1, 3) {
                self.put(&[print_for(level, variable(index))]);
            }
        }
    }

    /// A line for all, or else for the first set of readers that it may have.
    fn line(&mut self, seen: Operand) {
        if self.random.chance(1, 2) && self.put(&[print(seen)]) {
            return;
        }
        for _ in 0..3 {
            let readers = self.some_set();
            if self.put(&[print_for(readers, seen)]) {
                return;
            }
        }
    }

    /// A node whose list has every set about, two children of one set, and the cursor on
    /// that node.
    fn children_of_a_set(&mut self) {
        let all = self.levels.sets.iter().copied().fold(PUBLIC, join);
        let set = self.some_set();
        let parent = with_sets([PUBLIC, all], new_first_child(0, 1));
        let children = [
            new_first_child(0, 5),
            new_first_child(0, 7),
            new_first_child(0, 8),
        ];
        let piece = [
            &[root(), parent, first_child(), cover_with(set)][..],
            &children,
            &[root(), first_child()],
        ];
        self.put(&piece.concat());
    }

    /// Two sets at odds: a command under a guard of one, with a cover of another.
    fn at_odds(&mut self) {
        let count = self.levels.variables.len();
        let some = (0..8).map(|_| {
            (
                self.random.below(count.max(1)),
                self.random.pick(&self.levels.sets),
            )
        });
        let at_odds = |&(index, set): &(usize, Level)| {
            let level = self.levels.variables.get(index);
            level.is_some_and(|&level| apart(level, set) && level < set)
        };
        let drawn: Vec<(usize, Level)> = some.collect();
        let Some((index, set)) = drawn.into_iter().find(at_odds) else {
            return;
        };
        // A guard that is never zero.
        let guard = when(equal(variable(index), variable(index)));
        let command = self.random.pick(&AT_ODDS);
        let list = with_sets([PUBLIC, 255], new_first_child(0, 1));
        // Below the root two nodes; below the first a public one, then one of the set.
        let tree = [
            list,
            list,
            first_child(),
            cover_with(set),
            new_first_child(0, 5),
        ];
        let public = [root(), first_child(), new_first_child(0, 6), first_child()];
        let removes = [command::REMOVE_FIRST_CHILD, command::REMOVE_RIGHT_SIBLING];
        let ready = match (command, removes.contains(&command)) {
            (command::REMOVE_FIRST_CHILD, _) => vec![up(), remove_first_child()],
            (_, true) => vec![],
            (command::LEFT_SIBLING, _) => vec![up(), right_sibling(), cover_with(set)],
            _ => vec![up(), cover_with(set)],
        };
        let end = [guard, bare(command), end()];
        self.put(&[&tree[..], &public, &ready, &end].concat());
    }

    /// One of the sets about, or two of them joined.
    fn some_set(&mut self) -> Level {
        let set = self.random.pick(&self.levels.sets);
        match self.random.chance(1, 4) {
            true => join(set, self.random.pick(&self.levels.sets)),
            false => set,
        }
    }

    /// A cover for the first party, or for a set.
    fn some_cover(&mut self) -> Record {
        match self.random.chance(1, 2) {
            true => cover(),
            false => cover_with(self.some_set()),
        }
    }

    fn simple(&mut self, context: Level) -> Record {
        // A command that the context would stop, one time in ten.
        let least = match self.random.chance(1, 10) {
            true => PUBLIC,
            false => context,
        };
        match self.random.weighted(&[1, 5, 5, 12, 12, 1]) {
            0 => nothing(),
            1 => self.assignment(least),
            2 => {
                let readers = match self.random.below(3) {
                    0 => join(least, self.some_set()),
                    _ => least,
                };
                let most = join(readers, self.usual_level());
                print_for(readers, self.expression(most))
            }
            3 => self.some_move(),
            4 => self.some_change(),
            _ => self.some_cover(),
        }
    }

    fn some_move(&mut self) -> Record {
        let moves = [
            root(),
            up(),
            first_child(),
            right_sibling(),
            left_sibling(),
            last_child(),
        ];
        moves[self.random.weighted(&self.taste.moves)]
    }

    /// A public variable that counts, or a line: both go on under cover, but for
    /// what is read there.
    fn some_count(&mut self) -> Record {
        let public: Vec<usize> = (0..self.levels.variables.len())
            .filter(|index| {
                !self.counters.contains(index) && self.levels.variables[*index] == PUBLIC
            })
            .collect();
        let line = print(self.expression(PUBLIC));
        if public.is_empty() {
            return line;
        }
        let counter = self.random.pick(&public);
        let step = assign(counter, sum(variable(counter), constant(1)));
        self.random.pick(&[step, print(variable(counter)), line])
    }

    /// A command that changes the tree.
    fn some_change(&mut self) -> Record {
        let mark = self.random.below(4) as u8;
        let most = match self.random.chance(1, 2) {
            true => PUBLIC,
            false => self.some_set(),
        };
        let expression = self.expression(most);
        let mut set = || match self.random.chance(1, 3) {
            true => self.random.pick(&self.levels.sets),
            false => PUBLIC,
        };
        let sets = [set(), set()];
        let changes = [
            with_sets(sets, new_first_child(mark, expression)),
            with_sets(sets, new_right_sibling(mark, expression)),
            remove_first_child(),
            remove_right_sibling(),
            set_value(expression),
        ];
        changes[self.random.weighted(&self.taste.changes)]
    }

    /// An assignment to a variable whose level contains `least`.
    fn assignment(&mut self, least: Level) -> Record {
        let Some(target) = self.free_variable(least) else {
            return nothing();
        };
        let most = join(self.levels.variables[target], self.usual_level());
        assign(target, self.expression(most))
    }

    /// 0, now and then a set.
    fn usual_level(&mut self) -> Level {
        match self.random.chance(self.taste.daring, 10) {
            true => self.some_set(),
            false => PUBLIC,
        }
    }

    /// A guard, and the part of its level that the text shows.
    fn guard(&mut self) -> (Expression, Level) {
        let house: Vec<usize> = (0..self.levels.variables.len())
            .filter(|&index| self.levels.variables[index] != PUBLIC)
            .collect();
        match self.random.weighted(&self.taste.guards) {
            0 if !house.is_empty() => {
                let index = self.random.pick(&house);
                (variable(index).into(), self.levels.variables[index])
            }
            1 => (children().into(), PUBLIC),
            2 => (value().into(), PUBLIC),
            _ => (self.expression(PUBLIC), PUBLIC),
        }
    }

    /// An expression whose variables have levels within `most`.
    fn expression(&mut self, most: Level) -> Expression {
        let left = self.operand(most);
        let right = self.operand(most);
        let operators = [
            left.into(),
            sum(left, right),
            difference(left, right),
            equal(left, right),
            less(left, right),
            mean(left, right),
        ];
        operators[self.random.weighted(&[5, 1, 1, 1, 1, 1])]
    }

    fn operand(&mut self, most: Level) -> Operand {
        let readable: Vec<usize> = (0..self.levels.variables.len())
            .filter(|&index| within(self.levels.variables[index], most))
            .collect();
        match self.random.weighted(&[3, 3, 2, 2]) {
            1 if !readable.is_empty() => variable(self.random.pick(&readable)),
            2 => value(),
            3 => children(),
            _ => constant(self.random.value()),
        }
    }
}
