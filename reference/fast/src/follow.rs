//! A follow-on script over a lent table and lent variables.

use crate::arena::{Arena, Node, NONE};
use crate::check::check_script;
use crate::run::steps;
use crate::{ending, Answer, Buffers, Variable};
use crate::{MAX_BUDGET, MAX_NODES, MAX_RECORDS, MAX_VARIABLES};

/// A lent node record, a word for each field.
#[derive(Clone, Copy, Debug, Default, PartialEq, Eq)]
#[repr(C)]
pub struct Record {
    pub first: u32,
    pub right: u32,
    pub parent: u32,
    pub existence: u32,
    pub value: u32,
    pub children: u32,
    pub content: u32,
    pub list: u32,
    pub left: u32,
    pub last: u32,
}

const NO_LINK: u32 = 65_535;

/// What is lent besides the area for lines.
pub struct Lent<'a> {
    pub table: &'a mut [Record],
    pub levels: &'a mut [u8],
    pub values: &'a mut [i32],
}

/// The answer for a section; its lines go to `area`.
pub fn follow(
    buffers: &mut Buffers,
    section: &[u8],
    budget: u64,
    lent: Lent,
    area: &mut [u8],
) -> Answer {
    if section.len() % 16 != 0
        || section.len() / 16 > MAX_RECORDS
        || !load_variables(buffers, lent.levels, lent.values)
        || !load_table(&mut buffers.arena, lent.table)
    {
        return Answer::turned_back(ending::STANDING, 0);
    }
    if let Err(answer) = check_script(buffers, section, None) {
        return answer;
    }
    if !(1..=MAX_BUDGET).contains(&budget) {
        return Answer::turned_back(ending::BUDGET, 0);
    }
    let places = lent.table.len();
    if places > MAX_NODES {
        return Answer::turned_back(ending::BUFFER, 0);
    }
    let answer = steps(buffers, budget as u32, places, area);
    if answer.steps > 0 {
        store(buffers, lent);
    }
    answer
}

/// Whether an accepted job could hold these variables.
pub(crate) fn variables_stand(levels: &[u8], values: &[i32]) -> bool {
    levels.len() == values.len() && levels.len() <= MAX_VARIABLES
}

fn load_variables(buffers: &mut Buffers, levels: &[u8], values: &[i32]) -> bool {
    if !variables_stand(levels, values) {
        return false;
    }
    buffers.variable_count = levels.len();
    let variables = buffers.variables.iter_mut().zip(levels.iter().zip(values));
    for (variable, (&level, &value)) in variables {
        *variable = Variable { level, value };
    }
    true
}

/// Whether the table holds a tree; where the arena has its places, it does too
/// then.
fn load_table(arena: &mut Arena, table: &[Record]) -> bool {
    if table.len() <= MAX_NODES {
        let mut live = [false; MAX_NODES];
        let mut counted = [0; MAX_NODES];
        let good = walk(table, &mut live, &mut counted, |place, record| {
            *arena.at_mut(place as u16) = Node {
                parent: record.parent as u16,
                first: record.first as u16,
                right: record.right as u16,
                children: record.children as u16,
                value: record.value as i32,
                existence: record.existence as u8,
                content: record.content as u8,
                list: record.list as u8,
                left: record.left as u16,
                last: record.last as u16,
            };
        });
        if good {
            arena.reclaim(table.len(), &live);
        }
        return good;
    }
    holds_tree(table)
}

/// Whether a table of any length holds a tree: one that is too long is rare.
#[cold]
pub(crate) fn holds_tree(table: &[Record]) -> bool {
    let (mut live, mut counted) = (vec![false; table.len()], vec![0; table.len()]);
    walk(table, &mut live, &mut counted, |_, _| {})
}

/// Goes once through what `first` and `right` reach from the root, each node before
/// its children. `counted` is how many children of an open node were met.
#[inline(always)]
pub(crate) fn walk(
    table: &[Record],
    live: &mut [bool],
    counted: &mut [u32],
    mut enter: impl FnMut(usize, &Record),
) -> bool {
    let Some(root) = table.first() else {
        return false;
    };
    let alone = [root.parent, root.right, root.left] == [NO_LINK; 3];
    if !alone || !levels_ok(root, 0, 0) {
        return false;
    }
    let mut place = 0;
    let mut nodes = 0;
    loop {
        let record = &table[place];
        nodes += 1;
        if live[place] || nodes > MAX_NODES {
            return false;
        }
        live[place] = true;
        counted[place] = 0;
        enter(place, record);
        let mut next = record.first;
        let mut least = record.existence;
        let mut parent = place;
        // The sibling to the left of the next node.
        let mut left = NO_LINK;
        while next == NO_LINK {
            let record = &table[parent];
            if counted[parent] != record.children || record.last != left {
                return false;
            }
            if parent == 0 {
                return true;
            }
            next = record.right;
            least = record.existence;
            left = parent as u32;
            parent = record.parent as usize;
        }
        let Some(record) = table.get(next as usize) else {
            return false;
        };
        let above = &table[parent];
        if record.parent as usize != parent
            || record.left != left
            || !levels_ok(record, least, above.list)
        {
            return false;
        }
        counted[parent] += 1;
        place = next as usize;
    }
}

/// The levels of a node to the right of, or below, one of existence `least`, in
/// a list of level `most`.
#[inline(always)]
fn levels_ok(record: &Record, least: u32, most: u32) -> bool {
    let within = |a: u32, b: u32| a & !b == 0;
    let existence = record.existence;
    within(least, existence)
        && within(existence, most)
        && within(existence, record.content & record.list)
        && record.content | record.list <= 255
}

fn store(buffers: &Buffers, lent: Lent) {
    for (variable, value) in buffers.variables.iter().zip(lent.values) {
        *value = variable.value;
    }
    for (place, record) in lent.table.iter_mut().enumerate() {
        let node = buffers.arena.at(place as u16);
        *record = Record {
            first: u32::from(node.first),
            right: u32::from(node.right),
            parent: u32::from(node.parent),
            existence: u32::from(node.existence),
            value: node.value as u32,
            children: u32::from(node.children),
            content: u32::from(node.content),
            list: u32::from(node.list),
            left: u32::from(node.left),
            last: u32::from(node.last),
        };
    }
}

/// What a run of a job left, as lent records: the first `table.len()` places.
pub fn store_job(buffers: &Buffers, table: &mut [Record]) {
    let lent = Lent {
        table,
        levels: &mut [],
        values: &mut [],
    };
    store(buffers, lent);
}

const _: () = assert!(NONE as u32 == NO_LINK);
