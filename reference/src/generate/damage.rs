//! Damaged cases: a valid one with bytes, lengths, offsets, fields, blocks,
//! counts or limits pushed over an edge, or to it.

use super::script::BLOCK_COMMANDS;
use super::{valid_job, Case};
use crate::job::*;
use crate::random::Random;
use crate::run::{Limits, MAX_BUDGET, MAX_PLACES};
use crate::source::{bare, node, nothing};

/// The damaged case of a seed. Some damage leaves the job accepted.
pub fn damaged(seed: u64) -> Case {
    let mut random = Random::new(seed ^ 0x6461_6d61_6765);
    let (mut job, mut limits) = valid_job(&mut random);
    let choice = random.weighted(&[3, 2, 3, 8, 5, 2, 4, 1, 1]);
    match choice {
        3 => damage_fields(&mut random, &mut job),
        4 => damage_blocks(&mut random, &mut job),
        5 => damage_counts(&mut random, &mut job),
        6 => damage_limits(&mut random, &job, &mut limits),
        _ => {}
    }
    let mut bytes = job.encode();
    match choice {
        0 => flip_bits(&mut random, &mut bytes),
        1 => cut(&mut random, &mut bytes),
        2 => shift_offset(&mut random, &mut bytes),
        7 => bytes = arbitrary_bytes(&mut random),
        8 => bytes.resize(random.pick(&[7, 8, MAX_BYTES, MAX_BYTES + 1]), 0),
        _ => {}
    }
    Case { bytes, limits }
}

fn flip_bits(random: &mut Random, bytes: &mut [u8]) {
    for _ in 0..random.between(1, 4) {
        let place = random.below(bytes.len());
        bytes[place] ^= 1 << random.below(8);
    }
}

/// Bytes taken away or added, at the end or anywhere.
fn cut(random: &mut Random, bytes: &mut Vec<u8>) {
    let place = random.below(bytes.len());
    match random.below(4) {
        0 => bytes.truncate(place),
        1 => drop(bytes.remove(place)),
        2 => bytes.insert(place, random.byte()),
        _ => drop(bytes.drain(place..(place + RECORD_BYTES).min(bytes.len()))),
    }
}

/// One of the four offsets, off by one, by a record, or by anything.
fn shift_offset(random: &mut Random, bytes: &mut [u8]) {
    let place = bytes.len() - TRAILER_BYTES + 2 * random.below(4);
    let old = u16::from_le_bytes([bytes[place], bytes[place + 1]]);
    let by = match random.below(4) {
        0 => 1,
        1 => u16::MAX,
        2 => random.pick(&[VARIABLE_BYTES, NODE_BYTES, RECORD_BYTES]) as u16,
        _ => random.draw() as u16,
    };
    bytes[place..place + 2].copy_from_slice(&old.wrapping_add(by).to_le_bytes());
}

/// Up to three fields out of range, or at the edge of it, in any section: the
/// order of the checks decides.
fn damage_fields(random: &mut Random, job: &mut Job) {
    for _ in 0..random.between(1, 3) {
        match random.below(5) {
            0 => damage_variable(random, job),
            1 => damage_parent(random, job),
            2 => damage_levels(random, job),
            3 => damage_siblings(random, job),
            _ => damage_record(random, job),
        }
    }
}

fn damage_variable(random: &mut Random, job: &mut Job) {
    if let Some(place) = some_place(random, job.variables.len()) {
        job.variables[place].level = random.pick(&[0, 1, 2, 255]);
    }
}

fn damage_parent(random: &mut Random, job: &mut Job) {
    let place = random.below(job.nodes.len());
    let near = [
        place,
        place + 1,
        place.saturating_sub(1),
        random.below(place.max(1)),
        0,
        job.nodes.len(),
        65_535,
    ];
    job.nodes[place].parent = random.pick(&near) as u16;
}

fn damage_levels(random: &mut Random, job: &mut Job) {
    let place = random.below(job.nodes.len());
    let level = random.pick(&[0, 0, 0, 1, 1, 1, 2, 255]);
    let node = &mut job.nodes[place];
    match random.below(3) {
        0 => node.existence = level,
        1 => node.content = level,
        _ => node.list = level,
    }
}

/// A child that the one to its right does not contain, mostly not in records next
/// to each other.
fn damage_siblings(random: &mut Random, job: &mut Job) {
    if job.nodes.len() + 3 > MAX_NODES {
        return;
    }
    let parent = some_ancestor(random, &job.nodes);
    let [list, left, right] = random.pick(&[[1, 1, 0], [3, 1, 2], [7, 5, 6]]);
    job.nodes[parent].list |= list;
    let house = job.nodes.len() as u16;
    job.nodes.push(node(parent as u16, [left; 3], 0));
    if random.chance(2, 3) {
        job.nodes.push(node(house, [left; 3], 0));
    }
    job.nodes.push(node(parent as u16, [right; 3], 0));
}

/// The last record, or a record on the way up from it: below it a new node may
/// stand last.
fn some_ancestor(random: &mut Random, nodes: &[Node]) -> usize {
    let mut place = nodes.len() - 1;
    while random.chance(2, 3) {
        match usize::from(nodes[place].parent) {
            parent if parent < place => place = parent,
            _ => break,
        }
    }
    place
}

fn damage_record(random: &mut Random, job: &mut Job) {
    let Some(place) = some_place(random, job.script.len()) else {
        return;
    };
    let count = job.variables.len();
    let record = &mut job.script[place];
    let number = random.pick(&[count, count.wrapping_sub(1), 0, u32::MAX as usize]) as u32;
    match random.below(7) {
        0 => record.command = random.pick(&[17, 19, 20, 255]),
        1 => record.target = random.pick(&[3, 4, count as u8, 255]),
        2 => record.operator = random.pick(&[5, 6, 255]),
        3 => record.left_kind = random.pick(&[3, 4, 255]),
        4 => record.right_kind = random.pick(&[3, 4, 255]),
        5 => (record.left_kind, record.left) = (kind::VARIABLE, number),
        _ => (record.right_kind, record.right) = (kind::VARIABLE, number),
    }
}

/// Records of blocks put in, taken out, changed, or nested up to 16 and 17.
fn damage_blocks(random: &mut Random, job: &mut Job) {
    if random.chance(1, 4) {
        job.script = nested(random);
        return;
    }
    let block_record = bare(random.pick(&BLOCK_COMMANDS));
    let place = random.below(job.script.len() + 1);
    match random.below(3) {
        0 => job.script.insert(place, block_record),
        1 if place < job.script.len() => job.script[place] = block_record,
        _ => remove_block_record(random, job),
    }
}

/// 15 to 18 blocks, one inside the other.
fn nested(random: &mut Random) -> Vec<Record> {
    let depth = random.between(MAX_BLOCKS - 1, MAX_BLOCKS + 2);
    let openings =
        (0..depth).map(|_| bare(random.pick(&[command::IF, command::WHILE, command::IF_BACK])));
    let mut script: Vec<Record> = openings.collect();
    script.extend(vec![bare(command::END); depth]);
    script
}

fn remove_block_record(random: &mut Random, job: &mut Job) {
    let is_block = |&i: &usize| BLOCK_COMMANDS.contains(&job.script[i].command);
    let places: Vec<usize> = (0..job.script.len()).filter(is_block).collect();
    if !places.is_empty() {
        job.script.remove(random.pick(&places));
    }
}

/// A section of the greatest size, or one record more; or all three, which is
/// the greatest job; or no node.
fn damage_counts(random: &mut Random, job: &mut Job) {
    let choice = random.below(5);
    let more = random.below(2);
    if choice == 0 || choice == 3 {
        job.variables.resize(MAX_VARIABLES, Variable::default());
    }
    if choice == 1 || choice == 3 {
        job.nodes.truncate(1);
        job.nodes.resize(MAX_NODES, node(0, [0, 0, 0], 0));
    }
    if choice == 2 || choice == 3 {
        job.script.resize(MAX_RECORDS, nothing());
    }
    match choice {
        0 | 3 => job.variables.extend(vec![Variable::default(); more]),
        1 => job.nodes.extend(vec![node(0, [0, 0, 0], 0); more]),
        2 => job.script.extend(vec![nothing(); more]),
        _ => job.nodes.clear(),
    }
}

/// Budget, places or variable buffer just inside or just outside their range.
fn damage_limits(random: &mut Random, job: &Job, limits: &mut Limits) {
    let nodes = job.nodes.len();
    let short = job.variables.len().saturating_sub(1);
    match random.below(3) {
        0 => limits.budget = random.pick(&[0, 1, 2, MAX_BUDGET + 1, 1 << 32, u64::MAX]),
        1 => limits.places = random.pick(&[0, nodes - 1, nodes, MAX_PLACES, MAX_PLACES + 1]),
        _ => limits.variables = random.pick(&[0, short, job.variables.len()]),
    }
}

/// A few bytes, zeros or noise.
fn arbitrary_bytes(random: &mut Random) -> Vec<u8> {
    let length = random.below(48);
    let zeros = random.chance(1, 2);
    let byte = |random: &mut Random| if zeros { 0 } else { random.byte() };
    (0..length).map(|_| byte(random)).collect()
}

fn some_place(random: &mut Random, length: usize) -> Option<usize> {
    (length > 0).then(|| random.below(length))
}
