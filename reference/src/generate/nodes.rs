//! Trees as node records. Each new node becomes its parent's last child, so
//! that a parent comes before its children and siblings stand in order; who makes
//! a job of them lists them the way they hang.

use super::{some_of, two_sets};
use crate::arrange::renumbered;
use crate::job::{Node, MAX_NODES, NO_PARENT};
use crate::random::Random;
use crate::source::node;
use crate::{within, Level, PUBLIC};

/// How one tree grows.
#[derive(Clone, Copy)]
pub struct Growth {
    /// How often a new node's parent is the last node, the root, or any.
    pub parents: [usize; 3],
    /// What levels are made of.
    pub sets: [Level; 2],
    /// Out of five nodes, those with a set as content, as list, and as existence
    /// where the tree rules leave a choice.
    pub content: usize,
    pub list: usize,
    pub existence: usize,
    /// Draws the value of a node.
    pub value: fn(&mut Random) -> i32,
}

impl Growth {
    pub fn some(random: &mut Random, value: fn(&mut Random) -> i32) -> Growth {
        Growth {
            parents: random.pick(&[[1, 1, 2], [0, 0, 1], [1, 6, 1], [4, 1, 1], [1, 0, 0]]),
            sets: two_sets(random),
            content: random.between(1, 3),
            list: random.between(1, 4),
            existence: random.between(1, 3),
            value,
        }
    }
}

/// A tree that keeps the rules, with nodes of every level.
pub fn any(random: &mut Random, growth: Growth) -> Vec<Node> {
    let count = match random.below(200) {
        0 => MAX_NODES,
        1..=10 => random.between(10, 60),
        11..=30 => 1,
        _ => random.between(2, 9),
    };
    grown(random, growth, count)
}

/// A tree of so many nodes.
pub fn grown(random: &mut Random, growth: Growth, count: usize) -> Vec<Node> {
    let mut nodes = vec![root(random, growth)];
    while nodes.len() < count {
        let parent = some_parent(random, nodes.len(), growth);
        let least = least_existence(&nodes, parent);
        let most = nodes[parent].list;
        let existence = if random.chance(growth.existence, 5) {
            least | most & some_of(random, growth.sets)
        } else {
            least
        };
        push(random, &mut nodes, parent, existence, growth);
    }
    nodes
}

/// A tree of nodes whose existence a reader may know.
pub fn public(random: &mut Random, growth: Growth, reader: Level) -> Vec<Node> {
    let count = match random.below(20) {
        0 => 1,
        1 => random.between(8, 20),
        _ => random.between(2, 7),
    };
    let mut nodes = vec![root(random, growth)];
    while nodes.len() < count {
        let parent = some_parent(random, nodes.len(), growth);
        let least = least_existence(&nodes, parent);
        let seen = nodes[parent].list & reader;
        let existence = match random.chance(growth.existence, 5) {
            true => least | seen & some_of(random, growth.sets),
            false => least,
        };
        push(random, &mut nodes, parent, existence, growth);
    }
    nodes
}

/// Up to `most` more nodes whose existence is hidden from a reader, where the list
/// level lets them be.
pub fn add_hidden(
    random: &mut Random,
    nodes: &mut Vec<Node>,
    most: usize,
    growth: Growth,
    reader: Level,
) {
    for _ in 0..random.between(0, most) {
        let open: Vec<usize> = (0..nodes.len())
            .filter(|&i| !within(nodes[i].list, reader))
            .collect();
        if open.is_empty() || nodes.len() == MAX_NODES {
            return;
        }
        let parent = random.pick(&open);
        let list = nodes[parent].list;
        let some = least_existence(nodes, parent) | list & some_of(random, growth.sets);
        let existence = match within(some, reader) {
            true => list,
            false => some,
        };
        push(random, nodes, parent, existence, growth);
    }
}

/// The same tree in another record order, as jobs had it before R-10: "A parent
/// comes before its children; siblings stand left to right in record order.
/// Otherwise the order is open."
pub fn reorder(random: &mut Random, nodes: &[Node]) -> Vec<Node> {
    let mut order = Vec::new();
    let mut ready = vec![0];
    while !ready.is_empty() {
        let choice = random.below(ready.len());
        let index = ready.swap_remove(choice);
        order.push(index);
        let same_parent = |&i: &usize| nodes[i].parent == nodes[index].parent;
        let child_of = |&i: &usize| nodes[i].parent as usize == index;
        ready.extend((index + 1..nodes.len()).find(same_parent));
        ready.extend((index + 1..nodes.len()).find(child_of));
    }
    renumbered(nodes, &order)
}

fn root(random: &mut Random, growth: Growth) -> Node {
    labelled(random, NO_PARENT, PUBLIC, growth)
}

fn some_parent(random: &mut Random, count: usize, growth: Growth) -> usize {
    match random.weighted(&growth.parents) {
        0 => count - 1,
        1 => 0,
        _ => random.below(count),
    }
}

/// The existence that a new last child of `parent` must not be below.
fn least_existence(nodes: &[Node], parent: usize) -> Level {
    let is_child = |node: &&Node| node.parent as usize == parent;
    match nodes.iter().rev().find(is_child) {
        Some(left) => left.existence,
        None => nodes[parent].existence,
    }
}

fn push(
    random: &mut Random,
    nodes: &mut Vec<Node>,
    parent: usize,
    existence: Level,
    growth: Growth,
) {
    let node = labelled(random, parent as u16, existence, growth);
    nodes.push(node);
}

fn labelled(random: &mut Random, parent: u16, existence: Level, growth: Growth) -> Node {
    let mut level = |share: usize| match random.chance(share, 5) {
        true => existence | some_of(random, growth.sets),
        false => existence,
    };
    let (content, list) = (level(growth.content), level(growth.list));
    let value = (growth.value)(random);
    node(parent, [existence, content, list], value)
}
