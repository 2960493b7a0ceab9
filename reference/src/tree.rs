//! An ordinary tree: each node owns its children, left to right.

use crate::job;
use crate::{within, Level, PUBLIC};

#[derive(Clone, Debug, PartialEq, Eq)]
pub struct Tree {
    pub value: i32,
    pub existence: Level,
    pub content: Level,
    pub list: Level,
    pub children: Vec<Tree>,
}

/// A node's sibling places on the way from the root; the root's is empty.
pub type Path = Vec<usize>;

/// One node of the tree in preorder.
#[derive(Clone, Copy, Debug, PartialEq, Eq)]
pub struct Row {
    /// 0 for the root.
    pub depth: usize,
    pub existence: Level,
    pub content: Level,
    pub list: Level,
    pub value: i32,
}

impl Tree {
    /// The tree of node records that passed check 5.
    pub fn from_records(records: &[job::Node]) -> Tree {
        let mut children = vec![Vec::new(); records.len()];
        for (index, record) in records.iter().enumerate().skip(1) {
            // "siblings stand left to right in record order"
            children[record.parent as usize].push(index);
        }
        Tree::from_record(records, &children, 0)
    }

    fn from_record(records: &[job::Node], children: &[Vec<usize>], index: usize) -> Tree {
        let record = &records[index];
        Tree {
            value: record.value,
            existence: record.existence,
            content: record.content,
            list: record.list,
            children: children[index]
                .iter()
                .map(|&child| Tree::from_record(records, children, child))
                .collect(),
        }
    }

    /// The node at `path`, which exists.
    pub fn at(&self, path: &[usize]) -> &Tree {
        path.iter().fold(self, |node, &place| &node.children[place])
    }

    /// Whether there is a node at `path`.
    pub fn stands(&self, path: &[usize]) -> bool {
        match path.split_first() {
            None => true,
            Some((&place, rest)) => {
                let child = self.children.get(place);
                child.is_some_and(|child| child.stands(rest))
            }
        }
    }

    pub fn at_mut(&mut self, path: &[usize]) -> &mut Tree {
        path.iter()
            .fold(self, |node, &place| &mut node.children[place])
    }

    /// The number of nodes, this one included.
    pub fn count(&self) -> usize {
        1 + self.children.iter().map(Tree::count).sum::<usize>()
    }

    /// All nodes, each before its children.
    pub fn preorder(&self) -> Vec<Row> {
        let mut rows = Vec::new();
        self.push_rows(0, &mut rows);
        rows
    }

    fn push_rows(&self, depth: usize, rows: &mut Vec<Row>) {
        rows.push(Row {
            depth,
            existence: self.existence,
            content: self.content,
            list: self.list,
            value: self.value,
        });
        for child in &self.children {
            child.push_rows(depth + 1, rows);
        }
    }

    /// "Every tree, at start and after each step: the root has existence 0",
    /// and the rules for all nodes below it.
    pub fn keeps_rules(&self) -> bool {
        self.existence == PUBLIC && self.keeps_rules_below()
    }

    fn keeps_rules_below(&self) -> bool {
        let own = within(self.existence, self.content) && within(self.existence, self.list);
        let children = self.children.iter().all(|child| {
            within(self.existence, child.existence) && within(child.existence, self.list)
        });
        let siblings = self
            .children
            .windows(2)
            .all(|pair| within(pair[0].existence, pair[1].existence));
        own && children && siblings && self.children.iter().all(Tree::keeps_rules_below)
    }
}
