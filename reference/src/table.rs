//! A lent table of node records, and the tree that it holds.
//!
//! Live is what `first` and `right` reach from record 0, the root. Nothing is
//! asked of the other records: their places are free.

use crate::job::MAX_NODES;
use crate::mistake::Mistake;
use crate::tree::Tree;

/// No node.
pub const NO_LINK: u32 = 65_535;

/// A node record. A link is a place of the table, or [`NO_LINK`].
#[derive(Clone, Copy, Debug, Default, PartialEq, Eq)]
pub struct Lent {
    pub first: u32,
    pub right: u32,
    pub parent: u32,
    pub children: u32,
    pub value: i32,
    pub existence: u8,
    pub content: u8,
    pub list: u8,
    /// The left sibling and the last child.
    pub left: u32,
    pub last: u32,
}

/// Why what is lent is turned away with 11.
#[derive(Clone, Copy, Debug, PartialEq, Eq, PartialOrd, Ord)]
pub enum Fault {
    /// "a bare section that is not whole records"
    PartRecord,
    /// "or has more than 1,024"
    TooManyRecords,
    /// More than 64 variables.
    TooManyVariables,
    /// No places, so no root.
    NoPlaces,
    /// A link that is neither [`NO_LINK`] nor a place.
    Link,
    /// A place that is reached from itself.
    Cycle,
    /// A place that is reached twice.
    Shared,
    /// A node whose parent is another.
    Parent,
    /// A wrong count of children.
    Count,
    /// A node whose left sibling is another.
    Left,
    /// A node whose last child is another.
    Last,
    RootParent,
    RootSibling,
    /// More than 512 live nodes.
    TooManyNodes,
    /// A broken tree rule.
    Rule,
}

impl Fault {
    pub const ALL: [Fault; 15] = [
        Fault::PartRecord,
        Fault::TooManyRecords,
        Fault::TooManyVariables,
        Fault::NoPlaces,
        Fault::Link,
        Fault::Cycle,
        Fault::Shared,
        Fault::Parent,
        Fault::Count,
        Fault::Left,
        Fault::Last,
        Fault::RootParent,
        Fault::RootSibling,
        Fault::TooManyNodes,
        Fault::Rule,
    ];
}

/// The tree that a table holds, if an accepted job could hold it.
pub fn tree(table: &[Lent], mistake: Mistake) -> Result<Tree, Fault> {
    let mut reader = Reader {
        table,
        mistake,
        found: vec![Found::Not; table.len()],
        live: 0,
    };
    let root = table.first().ok_or(Fault::NoPlaces)?;
    if root.parent != NO_LINK {
        return Err(Fault::RootParent);
    }
    if root.right != NO_LINK && mistake != Mistake::RootSiblingAccepted {
        return Err(Fault::RootSibling);
    }
    let (tree, _) = reader.subtree(0, NO_LINK, NO_LINK)?;
    if reader.free_place_is_faulty() {
        return Err(Fault::Link);
    }
    if !tree.keeps_rules() && mistake != Mistake::LentRulesUnchecked {
        return Err(Fault::Rule);
    }
    Ok(tree)
}

/// What the walk knows of a place.
#[derive(Clone, Copy, Debug, PartialEq, Eq)]
enum Found {
    Not,
    /// Its subtree is being read.
    Open,
    Whole,
}

struct Reader<'a> {
    table: &'a [Lent],
    mistake: Mistake,
    found: Vec<Found>,
    live: usize,
}

impl Reader<'_> {
    /// The subtree at `place`, below `parent` and right of `left`, and the link to
    /// its right.
    fn subtree(&mut self, place: u32, parent: u32, left: u32) -> Result<(Tree, u32), Fault> {
        let record = *self.table.get(place as usize).ok_or(Fault::Link)?;
        match self.found[place as usize] {
            Found::Not => {}
            Found::Open => return Err(Fault::Cycle),
            Found::Whole => return Err(Fault::Shared),
        }
        if self.live == MAX_NODES {
            return Err(Fault::TooManyNodes);
        }
        self.live += 1;
        if record.parent != parent && self.mistake != Mistake::LentParentUnchecked {
            return Err(Fault::Parent);
        }
        if record.left != left && self.mistake != Mistake::LentLeftUnchecked {
            return Err(Fault::Left);
        }
        self.found[place as usize] = Found::Open;
        let mut children = Vec::new();
        let mut next = record.first;
        let mut last = NO_LINK;
        while !self.no_link(next) {
            let (child, right) = self.subtree(next, place, last)?;
            children.push(child);
            last = next;
            next = right;
        }
        if record.last != last && self.mistake != Mistake::LentLastUnchecked {
            return Err(Fault::Last);
        }
        self.found[place as usize] = Found::Whole;
        let counted = match self.mistake {
            Mistake::LentCountUnchecked => true,
            Mistake::LentCountTooHigh => record.children >= children.len() as u32,
            _ => record.children == children.len() as u32,
        };
        if !counted {
            return Err(Fault::Count);
        }
        let tree = Tree {
            value: record.value,
            existence: record.existence,
            content: record.content,
            list: record.list,
            children,
        };
        Ok((tree, record.right))
    }

    /// "no link is 65535 alone"
    fn no_link(&self, link: u32) -> bool {
        match self.mistake {
            Mistake::LinkOutsideIsNone => link as usize >= self.table.len(),
            _ => link == NO_LINK,
        }
    }

    /// Whether a wrong monitor minds what a free place holds.
    fn free_place_is_faulty(&self) -> bool {
        let outside = |link: u32| link != NO_LINK && link as usize >= self.table.len();
        let records = self.table.iter().zip(&self.found);
        let mut free = records.filter(|(_, found)| **found == Found::Not);
        free.any(|(record, _)| match self.mistake {
            Mistake::FreePlacesChecked => outside(record.first),
            Mistake::FreeLeftChecked => outside(record.left),
            Mistake::FreeCountsChecked => record.first == NO_LINK && record.children != 0,
            _ => false,
        })
    }
}
