//! Nodes in an array, linked by index. The root has place 0.

use crate::MAX_NODES;

/// No node.
pub const NONE: u16 = u16::MAX;

#[derive(Clone, Copy, Default)]
pub struct Node {
    pub parent: u16,
    pub first: u16,
    pub right: u16,
    pub children: u16,
    pub value: i32,
    pub existence: u8,
    pub content: u8,
    pub list: u8,
    pub left: u16,
    pub last: u16,
}

/// Removed subtrees are kept whole and taken apart one node at a time, when a
/// place is needed. They stand in a list of sibling chains: `right` is the next
/// of a chain, the `parent` of a chain's head is the next chain.
pub struct Arena {
    nodes: [Node; MAX_NODES],
    /// Places from here on were never used.
    used: usize,
    /// Head of the first chain of removed nodes.
    free: u16,
    /// How many nodes of each place were removed while blocks remembered some.
    removed: [u32; MAX_NODES],
}

impl Arena {
    pub fn new() -> Arena {
        Arena {
            nodes: [Node::default(); MAX_NODES],
            used: 0,
            free: NONE,
            removed: [0; MAX_NODES],
        }
    }

    /// The remainder is no change: every link is `NONE` or below `MAX_NODES`,
    /// and `NONE` is tested for before. It spares the test of the index.
    #[inline(always)]
    pub fn at(&self, place: u16) -> &Node {
        &self.nodes[place as usize % MAX_NODES]
    }

    #[inline(always)]
    pub fn at_mut(&mut self, place: u16) -> &mut Node {
        &mut self.nodes[place as usize % MAX_NODES]
    }

    /// The places that were ever used; after loading, the number of nodes.
    #[inline(always)]
    pub fn used(&self) -> usize {
        self.used
    }

    pub fn clear(&mut self) {
        self.used = 0;
        self.free = NONE;
    }

    /// Makes the places below `places` that are not `live` the free ones, with
    /// no place beyond them.
    pub fn reclaim(&mut self, places: usize, live: &[bool; MAX_NODES]) {
        let mut next = NONE;
        for place in (0..places).rev().filter(|&place| !live[place]) {
            self.nodes[place] = Node {
                parent: NONE,
                first: NONE,
                right: next,
                ..Node::default()
            };
            next = place as u16;
        }
        self.free = next;
        self.used = places;
    }

    /// The last child so far of a node that is loaded.
    #[inline(always)]
    pub fn last_child(&self, parent: u16) -> u16 {
        self.at(parent).last
    }

    /// Puts a record's node into the next place; its parent stands already.
    #[inline(always)]
    pub fn load(&mut self, node: Node) {
        let place = self.used as u16;
        let left = match place {
            0 => NONE,
            _ => self.last_child(node.parent),
        };
        *self.at_mut(place) = Node {
            first: NONE,
            right: NONE,
            left,
            last: NONE,
            children: 0,
            ..node
        };
        self.used += 1;
        if place == 0 {
            return;
        }
        if left == NONE {
            self.at_mut(node.parent).first = place;
        } else {
            self.at_mut(left).right = place;
        }
        let above = self.at_mut(node.parent);
        above.children += 1;
        above.last = place;
    }

    /// Makes `place` the left sibling of `right`, or the last child of `parent`
    /// where there is none to its right.
    #[inline(always)]
    fn lead_back(&mut self, right: u16, parent: u16, place: u16) {
        if right == NONE {
            self.at_mut(parent).last = place;
        } else {
            self.at_mut(right).left = place;
        }
    }

    /// A free place, if one of the first `places` is.
    #[inline(always)]
    fn take(&mut self, places: usize) -> Option<u16> {
        let place = self.free;
        if place == NONE {
            if self.used == places {
                return None;
            }
            self.used += 1;
            return Some(self.used as u16 - 1);
        }
        let Node {
            parent: mut rest,
            right,
            first,
            ..
        } = *self.at(place);
        if right != NONE {
            self.at_mut(right).parent = rest;
            rest = right;
        }
        if first != NONE {
            self.at_mut(first).parent = rest;
            rest = first;
        }
        self.free = rest;
        Some(place)
    }

    /// Tells a node from one that stands at its place later.
    #[inline(always)]
    pub fn removed(&self, place: u16) -> u32 {
        self.removed[place as usize % MAX_NODES]
    }

    /// Counts each node of a subtree as removed; the links above its top are not
    /// looked at.
    fn count_removed(&mut self, top: u16) {
        let mut place = top;
        loop {
            self.removed[place as usize % MAX_NODES] += 1;
            if self.at(place).first != NONE {
                place = self.at(place).first;
                continue;
            }
            while place != top && self.at(place).right == NONE {
                place = self.at(place).parent;
            }
            if place == top {
                return;
            }
            place = self.at(place).right;
        }
    }

    /// Removes a subtree that is unlinked already.
    #[inline(always)]
    fn give(&mut self, top: u16, remembered: bool) {
        if remembered {
            self.count_removed(top);
        }
        let free = self.free;
        let node = self.at_mut(top);
        node.parent = free;
        node.right = NONE;
        self.free = top;
    }

    /// False where every place holds a live node.
    #[inline(always)]
    pub fn insert_first(&mut self, parent: u16, node: Node, places: usize) -> bool {
        let Some(place) = self.take(places) else {
            return false;
        };
        let right = self.at(parent).first;
        *self.at_mut(place) = Node {
            parent,
            first: NONE,
            right,
            left: NONE,
            last: NONE,
            children: 0,
            ..node
        };
        self.lead_back(right, parent, place);
        let above = self.at_mut(parent);
        above.first = place;
        above.children += 1;
        true
    }

    /// False where every place holds a live node. `left` is not the root.
    #[inline(always)]
    pub fn insert_right(&mut self, left: u16, node: Node, places: usize) -> bool {
        let Some(place) = self.take(places) else {
            return false;
        };
        let Node { parent, right, .. } = *self.at(left);
        *self.at_mut(place) = Node {
            parent,
            first: NONE,
            right,
            left,
            last: NONE,
            children: 0,
            ..node
        };
        self.lead_back(right, parent, place);
        self.at_mut(left).right = place;
        self.at_mut(parent).children += 1;
        true
    }

    /// `first` is the first child of `parent`; `remembered` where a block may
    /// remember a node.
    #[inline(always)]
    pub fn remove_first(&mut self, parent: u16, first: u16, remembered: bool) {
        let right = self.at(first).right;
        self.lead_back(right, parent, NONE);
        let above = self.at_mut(parent);
        above.first = right;
        above.children -= 1;
        self.give(first, remembered);
    }

    /// `right` is the right sibling of `left`.
    #[inline(always)]
    pub fn remove_right(&mut self, left: u16, right: u16, remembered: bool) {
        let Node {
            parent,
            right: next,
            ..
        } = *self.at(right);
        self.lead_back(next, parent, left);
        self.at_mut(left).right = next;
        self.at_mut(parent).children -= 1;
        self.give(right, remembered);
    }

    /// Each node with its depth, a parent before its children.
    pub fn preorder(&self) -> Vec<(usize, Node)> {
        let mut rows = Vec::new();
        let mut open = vec![(0, 0u16)];
        while let Some((depth, place)) = open.pop() {
            let node = *self.at(place);
            rows.push((depth, node));
            if node.right != NONE {
                open.push((depth, node.right));
            }
            if node.first != NONE {
                open.push((depth + 1, node.first));
            }
        }
        rows
    }
}

impl Default for Arena {
    fn default() -> Arena {
        Arena::new()
    }
}
