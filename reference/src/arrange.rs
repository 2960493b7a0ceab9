//! The rearranger (R-10): "each node is followed at once by its whole subtree,
//! children from left to right. A small tool rearranges any job accepted so far:
//! it moves whole node records, renumbers parents and changes nothing else".

use crate::clean::Output;
use crate::job::{decode_first, decode_unordered, decode_with, Job, Node, Refusal};
use crate::mistake::Mistake;

/// What the program puts out: the rearranged bytes, or `refused N at I` alone.
pub fn output(bytes: &[u8], mistake: Mistake) -> Output {
    match arranged(bytes, mistake) {
        Ok(arranged) => Output {
            standard_output: arranged,
            standard_error: String::new(),
        },
        Err(refusal) => Output {
            standard_output: Vec::new(),
            standard_error: refusal.line(),
        },
    }
}

/// The rearranged bytes; "a job turned back so far gets its number and index".
/// "So far" is everything up to R-9, whatever lands later.
pub fn arranged(bytes: &[u8], mistake: Mistake) -> Result<Vec<u8>, Refusal> {
    let job = match mistake {
        Mistake::ArrangerHasNewRules => decode_with(bytes, mistake)?,
        Mistake::ArrangerHasFirstRules => decode_first(bytes, mistake)?,
        _ => decode_unordered(bytes, mistake)?,
    };
    let order = match mistake {
        Mistake::ArrangedByLevels => by_levels(&job.nodes),
        Mistake::ArrangedRightToLeft => order(&job.nodes, true),
        _ => order(&job.nodes, false),
    };
    let nodes = match mistake {
        Mistake::ArrangedParentsKept => order.iter().map(|&old| job.nodes[old]).collect(),
        _ => renumbered(&job.nodes, &order),
    };
    Ok(Job { nodes, ..job }.encode())
}

/// The same nodes in the order of R-10.
pub fn in_order(nodes: &[Node]) -> Vec<Node> {
    renumbered(nodes, &order(nodes, false))
}

/// Which record stands at each place: a node, then the subtrees of its children,
/// one after the other.
fn order(nodes: &[Node], right_to_left: bool) -> Vec<usize> {
    let mut order = Vec::new();
    // From the root on, where there is one.
    let mut waiting: Vec<usize> = (0..nodes.len().min(1)).collect();
    while let Some(index) = waiting.pop() {
        order.push(index);
        let mut children = children(nodes, index);
        if !right_to_left {
            children.reverse();
        }
        waiting.extend(children);
    }
    order
}

/// The nodes of a level after those of the level above.
fn by_levels(nodes: &[Node]) -> Vec<usize> {
    let mut order = vec![0];
    for place in 0..nodes.len() {
        order.extend(children(nodes, order[place]));
    }
    order
}

/// The children of a node from left to right: "siblings stand left to right in
/// record order".
fn children(nodes: &[Node], index: usize) -> Vec<usize> {
    let is_child = |&child: &usize| nodes[child].parent as usize == index;
    (index + 1..nodes.len()).filter(is_child).collect()
}

/// The nodes of `order`, with the parents' new indexes.
pub fn renumbered(nodes: &[Node], order: &[usize]) -> Vec<Node> {
    let new_index = |old: u16| match order.iter().position(|&index| index == old as usize) {
        Some(new) => new as u16,
        None => old,
    };
    order
        .iter()
        .map(|&index| Node {
            parent: new_index(nodes[index].parent),
            ..nodes[index]
        })
        .collect()
}
