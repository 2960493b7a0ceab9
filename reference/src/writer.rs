//! Writing what stands back as a job (R-11): "Write the variables and live nodes
//! as a job with an empty script, the nodes closed up in the order R-10 fixes."

use crate::ending::Ending;
use crate::job::{Job, Node, Variable, NO_PARENT};
use crate::mistake::Mistake;
use crate::run::{Standing, MAX_PLACES};
use crate::table::Fault;
use crate::tree::Tree;

/// The fewest bytes of a job that is written: a root and the trailer.
const LEAST: usize = 20;

/// What stands as a job.
pub fn written(standing: &Standing) -> Vec<u8> {
    written_with(standing, Mistake::None)
}

fn written_with(standing: &Standing, mistake: Mistake) -> Vec<u8> {
    let variable = |&(level, value): &(_, i32)| Variable {
        level,
        value,
        ..Variable::default()
    };
    let mut nodes = Vec::new();
    match mistake {
        Mistake::WrittenByLevels => level_after_level(&standing.tree, &mut nodes),
        _ => subtree_at_once(&standing.tree, NO_PARENT, &mut nodes),
    }
    if mistake == Mistake::WrittenHouseValuesDropped {
        for node in nodes.iter_mut().filter(|node| node.content > 0) {
            node.value = 0;
        }
    }
    Job {
        variables: standing.variables.iter().map(variable).collect(),
        nodes,
        script: Vec::new(),
    }
    .encode()
}

/// "each node is followed at once by its whole subtree, children from left to
/// right"
fn subtree_at_once(tree: &Tree, parent: u16, nodes: &mut Vec<Node>) {
    let index = nodes.len() as u16;
    nodes.push(record(tree, parent));
    for child in &tree.children {
        subtree_at_once(child, index, nodes);
    }
}

fn level_after_level(tree: &Tree, nodes: &mut Vec<Node>) {
    let mut level = vec![(tree, NO_PARENT)];
    while !level.is_empty() {
        let mut next = Vec::new();
        for (node, parent) in level {
            let index = nodes.len() as u16;
            nodes.push(record(node, parent));
            next.extend(node.children.iter().map(|child| (child, index)));
        }
        level = next;
    }
}

fn record(tree: &Tree, parent: u16) -> Node {
    Node {
        parent,
        existence: tree.existence,
        content: tree.content,
        list: tree.list,
        value: tree.value,
        ..Node::default()
    }
}

/// "The answer is the job's length, or the number." `places` is how many records
/// are lent.
pub fn write(
    standing: &Result<Standing, Fault>,
    places: usize,
    area: &mut [u8],
    mistake: Mistake,
) -> usize {
    let number = |ending: Ending| ending.number() as usize;
    match job_for(standing, places, area, mistake) {
        Ok(job) => {
            area[..job.len()].copy_from_slice(&job);
            if mistake == Mistake::WrittenRestCleared {
                area[job.len()..].fill(0);
            }
            job.len()
        }
        Err(ending) => number(ending),
    }
}

/// "14, the output area is shorter than the job, checked after 11 and 10 for the
/// state as in R-1; all three leave the area untouched."
fn job_for(
    standing: &Result<Standing, Fault>,
    places: usize,
    area: &mut [u8],
    mistake: Mistake,
) -> Result<Vec<u8>, Ending> {
    if mistake == Mistake::AreaBeforeStanding && area.len() < LEAST {
        return Err(Ending::Area);
    }
    let standing = standing.as_ref().map_err(|_| Ending::Standing)?;
    let too_many = places > MAX_PLACES && mistake != Mistake::WrittenFromMorePlaces;
    if too_many && mistake != Mistake::AreaBeforePlaces {
        return Err(Ending::Buffer);
    }
    let job = written_with(standing, mistake);
    let short = match mistake {
        Mistake::AreaMustBeLonger => area.len() <= job.len(),
        _ => area.len() < job.len(),
    };
    if short {
        if mistake == Mistake::ShortAreaFilled {
            let room = area.len();
            area.copy_from_slice(&job[..room]);
        }
        return Err(Ending::Area);
    }
    match too_many {
        true => Err(Ending::Buffer),
        false => Ok(job),
    }
}
