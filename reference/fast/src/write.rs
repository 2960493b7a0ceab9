//! What stands in a lent table, written as a job.

use crate::ending;
use crate::follow::{holds_tree, variables_stand, walk, Record};
use crate::MAX_NODES;

/// The job's length, or the number by which it is turned away.
pub fn write(table: &[Record], levels: &[u8], values: &[i32], area: &mut [u8]) -> usize {
    if !variables_stand(levels, values) {
        return usize::from(ending::STANDING);
    }
    if table.len() > MAX_NODES {
        return match holds_tree(table) {
            true => usize::from(ending::BUFFER),
            false => usize::from(ending::STANDING),
        };
    }
    // The live places in preorder, and the record that each becomes.
    let mut order = [0u16; MAX_NODES];
    let mut index = [0u16; MAX_NODES];
    let mut count = 0;
    let (mut live, mut counted) = ([false; MAX_NODES], [0; MAX_NODES]);
    let whole = walk(table, &mut live, &mut counted, |place, _| {
        order[count] = place as u16;
        index[place] = count as u16;
        count += 1;
    });
    if !whole {
        return usize::from(ending::STANDING);
    }
    let nodes = 8 * levels.len();
    let script = nodes + 12 * count;
    let length = script + 8;
    if area.len() < length {
        return usize::from(ending::AREA);
    }
    let variables = area[..nodes].chunks_exact_mut(8);
    for (bytes, (&level, value)) in variables.zip(levels.iter().zip(values)) {
        bytes[..4].copy_from_slice(&u32::from(level).to_le_bytes());
        bytes[4..].copy_from_slice(&value.to_le_bytes());
    }
    let records = area[nodes..script].chunks_exact_mut(12);
    for (bytes, &place) in records.zip(&order) {
        let record = &table[usize::from(place)];
        let parent = match place {
            0 => u16::MAX,
            _ => index[record.parent as usize],
        };
        bytes[..2].copy_from_slice(&parent.to_le_bytes());
        bytes[2] = record.existence as u8;
        bytes[3] = record.content as u8;
        bytes[4] = record.list as u8;
        bytes[5..8].fill(0);
        bytes[8..].copy_from_slice(&record.value.to_le_bytes());
    }
    let offsets = area[script..length].chunks_exact_mut(2);
    for (bytes, offset) in offsets.zip([0, nodes, script, script]) {
        bytes.copy_from_slice(&(offset as u16).to_le_bytes());
    }
    length
}
