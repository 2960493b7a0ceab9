//! The summary (R-12): "A summary program prints, a line for each node of a job, how
//! many parties each node carries matters of, its three levels joined, in the order
//! of R-10".

use crate::clean::Output;
use crate::job::{decode_with, Node, Refusal};
use crate::mistake::Mistake;
use crate::{holds, join, PARTIES};

/// "each line is that decimal number alone, and a job turned back gives only
/// `refused N at I` on standard error"
pub fn output(bytes: &[u8], mistake: Mistake) -> Output {
    match counts(bytes, mistake) {
        Ok(counts) => Output {
            standard_output: counts.iter().flat_map(line).collect(),
            standard_error: String::new(),
        },
        Err(refusal) => Output {
            standard_output: Vec::new(),
            standard_error: refusal.line(),
        },
    }
}

fn line(count: &usize) -> Vec<u8> {
    format!("{count}\n").into_bytes()
}

/// The number for each node. An accepted job has its nodes in the order of R-10.
pub fn counts(bytes: &[u8], mistake: Mistake) -> Result<Vec<usize>, Refusal> {
    let job = decode_with(bytes, mistake)?;
    let parties = |node: &Node| {
        let levels = match mistake {
            Mistake::SummaryOfContent => node.content,
            _ => join(node.existence, join(node.content, node.list)),
        };
        match mistake {
            Mistake::SummaryIsTheSet => usize::from(levels),
            _ => (0..PARTIES).filter(|&party| holds(levels, party)).count(),
        }
    };
    Ok(job.nodes.iter().map(parties).collect())
}
