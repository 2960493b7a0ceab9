//! The portal's call: "it hands over job bytes, a budget and a byte area for
//! lines [...] It receives one 64-bit number: the ending times 4,294,967,296
//! plus the line count. It has 512 places."

use std::cell::RefCell;

use crate::{run, Buffers, Limits, MAX_NODES, MAX_VARIABLES};

thread_local! {
    static BUFFERS: RefCell<Box<Buffers>> = RefCell::new(Buffers::new());
}

pub fn portal(job: &[u8], budget: u64, area: &mut [u8]) -> u64 {
    BUFFERS.with(|buffers| portal_in(&mut buffers.borrow_mut(), job, budget, area))
}

/// The same, with buffers of the caller's.
pub fn portal_in(buffers: &mut Buffers, job: &[u8], budget: u64, area: &mut [u8]) -> u64 {
    let limits = Limits {
        budget,
        places: MAX_NODES,
        variables: MAX_VARIABLES,
    };
    let answer = run::run(buffers, job, limits, area);
    u64::from(answer.ending) << 32 | u64::from(answer.lines)
}

/// For a C caller, with the same arguments as `portal_run`.
///
/// # Safety
/// `job` and `lines` have `job_len` and `lines_len` bytes and do not overlap.
#[no_mangle]
pub unsafe extern "C" fn fast_portal_run(
    job: *const u8,
    job_len: usize,
    budget: u64,
    lines: *mut u8,
    lines_len: usize,
) -> u64 {
    let job = std::slice::from_raw_parts(job, job_len);
    let lines = std::slice::from_raw_parts_mut(lines, lines_len);
    portal(job, budget, lines)
}
