//! The portal that is tried.

use reference::mistake::Mistake;
use reference::portal::{line_bytes, LINE_BYTES};
use reference::run::{self, Limits, MAX_PLACES};

#[cfg(portal_linked)]
extern "C" {
    fn portal_run(
        job: *const u8,
        job_len: usize,
        budget: u64,
        lines: *mut u8,
        lines_len: usize,
    ) -> u64;

    fn portal_follow(
        script: *const u8,
        script_len: usize,
        budget: u64,
        table: *mut u32,
        table_len: usize,
        levels: *const u8,
        levels_len: usize,
        values: *mut i32,
        values_len: usize,
        lines: *mut u8,
        lines_len: usize,
    ) -> u64;

    fn portal_write(
        table: *const u32,
        table_len: usize,
        levels: *const u8,
        levels_len: usize,
        values: *const i32,
        values_len: usize,
        area: *mut u8,
        area_len: usize,
    ) -> u64;
}

/// Where this is in the environment, a program is as one that was built without
/// a portal.
pub const UNLINKED: &str = "PORTAL_UNLINKED";

#[derive(Clone, Copy, Debug, PartialEq, Eq)]
pub enum Portal {
    /// `portal_run` of `libportal.a`.
    Linked,
    /// The fast version.
    Fast,
    /// The reference, as it is or with a planted mistake.
    Reference(Mistake),
}

impl Portal {
    /// The linked portal, if this build has one.
    pub fn linked() -> Option<Portal> {
        let hidden = std::env::var_os(UNLINKED).is_some();
        (cfg!(portal_linked) && !hidden).then_some(Portal::Linked)
    }

    pub fn name(self) -> String {
        match self {
            Portal::Linked => String::from("portal_run of libportal.a"),
            Portal::Fast => String::from("the fast version as a portal"),
            Portal::Reference(Mistake::None) => String::from("the reference as a portal"),
            Portal::Reference(mistake) => format!("the reference with {mistake:?} as a portal"),
        }
    }

    /// The ending times 4,294,967,296 plus the line count.
    pub fn call(self, job: &[u8], budget: u64, area: &mut [u8]) -> u64 {
        match self {
            Portal::Linked => call_linked(job, budget, area),
            Portal::Fast => fast::entry::portal(job, budget, area),
            Portal::Reference(mistake) => call_reference(job, budget, area, mistake),
        }
    }
}

#[cfg(portal_linked)]
fn call_linked(job: &[u8], budget: u64, area: &mut [u8]) -> u64 {
    // SAFETY: both slices are valid for their lengths and do not overlap; the
    // portal keeps neither.
    unsafe {
        portal_run(
            job.as_ptr(),
            job.len(),
            budget,
            area.as_mut_ptr(),
            area.len(),
        )
    }
}

#[cfg(not(portal_linked))]
fn call_linked(_: &[u8], _: u64, _: &mut [u8]) -> u64 {
    unreachable!("no portal is linked")
}

/// What a follow-on script is lent besides its lines, and writing besides its area: ten
/// words for each place, in the order of the fast version's records.
pub struct Lending<'a> {
    pub words: &'a mut [u32],
    pub levels: &'a [u8],
    pub values: &'a mut [i32],
}

impl Portal {
    /// Whether [`Portal::follow`] can be called.
    pub fn follows(self) -> bool {
        self == Portal::Linked
    }

    /// A follow-on script; the answer is as that of a job.
    pub fn follow(self, section: &[u8], budget: u64, lent: Lending, area: &mut [u8]) -> u64 {
        match self {
            Portal::Linked => follow_linked(section, budget, lent, area),
            _ => unreachable!("only the linked portal is measured"),
        }
    }

    /// What stands, written as a job: its length, or the number.
    pub fn write(self, lent: Lending, area: &mut [u8]) -> u64 {
        match self {
            Portal::Linked => write_linked(lent, area),
            _ => unreachable!("only the linked portal is measured"),
        }
    }
}

#[cfg(portal_linked)]
fn write_linked(lent: Lending, area: &mut [u8]) -> u64 {
    // SAFETY: all slices are valid for their lengths and do not overlap; the
    // portal keeps none.
    unsafe {
        portal_write(
            lent.words.as_ptr(),
            lent.words.len(),
            lent.levels.as_ptr(),
            lent.levels.len(),
            lent.values.as_ptr(),
            lent.values.len(),
            area.as_mut_ptr(),
            area.len(),
        )
    }
}

#[cfg(not(portal_linked))]
fn write_linked(_: Lending, _: &mut [u8]) -> u64 {
    unreachable!("no portal is linked")
}

#[cfg(portal_linked)]
fn follow_linked(section: &[u8], budget: u64, lent: Lending, area: &mut [u8]) -> u64 {
    let Lending {
        words,
        levels,
        values,
    } = lent;
    // SAFETY: all slices are valid for their lengths and do not overlap; the
    // portal keeps none.
    unsafe {
        portal_follow(
            section.as_ptr(),
            section.len(),
            budget,
            words.as_mut_ptr(),
            words.len(),
            levels.as_ptr(),
            levels.len(),
            values.as_mut_ptr(),
            values.len(),
            area.as_mut_ptr(),
            area.len(),
        )
    }
}

#[cfg(not(portal_linked))]
fn follow_linked(_: &[u8], _: u64, _: Lending, _: &mut [u8]) -> u64 {
    unreachable!("no portal is linked")
}

fn call_reference(job: &[u8], budget: u64, area: &mut [u8], mistake: Mistake) -> u64 {
    let limits = Limits {
        places: MAX_PLACES,
        lines: area.len() / LINE_BYTES,
        ..Limits::ample(budget)
    };
    let outcome = run::outcome_with(job, &limits, mistake);
    let places = area.chunks_exact_mut(LINE_BYTES);
    for (line, bytes) in outcome.lines.iter().zip(places) {
        bytes.copy_from_slice(&line_bytes(line));
    }
    answer(outcome.ending.number(), outcome.lines.len())
}

/// "the ending times 4,294,967,296 plus the line count"
pub fn answer(ending: u32, lines: usize) -> u64 {
    u64::from(ending) * 4_294_967_296 + lines as u64
}
