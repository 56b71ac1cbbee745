//! The four calls that both sides answer, with what goes in and comes out as in the library's C interface.

/// Places of the list of entries that a reading answers: types, ports, the state count of each type,
/// and three places for each pair.
pub const ENTRIES: usize = 402;

/// The numbers under which instances can stand.
pub const STANDING: usize = 256;

/// Where a draft is bad: the place of the line, and of an illegal order its offence.
#[repr(C)]
#[derive(Clone, Copy, PartialEq, Eq, Default, Debug)]
pub struct Fault {
    pub place: u64,
    pub offence: u64,
}

/// The host of a run: a cloud's limits and delay, and how many verifying layers are over it.
#[repr(C)]
#[derive(Clone, Copy, PartialEq, Eq, Default, Debug)]
pub struct Settings {
    pub instances: u32,
    pub bindings: u32,
    pub delay: u32,
    pub layers: u32,
}

/// How a run ended.
#[repr(C)]
#[derive(Clone, Copy, PartialEq, Eq, Default, Debug)]
pub struct Ended {
    pub place: u64,
    pub leases: u64,
    pub instances: u64,
    pub bindings: u64,
    pub waits: u64,
    pub creations: u64,
    pub binds: u64,
}

/// Each call answers 0, or the number of its refusal.
pub trait Calls {
    /// Reads a universe file and writes its entries, as far as there are places.
    fn read(file: &[u8], entries: &mut [u32]) -> u32;

    /// Plans a goal into the list, and writes the number of lines if it does.
    fn plan(file: &[u8], goal: &[u8], list: &mut [u32], lines: &mut u64) -> u32;

    /// Checks a draft, and writes where it is bad.
    fn check(file: &[u8], draft: &[u32], fault: &mut Fault) -> u32;

    /// Checks a draft and runs it on a fresh host, with a step for each place of `report.steps`.
    fn run(file: &[u8], draft: &[u32], settings: &Settings, report: Report) -> u32;
}

/// Where a run writes what came of it.
pub struct Report<'r> {
    /// What each step answered: 0 done, 52 no line, else 256 times the height and the refusal's number.
    pub steps: &'r mut [u32],
    /// What stands at the end: 0, or 1 more than the pair's index.
    pub standing: &'r mut [u32],
    pub fault: &'r mut Fault,
    pub ended: &'r mut Ended,
}
