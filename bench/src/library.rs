//! The library's C interface, in safe functions. What it writes is as long as its buffers, whatever they hold.

use sengoruwa_bench::calls::{Calls, Ended, Fault, Report, Settings};

extern "C" {
    fn sengoruwa_read(
        file: *const u8,
        file_len: usize,
        entries: *mut u32,
        entries_len: usize,
    ) -> u32;

    fn sengoruwa_plan(
        file: *const u8,
        file_len: usize,
        goal: *const u8,
        goal_len: usize,
        list: *mut u32,
        list_len: usize,
        lines: *mut u64,
    ) -> u32;

    fn sengoruwa_check(
        file: *const u8,
        file_len: usize,
        lines: *const u32,
        lines_len: usize,
        fault: *mut Fault,
    ) -> u32;

    fn sengoruwa_run(
        file: *const u8,
        file_len: usize,
        lines: *const u32,
        lines_len: usize,
        settings: *const Settings,
        answers: *mut u32,
        answers_len: usize,
        standing: *mut u32,
        standing_len: usize,
        fault: *mut Fault,
        ended: *mut Ended,
    ) -> u32;
}

pub struct Library;

// In each call the pointers and lengths are those of slices and references that outlive it, and the library keeps none of them.
impl Calls for Library {
    fn read(file: &[u8], entries: &mut [u32]) -> u32 {
        unsafe {
            sengoruwa_read(
                file.as_ptr(),
                file.len(),
                entries.as_mut_ptr(),
                entries.len(),
            )
        }
    }

    fn plan(file: &[u8], goal: &[u8], list: &mut [u32], lines: &mut u64) -> u32 {
        unsafe {
            sengoruwa_plan(
                file.as_ptr(),
                file.len(),
                goal.as_ptr(),
                goal.len(),
                list.as_mut_ptr(),
                list.len(),
                lines,
            )
        }
    }

    fn check(file: &[u8], draft: &[u32], fault: &mut Fault) -> u32 {
        unsafe {
            sengoruwa_check(
                file.as_ptr(),
                file.len(),
                draft.as_ptr(),
                draft.len(),
                fault,
            )
        }
    }

    fn run(file: &[u8], draft: &[u32], settings: &Settings, report: Report) -> u32 {
        unsafe {
            sengoruwa_run(
                file.as_ptr(),
                file.len(),
                draft.as_ptr(),
                draft.len(),
                settings,
                report.steps.as_mut_ptr(),
                report.steps.len(),
                report.standing.as_mut_ptr(),
                report.standing.len(),
                report.fault,
                report.ended,
            )
        }
    }
}
