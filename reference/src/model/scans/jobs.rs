//! The operations of a call for scans, one after the other.

use crate::model::operation::{Operation, DATA, PAGE_ERASE, PROGRAM};
use crate::model::state::Controller;
use crate::model::whole::run_for;

/// An operation on a data page, with the words that it programs.
pub(super) struct Job {
    operation: Operation,
    words: Vec<u32>,
}

impl Job {
    pub(super) fn program(address: u32, words: Vec<u32>) -> Self {
        Job {
            operation: data_operation(PROGRAM, address, words.len() as u32),
            words,
        }
    }

    /// A seal or a mark.
    pub(super) fn program_zero(address: u32) -> Self {
        Job::program(address, vec![0])
    }

    pub(super) fn page_erase(address: u32) -> Self {
        Job {
            operation: data_operation(PAGE_ERASE, address, 0),
            words: Vec::new(),
        }
    }
}

fn data_operation(kind: u8, address: u32, count: u32) -> Operation {
    Operation {
        kind,
        partition: DATA,
        info_type: 0,
        address,
        count,
    }
}

/// Runs the jobs for at most so many steps in all; whether one was cut. After a cut
/// none is started.
pub(super) fn run_jobs(
    c: &mut Controller,
    image: &mut [u32],
    jobs: Vec<Job>,
    mut steps: u32,
) -> bool {
    for mut job in jobs {
        let ran = run_for(c, job.operation, image, &mut job.words, steps);
        if ran.cut {
            return true;
        }
        steps = ran.left;
    }
    false
}
