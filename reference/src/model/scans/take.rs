//! Taking the oldest waiting scan.

use super::jobs::{run_jobs, Job};
use super::look::look;
use super::slots::{word_address, Scan, Slot, MARK};
use crate::model::answers::ScanTaken;
use crate::model::checks::check_scan_pages;
use crate::model::refusals::{NONE, NO_SCAN};
use crate::model::state::Controller;

/// Checks 1, 2, 3, 4, 16, 19; nothing is recorded.
pub fn take_scan(c: &mut Controller, image: &mut [u32], pages: [u32; 2], steps: u32) -> ScanTaken {
    match oldest_waiting(c, image, pages) {
        Err(refusal) => ScanTaken {
            refusal,
            ..ScanTaken::default()
        },
        Ok((slot, scan)) => {
            let mark = Job::program_zero(word_address(slot, MARK));
            let cut = run_jobs(c, image, vec![mark], steps);
            ScanTaken {
                refusal: NONE,
                cut,
                scan: (!cut).then_some(scan),
            }
        }
    }
}

/// The waiting scan of lowest serial, then of lowest place, and where its slot begins.
fn oldest_waiting(c: &Controller, image: &[u32], pages: [u32; 2]) -> Result<(u32, Scan), u8> {
    check_scan_pages(c, image, pages)?;
    let found = look(c.data_pages, image, pages);
    let waiting = found.into_iter().filter_map(|found| match found.slot {
        Slot::Waiting(scan) => Some((found.address, scan)),
        _ => None,
    });
    waiting.min_by_key(|(_, scan)| scan.serial).ok_or(NO_SCAN)
}
