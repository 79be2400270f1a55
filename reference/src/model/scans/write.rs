//! Writing a scan: its words, then its seal, after an erase if no slot is unused.

use super::jobs::{run_jobs, Job};
use super::look::{look, Found};
use super::slots::{word_address, words, Scan, Slot, LENGTHS, SCAN, SEAL, SERIAL_END};
use crate::model::answers::ScanWritten;
use crate::model::checks::check_scan_pages;
use crate::model::geometry::PAGE_BYTES;
use crate::model::refusals::{BAD_SCAN, NONE, SCANS_FULL};
use crate::model::state::Controller;

/// Checks 1, 2, 3, 4, 16, 18, 17; nothing is recorded.
pub fn write_scan(
    c: &mut Controller,
    image: &mut [u32],
    pages: [u32; 2],
    bytes: &[u8],
    steps: u32,
) -> ScanWritten {
    match jobs_of_write(c, image, pages, bytes) {
        Err(refusal) => ScanWritten {
            refusal,
            cut: false,
        },
        Ok(jobs) => ScanWritten {
            refusal: NONE,
            cut: run_jobs(c, image, jobs, steps),
        },
    }
}

/// The erase if there is one, the program of words 2 to 15, and the seal.
fn jobs_of_write(
    c: &Controller,
    image: &[u32],
    pages: [u32; 2],
    bytes: &[u8],
) -> Result<Vec<Job>, u8> {
    check_scan_pages(c, image, pages)?;
    let found = look(c.data_pages, image, pages);
    let serial = new_serial(&found);
    if !LENGTHS.contains(&bytes.len()) || serial >= SERIAL_END {
        return Err(BAD_SCAN);
    }
    let (slot, erase) = match lowest_unused(&found) {
        Some(slot) => (slot, None),
        None => {
            let page = page_to_erase(&found).ok_or(SCANS_FULL)?;
            (page, Some(Job::page_erase(page)))
        }
    };
    let scan = Scan {
        serial,
        bytes: bytes.to_vec(),
    };
    let fill = Job::program(word_address(slot, SCAN), words(&scan));
    let seal = Job::program_zero(word_address(slot, SEAL));
    Ok(erase.into_iter().chain([fill, seal]).collect())
}

/// One above the highest sealed, or 1; settled before any erase.
fn new_serial(found: &[Found]) -> u32 {
    let sealed = found.iter().filter_map(|found| found.slot.sealed());
    let highest = sealed.map(|scan| scan.serial).max();
    highest.map_or(1, |serial| serial + 1)
}

/// Where the unused slot of lowest place begins.
fn lowest_unused(found: &[Found]) -> Option<u32> {
    let unused = found.iter().find(|found| found.slot == Slot::Unused);
    unused.map(|found| found.address)
}

/// Where the lower-numbered page with no waiting slot begins.
fn page_to_erase(found: &[Found]) -> Option<u32> {
    let mut pages = found.chunk_by(|a, b| page_of(a) == page_of(b));
    let page = pages.find(|page| !page.iter().any(waits))?;
    Some(page[0].address)
}

fn page_of(found: &Found) -> u32 {
    found.address / PAGE_BYTES as u32
}

fn waits(found: &Found) -> bool {
    matches!(found.slot, Slot::Waiting(_))
}
