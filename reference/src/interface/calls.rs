//! The library's functions: lent memory is a reference here, a pointer and,
//! where it has one, a length there.

use super::flat::*;

// The names carry the header's LURGABEL_LAYOUT.
extern "C" {
    fn lurgabel_layout4_reset(c: &mut Controller, data_pages: u32) -> u32;
    fn lurgabel_layout4_set_inputs(
        c: &mut Controller,
        provision_enabled: u32,
        seeds_locked: u32,
    ) -> u32;
    fn lurgabel_layout4_set_region(c: &mut Controller, number: u32, region: Region) -> u32;
    fn lurgabel_layout4_set_default_rights(c: &mut Controller, rights: u32) -> u32;
    fn lurgabel_layout4_set_info_page(
        c: &mut Controller,
        bank: u32,
        info_type: u32,
        page: u32,
        setting: PageSetting,
    ) -> u32;
    fn lurgabel_layout4_set_bank_erase(c: &mut Controller, bank: u32, on: u32) -> u32;
    fn lurgabel_layout4_clear_errors(c: &mut Controller) -> u32;
    fn lurgabel_layout4_initialise(
        c: &mut Controller,
        image: *const u32,
        image_words: usize,
    ) -> Initialised;
    fn lurgabel_layout4_start(c: &mut Controller, operation: Operation) -> Started;
    fn lurgabel_layout4_step(c: &mut Controller, image: *mut u32, image_words: usize) -> Stepped;
    fn lurgabel_layout4_push(c: &mut Controller, word: u32) -> u32;
    fn lurgabel_layout4_pop(c: &mut Controller) -> Fetched;
    fn lurgabel_layout4_run(
        c: &mut Controller,
        image: *mut u32,
        image_words: usize,
        operation: Operation,
        buffer: *mut u32,
        buffer_words: usize,
    ) -> Completed;
    fn lurgabel_layout4_run_for(
        c: &mut Controller,
        image: *mut u32,
        image_words: usize,
        operation: Operation,
        buffer: *mut u32,
        buffer_words: usize,
        steps: u32,
    ) -> RanFor;
    fn lurgabel_layout4_write_scan_for(
        c: &mut Controller,
        image: *mut u32,
        image_words: usize,
        page: u32,
        other_page: u32,
        bytes: *const u8,
        length: usize,
        steps: u32,
    ) -> ScanWritten;
    fn lurgabel_layout4_take_scan_for(
        c: &mut Controller,
        image: *mut u32,
        image_words: usize,
        page: u32,
        other_page: u32,
        steps: u32,
    ) -> ScanTaken;
    fn lurgabel_layout4_host_read(
        c: &Controller,
        image: *const u32,
        image_words: usize,
        address: u32,
    ) -> HostFetched;
    fn lurgabel_layout4_view(
        c: &Controller,
        image: *const u32,
        image_words: usize,
        page: u32,
    ) -> Viewed;
    fn lurgabel_layout4_round(
        c: &mut Controller,
        image: *mut u32,
        image_words: usize,
        host_asks: u32,
        host_address: u32,
        step_asks: u32,
    ) -> Rounded;
    fn lurgabel_layout4_rma(c: &mut Controller, image: *mut u32, image_words: usize) -> u32;
}

// SAFETY, for each call below: what is lent lives for the whole call, a slice with the length given.

pub fn reset(c: &mut Controller, data_pages: u32) -> u32 {
    unsafe { lurgabel_layout4_reset(c, data_pages) }
}

pub fn set_inputs(c: &mut Controller, provision_enabled: u32, seeds_locked: u32) -> u32 {
    unsafe { lurgabel_layout4_set_inputs(c, provision_enabled, seeds_locked) }
}

pub fn set_region(c: &mut Controller, number: u32, region: Region) -> u32 {
    unsafe { lurgabel_layout4_set_region(c, number, region) }
}

pub fn set_default_rights(c: &mut Controller, rights: u32) -> u32 {
    unsafe { lurgabel_layout4_set_default_rights(c, rights) }
}

pub fn set_info_page(
    c: &mut Controller,
    bank: u32,
    info_type: u32,
    page: u32,
    setting: PageSetting,
) -> u32 {
    unsafe { lurgabel_layout4_set_info_page(c, bank, info_type, page, setting) }
}

pub fn set_bank_erase(c: &mut Controller, bank: u32, on: u32) -> u32 {
    unsafe { lurgabel_layout4_set_bank_erase(c, bank, on) }
}

pub fn clear_errors(c: &mut Controller) -> u32 {
    unsafe { lurgabel_layout4_clear_errors(c) }
}

pub fn initialise(c: &mut Controller, image: &[u32]) -> Initialised {
    unsafe { lurgabel_layout4_initialise(c, image.as_ptr(), image.len()) }
}

pub fn start(c: &mut Controller, operation: Operation) -> Started {
    unsafe { lurgabel_layout4_start(c, operation) }
}

pub fn step(c: &mut Controller, image: &mut [u32]) -> Stepped {
    unsafe { lurgabel_layout4_step(c, image.as_mut_ptr(), image.len()) }
}

pub fn push(c: &mut Controller, word: u32) -> u32 {
    unsafe { lurgabel_layout4_push(c, word) }
}

pub fn pop(c: &mut Controller) -> Fetched {
    unsafe { lurgabel_layout4_pop(c) }
}

pub fn run(
    c: &mut Controller,
    image: &mut [u32],
    operation: Operation,
    buffer: &mut [u32],
) -> Completed {
    unsafe {
        lurgabel_layout4_run(
            c,
            image.as_mut_ptr(),
            image.len(),
            operation,
            buffer.as_mut_ptr(),
            buffer.len(),
        )
    }
}

pub fn run_for(
    c: &mut Controller,
    image: &mut [u32],
    operation: Operation,
    buffer: &mut [u32],
    steps: u32,
) -> RanFor {
    unsafe {
        lurgabel_layout4_run_for(
            c,
            image.as_mut_ptr(),
            image.len(),
            operation,
            buffer.as_mut_ptr(),
            buffer.len(),
            steps,
        )
    }
}

pub fn write_scan_for(
    c: &mut Controller,
    image: &mut [u32],
    [page, other_page]: [u32; 2],
    bytes: &[u8],
    steps: u32,
) -> ScanWritten {
    unsafe {
        lurgabel_layout4_write_scan_for(
            c,
            image.as_mut_ptr(),
            image.len(),
            page,
            other_page,
            bytes.as_ptr(),
            bytes.len(),
            steps,
        )
    }
}

pub fn take_scan_for(
    c: &mut Controller,
    image: &mut [u32],
    [page, other_page]: [u32; 2],
    steps: u32,
) -> ScanTaken {
    unsafe {
        lurgabel_layout4_take_scan_for(c, image.as_mut_ptr(), image.len(), page, other_page, steps)
    }
}

pub fn host_read(c: &Controller, image: &[u32], address: u32) -> HostFetched {
    unsafe { lurgabel_layout4_host_read(c, image.as_ptr(), image.len(), address) }
}

pub fn view(c: &Controller, image: &[u32], page: u32) -> Viewed {
    unsafe { lurgabel_layout4_view(c, image.as_ptr(), image.len(), page) }
}

pub fn round(
    c: &mut Controller,
    image: &mut [u32],
    host_asks: u32,
    host_address: u32,
    step_asks: u32,
) -> Rounded {
    unsafe {
        lurgabel_layout4_round(
            c,
            image.as_mut_ptr(),
            image.len(),
            host_asks,
            host_address,
            step_asks,
        )
    }
}

pub fn rma(c: &mut Controller, image: &mut [u32]) -> u32 {
    unsafe { lurgabel_layout4_rma(c, image.as_mut_ptr(), image.len()) }
}
