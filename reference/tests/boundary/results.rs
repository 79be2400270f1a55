//! Every field of the results, and lent memory with its length.

use crate::helpers::*;
use reference::interface::calls;
use reference::interface::flat::{self, Seeds, PAGE_ERASE, PROGRAM, READ};

#[test]
fn each_seed_word_is_handed_out() {
    let mut c = uninitialised();
    c.provision_enabled = 1;
    let (given, after) = left(c, |c| calls::initialise(c, &image()));
    let seeds = Seeds {
        creator: std::array::from_fn(|i| 4_352 + i as u32),
        owner: std::array::from_fn(|i| 4_608 + i as u32),
        given: 1,
    };
    assert_eq!((given.answer, given.seeds), (0, seeds));
    assert_changed(&after, &c, &[("phase", 1)]);
}

#[test]
fn no_seeds_without_provision_or_when_refused() {
    let given = calls::initialise(&mut uninitialised(), &image());
    assert_eq!((given.answer, given.seeds), (0, Seeds::default()));
    let given = calls::initialise(&mut ready(), &image());
    assert_eq!((given.answer, given.seeds), (12, Seeds::default()));
}

#[test]
fn a_step_tells_movement_and_bits() {
    let mut c = with_progress(ready(), data(PAGE_ERASE, 0, 0), 0xC3);
    let given = calls::step(&mut c, &mut image());
    let bits = 0xC3_u32.count_zeros();
    assert_eq!(
        (given.answer, given.movement, given.bits),
        (0, flat::MOVEMENT_MOVED, bits)
    );
    let given = calls::step(&mut ready(), &mut image());
    assert_eq!(
        (given.answer, given.movement, given.bits),
        (12, flat::MOVEMENT_NONE, 0)
    );
}

#[test]
fn a_whole_operation_tells_its_bits_and_uses_its_buffer() {
    let mut flash = vec![u32::MAX; image().len()];
    let mut buffer = [0x1234_5678, 0xFFFF_0000, 0x5555_5555];
    let mut c = ready();
    let given = calls::run(&mut c, &mut flash, data(PROGRAM, 0x4404, 2), &mut buffer);
    assert_eq!((given.answer, given.decider, given.bits), (0, 255, 19 + 16));
    assert_eq!(c, ready());
    assert_eq!(buffer, [0x1234_5678, 0xFFFF_0000, 0x5555_5555]);
    assert_eq!(flash[7_681..7_684], [0x1234_5678, 0xFFFF_0000, u32::MAX]);

    let mut buffer = [1, 2, 3, 4];
    let given = calls::run(&mut c, &mut flash, data(READ, 0x4400, 3), &mut buffer);
    assert_eq!((given.answer, given.bits), (0, 0));
    assert_eq!(buffer, [u32::MAX, 0x1234_5678, 0xFFFF_0000, 4]);

    let given = calls::run(&mut c, &mut flash, data(PAGE_ERASE, 0x4400, 9), &mut []);
    assert_eq!((given.answer, given.bits), (0, 35));
    assert!(flash.iter().all(|word| *word == u32::MAX));
}

/// What a whole read that is denied tells, puts into a buffer of sevens and leaves.
fn cut_read(
    c: flat::Controller,
    flash: &[u32],
    read: flat::Operation,
) -> (flat::Completed, Vec<u32>, flat::Controller) {
    let mut flash_after = flash.to_vec();
    let mut buffer = vec![7; read.count as usize + 1];
    let (given, after) = left(c, |c| calls::run(c, &mut flash_after, read, &mut buffer));
    assert_eq!(flash_after, flash);
    (given, buffer, after)
}

/// From the last word of page 14 over the bank border to the first of page 17, at each page.
#[test]
fn a_denied_whole_read_gives_its_readable_words_and_then_ones() {
    let read = data(READ, 15 * 1024 - 4, 1 + 256 + 256 + 1);
    let stored: Vec<u32> = (3_839..4_096).chain(7_424..7_681).collect();
    for (page, readable) in [(14, 0), (15, 1), (16, 257), (17, 513)] {
        let c = without_reading(page);
        let (given, buffer, after) = cut_read(c, &image(), read);
        assert_eq!((given.answer, given.decider, given.bits), (9, 3, 0));
        assert_eq!(buffer[..readable], stored[..readable]);
        assert!(buffer[readable..514].iter().all(|word| *word == u32::MAX));
        assert_eq!(buffer[514], 7);
        let address = read.address + 4 * readable as u32;
        assert_changed(
            &after,
            &c,
            &[("recorded", 1 << 9), ("last_address", address)],
        );
    }
}

/// The last word of an information page, then ones of the next.
#[test]
fn a_denied_whole_read_of_information_is_cut_at_each_page() {
    for (place, bank, info_type, page) in info_pages() {
        if page == 0 {
            continue;
        }
        let c = with(&ready(), &format!("info_pages[{place}].on"), 0);
        let border = (bank * D + page) * 1024;
        let (given, buffer, after) = cut_read(c, &image(), info(READ, info_type, border - 4, 3));
        assert_eq!((given.answer, given.decider), (9, flat::BY_PAGE_SETTING));
        let before = bank * 7_424 + 4_096 + (place as u32 - 13 * bank) * 256 - 1;
        assert_eq!(buffer, [before, u32::MAX, u32::MAX, 7]);
        assert_changed(
            &after,
            &c,
            &[("recorded", 1 << 9), ("last_address", border)],
        );
    }
}

/// Locked seeds close the creator page, page 1, and leave the owner page open.
#[test]
fn a_denied_whole_read_is_cut_at_a_closed_seed_page() {
    let c = with(&ready(), "seeds_locked", 1);
    let (given, buffer, after) = cut_read(c, &image(), info(READ, 0, 0x3F8, 300));
    assert_eq!((given.answer, given.decider), (9, flat::BY_SEED_LOCK));
    assert_eq!(buffer[..2], [4_350, 4_351]);
    assert!(buffer[2..300].iter().all(|word| *word == u32::MAX));
    assert_eq!(after.last_address, 0x400);
}

/// Of two images that agree at the readable words alone, the same is told.
#[test]
fn a_denied_whole_read_tells_nothing_of_its_other_words() {
    let c = without_reading(5);
    let read = data(READ, 0x13F4, 600);
    let told = cut_read(c, &image(), read);
    let mut other: Vec<u32> = image().iter().map(|word| !word).collect();
    other[1_277..1_280].copy_from_slice(&image()[1_277..1_280]);
    assert_eq!(cut_read(c, &other, read), told);
    other[1_279] ^= 1;
    assert_ne!(cut_read(c, &other, read), told);
}

#[test]
fn lengths_of_image_and_buffer_arrive() {
    let mut flash = image();
    let right = flash.len();
    for length in [0, 1, right - 1] {
        let lent = &mut flash[..length];
        assert_eq!(calls::step(&mut ready(), lent).answer, 1);
        assert_eq!(calls::host_read(&ready(), lent, 0).answer, 1);
        assert_eq!(calls::view(&ready(), lent, 0).answer, 1);
        assert_eq!(calls::initialise(&mut uninitialised(), lent).answer, 1);
        assert_eq!(calls::rma(&mut ready(), lent), 1);
        let told = calls::round(&mut ready(), lent, 1, 0, 1);
        assert_eq!((told.host_answer, told.step_answer), (1, 1));
    }
    flash.push(0);
    assert_eq!(calls::host_read(&ready(), &flash, 0).answer, 1);
    flash.pop();
    for (length, answer) in [(0, 6), (2, 6), (3, 0), (4, 0)] {
        let buffer = &mut [0; 4][..length];
        let given = calls::run(&mut ready(), &mut flash, data(READ, 0, 3), buffer);
        assert_eq!(given.answer, answer);
    }
    assert_eq!(flash, image());
}

#[test]
fn a_view_tells_where_each_page_starts() {
    let image = image();
    for page in 0..2 * D {
        let given = calls::view(&ready(), &image, page);
        let start = page * 256 + if page < D { 0 } else { 13 * 256 };
        assert_eq!((given.answer, given.decider, given.start), (0, 255, start));
    }
    let given = calls::view(&ready(), &image, 2 * D);
    assert_eq!((given.answer, given.decider, given.start), (7, 255, 0));
    let given = calls::view(&ready_without_rights(), &image, 5);
    assert_eq!((given.answer, given.decider, given.start), (9, 8, 0));
}

#[test]
fn a_host_read_tells_the_word() {
    let image = image();
    for (address, place) in [(0, 0), (0x3FFC, 4_095), (0x4000, 7_424), (0x7FFC, 11_519)] {
        let given = calls::host_read(&ready(), &image, address);
        assert_eq!((given.answer, given.decider, given.word), (0, 255, place));
    }
    let given = calls::host_read(&ready_without_rights(), &image, 0x40);
    assert_eq!((given.answer, given.decider, given.word), (9, 8, 0));
}

/// Every data page and the three special pages become ones, every other page stays.
#[test]
fn rma_wipes_and_disables() {
    let mut flash = image();
    let mut c = ready();
    c.read_queue.length = 3;
    c.read_queue.words[..3].copy_from_slice(&[1, 2, 3]);
    assert_eq!(calls::rma(&mut c, &mut flash), 0);
    assert_changed(&c, &ready(), &[("phase", 2)]);
    for (place, word) in flash.iter().enumerate() {
        let (bank, page) = (place / 7_424, place % 7_424 / 256);
        let wiped = page < 16 || bank == 0 && (17..20).contains(&page);
        let expected = if wiped { u32::MAX } else { place as u32 };
        assert_eq!(*word, expected, "word {place}");
    }
}
