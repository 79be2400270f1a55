//! What is written into the flat struct by hand is what the model goes by.

use crate::helpers::*;
use reference::interface::calls;
use reference::interface::flat::{
    self, Controller, PageSetting, Region, BANK_ERASE, PAGE_ERASE, PROGRAM, READ,
};

/// The data pages that a host read may read.
fn readable_pages(c: Controller) -> Vec<u32> {
    let image = image();
    let allowed = |page: &u32| calls::host_read(&c, &image, page * 1024).answer == 0;
    (0..2 * D).filter(allowed).collect()
}

/// The kinds among read, program and page erase that may start.
fn kinds_allowed(c: Controller, operation: flat::Operation) -> Vec<u32> {
    let starts = |kind: &u32| {
        let operation = flat::Operation {
            kind: *kind,
            ..operation
        };
        left(c, |c| calls::start(c, operation)).0.answer == 0
    };
    [READ, PROGRAM, PAGE_ERASE]
        .into_iter()
        .filter(starts)
        .collect()
}

const KIND_OF_RIGHT: [(u32, u32); 3] = [(1, READ), (2, PROGRAM), (4, PAGE_ERASE)];

#[test]
fn each_phase_is_understood() {
    for (phase, answer) in [(0, 3), (1, 12), (2, 2)] {
        let mut c = with(&ready(), "phase", phase);
        assert_eq!(calls::step(&mut c, &mut image()).answer, answer);
    }
}

#[test]
fn d_is_understood() {
    for d in [10, 11, 200, 256] {
        let c = with(&ready(), "data_pages", d);
        let image = vec![7; reference::model::image_words(d) as usize];
        assert_eq!(calls::host_read(&c, &image, 2 * d * 1024 - 4).answer, 0);
        assert_eq!(calls::host_read(&c, &image, 2 * d * 1024).answer, 7);
        assert_eq!(calls::host_read(&c, &image[1..], 0).answer, 1);
    }
}

#[test]
fn each_region_is_understood_in_each_field() {
    for number in 0..8 {
        let mut c = ready_without_rights();
        let region = |first_page, page_count, on, rights| Region {
            first_page,
            page_count,
            on,
            rights,
        };
        c.regions[number] = region(13, 5, 1, 1);
        assert_eq!(readable_pages(c), [13, 14, 15, 16, 17]);
        c.regions[number] = region(14, 5, 1, 1);
        assert_eq!(readable_pages(c), [14, 15, 16, 17, 18]);
        c.regions[number] = region(13, 2, 1, 1);
        assert_eq!(readable_pages(c), [13, 14]);
        c.regions[number] = region(13, 5, 0, 1);
        assert_eq!(readable_pages(c), []);
        for (rights, kind) in KIND_OF_RIGHT {
            c.regions[number] = region(13, 5, 1, rights);
            assert_eq!(kinds_allowed(c, data(0, 13 * 1024, 1)), [kind]);
        }
    }
}

/// The lower number decides, so each region's place in the array is its number.
#[test]
fn the_order_of_the_regions_is_understood() {
    for number in 0..7 {
        let mut c = ready_without_rights();
        let region = |rights| Region {
            first_page: 0,
            page_count: 2,
            on: 1,
            rights,
        };
        c.regions[number] = region(1);
        c.regions[number + 1] = region(2);
        assert_eq!(kinds_allowed(c, data(0, 0x400, 1)), [READ]);
        c.regions.swap(number, number + 1);
        assert_eq!(kinds_allowed(c, data(0, 0x400, 1)), [PROGRAM]);
    }
}

#[test]
fn default_rights_are_understood() {
    for (rights, kind) in KIND_OF_RIGHT {
        let c = with(&ready_without_rights(), "default_rights", rights);
        assert_eq!(kinds_allowed(c, data(0, 0x4400, 1)), [kind]);
    }
}

#[test]
fn each_information_page_is_understood() {
    for (place, ..) in info_pages() {
        for (rights, kind) in KIND_OF_RIGHT {
            let mut c = ready_without_rights();
            c.provision_enabled = 1;
            c.info_pages[place] = PageSetting { on: 1, rights };
            for (other, bank, info_type, page) in info_pages() {
                let operation = info(0, info_type, (bank * D + page) * 1024, 1);
                let allowed = kinds_allowed(c, operation);
                let expected: &[u32] = if other == place { &[kind] } else { &[] };
                assert_eq!(allowed, expected, "setting {place}, page {other}");
            }
            c.info_pages[place].on = 0;
            let (_, bank, info_type, page) = info_pages()[place];
            let operation = info(0, info_type, (bank * D + page) * 1024, 1);
            assert_eq!(kinds_allowed(c, operation), []);
        }
    }
}

#[test]
fn each_bank_erase_permission_is_understood() {
    for bank in 0..2 {
        let c = with(&ready_without_rights(), &format!("bank_erase[{bank}]"), 1);
        for other in 0..2 {
            let erase = data(BANK_ERASE, other * D * 1024, 0);
            let (answer, _) = left(c, |c| calls::start(c, erase).answer);
            assert_eq!(answer, if other == bank { 0 } else { 9 });
        }
    }
}

/// Creator page: provision enabled and seeds not locked; owner page: provision enabled.
#[test]
fn each_input_is_understood() {
    for (provision, locked, creator, owner) in
        [(0, 0, 9, 9), (0, 1, 9, 9), (1, 0, 0, 0), (1, 1, 9, 0)]
    {
        let mut c = ready();
        c.provision_enabled = provision;
        c.seeds_locked = locked;
        for (address, answer) in [(0x400, creator), (0x800, owner)] {
            let (given, _) = left(c, |c| calls::start(c, info(READ, 0, address, 1)).answer);
            assert_eq!(given, answer);
        }
    }
}
