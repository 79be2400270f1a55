//! Who decides about a page, and where a denied read is cut, as the comparison
//! itself reckons: it asks neither program. Pages are those of the address
//! space, and lie inside.

use crate::layout::{
    pages_of_type, type_begin, DATA_PAGES, INFO_PAGES, MOST_WORDS, PAGE_BYTES, WORD_BYTES,
};
use reference::interface::flat::{self, Controller, Operation, PageSetting, Region};

pub const CREATOR_PAGE: u32 = 1;
pub const OWNER_PAGE: u32 = 2;

/// The right that a kind other than bank erase needs.
pub fn right(kind: u32) -> u32 {
    1 << kind
}

/// The first and the last page of an operation's words.
pub fn span(operation: &Operation) -> (u32, u32) {
    let last = u64::from(operation.address) + 4 * u64::from(operation.count.max(1)) - 1;
    (
        operation.address / PAGE_BYTES,
        (last / u64::from(PAGE_BYTES)) as u32,
    )
}

/// The regions that are on and hold a data page, lowest first, with their numbers.
pub fn holding(c: &Controller, page: u32) -> impl Iterator<Item = (u32, Region)> + '_ {
    let holds =
        move |r: &Region| r.on == 1 && r.first_page <= page && page - r.first_page < r.page_count;
    (0..).zip(c.regions).filter(move |(_, r)| holds(r))
}

/// The rights to a data page.
pub fn rights(c: &Controller, page: u32) -> u32 {
    let decides = holding(c, page).next();
    decides.map_or(c.default_rights, |(_, region)| region.rights)
}

pub fn setting(c: &Controller, info_type: u32, page: u32) -> PageSetting {
    let (bank, page) = (page / c.data_pages, page % c.data_pages);
    c.info_pages[(bank * INFO_PAGES + type_begin(info_type) + page) as usize]
}

/// A seed page that the inputs close.
pub fn closed(c: &Controller, info_type: u32, page: u32) -> bool {
    match (info_type, page) {
        (0, CREATOR_PAGE) => c.provision_enabled == 0 || c.seeds_locked == 1,
        (0, OWNER_PAGE) => c.provision_enabled == 0,
        _ => false,
    }
}

pub fn allows(setting: PageSetting, right: u32) -> bool {
    setting.on == 1 && setting.rights & right != 0
}

/// Who denies a page to a read, program or page erase, if it is denied.
pub fn denier(c: &Controller, operation: &Operation, page: u32) -> Option<u32> {
    let right = right(operation.kind);
    if operation.partition == flat::DATA {
        let region = holding(c, page).next();
        let decider = region.map_or(flat::BY_DEFAULT, |(number, _)| number);
        return (rights(c, page) & right == 0).then_some(decider);
    }
    let info_type = operation.info_type;
    if closed(c, info_type, page) {
        return Some(flat::BY_SEED_LOCK);
    }
    let denied = !allows(setting(c, info_type, page), right);
    denied.then_some(flat::BY_PAGE_SETTING)
}

/// Of each page of a read, in order, who denies it.
pub fn deniers_of_read(c: &Controller, read: &Operation) -> Vec<Option<u32>> {
    let (first, last) = span(read);
    (first..=last).map(|page| denier(c, read, page)).collect()
}

/// How many words of a read come before its first denied page, all if none is
/// denied; None of a read that does not start.
pub fn readable_words(c: &Controller, read: &Operation) -> Option<u32> {
    if !DATA_PAGES.contains(&c.data_pages) || !well_formed(read) || !inside(c.data_pages, read) {
        return None;
    }
    let (first, _) = span(read);
    let denied = (first..).zip(deniers_of_read(c, read));
    let mut denied = denied.filter(|(_, denier)| denier.is_some());
    Some(denied.next().map_or(read.count, |(page, _)| {
        (page * PAGE_BYTES).saturating_sub(read.address) / WORD_BYTES
    }))
}

/// Check 5 of a read.
fn well_formed(read: &Operation) -> bool {
    let type_used = read.partition == flat::INFORMATION;
    read.kind == flat::READ
        && read.partition <= flat::INFORMATION
        && (read.info_type <= 2 || !type_used)
        && read.address.is_multiple_of(WORD_BYTES)
        && (1..=MOST_WORDS).contains(&read.count)
}

/// Check 7 of a read.
fn inside(data_pages: u32, read: &Operation) -> bool {
    let (first, last) = span(read);
    match read.partition {
        flat::DATA => last < 2 * data_pages,
        _ => {
            let end = first % data_pages + (last - first);
            first < 2 * data_pages && end < pages_of_type(read.info_type)
        }
    }
}

/// Creator page: provision enabled and seeds not locked; owner page: provision enabled.
#[test]
fn seed_pages_are_closed_as_01_says() {
    let closed = |provision_enabled, seeds_locked| {
        let c = Controller {
            data_pages: 10,
            provision_enabled,
            seeds_locked,
            ..Controller::default()
        };
        [(0, 0), (0, 1), (0, 2), (0, 3), (2, 1), (0, 11)]
            .map(|(info_type, page)| closed(&c, info_type, page))
    };
    let both = [false, true, true, false, false, false];
    assert_eq!(closed(0, 0), both);
    assert_eq!(closed(0, 1), both);
    assert_eq!(closed(1, 0), [false; 6]);
    assert_eq!(closed(1, 1), [false, true, false, false, false, false]);
}

#[test]
fn each_page_of_a_read_has_its_denier() {
    let mut c = Controller {
        data_pages: 10,
        default_rights: 1,
        ..Controller::default()
    };
    let region = |rights| Region {
        first_page: 2,
        page_count: 2,
        on: 1,
        rights,
    };
    c.regions[3] = region(6);
    c.regions[7] = region(7);
    c.info_pages[0] = PageSetting { on: 1, rights: 1 };
    let read = |partition| Operation {
        count: 4 * 256,
        partition,
        ..Operation::default()
    };
    let deniers = |partition| deniers_of_read(&c, &read(partition));
    assert_eq!(deniers(flat::DATA), [None, None, Some(3), Some(3)]);
    assert_eq!(
        deniers(flat::INFORMATION),
        [None, Some(10), Some(10), Some(9)]
    );
}

/// Data page 2 and information pages 1 and 2 of type 0 are denied, and every page of type 2.
#[test]
fn the_readable_words_come_before_the_first_denied_page() {
    let mut c = Controller {
        data_pages: 10,
        default_rights: 1,
        ..Controller::default()
    };
    c.regions[0] = Region {
        first_page: 2,
        page_count: 1,
        on: 1,
        rights: 6,
    };
    c.info_pages[0] = PageSetting { on: 1, rights: 1 };
    let readable = |partition, info_type, address, count| {
        let read = Operation {
            address,
            count,
            kind: flat::READ,
            partition,
            info_type,
        };
        readable_words(&c, &read)
    };
    let data = |address, count| readable(flat::DATA, 9, address, count);
    assert_eq!(data(0x3FC, 257), Some(257));
    assert_eq!(data(0x3FC, 258), Some(257));
    assert_eq!(data(0x7FC, 1_024), Some(1));
    assert_eq!(data(0x800, 1_024), Some(0));
    assert_eq!(data(0xBFC, 1_024), Some(0));
    assert_eq!(data(0xC00, 1_024), Some(1_024));
    assert_eq!(data(0x4FFC, 1), Some(1));
    assert_eq!(data(0x4FFC, 2), None);
    assert_eq!(data(0x3FD, 1), None);
    assert_eq!(data(0, 0), None);
    assert_eq!(data(0, 1_025), None);
    let info = |info_type, address, count| readable(flat::INFORMATION, info_type, address, count);
    assert_eq!(info(0, 0x3F8, 9), Some(2));
    assert_eq!(info(0, 0x4FFC, 1), Some(0));
    assert_eq!(info(2, 0x3FC, 2), Some(0));
    assert_eq!(info(2, 0x7FC, 2), None);
    assert_eq!(info(1, 0x400, 1), None);
    assert_eq!(info(3, 0, 1), None);
    assert_eq!(info(0, 0x5000, 1), None);
}
