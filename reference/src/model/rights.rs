//! 01, "Who may touch which page"; 02, L2: who decides it; L3: where a read is cut.

use super::deciders::Decider;
use super::geometry::{
    bank_of, info_index, page_in_bank, CREATOR_PAGE, OWNER_PAGE, PAGE_BYTES, WORD_BYTES,
};
use super::operation::{touched_addresses, Operation, DATA, PAGE_ERASE, PROGRAM, READ};
use super::state::{Controller, Region};

pub const RIGHT_READ: u8 = 1;
pub const RIGHT_PROGRAM: u8 = 2;
pub const RIGHT_ERASE: u8 = 4;
pub const ALL_RIGHTS: u8 = 7;

/// The rights to a page, and who decided them.
pub(super) struct Decided {
    rights: u8,
    decider: Decider,
}

impl Decided {
    /// Who decided, if the right is not given.
    pub(super) fn denies(&self, right: u8) -> Option<Decider> {
        (self.rights & right == 0).then_some(self.decider)
    }

    pub(super) fn gives_all(&self) -> bool {
        self.rights == ALL_RIGHTS
    }
}

/// Check 9, of an operation that passes 5 and 7: who decided that it is denied.
/// A bank erase looks at no page; else the first denied page in the words' order counts.
pub(super) fn denied_by(c: &Controller, operation: &Operation) -> Option<Decider> {
    let right = match operation.kind {
        READ => RIGHT_READ,
        PROGRAM => RIGHT_PROGRAM,
        PAGE_ERASE => RIGHT_ERASE,
        _ => {
            let bank = bank_of(c.data_pages, u64::from(operation.address));
            let permitted = c.bank_erase_permissions[bank as usize];
            return (!permitted).then_some(Decider::BankPermission);
        }
    };
    first_denied(c, operation, right).map(|(_, decider)| decider)
}

/// How many words of a read that passes 5 and 7 are the stored ones: those
/// before its first denied page, all if there is none.
pub(super) fn readable_words(c: &Controller, read: &Operation) -> u32 {
    match first_denied(c, read, RIGHT_READ) {
        Some((address, _)) => ((address - u64::from(read.address)) / WORD_BYTES) as u32,
        None => read.count,
    }
}

/// The first byte address by which an operation is judged and denied, and who
/// decided there.
fn first_denied(c: &Controller, operation: &Operation, right: u8) -> Option<(u64, Decider)> {
    touched_addresses(operation).find_map(|address| {
        let decider = rights_at(c, operation, address).denies(right)?;
        Some((address, decider))
    })
}

fn rights_at(c: &Controller, operation: &Operation, address: u64) -> Decided {
    if operation.partition == DATA {
        return data_rights(c, address / PAGE_BYTES);
    }
    let bank = bank_of(c.data_pages, address);
    let page = page_in_bank(c.data_pages, address);
    info_rights(c, bank, operation.info_type, page)
}

/// The lowest-numbered region that is on and holds the page decides, alone.
/// `page` counts 0 to 2D - 1 over both banks.
pub(super) fn data_rights(c: &Controller, page: u64) -> Decided {
    for (number, region) in (0..).zip(&c.regions) {
        if region.on && holds(region, page) {
            return Decided {
                rights: region.rights,
                decider: Decider::Region(number),
            };
        }
    }
    Decided {
        rights: c.default_rights,
        decider: Decider::Default,
    }
}

fn holds(region: &Region, page: u64) -> bool {
    let first = u64::from(region.first_page);
    first <= page && page < first + u64::from(region.page_count)
}

/// A closed seed page is the seed lock's, whatever its setting says.
fn info_rights(c: &Controller, bank: u64, info_type: u8, page: u64) -> Decided {
    let setting = c.info_settings[info_index(bank, info_type, page)];
    let open = match (bank, info_type, page) {
        (0, 0, CREATOR_PAGE) => c.provision_enabled && !c.seeds_locked,
        (0, 0, OWNER_PAGE) => c.provision_enabled,
        _ => true,
    };
    if !open {
        return Decided {
            rights: 0,
            decider: Decider::SeedLock,
        };
    }
    Decided {
        rights: if setting.on { setting.rights } else { 0 },
        decider: Decider::PageSetting,
    }
}
