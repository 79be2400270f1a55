//! 01, "What may be asked": the life-cycle inputs and the settings.

use super::checks::check_setting;
use super::geometry::{info_index, is_info_type, BANKS, INFO_PAGES_OF_TYPE};
use super::refusals::NONE;
use super::rights::ALL_RIGHTS;
use super::state::{Controller, InfoSetting, Region, REGIONS};
use super::validity::region_passes;

pub fn set_inputs(c: &mut Controller, provision_enabled: bool, seeds_locked: bool) -> u8 {
    if let Err(refusal) = check_setting(c, true) {
        return refusal;
    }
    c.provision_enabled = provision_enabled;
    c.seeds_locked = seeds_locked;
    NONE
}

pub fn set_region(c: &mut Controller, number: u32, region: Region) -> u8 {
    let passes = (number as usize) < REGIONS && region_passes(c.data_pages, &region);
    if let Err(refusal) = check_setting(c, passes) {
        return refusal;
    }
    c.regions[number as usize] = region;
    NONE
}

pub fn set_default_rights(c: &mut Controller, rights: u8) -> u8 {
    if let Err(refusal) = check_setting(c, rights <= ALL_RIGHTS) {
        return refusal;
    }
    c.default_rights = rights;
    NONE
}

pub fn set_info_page(
    c: &mut Controller,
    bank: u32,
    info_type: u8,
    page: u32,
    setting: InfoSetting,
) -> u8 {
    let passes = u64::from(bank) < BANKS
        && is_info_type(info_type)
        && u64::from(page) < INFO_PAGES_OF_TYPE[usize::from(info_type)]
        && setting.rights <= ALL_RIGHTS;
    if let Err(refusal) = check_setting(c, passes) {
        return refusal;
    }
    c.info_settings[info_index(u64::from(bank), info_type, u64::from(page))] = setting;
    NONE
}

pub fn set_bank_erase_permission(c: &mut Controller, bank: u32, permitted: bool) -> u8 {
    if let Err(refusal) = check_setting(c, u64::from(bank) < BANKS) {
        return refusal;
    }
    c.bank_erase_permissions[bank as usize] = permitted;
    NONE
}
