//! The settings of a history, and its two pages.

use crate::calls::Call;
use crate::pages::rights;
use crate::rng::Rng;
use reference::interface::flat::{self, Region};
use reference::model;

const ALL_RIGHTS: u32 = 7;

/// What every power-on of a history repeats.
#[derive(Clone, Debug)]
pub struct Setup {
    pub data_pages: u32,
    /// Reset, the settings, and initialise.
    pub calls: Vec<Call>,
    /// Two pages that allow all three rights.
    pub pages: [u32; 2],
    /// Pages that do not.
    pub others: Vec<u32>,
}

impl Setup {
    pub fn image_words(&self) -> usize {
        model::image_words(self.data_pages) as usize
    }
}

/// The rights come from the default, from regions, or from both.
pub fn draw(rng: &mut Rng) -> Setup {
    loop {
        let c = settings(rng);
        let pages = 0..2 * c.data_pages;
        let (serving, others): (Vec<u32>, _) =
            pages.partition(|page| rights(&c, *page) == ALL_RIGHTS);
        if let Some(pages) = two_of(rng, &serving, c.data_pages) {
            return Setup {
                data_pages: c.data_pages,
                calls: calls(&c),
                pages,
                others,
            };
        }
    }
}

/// Two pages, often of two banks, in either order.
fn two_of(rng: &mut Rng, serving: &[u32], data_pages: u32) -> Option<[u32; 2]> {
    if serving.is_empty() {
        return None;
    }
    let page = rng.pick(serving);
    let apart = rng.percent(40);
    let bank = |page| page / data_pages;
    let fits = |other: &u32| *other != page && (!apart || bank(*other) != bank(page));
    let others: Vec<u32> = serving.iter().copied().filter(fits).collect();
    (!others.is_empty()).then(|| [page, rng.pick(&others)])
}

fn settings(rng: &mut Rng) -> flat::Controller {
    let mut c = flat::Controller {
        data_pages: rng.pick(&[10, 10, 11, 16]),
        provision_enabled: rng.below(2),
        seeds_locked: rng.below(2),
        default_rights: some_rights(rng),
        bank_erase: [rng.below(2), rng.below(2)],
        ..flat::Controller::default()
    };
    for number in [0, 3, 7] {
        let first_page = rng.below(2 * c.data_pages);
        c.regions[number] = Region {
            first_page,
            page_count: rng.below(2 * c.data_pages - first_page + 1),
            on: rng.below(2),
            rights: some_rights(rng),
        };
    }
    c
}

fn some_rights(rng: &mut Rng) -> u32 {
    if rng.percent(50) {
        ALL_RIGHTS
    } else {
        rng.below(8)
    }
}

fn calls(c: &flat::Controller) -> Vec<Call> {
    let image_words = model::image_words(c.data_pages) as usize;
    let mut calls = vec![
        Call::Reset {
            data_pages: c.data_pages,
        },
        Call::SetInputs {
            provision_enabled: c.provision_enabled,
            seeds_locked: c.seeds_locked,
        },
        Call::SetDefaultRights {
            rights: c.default_rights,
        },
    ];
    let regions = (0..).zip(c.regions);
    calls.extend(
        regions
            .filter(|(_, region)| *region != Region::default())
            .map(|(number, region)| Call::SetRegion { number, region }),
    );
    let banks = (0..).zip(c.bank_erase);
    calls.extend(banks.map(|(bank, on)| Call::SetBankErase { bank, on }));
    calls.push(Call::Initialise { image_words });
    calls
}
