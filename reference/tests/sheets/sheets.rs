//! The sheets of a run: good ones, ones at a limit or just over it, damaged ones, and noise.

use crate::damage::{any_byte, damaged};
use crate::draft::Draft;
use crate::generator::Generator;
use crate::rng::Rng;
use reference::sheet::Outcome;

const MOST_BYTES: usize = 4_096;
const MOST_ENTRIES: u32 = 4_096;

/// What is known of a sheet by how it was made.
#[derive(Clone, Copy, Debug, PartialEq, Eq)]
pub enum Known {
    Good,
    BadAt(usize),
    Nothing,
}

#[derive(Clone, Debug)]
pub struct Sheet {
    /// How it was made.
    pub made: String,
    pub bytes: Vec<u8>,
    known: Known,
}

impl Sheet {
    /// Whatever is known else, too many bytes are bad at 4,096.
    pub fn new(made: String, bytes: Vec<u8>, known: Known) -> Self {
        let known = if bytes.len() > MOST_BYTES {
            Known::BadAt(MOST_BYTES)
        } else {
            known
        };
        Sheet { made, bytes, known }
    }

    fn good(made: &str, draft: Draft) -> Self {
        Sheet::new(made.to_owned(), draft.bytes, Known::Good)
    }

    fn bad(made: &str, draft: Draft, place: usize) -> Self {
        Sheet::new(made.to_owned(), draft.bytes, Known::BadAt(place))
    }

    /// Why the outcome cannot be that of this sheet.
    pub fn surprise(&self, outcome: &Outcome) -> Option<String> {
        let expected = match (self.known, outcome) {
            (Known::Nothing, _) | (Known::Good, Outcome::Good(_)) => true,
            (Known::BadAt(place), Outcome::Bad(told)) => place == *told,
            _ => false,
        };
        (!expected).then(|| format!("it was made to be {:?}", self.known))
    }
}

pub fn sheet(rng: &mut Rng) -> Sheet {
    match rng.weighted(&[46, 5, 3, 4, 3, 35, 4]) {
        0 => Sheet::good("good", Generator::new(rng).mixed()),
        1 => expanding(rng),
        2 => of_length(rng),
        3 => nested(rng),
        4 => Sheet::good("repeats of nothing", Generator::new(rng).hollow()),
        5 => damaged_one(rng),
        _ => noise(rng),
    }
}

fn expanding(rng: &mut Rng) -> Sheet {
    match rng.below(4) {
        0 => Sheet::bad("expansion that wraps", Generator::new(rng).wrapping(), 0),
        1 => {
            let over = rng.pick(&[1, 1, 2, 5_000]);
            let draft = Generator::new(rng).expanding_to(MOST_ENTRIES + over);
            Sheet::bad("expansion over 4,096", draft, 0)
        }
        _ => {
            let under = rng.pick(&[0, 0, 1]);
            let draft = Generator::new(rng).expanding_to(MOST_ENTRIES - under);
            Sheet::good("expansion up to 4,096", draft)
        }
    }
}

fn of_length(rng: &mut Rng) -> Sheet {
    if rng.percent(40) {
        let over = rng.pick(&[1, 1, 2, 1_000]);
        let draft = Generator::new(rng).of_length(MOST_BYTES + over);
        return Sheet::bad("over 4,096 bytes", draft, MOST_BYTES);
    }
    let under = rng.pick(&[0, 0, 1]);
    let draft = Generator::new(rng).of_length(MOST_BYTES - under);
    Sheet::good("up to 4,096 bytes", draft)
}

fn nested(rng: &mut Rng) -> Sheet {
    let depth = rng.pick(&[7, 8, 8, 9, 9, 12]);
    match Generator::new(rng).nested(depth) {
        (draft, None) => Sheet::good("7 or 8 deep", draft),
        (draft, Some(ninth)) => Sheet::bad("9 deep", draft, ninth),
    }
}

/// The expansion is judged last, so a sheet whose expansion is too large is as good to damage.
fn damaged_one(rng: &mut Rng) -> Sheet {
    let draft = match rng.weighted(&[85, 10, 5]) {
        0 => Generator::new(rng).mixed(),
        1 => Generator::new(rng).expanding_to(5_000),
        _ => Generator::new(rng).wrapping(),
    };
    damaged(rng, &draft)
}

fn noise(rng: &mut Rng) -> Sheet {
    let bytes = (0..rng.below(30)).map(|_| any_byte(rng)).collect();
    Sheet::new("noise".to_owned(), bytes, Known::Nothing)
}
