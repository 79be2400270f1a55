//! 02, L4: numbers in groups of seven bits, low group first, in their shortest form.

use std::ops::RangeInclusive;

/// Set on every byte of a number but its last.
const MORE: u8 = 0x80;
/// How many values a group of seven bits has.
const GROUP: u32 = 0x80;

/// Reads numbers one after the other.
pub(crate) struct Reader<'a> {
    bytes: &'a [u8],
    /// Where the next number begins.
    pub(crate) place: usize,
}

impl<'a> Reader<'a> {
    pub(crate) fn new(bytes: &'a [u8]) -> Self {
        Reader { bytes, place: 0 }
    }

    /// The next number. Refused at the length if the bytes end before it, else where
    /// it begins.
    pub(crate) fn number(&mut self) -> Result<u32, usize> {
        let begin = self.place;
        let rest = &self.bytes[begin..];
        let last = rest.iter().position(|byte| byte & MORE == 0);
        let last = last.ok_or(self.bytes.len())?;
        self.place = begin + last + 1;
        value(&rest[..=last]).ok_or(begin)
    }

    /// The next number, if it is one of these.
    pub(crate) fn number_in(&mut self, allowed: RangeInclusive<u8>) -> Result<u8, usize> {
        let begin = self.place;
        let number = u8::try_from(self.number()?).ok();
        number.filter(|n| allowed.contains(n)).ok_or(begin)
    }
}

/// The low group comes first; none if the form is not the shortest or the value not below 2^32.
fn value(groups: &[u8]) -> Option<u32> {
    let long_form = groups.len() > 1 && groups.last() == Some(&0);
    if long_form {
        return None;
    }
    let mut value: u32 = 0;
    for byte in groups.iter().rev() {
        value = value.checked_mul(GROUP)?;
        value += u32::from(byte & !MORE);
    }
    Some(value)
}

/// The groups of a number, as `Reader` reads them.
pub(crate) fn groups(mut number: u32) -> Vec<u8> {
    let mut groups = Vec::new();
    while number >= GROUP {
        groups.push((number % GROUP) as u8 | MORE);
        number /= GROUP;
    }
    groups.push(number as u8);
    groups
}
