//! 02, L2 "Say which rule decided": who decides about a page or a bank.

#[derive(Clone, Copy, Debug, PartialEq, Eq)]
pub enum Decider {
    /// The region of this number, 0 to 7.
    Region(u8),
    /// The default rights.
    Default,
    /// An information page's own setting.
    PageSetting,
    /// The seed lock, of a seed page that the inputs close.
    SeedLock,
    /// A bank's erase permission.
    BankPermission,
}

impl Decider {
    pub fn number(self) -> u8 {
        match self {
            Decider::Region(number) => number,
            Decider::Default => 8,
            Decider::PageSetting => 9,
            Decider::SeedLock => 10,
            Decider::BankPermission => 11,
        }
    }
}
