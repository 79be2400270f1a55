//! A sheet as it is written: its bytes, and what number stands where.

use reference::model::Operation;

#[derive(Clone, Copy, Debug, PartialEq, Eq)]
pub enum Role {
    Tag,
    Kind,
    Partition,
    Type,
    Address,
    Count,
    Word,
    Repeats,
    Rights,
}

impl Role {
    pub const ALL: [Role; 9] = [
        Role::Tag,
        Role::Kind,
        Role::Partition,
        Role::Type,
        Role::Address,
        Role::Count,
        Role::Word,
        Role::Repeats,
        Role::Rights,
    ];

    /// The largest number that can stand there, if not every one below 2^32 can.
    pub fn limit(self) -> Option<u32> {
        match self {
            Role::Tag => Some(3),
            Role::Kind | Role::Partition | Role::Type | Role::Repeats => Some(255),
            Role::Rights => Some(7),
            Role::Address | Role::Count | Role::Word => None,
        }
    }
}

#[derive(Clone, Copy, Debug)]
pub struct Number {
    pub role: Role,
    pub value: u32,
    pub place: usize,
}

#[derive(Clone, Debug, Default)]
pub struct Draft {
    pub bytes: Vec<u8>,
    pub numbers: Vec<Number>,
}

impl Draft {
    pub fn rights(&mut self, rights: u8) {
        self.number(Role::Tag, 3);
        self.number(Role::Rights, rights.into());
    }

    /// Of the 16 words, those that such an operation carries.
    pub fn operation(&mut self, operation: &Operation, words: &[u32]) {
        self.number(Role::Tag, 1);
        self.number(Role::Kind, operation.kind.into());
        self.number(Role::Partition, operation.partition.into());
        self.number(Role::Type, operation.info_type.into());
        self.number(Role::Address, operation.address);
        self.number(Role::Count, operation.count);
        if let (1, Some(words)) = (operation.kind, words.get(..operation.count as usize)) {
            words.iter().for_each(|&word| self.number(Role::Word, word));
        }
    }

    pub fn begin_repeat(&mut self, count: u8) {
        self.number(Role::Tag, 2);
        self.number(Role::Repeats, count.into());
    }

    pub fn end(&mut self) {
        self.number(Role::Tag, 0);
    }

    fn number(&mut self, role: Role, value: u32) {
        let place = self.bytes.len();
        self.numbers.push(Number { role, value, place });
        self.bytes.extend(shortest_form(value.into()));
    }
}

pub fn shortest_form(value: u128) -> Vec<u8> {
    let (low, rest) = ((value % 128) as u8, value / 128);
    if rest == 0 {
        return vec![low];
    }
    let mut form = vec![low | 0x80];
    form.extend(shortest_form(rest));
    form
}
