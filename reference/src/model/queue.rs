//! 01, "Steps": the queues of 16 bus words.

pub const QUEUE_WORDS: u32 = 16;

/// The oldest word is first. A broken queue has a length over 16.
#[derive(Clone, Copy, Debug, Default, PartialEq, Eq)]
pub struct Queue {
    pub words: [u32; QUEUE_WORDS as usize],
    pub length: u32,
}

impl Queue {
    /// Of a queue that is not full.
    pub(super) fn add(&mut self, word: u32) {
        self.words[self.length as usize] = word;
        self.length += 1;
        self.zero_the_rest();
    }

    /// Of a queue that is not empty.
    pub(super) fn take_oldest(&mut self) -> u32 {
        let oldest = self.words[0];
        self.words.rotate_left(1);
        self.length -= 1;
        self.zero_the_rest();
        oldest
    }

    /// Places past the length are zeros.
    fn zero_the_rest(&mut self) {
        self.words[self.length as usize..].fill(0);
    }
}
