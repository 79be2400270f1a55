//! 01, "Steps": the queues.

use crate::model::Queue;

pub(super) fn add(queue: &mut Queue, word: u32) {
    queue.words[queue.length as usize] = word;
    queue.length += 1;
    zero_the_rest(queue);
}

pub(super) fn take_oldest(queue: &mut Queue) -> u32 {
    let oldest = queue.words[0];
    queue.words.copy_within(1.., 0);
    queue.length -= 1;
    zero_the_rest(queue);
    oldest
}

fn zero_the_rest(queue: &mut Queue) {
    for (place, word) in queue.words.iter_mut().enumerate() {
        if place >= queue.length as usize {
            *word = 0;
        }
    }
}
