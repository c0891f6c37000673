//! The ring that holds the queued words, read as a plain queue, and the same words in other slots.

use ofersky::{State, QUEUE_WORDS};
use random::Random;

/// The queued words, the oldest first. A number of words above that of the slots is read round and
/// round.
pub fn words(state: &State) -> Vec<u64> {
    let slot = |i| (usize::from(state.dp.head) + i) % QUEUE_WORDS;
    (0..usize::from(state.dp.queued))
        .map(|i| state.queue[slot(i)])
        .collect()
}

/// A ring with these words from slot 0 on and zeros in the other slots.
pub fn slots(words: &[u64]) -> [u64; QUEUE_WORDS] {
    let mut slots = [0; QUEUE_WORDS];
    slots[..words.len()].copy_from_slice(words);
    slots
}

/// Can the ring be one of a sound state?
fn is_valid(state: &State) -> bool {
    usize::from(state.dp.queued) <= QUEUE_WORDS && usize::from(state.dp.head) < QUEUE_WORDS
}

/// The same state with its queued words from slot 0 on and zeros in the other slots. A ring that
/// cannot be is left as it is, so that it is seen.
pub fn normalized(state: &State) -> State {
    let mut normalized = *state;
    if is_valid(state) {
        normalized.queue = slots(&words(state));
        normalized.dp.head = 0;
    }
    normalized
}

/// The same state with its queued words in other slots, and other words in the rest of them. Of a
/// ring that cannot be, the head stays as good or as bad as it was.
pub fn rotated(state: &State, random: &mut Random) -> State {
    let mut rotated = *state;
    rotated.queue = [0; QUEUE_WORDS].map(|_| random.next_u64());
    if !is_valid(state) {
        return rotated;
    }
    rotated.dp.head = random.index(QUEUE_WORDS) as u8;
    for (i, word) in words(state).into_iter().enumerate() {
        rotated.queue[(usize::from(rotated.dp.head) + i) % QUEUE_WORDS] = word;
    }
    rotated
}
