//! Words of memory. A word past the lent length reads as zeros, and a store there is dropped.

#[inline]
pub fn load(m: &[u8], at: usize) -> [u8; 8] {
    match m.get(at..at + 8) {
        Some(word) => word.try_into().unwrap(),
        None => [0; 8],
    }
}

#[inline]
pub fn store(m: &mut [u8], at: usize, word: [u8; 8]) {
    if let Some(to) = m.get_mut(at..at + 8) {
        to.copy_from_slice(&word);
    }
}
