//! Memory lent with bytes before and after it that no call may touch, and at every alignment. The
//! 32-bit numbers of a burst are lent so, too.

/// The elements on each side, and what they are. As addresses both are refused.
const PADDING: usize = 64;
const BEFORE: u8 = 0xC3;
const AFTER: u8 = 0x3C;

/// A memory between its padding.
pub struct Padded<T> {
    elements: Vec<T>,
    from: usize,
    length: usize,
}

impl<T: Copy + From<u8> + PartialEq> Padded<T> {
    /// The memory stands `shift` elements after the place where it would stand otherwise.
    pub fn new(memory: &[T], shift: usize) -> Padded<T> {
        let from = PADDING + shift;
        let mut elements = Vec::with_capacity(from + memory.len() + PADDING);
        elements.resize(from, BEFORE.into());
        elements.extend_from_slice(memory);
        elements.resize(from + memory.len() + PADDING, AFTER.into());
        Padded {
            elements,
            from,
            length: memory.len(),
        }
    }

    /// The memory without its padding.
    pub fn lent(&mut self) -> &mut [T] {
        &mut self.elements[self.from..self.from + self.length]
    }

    /// Are the elements on both sides as before?
    pub fn padding_is_unchanged(&self) -> bool {
        let (before, rest) = self.elements.split_at(self.from);
        let after = &rest[self.length..];
        let all = |elements: &[T], byte: u8| elements.iter().all(|element| *element == byte.into());
        all(before, BEFORE) && all(after, AFTER)
    }
}

#[cfg(test)]
mod tests {
    use super::Padded;

    /// A byte just before and one just after the memory are seen, one within it is not.
    #[test]
    fn bytes_beside_the_memory_are_seen() {
        for (at, unchanged) in [(66, false), (67, true), (74, true), (75, false)] {
            let mut padded = Padded::new(&[0u8; 8], 3);
            padded.elements[at] ^= 1;
            assert_eq!(padded.padding_is_unchanged(), unchanged);
        }
    }
}
