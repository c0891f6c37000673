//! A listing, written into a buffer.

pub struct Listing<'a> {
    out: &'a mut [u8],
    written: usize,
}

/// The two hex digits of each byte.
const PAIRS: [[u8; 2]; 256] = pairs();

const fn pairs() -> [[u8; 2]; 256] {
    let digits = b"0123456789ABCDEF";
    let mut table = [[0; 2]; 256];
    let mut i = 0;
    while i < 256 {
        table[i] = [digits[i / 16], digits[i % 16]];
        i += 1;
    }
    table
}

impl<'a> Listing<'a> {
    pub fn new(out: &'a mut [u8]) -> Self {
        let mut listing = Listing { out, written: 0 };
        listing.put(b"replay 1\n");
        listing
    }

    #[inline]
    fn put<const N: usize>(&mut self, text: &[u8; N]) {
        self.out[self.written..][..N].copy_from_slice(text);
        self.written += N;
    }

    #[inline]
    fn put_hex<const N: usize>(&mut self, bytes: [u8; N]) {
        let to = &mut self.out[self.written..][..2 * N];
        for (pair, byte) in to.chunks_exact_mut(2).zip(bytes) {
            pair.copy_from_slice(&PAIRS[byte as usize]);
        }
        self.written += 2 * N;
    }

    pub fn put_run(&mut self, letter: u8, count: u32) {
        self.put(&[letter, b' ']);
        self.put_hex(count.to_be_bytes());
        self.put(b"\n");
    }

    /// A read or a check, with N bytes found.
    #[inline]
    pub fn put_found<const N: usize>(
        &mut self,
        letter: u8,
        address: u32,
        found: [u8; N],
        expected: [u8; N],
    ) {
        self.put(&[letter, b' ']);
        self.put_hex(address.to_be_bytes());
        self.put(b" ");
        self.put_hex(found);
        if found == expected {
            self.put(b" ok\n");
        } else {
            self.put(b" expected ");
            self.put_hex(expected);
            self.put(b"\n");
        }
    }

    pub fn put_end(&mut self, count: u32) {
        let text = format!("end {count}\n");
        self.out[self.written..][..text.len()].copy_from_slice(text.as_bytes());
        self.written += text.len();
    }
}
