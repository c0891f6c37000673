//! A replay of a recording whose records are all good.

use super::dp::Rest;
use super::listing::Listing;
use super::{words, Bank, Machine};

/// The memory that a replay works on.
pub struct Lent<'a> {
    pub rdram: &'a mut [u8],
    pub dmem: &'a mut Bank,
    pub imem: &'a mut Bank,
    /// Where runs put their words.
    pub words: &'a mut [u8; 2048],
}

impl Lent<'_> {
    #[inline]
    pub fn load(&self, address: u32) -> [u8; 8] {
        match address >> 12 {
            0x4000 => words::load(self.dmem, address as usize & 0xFF8),
            0x4001 => words::load(self.imem, address as usize & 0xFF8),
            _ => words::load(self.rdram, address as usize),
        }
    }

    #[inline]
    pub fn store(&mut self, address: u32, word: [u8; 8]) {
        match address >> 12 {
            0x4000 => words::store(self.dmem, address as usize & 0xFF8, word),
            0x4001 => words::store(self.imem, address as usize & 0xFF8, word),
            _ => words::store(self.rdram, address as usize, word),
        }
    }
}

/// Takes N bytes off the front.
#[inline]
fn take<const N: usize>(rest: &mut &[u8]) -> [u8; N] {
    let (bytes, later) = rest.split_first_chunk().unwrap();
    *rest = later;
    *bytes
}

#[inline]
fn number(rest: &mut &[u8]) -> u32 {
    u32::from_be_bytes(take(rest))
}

impl Machine {
    /// Does one record and writes its line; `rest` begins with its body.
    #[inline]
    fn perform(&mut self, kind: u8, rest: &mut &[u8], lent: &mut Lent, listing: &mut Listing) {
        match kind {
            1 => self.write(number(rest), number(rest)),
            2 => {
                let (address, expected) = (number(rest), take(rest));
                let found = self.read(address).to_be_bytes();
                listing.put_found(b'R', address, found, expected);
            }
            3 => {
                let count = self.sp.run(number(rest), lent.rdram, lent.dmem, lent.imem);
                listing.put_run(b'S', count);
            }
            4 => {
                let rest = Rest::new([number(rest); 2], lent.words);
                let count = self.dp.run(&mut self.queue, rest, lent.rdram, lent.dmem);
                listing.put_run(b'D', count);
            }
            5 => self.dp.tick(number(rest)),
            6 => self.sp_break(),
            7 => self.dp.line = false,
            8 => lent.store(number(rest), take(rest)),
            9 => {
                let (address, expected) = (number(rest), take(rest));
                listing.put_found(b'L', address, lent.load(address), expected);
            }
            10 => {
                let (sp, dp) = (number(rest), number(rest));
                let Lent {
                    rdram,
                    dmem,
                    imem,
                    words,
                } = lent;
                let [moved, consumed] = self.run([sp, dp, dp], rdram, dmem, imem, &mut words[..]);
                listing.put_run(b'S', moved);
                listing.put_run(b'D', consumed);
            }
            _ => panic!("no record has kind {kind}"),
        }
    }

    /// Replays a recording and writes its listing to `out`; gives the number of records.
    pub fn replay(&mut self, recording: &[u8], mut lent: Lent, out: &mut [u8]) -> u32 {
        let mut listing = Listing::new(out);
        let mut rest = recording;
        let mut count = 0;
        while let Some((&kind, body)) = rest.split_first() {
            rest = body;
            self.perform(kind, &mut rest, &mut lent, &mut listing);
            count += 1;
        }
        listing.put_end(count);
        count
    }
}
