//! The SP engine.

use super::{words, Bank};

#[derive(Clone, Copy, Default)]
pub struct Sp {
    pub sp_latch: u32,
    pub ram_latch: u32,
    pub sp_addr: u32,
    pub ram_addr: u32,
    pub len: u32,
    pub count: u32,
    pub skip: u32,
    pub row: u32,
    pub waiting: u32,
    pub busy: bool,
    pub storing: bool,
    pub full: bool,
    pub waiting_storing: bool,
    pub halted: bool,
    pub broke: bool,
    pub single_step: bool,
    pub interrupt_on_break: bool,
    pub signals: u8,
    pub line: bool,
    pub semaphore: bool,
}

impl Sp {
    fn start(&mut self, word: u32, storing: bool) {
        self.sp_addr = self.sp_latch;
        self.ram_addr = self.ram_latch;
        self.len = word & 0xFF8;
        self.count = word >> 12 & 0xFF;
        self.skip = word >> 20 & 0xFF8;
        self.row = self.len;
        self.busy = true;
        self.storing = storing;
    }

    /// A length word is written: it starts a transfer, or waits where one runs.
    pub fn write_length(&mut self, word: u32, storing: bool) {
        if self.busy {
            self.full = true;
            self.waiting = word;
            self.waiting_storing = storing;
        } else {
            self.start(word, storing);
        }
    }

    #[inline]
    fn step(&mut self) {
        self.sp_addr = self.sp_addr & 0x1000 | (self.sp_addr + 8) & 0xFFF;
        self.ram_addr = (self.ram_addr + 8) & 0xFF_FFFF;
        if self.len > 0 {
            self.len -= 8;
        } else if self.count > 0 {
            self.count -= 1;
            self.ram_addr = (self.ram_addr + self.skip) & 0xFF_FFFF;
            self.len = self.row;
        } else {
            self.len = 0xFF8;
            self.busy = false;
            if self.full {
                self.full = false;
                self.start(self.waiting, self.waiting_storing);
            }
        }
    }

    /// One turn; gives the words moved, 0 or 1.
    #[inline]
    pub fn turn(&mut self, rdram: &mut [u8], dmem: &mut Bank, imem: &mut Bank) -> u32 {
        if !self.busy {
            return 0;
        }
        let bank = if self.sp_addr < 0x1000 { dmem } else { imem };
        if self.storing {
            store(bank, self.sp_addr, rdram, self.ram_addr);
        } else {
            load(bank, self.sp_addr, rdram, self.ram_addr);
        }
        self.step();
        1
    }

    /// Turns until the budget is used or the engine is idle; gives the words moved.
    pub fn run(&mut self, budget: u32, rdram: &mut [u8], dmem: &mut Bank, imem: &mut Bank) -> u32 {
        // A local copy, so that the loop can hold these registers in the processor's.
        let mut sp = *self;
        let mut count = 0;
        while count < budget && sp.turn(rdram, dmem, imem) == 1 {
            count += 1;
        }
        *self = sp;
        count
    }

    /// The words left of the row.
    fn row_words(&self) -> u32 {
        if self.busy {
            self.len / 8 + 1
        } else {
            0
        }
    }

    /// Turns until the row is finished; gives the words moved.
    pub fn row(&mut self, rdram: &mut [u8], dmem: &mut Bank, imem: &mut Bank) -> u32 {
        self.run(self.row_words(), rdram, dmem, imem)
    }

    /// The rest of the row as an emulator's DMA moves it: word by word, with the offset cut to the
    /// bank and a test of the RDRAM address, and the registers only at the end. Gives the words
    /// moved.
    #[inline]
    pub fn dma_row(&mut self, rdram: &mut [u8], dmem: &mut Bank, imem: &mut Bank) -> u32 {
        let words = self.row_words();
        if words == 0 {
            return 0;
        }
        let bank = if self.sp_addr < 0x1000 { dmem } else { imem };
        let (sp_addr, ram_addr) = (self.sp_addr, self.ram_addr);
        let places = (0..8 * words)
            .step_by(8)
            .map(|at| (sp_addr + at, (ram_addr + at) & 0xFF_FFFF));
        if self.storing {
            places.for_each(|(offset, ram)| store(bank, offset, rdram, ram));
        } else {
            places.for_each(|(offset, ram)| load(bank, offset, rdram, ram));
        }
        let last = 8 * (words - 1);
        self.sp_addr = sp_addr & 0x1000 | (sp_addr + last) & 0xFFF;
        self.ram_addr = (ram_addr + last) & 0xFF_FFFF;
        self.len = 0;
        self.step();
        words
    }

    /// Row by row until the engine is idle, in the same way; gives the words moved.
    pub fn dma(&mut self, rdram: &mut [u8], dmem: &mut Bank, imem: &mut Bank) -> u32 {
        let mut sp = *self;
        let mut count = 0;
        while sp.busy {
            count += sp.dma_row(rdram, dmem, imem);
        }
        *self = sp;
        count
    }
}

/// Moves a word into RDRAM.
#[inline]
fn store(bank: &Bank, sp_addr: u32, rdram: &mut [u8], ram_addr: u32) {
    let word = words::load(bank, (sp_addr & 0xFF8) as usize);
    words::store(rdram, ram_addr as usize, word);
}

/// Moves a word into the bank.
#[inline]
fn load(bank: &mut Bank, sp_addr: u32, rdram: &[u8], ram_addr: u32) {
    let word = words::load(rdram, ram_addr as usize);
    words::store(bank, (sp_addr & 0xFF8) as usize, word);
}
