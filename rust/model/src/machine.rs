//! The SP engine, the DP engine, their sixteen registers and two lines.
//!
//! The public methods of `Machine` are the rules' calls on a state that is sound,
//! and memories and bursts of an allowed length.

use std::collections::VecDeque;
use std::ops::{Deref, DerefMut};

/// The number for a multiple of 4 at which no register stands.
pub const NOT_A_REGISTER: u32 = 5;
/// The number for a register address that is not a multiple of 4.
pub const NOT_ALIGNED: u32 = 10;

pub const SP_SPADDR: u32 = 0x0404_0000;
pub const SP_RAMADDR: u32 = 0x0404_0004;
pub const SP_RDLEN: u32 = 0x0404_0008;
pub const SP_WRLEN: u32 = 0x0404_000C;
pub const SP_STATUS: u32 = 0x0404_0010;
pub const SP_DMA_FULL: u32 = 0x0404_0014;
pub const SP_DMA_BUSY: u32 = 0x0404_0018;
pub const SP_SEMAPHORE: u32 = 0x0404_001C;
pub const DP_START: u32 = 0x0410_0000;
pub const DP_END: u32 = 0x0410_0004;
pub const DP_CURRENT: u32 = 0x0410_0008;
pub const DP_STATUS: u32 = 0x0410_000C;
pub const DP_CLOCK: u32 = 0x0410_0010;
pub const DP_CMD_BUSY: u32 = 0x0410_0014;
pub const DP_PIPE_BUSY: u32 = 0x0410_0018;
pub const DP_TMEM_BUSY: u32 = 0x0410_001C;

/// The sixteen registers in the order of their addresses; those of the DP by
/// their first copy.
pub const REGISTERS: [u32; 16] = [
    SP_SPADDR,
    SP_RAMADDR,
    SP_RDLEN,
    SP_WRLEN,
    SP_STATUS,
    SP_DMA_FULL,
    SP_DMA_BUSY,
    SP_SEMAPHORE,
    DP_START,
    DP_END,
    DP_CURRENT,
    DP_STATUS,
    DP_CLOCK,
    DP_CMD_BUSY,
    DP_PIPE_BUSY,
    DP_TMEM_BUSY,
];

/// Those that can only be read: a write to one succeeds and does nothing.
pub const READ_ONLY: [u32; 7] = [
    SP_DMA_FULL,
    SP_DMA_BUSY,
    DP_CURRENT,
    DP_CLOCK,
    DP_CMD_BUSY,
    DP_PIPE_BUSY,
    DP_TMEM_BUSY,
];

/// The eight DP registers repeat from 0x04100000 to this address.
const DP_RANGE_LAST: u32 = 0x041F_FFFF;
/// Bytes from one copy of them to the next.
const DP_COPY_BYTES: u32 = 0x20;

/// The register at an address, as one of `REGISTERS`. A mirror of a DP register
/// is that register; the SP registers have no mirrors. The number is 10 for
/// every address that is not a multiple of 4, wherever it lies, and 5 for the
/// others at which no register stands.
pub fn register_at(address: u32) -> Result<u32, u32> {
    if address % 4 != 0 {
        return Err(NOT_ALIGNED);
    }
    match address {
        SP_SPADDR..=SP_SEMAPHORE => Ok(address),
        DP_START..=DP_RANGE_LAST => Ok(DP_START + (address - DP_START) % DP_COPY_BYTES),
        _ => Err(NOT_A_REGISTER),
    }
}

/// The number for an address at which no register stands, 10 or 5.
pub fn check_register(address: u32) -> Result<(), u32> {
    register_at(address).map(|_| ())
}

/// Bytes in DMEM, and in IMEM.
pub const BANK_BYTES: u32 = 4_096;
/// RDRAM addresses and the DP counters have 24 bits.
const SPAN_24: u32 = 1 << 24;
/// The bits that an RDRAM address keeps.
const ADDRESS_BITS: u32 = 0x00FF_FFF8;
/// The bits that an SP address keeps; bit 12 picks IMEM.
const SP_ADDRESS_BITS: u32 = 0x1FF8;
/// The bits that LEN, ROW and SKIP keep.
const LENGTH_BITS: u32 = 0xFF8;
const IMEM_BIT: u32 = 0x1000;
const SYNC_FULL: u8 = 0x29;
/// Words that the command queue has room for.
const QUEUE_WORDS: usize = 32;

/// The state of the SP engine.
#[derive(Clone, Debug, Default, PartialEq, Eq)]
pub struct Sp {
    /// What SPADDR was last written with; the next start takes it.
    pub spaddr_latch: u32,
    /// What RAMADDR was last written with; the next start takes it.
    pub ramaddr_latch: u32,
    /// The length word that waits, kept whole until it starts.
    pub waiting_word: u32,
    /// The direction that waits: true stores into RDRAM.
    pub waiting_stores: bool,
    /// The bank (bit 12) and offset of the running or last transfer.
    pub spaddr: u32,
    /// The RDRAM address of the running or last transfer.
    pub ramaddr: u32,
    pub len: u32,
    /// LEN as it was at the start; each further row begins with it.
    pub row: u32,
    pub count: u32,
    pub skip: u32,
    /// The direction of the running or last transfer: true stores into RDRAM.
    pub stores: bool,
    pub busy: bool,
    pub full: bool,
    pub halted: bool,
    pub broke: bool,
    pub sstep: bool,
    pub intbreak: bool,
    pub signals: [bool; 8],
    pub semaphore: bool,
    /// The SP interrupt line.
    pub line: bool,
}

/// The state of the DP engine.
#[derive(Clone, Debug, Default, PartialEq, Eq)]
pub struct Dp {
    pub start: u32,
    pub end: u32,
    pub current: u32,
    /// The end of the running list; END may already name another one.
    pub limit: u32,
    pub start_pending: bool,
    pub end_pending: bool,
    pub xbus: bool,
    pub freeze: bool,
    pub flush: bool,
    /// On from the first word fetched until a SYNC_FULL is consumed.
    pub pipe_busy: bool,
    /// Words of the present command that are still to be consumed.
    pub words_left: u32,
    /// The words that were fetched and not consumed yet, the oldest first.
    pub queue: VecDeque<u64>,
    pub clock: u32,
    pub cmd_busy_counter: u32,
    pub pipe_busy_counter: u32,
    pub tmem_busy_counter: u32,
    /// The DP interrupt line.
    pub line: bool,
}

/// Both engines and their memories, which may be owned or lent. What takes no
/// memory works without any, and what only reads works on shared parts.
#[derive(Clone, Debug, PartialEq, Eq)]
pub struct Machine<M = Vec<u8>> {
    pub sp: Sp,
    pub dp: Dp,
    pub rdram: M,
    pub dmem: M,
    pub imem: M,
}

/// How many words a run took: those that the SP moved, those that the DP
/// fetched into the queue, and those that the consumer took out of it.
#[derive(Clone, Copy, Debug, Default, PartialEq, Eq)]
pub struct Counts {
    pub moved: u32,
    pub fetched: u32,
    pub consumed: u32,
}

/// Is this bit of a number on?
fn bit(value: u32, number: u32) -> bool {
    value >> number & 1 == 1
}

/// A flag after a write with a clear bit and, next above it, a set bit.
/// Both bits of the pair together have no effect.
fn after_pair(flag: bool, value: u32, clear_bit: u32) -> bool {
    match (bit(value, clear_bit), bit(value, clear_bit + 1)) {
        (true, false) => false,
        (false, true) => true,
        _ => flag,
    }
}

/// The word at an address, most significant byte first. A word at or past
/// the end of the memory reads as zeros.
pub fn load_word(memory: &[u8], address: u32) -> u64 {
    let mut word = 0;
    for place in address as usize..address as usize + 8 {
        let byte = memory.get(place).copied().unwrap_or(0);
        word = word << 8 | u64::from(byte);
    }
    word
}

/// Stores a word, most significant byte first. A word at or past the end of
/// the memory is dropped.
pub fn store_word(memory: &mut [u8], address: u32, word: u64) {
    let first = address as usize;
    for (i, byte) in word.to_be_bytes().into_iter().enumerate() {
        if first + i < memory.len() {
            memory[first + i] = byte;
        }
    }
}

/// The number of words in a command.
pub fn command_length(opcode: u8) -> u32 {
    match opcode {
        0x08 => 4,
        0x09 => 6,
        0x0A => 12,
        0x0B => 14,
        0x0C => 12,
        0x0D => 14,
        0x0E => 20,
        0x0F => 22,
        0x24 | 0x25 => 2,
        _ => 1,
    }
}

impl Sp {
    /// Begins a transfer from the latches. The latches, the waiting word and
    /// its direction keep their values.
    fn start(&mut self, word: u32, stores: bool) {
        self.spaddr = self.spaddr_latch;
        self.ramaddr = self.ramaddr_latch;
        self.len = word & LENGTH_BITS;
        self.row = self.len;
        self.count = word >> 12 & 0xFF;
        self.skip = word >> 20 & LENGTH_BITS;
        self.stores = stores;
        self.busy = true;
    }

    /// A write to RDLEN or WRLEN: starts a transfer, or waits if one is busy.
    fn write_length(&mut self, word: u32, stores: bool) {
        if self.busy {
            self.waiting_word = word;
            self.waiting_stores = stores;
            self.full = true;
        } else {
            self.start(word, stores);
        }
    }

    /// What either length register reads as.
    fn length(&self) -> u32 {
        self.skip << 20 | self.count << 12 | self.len
    }

    /// What a turn does to the registers once its word is moved.
    fn after_word(&mut self) {
        let offset = (self.spaddr % BANK_BYTES + 8) % BANK_BYTES;
        self.spaddr = self.spaddr & IMEM_BIT | offset;
        self.ramaddr = (self.ramaddr + 8) % SPAN_24;
        if self.len > 0 {
            self.len -= 8;
        } else if self.count > 0 {
            self.count -= 1;
            self.ramaddr = (self.ramaddr + self.skip) % SPAN_24;
            self.len = self.row;
        } else {
            self.finish();
        }
    }

    /// The end of a transfer. No SKIP follows the last row. A waiting
    /// transfer starts in the same turn.
    fn finish(&mut self) {
        self.len = LENGTH_BITS;
        self.count = 0;
        self.busy = false;
        if self.full {
            self.full = false;
            self.start(self.waiting_word, self.waiting_stores);
        }
    }

    /// The registers after the current row, of which this many words were left. SKIP
    /// leads to the next row and does not follow the last one; behind that, a waiting
    /// transfer starts.
    fn after_row(&self, words: u32) -> Sp {
        let skip = if self.count > 0 { self.skip } else { 0 };
        let offset = (self.spaddr + 8 * words) % BANK_BYTES;
        let mut next = Sp {
            spaddr: self.spaddr & IMEM_BIT | offset,
            ramaddr: (self.ramaddr + 8 * words + skip) % SPAN_24,
            ..self.clone()
        };
        match (self.count, self.full) {
            (0, false) => (next.len, next.busy) = (LENGTH_BITS, false),
            (0, true) => {
                next.full = false;
                next.start(self.waiting_word, self.waiting_stores);
            }
            (count, _) => (next.count, next.len) = (count - 1, self.row),
        }
        next
    }

    fn read_status(&self) -> u32 {
        let mut status = u32::from(self.halted)
            | u32::from(self.broke) << 1
            | u32::from(self.busy) << 2
            | u32::from(self.full) << 3
            | u32::from(self.sstep) << 5
            | u32::from(self.intbreak) << 6;
        for (i, signal) in self.signals.iter().enumerate() {
            status |= u32::from(*signal) << (7 + i);
        }
        status
    }

    fn write_status(&mut self, value: u32) {
        self.halted = after_pair(self.halted, value, 0);
        if bit(value, 2) {
            self.broke = false;
        }
        self.line = after_pair(self.line, value, 3);
        self.sstep = after_pair(self.sstep, value, 5);
        self.intbreak = after_pair(self.intbreak, value, 7);
        for (i, signal) in self.signals.iter_mut().enumerate() {
            *signal = after_pair(*signal, value, 9 + 2 * i as u32);
        }
    }

    /// Gives the bit and then sets it.
    fn read_semaphore(&mut self) -> u32 {
        let found = u32::from(self.semaphore);
        self.semaphore = true;
        found
    }

    /// The part of the rules' "sound" that speaks of this engine.
    pub fn is_sound(&self) -> bool {
        let lengths = self.len | self.row | self.skip;
        (self.spaddr_latch | self.spaddr) & !SP_ADDRESS_BITS == 0
            && (self.ramaddr_latch | self.ramaddr) & !ADDRESS_BITS == 0
            && lengths & !LENGTH_BITS == 0
            && self.count <= 0xFF
            && (!self.full || self.busy)
            && (!self.busy || self.len <= self.row)
    }
}

impl Dp {
    /// A list runs while CURRENT is below LIMIT.
    pub fn runs(&self) -> bool {
        self.current < self.limit
    }

    /// Sets LIMIT, or under FLUSH brings it to CURRENT so nothing runs.
    fn set_limit(&mut self, limit: u32) {
        self.limit = if self.flush { self.current } else { limit };
    }

    /// Starts the list that START and END name, even an empty one. PIPE_BUSY
    /// stays as it is, for nothing of the list has been fetched yet.
    fn start_list(&mut self) {
        self.current = self.start;
        self.set_limit(self.end);
        self.start_pending = false;
        self.end_pending = false;
    }

    fn write_start(&mut self, value: u32) {
        self.start = value & ADDRESS_BITS;
        self.start_pending = true;
    }

    fn write_end(&mut self, value: u32) {
        self.end = value & ADDRESS_BITS;
        if !self.start_pending {
            self.set_limit(self.end);
        } else if self.runs() || self.freeze {
            self.end_pending = true;
        } else {
            self.start_list();
        }
    }

    /// CMD_BUSY: the queue holds a word. Words left play no part.
    fn cmd_busy(&self) -> bool {
        !self.queue.is_empty()
    }

    fn read_status(&self) -> u32 {
        u32::from(self.xbus)
            | u32::from(self.freeze) << 1
            | u32::from(self.flush) << 2
            | u32::from(self.pipe_busy) << 3
            | u32::from(self.pipe_busy) << 5
            | u32::from(self.cmd_busy()) << 6
            | 1 << 7
            | u32::from(self.runs()) << 8
            | u32::from(self.end_pending) << 9
            | u32::from(self.start_pending) << 10
    }

    /// Flags change first, then flushing, then a waiting list may start.
    fn write_status(&mut self, value: u32) {
        self.xbus = after_pair(self.xbus, value, 0);
        self.freeze = after_pair(self.freeze, value, 2);
        self.flush = after_pair(self.flush, value, 4);
        self.zero_counters(value);
        let sets_flush = bit(value, 5) && !bit(value, 4);
        if sets_flush {
            self.limit = self.current;
            self.start_pending = false;
            self.end_pending = false;
            self.words_left = 0;
            self.queue.clear();
        }
        if !self.freeze && self.end_pending && !self.runs() {
            self.start_list();
        }
    }

    fn zero_counters(&mut self, value: u32) {
        if bit(value, 6) {
            self.tmem_busy_counter = 0;
        }
        if bit(value, 7) {
            self.pipe_busy_counter = 0;
        }
        if bit(value, 8) {
            self.cmd_busy_counter = 0;
        }
        if bit(value, 9) {
            self.clock = 0;
        }
    }

    /// Puts a word behind those that are queued and goes on to the next one.
    /// Every word fetched sets PIPE_BUSY, whichever word of its command it is.
    /// It is not framed yet.
    fn fetch(&mut self, word: u64) {
        self.queue.push_back(word);
        self.pipe_busy = true;
        self.current += 8;
        if self.current == self.limit && self.end_pending {
            self.start_list();
        }
    }

    /// Takes a word into the command it belongs to. Only the first word of a
    /// command has an opcode: its first byte, of which the top two bits are
    /// not looked at. A SYNC_FULL clears PIPE_BUSY, and no other word here
    /// changes it.
    fn frame(&mut self, word: u64) {
        if self.words_left > 0 {
            self.words_left -= 1;
            return;
        }
        let opcode = (word >> 56) as u8 % 64;
        self.words_left = command_length(opcode) - 1;
        if opcode == SYNC_FULL {
            self.pipe_busy = false;
            self.line = true;
        }
    }

    /// The part of the rules' "sound" that speaks of this engine.
    pub fn is_sound(&self) -> bool {
        let addresses = self.start | self.end | self.current | self.limit;
        let counters =
            self.clock | self.cmd_busy_counter | self.pipe_busy_counter | self.tmem_busy_counter;
        addresses & !ADDRESS_BITS == 0
            && counters < SPAN_24
            && (!self.end_pending || self.start_pending)
            && (!self.end_pending || self.freeze || self.runs())
            && (!self.flush || !self.runs())
            && self.words_left <= 21
            && self.queue.len() <= QUEUE_WORDS
    }
}

impl Machine {
    /// Power-up: every register, flag and byte zero.
    pub fn new(rdram_bytes: usize) -> Machine {
        Machine {
            sp: Sp::default(),
            dp: Dp::default(),
            rdram: vec![0; rdram_bytes],
            dmem: vec![0; BANK_BYTES as usize],
            imem: vec![0; BANK_BYTES as usize],
        }
    }
}

/// What takes no memory.
impl<M> Machine<M> {
    pub fn is_sound(&self) -> bool {
        self.sp.is_sound() && self.dp.is_sound()
    }

    /// Reads a register by any of its addresses, or gives the number 10 or 5.
    pub fn read(&mut self, address: u32) -> Result<u32, u32> {
        Ok(match register_at(address)? {
            SP_SPADDR => self.sp.spaddr,
            SP_RAMADDR => self.sp.ramaddr,
            SP_RDLEN | SP_WRLEN => self.sp.length(),
            SP_STATUS => self.sp.read_status(),
            SP_DMA_FULL => u32::from(self.sp.full),
            SP_DMA_BUSY => u32::from(self.sp.busy),
            SP_SEMAPHORE => self.sp.read_semaphore(),
            DP_START => self.dp.start,
            DP_END => self.dp.end,
            DP_CURRENT => self.dp.current,
            DP_STATUS => self.dp.read_status(),
            DP_CLOCK => self.dp.clock,
            DP_CMD_BUSY => self.dp.cmd_busy_counter,
            DP_PIPE_BUSY => self.dp.pipe_busy_counter,
            DP_TMEM_BUSY => self.dp.tmem_busy_counter,
            _ => unreachable!("always one of the sixteen"),
        })
    }

    /// Writes a register by any of its addresses, or gives the number 10 or 5.
    /// Writes to the registers that can only be read succeed and do nothing.
    pub fn write(&mut self, address: u32, value: u32) -> Result<(), u32> {
        match register_at(address)? {
            SP_SPADDR => self.sp.spaddr_latch = value & SP_ADDRESS_BITS,
            SP_RAMADDR => self.sp.ramaddr_latch = value & ADDRESS_BITS,
            SP_RDLEN => self.sp.write_length(value, false),
            SP_WRLEN => self.sp.write_length(value, true),
            SP_STATUS => self.sp.write_status(value),
            SP_DMA_FULL | SP_DMA_BUSY => {}
            SP_SEMAPHORE => self.sp.semaphore = false,
            DP_START => self.dp.write_start(value),
            DP_END => self.dp.write_end(value),
            DP_STATUS => self.dp.write_status(value),
            DP_CURRENT | DP_CLOCK | DP_CMD_BUSY | DP_PIPE_BUSY | DP_TMEM_BUSY => {}
            _ => unreachable!("always one of the sixteen"),
        }
        Ok(())
    }

    /// Writes value k at address k, in order, up to the first that is refused.
    /// Gives how many were written, and the number of the refused one.
    pub fn write_all(&mut self, addresses: &[u32], values: &[u32]) -> (u32, Result<(), u32>) {
        let mut written = 0;
        for (address, value) in addresses.iter().zip(values) {
            if let Err(number) = self.write(*address, *value) {
                return (written, Err(number));
            }
            written += 1;
        }
        (written, Ok(()))
    }

    /// Adds to CLOCK, and to the CMD_BUSY and PIPE_BUSY counters where bits 6
    /// and 5 of the DP status are on.
    pub fn tick(&mut self, n: u32) {
        let plus = |counter: u32| (counter % SPAN_24 + n % SPAN_24) % SPAN_24;
        let dp = &mut self.dp;
        dp.clock = plus(dp.clock);
        if dp.cmd_busy() {
            dp.cmd_busy_counter = plus(dp.cmd_busy_counter);
        }
        if dp.pipe_busy {
            dp.pipe_busy_counter = plus(dp.pipe_busy_counter);
        }
    }

    /// A BREAK: sets HALTED and BROKE, and the SP line if INTBREAK.
    pub fn break_(&mut self) {
        self.sp.halted = true;
        self.sp.broke = true;
        if self.sp.intbreak {
            self.sp.line = true;
        }
    }

    /// Lowers the DP line.
    pub fn acknowledge(&mut self) {
        self.dp.line = false;
    }

    /// One consumer turn. Takes the oldest queued word, frames it and hands it
    /// out, or gives none if nothing changed.
    pub fn consumer_turn(&mut self) -> Option<u64> {
        if self.dp.freeze {
            return None;
        }
        let word = self.dp.queue.pop_front()?;
        self.dp.frame(word);
        Some(word)
    }

    /// One consumer turn whose word goes into this room. Without room there is
    /// no turn. Gives 1 if it put out a word.
    fn consumer_turn_into(&mut self, room: Option<&mut [u8]>) -> u32 {
        let Some(room) = room else {
            return 0;
        };
        let Some(word) = self.consumer_turn() else {
            return 0;
        };
        room.copy_from_slice(&word.to_be_bytes());
        1
    }
}

/// What writes to memory.
impl<M: DerefMut<Target = [u8]>> Machine<M> {
    /// One SP turn. Gives 1 if it moved a word, 0 if the engine was idle.
    pub fn sp_turn(&mut self) -> u32 {
        if !self.sp.busy {
            return 0;
        }
        self.move_word(self.sp.ramaddr, self.sp.spaddr % BANK_BYTES);
        self.sp.after_word();
        1
    }

    /// What is left of the current row, by the rules' formula for its words. Gives
    /// their number, 0 if the engine was idle. Words past the lent length count too.
    pub fn sp_row(&mut self) -> u32 {
        if !self.sp.busy {
            return 0;
        }
        let (base, start) = (self.sp.ramaddr, self.sp.spaddr);
        let words = self.sp.len / 8 + 1;
        for c in 0..words {
            self.move_word((base + 8 * c) % SPAN_24, (start + 8 * c) % BANK_BYTES);
        }
        self.sp = self.sp.after_row(words);
        words
    }

    /// Moves a word between this RDRAM address and this offset in the bank that the
    /// transfer uses.
    fn move_word(&mut self, address: u32, offset: u32) {
        let bank = if self.sp.spaddr & IMEM_BIT != 0 {
            &mut self.imem
        } else {
            &mut self.dmem
        };
        if self.sp.stores {
            let word = load_word(bank, offset);
            store_word(&mut self.rdram, address, word);
        } else {
            let word = load_word(&self.rdram, address);
            store_word(bank, offset, word);
        }
    }

    /// SP turn, DP turn, which is a fetch, consumer turn, SP turn and so on. A
    /// turn that would do nothing is passed over, and so is one whose budget is
    /// used, and the consumer's where the output has no room. The run ends with
    /// the round in which all three are. Words stand in the output from its
    /// start; its rest is untouched.
    pub fn run(
        &mut self,
        sp_budget: u32,
        dp_budget: u32,
        consumer_budget: u32,
        output: &mut [u8],
    ) -> Counts {
        let mut done = Counts::default();
        loop {
            let before = done;
            if done.moved < sp_budget {
                done.moved += self.sp_turn();
            }
            if done.fetched < dp_budget {
                done.fetched += self.dp_turn();
            }
            if done.consumed < consumer_budget {
                let room = output.chunks_exact_mut(8).nth(done.consumed as usize);
                done.consumed += self.consumer_turn_into(room);
            }
            if done == before {
                return done;
            }
        }
    }
}

/// What only reads memory.
impl<M: Deref<Target = [u8]>> Machine<M> {
    /// One DP turn: fetches the word at CURRENT into the queue, if it isn't
    /// full. Gives 1 if it fetched a word, 0 if nothing changed.
    pub fn dp_turn(&mut self) -> u32 {
        if !self.dp.runs() || self.dp.freeze || self.dp.queue.len() == QUEUE_WORDS {
            return 0;
        }
        // XBUS is looked at each turn, so a list may change memory midway.
        let word = if self.dp.xbus {
            load_word(&self.dmem, self.dp.current % BANK_BYTES)
        } else {
            load_word(&self.rdram, self.dp.current)
        };
        self.dp.fetch(word);
        1
    }
}
