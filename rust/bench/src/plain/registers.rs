//! The sixteen registers, ticks, BREAK and the acknowledge.

use super::dp::Dp;
use super::sp::Sp;
use super::Machine;

fn bit(word: u32, n: u32) -> bool {
    word >> n & 1 == 1
}

/// A flag after a write with its clear bit at n and its set bit above; both together have no
/// effect.
fn write_pair(flag: &mut bool, word: u32, n: u32) {
    match word >> n & 3 {
        1 => *flag = false,
        2 => *flag = true,
        _ => {}
    }
}

impl Sp {
    fn status(&self) -> u32 {
        self.halted as u32
            | (self.broke as u32) << 1
            | (self.busy as u32) << 2
            | (self.full as u32) << 3
            | (self.single_step as u32) << 5
            | (self.interrupt_on_break as u32) << 6
            | (self.signals as u32) << 7
    }

    fn write_status(&mut self, v: u32) {
        write_pair(&mut self.halted, v, 0);
        self.broke &= !bit(v, 2);
        write_pair(&mut self.line, v, 3);
        write_pair(&mut self.single_step, v, 5);
        write_pair(&mut self.interrupt_on_break, v, 7);
        for n in 0..8 {
            let mut signal = self.signals >> n & 1 == 1;
            write_pair(&mut signal, v, 9 + 2 * n);
            self.signals = self.signals & !(1 << n) | (signal as u8) << n;
        }
    }

    fn read(&mut self, index: u32) -> u32 {
        match index {
            0 => self.sp_addr,
            1 => self.ram_addr,
            2 | 3 => self.skip << 20 | self.count << 12 | self.len,
            4 => self.status(),
            5 => self.full as u32,
            6 => self.busy as u32,
            _ => std::mem::replace(&mut self.semaphore, true) as u32,
        }
    }

    fn write(&mut self, index: u32, v: u32) {
        match index {
            0 => self.sp_latch = v & 0x1FF8,
            1 => self.ram_latch = v & 0xFF_FFF8,
            2 => self.write_length(v, false),
            3 => self.write_length(v, true),
            4 => self.write_status(v),
            7 => self.semaphore = false,
            _ => {}
        }
    }
}

impl Dp {
    fn status(&self) -> u32 {
        self.xbus as u32
            | (self.freeze as u32) << 1
            | (self.flush as u32) << 2
            | (self.pipe_busy as u32) << 3
            | (self.pipe_busy as u32) << 5
            | ((self.queued > 0) as u32) << 6
            | 0x80
            | (self.runs() as u32) << 8
            | (self.end_pending as u32) << 9
            | (self.start_pending as u32) << 10
    }

    fn write_end(&mut self, v: u32) {
        self.end = v & 0xFF_FFF8;
        if !self.start_pending {
            self.limit = if self.flush { self.current } else { self.end };
        } else if self.runs() || self.freeze {
            self.end_pending = true;
        } else {
            self.start_list();
        }
    }

    fn flush_list(&mut self) {
        self.limit = self.current;
        self.start_pending = false;
        self.end_pending = false;
        self.words_left = 0;
        self.queued = 0;
    }

    fn write_status(&mut self, v: u32) {
        write_pair(&mut self.xbus, v, 0);
        write_pair(&mut self.freeze, v, 2);
        write_pair(&mut self.flush, v, 4);
        let counters = [
            &mut self.tmem_busy_count,
            &mut self.pipe_busy_count,
            &mut self.cmd_busy_count,
            &mut self.clock,
        ];
        for (n, counter) in (6..).zip(counters) {
            if bit(v, n) {
                *counter = 0;
            }
        }
        if bit(v, 5) && !bit(v, 4) {
            self.flush_list();
        }
        if !self.freeze && self.end_pending && !self.runs() {
            self.start_list();
        }
    }

    fn read(&self, index: u32) -> u32 {
        match index {
            0 => self.start,
            1 => self.end,
            2 => self.current,
            3 => self.status(),
            4 => self.clock,
            5 => self.cmd_busy_count,
            6 => self.pipe_busy_count,
            _ => self.tmem_busy_count,
        }
    }

    fn write(&mut self, index: u32, v: u32) {
        match index {
            0 => {
                self.start = v & 0xFF_FFF8;
                self.start_pending = true;
            }
            1 => self.write_end(v),
            3 => self.write_status(v),
            _ => {}
        }
    }

    pub fn tick(&mut self, n: u32) {
        let add = |counter: u32| counter.wrapping_add(n) & 0xFF_FFFF;
        self.clock = add(self.clock);
        if self.queued > 0 {
            self.cmd_busy_count = add(self.cmd_busy_count);
        }
        if self.pipe_busy {
            self.pipe_busy_count = add(self.pipe_busy_count);
        }
    }
}

/// Above the SP's registers, and below the DP's.
const DP_REGISTERS: u32 = 0x0410_0000;

impl Machine {
    pub fn read(&mut self, address: u32) -> u32 {
        let index = address >> 2 & 7;
        if address < DP_REGISTERS {
            self.sp.read(index)
        } else {
            self.dp.read(index)
        }
    }

    pub fn write(&mut self, address: u32, v: u32) {
        let index = address >> 2 & 7;
        if address < DP_REGISTERS {
            self.sp.write(index, v);
        } else {
            self.dp.write(index, v);
        }
    }

    pub fn sp_break(&mut self) {
        self.sp.halted = true;
        self.sp.broke = true;
        self.sp.line |= self.sp.interrupt_on_break;
    }
}
