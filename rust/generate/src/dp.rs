//! Sequences about the DP engine: lists in either memory, SYNC_FULL, FREEZE and FLUSH.

use crate::constants::{
    ALL, CLEAR_FLUSH, CLEAR_FREEZE, CLEAR_XBUS, SET_FLUSH, SET_FREEZE, SET_XBUS,
};
use crate::generator::Generator;
use model::machine::{DP_CURRENT, DP_END, DP_START, DP_STATUS};
use model::recording::Record;

impl Generator {
    pub(crate) fn list_in_rdram(&mut self) {
        self.make_ready(CLEAR_XBUS);
        self.begin_list(18);
        self.run_lists();
    }

    pub(crate) fn list_in_dmem(&mut self) {
        self.make_ready(SET_XBUS);
        self.begin_list(18);
        self.run_lists();
        if self.random.once_in(2) {
            self.write(DP_STATUS, CLEAR_XBUS);
        }
    }

    /// A second list, and perhaps a third in its place, while one runs.
    pub(crate) fn waiting_lists(&mut self) {
        let xbus = self.random.pick(&[CLEAR_XBUS, SET_XBUS]);
        self.make_ready(xbus);
        self.begin_list(6);
        self.dp_run(1);
        self.begin_list(8);
        self.read(DP_STATUS);
        match self.random.below(3) {
            0 => {
                let start = self.ram_address();
                self.write(DP_START, start);
            }
            1 => {
                self.begin_list(4);
            }
            _ => {}
        }
        self.read_one_of(&[DP_START, DP_END, DP_CURRENT]);
        self.run_lists();
    }

    /// A list that stops within a command, then more of it by END alone or another list that takes
    /// the words left.
    pub(crate) fn list_left_in_mid_command(&mut self) {
        self.make_ready(CLEAR_XBUS);
        let opcode = self.random.pick(&[0x08, 0x09, 0x0B, 0x0D, 0x0F, 0x24]);
        let mut words = self.command(opcode);
        let kept = 1 + self.random.below(words.len() as u32 - 1);
        words.extend(self.commands(3));
        let (start, end) = self.place_list(&words);
        self.write_list((start, start + 8 * kept));
        self.dp_run(ALL);
        self.read(DP_STATUS);
        self.tick_and_read();
        if self.random.once_in(2) {
            self.write(DP_END, end);
        } else {
            self.begin_list(4);
        }
        self.read(DP_STATUS);
        self.run_lists();
    }

    pub(crate) fn sync_full(&mut self) {
        let xbus = self.random.pick(&[CLEAR_XBUS, SET_XBUS]);
        self.make_ready(xbus);
        let mut words = self.commands(2);
        let before = words.len() as u32;
        words.extend(self.command(0x29));
        let goes_on = self.random.pick(&[0, 0, 1, 2]);
        for _ in 0..goes_on {
            words.extend(self.command(0x27));
        }
        let list = self.place_list(&words);
        self.write_list(list);
        if self.random.once_in(2) {
            let next = self.ram_address();
            self.write_list((next, next.saturating_add(0x10)));
        }
        self.dp_run(before);
        self.read(DP_STATUS);
        self.dp_run(1);
        self.read(DP_STATUS);
        self.tick_and_read();
        self.put(Record::Acknowledge);
        self.read(DP_STATUS);
        self.dp_run(ALL);
        // More by END alone: PIPE_BUSY comes on again with the word fetched.
        let end = self.machine.dp.current + 8;
        self.write(DP_END, end);
        self.read(DP_STATUS);
        self.dp_run(1);
    }

    pub(crate) fn freeze(&mut self) {
        self.make_ready(CLEAR_XBUS);
        if self.random.once_in(3) {
            self.write(DP_STATUS, SET_FREEZE);
            self.begin_list(3);
        } else {
            self.begin_list(5);
            self.dp_run(2);
            if self.random.once_in(2) {
                self.begin_list(2);
            }
            self.write(DP_STATUS, SET_FREEZE);
        }
        self.dp_run(ALL);
        self.read(DP_STATUS);
        if self.random.once_in(2) {
            self.begin_list(2);
            self.read(DP_STATUS);
        } else {
            let end = self.ram_address();
            self.write(DP_END, end);
        }
        self.dp_run(1);
        if self.random.once_in(4) {
            self.write(DP_STATUS, CLEAR_FREEZE | SET_FREEZE | SET_FLUSH);
        }
        self.write(DP_STATUS, CLEAR_FREEZE);
        self.read(DP_STATUS);
        self.run_lists();
    }

    pub(crate) fn flush(&mut self) {
        self.make_ready(CLEAR_XBUS);
        self.begin_list(7);
        self.dp_run(2);
        if self.random.once_in(2) {
            self.begin_list(3);
        }
        let freeze = self.random.pick(&[0, SET_FREEZE, CLEAR_FREEZE]);
        self.write(DP_STATUS, SET_FLUSH | freeze);
        self.read(DP_STATUS);
        self.dp_run(ALL);
        self.read(DP_CURRENT);
        // Under FLUSH an END alone, or a whole list, leaves nothing running.
        let list = (self.ram_address(), self.ram_address());
        if self.random.once_in(2) {
            self.write(DP_END, list.1);
        } else {
            self.write_list(list);
        }
        self.dp_run(ALL);
        self.read(DP_STATUS);
        self.read_one_of(&[DP_CURRENT, DP_START, DP_END]);
        let both = CLEAR_FLUSH | CLEAR_FREEZE;
        let clear = self.random.pick(&[CLEAR_FLUSH, CLEAR_FREEZE, both]);
        self.write(DP_STATUS, clear);
        self.read(DP_STATUS);
        self.run_lists();
    }

    /// END alone moves the end of the running list, also to where it stops.
    pub(crate) fn moved_end(&mut self) {
        self.make_ready(CLEAR_XBUS);
        let (start, end) = self.begin_list(6);
        self.dp_run(3);
        let current = self.machine.dp.current;
        let moved = self.random.pick(&[start, current, current + 8, end - 8]);
        self.write(DP_END, moved);
        self.read(DP_STATUS);
        self.dp_run(2);
        self.write(DP_END, end);
        self.read(DP_STATUS);
        self.run_lists();
    }

    /// More words than the output has room for.
    pub(crate) fn long_list(&mut self) {
        let xbus = self.random.pick(&[CLEAR_XBUS, SET_XBUS]);
        self.make_ready(xbus);
        let start = self.ram_address().min(0x00FF_0000);
        let words = 250 + self.random.below(100);
        self.write_list((start, start + 8 * words));
        for budget in [ALL, 257, 256] {
            self.dp_run(budget);
            self.read_one_of(&[DP_CURRENT, DP_STATUS]);
        }
    }

    /// Runs in pieces, with reads between them, until nothing runs.
    pub(crate) fn run_lists(&mut self) {
        for _ in 0..10 {
            if !self.machine.dp.runs() || self.machine.dp.freeze {
                break;
            }
            let budget = self.random.below(9);
            self.dp_run(budget);
            match self.random.below(6) {
                0..=2 => self.read(DP_STATUS),
                3 => self.read(DP_CURRENT),
                4 => self.tick_and_read(),
                _ => {}
            }
        }
        self.dp_run(ALL);
        self.read(DP_STATUS);
        self.read(DP_CURRENT);
    }
}
