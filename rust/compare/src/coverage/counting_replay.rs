//! A replay on the model that counts the events of each record.

use crate::coverage::events::{Event, Events};
use crate::data::memory::BANK;
use crate::data::registers::first_copy;
use model::calls::{self, State};
use model::machine::*;
use model::recording::Record;

/// A state and memories of the model, and what was seen of them.
pub struct CountingReplay {
    pub state: State,
    pub rdram: Vec<u8>,
    pub dmem: Vec<u8>,
    pub imem: Vec<u8>,
    pub events: Events,
    /// The order of a run's turns decided though they shared no byte, which must never be.
    pub unforeseen: bool,
}

impl CountingReplay {
    /// From a sound state and memories of good lengths.
    pub fn new(state: State, [rdram, dmem, imem]: [Vec<u8>; 3]) -> CountingReplay {
        CountingReplay {
            state,
            rdram,
            dmem,
            imem,
            events: Events::default(),
            unforeseen: false,
        }
    }

    /// Does one record as a replay does. Its address must be a good one.
    pub fn record(&mut self, record: Record) {
        match record {
            Record::Write { address, value } => self.write(address, value),
            Record::Read { address, expected } => self.read(address, expected),
            Record::SpRun { budget } => self.sp_run(budget),
            Record::DpRun { budget } => self.dp_run(budget),
            Record::Run {
                sp_budget,
                dp_budget,
            } => self.run(sp_budget, dp_budget),
            Record::Tick { n } => self.tick(n),
            Record::Break => {
                self.events
                    .count_if(self.state.sp.interrupt_on_break == 1, Event::BreakLine);
                self.state = calls::sp_break(&self.state).state;
            }
            Record::Acknowledge => {
                self.events
                    .count_if(self.state.dp.line == 1, Event::Acknowledged);
                self.state = calls::acknowledge(&self.state).state;
            }
            Record::Store { address, word } => {
                if let Some(bytes) = self.memory(address) {
                    bytes.copy_from_slice(&word.to_be_bytes());
                }
            }
            Record::Check { address, expected } => {
                let ok = self.word(address) == expected;
                self.events.count_if(ok, Event::CheckOk);
                self.events.count_if(!ok, Event::CheckDiffers);
            }
        }
    }

    /// The eight bytes that kinds 8 and 9 mean by an address, none past the lent length.
    fn memory(&mut self, address: u32) -> Option<&mut [u8]> {
        let place = address as usize;
        let found = match place {
            0..0x0400_0000 => self.rdram.get_mut(place..place + 8),
            0x0400_0000..0x0400_1000 => self.dmem.get_mut(place % BANK..place % BANK + 8),
            _ => self.imem.get_mut(place % BANK..place % BANK + 8),
        };
        self.events
            .count_if(found.is_none(), Event::MemoryPastLength);
        found
    }

    /// The word there.
    pub fn word(&mut self, address: u32) -> u64 {
        let bytes = self.memory(address).map(|bytes| bytes.try_into());
        bytes.map_or(0, |bytes| u64::from_be_bytes(bytes.expect("eight bytes")))
    }

    fn read(&mut self, address: u32, expected: u32) {
        let outcome = calls::read_register(&self.state, address);
        let ok = outcome.answer.value == u64::from(expected);
        self.events.count_if(ok, Event::ReadOk);
        self.events.count_if(!ok, Event::ReadDiffers);
        if address == SP_SEMAPHORE {
            let taken = outcome.answer.value == 1;
            self.events.count_if(!taken, Event::SemaphoreFree);
            self.events.count_if(taken, Event::SemaphoreTaken);
        }
        self.state = outcome.state;
    }

    fn write(&mut self, address: u32, value: u32) {
        let after = calls::write_register(&self.state, address, value).state;
        let before = std::mem::replace(&mut self.state, after);
        let (sp, full) = (&before.sp, before.sp.full == 1);
        let events = &mut self.events;
        match first_copy(address) {
            SP_SPADDR | SP_RAMADDR => events.count_if(full, Event::LatchWhileFull),
            SP_RDLEN | SP_WRLEN => {
                events.count_if(sp.busy == 0, Event::TransferBegan);
                events.count_if(sp.busy == 1, Event::TransferWaits);
                events.count_if(full, Event::WaitingReplaced);
            }
            DP_START => events.count_if(before.dp.end_pending == 1, Event::StartWhileWaiting),
            DP_END => self.wrote_end(&before),
            DP_STATUS => self.wrote_status(&before),
            _ => {}
        }
    }

    fn wrote_end(&mut self, before: &State) {
        let (was, is) = (&before.dp, &self.state.dp);
        let runs = is.current < is.limit;
        let pipe_off = was.pipe_busy == 0;
        let events = &mut self.events;
        if was.start_pending == 0 {
            events.count(Event::EndMoved);
            events.count_if(!runs, Event::EndNotAbove);
            events.count_if(runs && pipe_off, Event::PipeOffMoved);
        } else if is.end_pending == 1 {
            events.count(Event::ListWaits);
        } else {
            events.count(Event::ListBegan);
            events.count_if(!runs, Event::EmptyList);
            events.count_if(pipe_off, Event::PipeOffBegan);
            events.count_if(!runs && pipe_off, Event::PipeOffEmpty);
            events.count_if(is.flush == 1, Event::ListUnderFlush);
            events.count_if(!before.queue.is_empty(), Event::StartQueued);
        }
    }

    fn wrote_status(&mut self, before: &State) {
        let (was, is) = (&before.dp, &self.state.dp);
        let ran = was.current < was.limit;
        let flushed = is.flush == 1 && is.limit == is.current && is.start_pending == 0;
        let events = &mut self.events;
        events.count_if(ran && is.flush == 1, Event::FlushRunning);
        events.count_if(flushed && was.end_pending == 1, Event::FlushWaiting);
        events.count_if(
            flushed && was.words_left > is.words_left,
            Event::FlushMidCommand,
        );
        let queued = !before.queue.is_empty();
        events.count_if(queued && self.state.queue.is_empty(), Event::FlushQueued);
        events.count_if(ran && was.freeze < is.freeze, Event::FrozenRunning);
        events.count_if(queued && was.freeze < is.freeze, Event::FrozenQueued);
        events.count_if(ran && was.xbus != is.xbus, Event::XbusMidList);
        let began = was.end_pending == 1 && is.end_pending == 0 && is.flush == 0;
        events.count_if(began, Event::WaitingListByWrite);
        events.count_if(began && was.pipe_busy == 0, Event::PipeOffByWrite);
    }

    fn tick(&mut self, n: u32) {
        let before = self.state.dp;
        self.state = calls::tick(&self.state, n).state;
        let wrapped = self.state.dp.clock < before.clock;
        self.events.count_if(wrapped, Event::ClockWrap);
        let queued = !self.state.queue.is_empty();
        let busy = queued || before.pipe_busy == 1;
        let events = &mut self.events;
        events.count_if(busy, Event::BusyTick);
        events.count_if(queued, Event::QueuedTick);
        events.count_if(!queued && before.words_left > 0, Event::WordsLeftTick);
    }
}
