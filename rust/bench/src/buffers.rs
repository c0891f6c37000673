//! The memory that every timed call works on, and what a call leaves in it.

use crate::pages::{Page, Pages};
use crate::plain::{Machine, Ran};
use random::Random;

/// The seed of all that is random in what is timed.
pub const SEED: u64 = 1;

/// RDRAM, the banks and room for output. All columns of a line use the same bytes.
#[derive(Clone, PartialEq)]
pub struct Buffers {
    pub rdram: Pages,
    pub dmem: Box<Page>,
    pub imem: Box<Page>,
    pub out: Vec<u8>,
}

impl Buffers {
    /// Every byte is written once, so that no timed call is the first to touch a page.
    pub fn new(rdram: usize, out: usize) -> Buffers {
        let mut random = Random::new(SEED);
        let mut buffers = Buffers {
            rdram: Pages::new(rdram),
            dmem: Box::new(Page([0; 4096])),
            imem: Box::new(Page([0; 4096])),
            out: vec![0xFF; out],
        };
        for bytes in [
            &mut buffers.rdram[..],
            &mut buffers.dmem[..],
            &mut buffers.imem[..],
        ] {
            random.fill(bytes);
        }
        buffers
    }
}

/// What a call leaves beside the bytes.
#[derive(Debug, PartialEq)]
pub struct Left {
    pub state: ofersky::State,
    pub count: u32,
    pub words: u32,
}

impl From<ofersky::Outcome> for Left {
    fn from(outcome: ofersky::Outcome) -> Left {
        assert_eq!(outcome.answer.number, 0);
        Left {
            state: outcome.state,
            count: outcome.answer.count,
            words: 0,
        }
    }
}

impl From<ofersky::Ran> for Left {
    fn from(ran: ofersky::Ran) -> Left {
        Left {
            words: ran.words,
            ..ran.outcome.into()
        }
    }
}

impl From<ofersky::Replayed> for Left {
    fn from(replayed: ofersky::Replayed) -> Left {
        assert_eq!(replayed.place, 0);
        replayed.outcome.into()
    }
}

/// A writer of recordings leaves the place after the last record.
impl From<usize> for Left {
    fn from(place: usize) -> Left {
        Left {
            state: ofersky::State::default(),
            count: place as u32,
            words: 0,
        }
    }
}

impl From<Ran> for Left {
    fn from(ran: Ran) -> Left {
        Left {
            state: state_of(&ran.machine),
            count: ran.count,
            words: ran.words,
        }
    }
}

/// A plain machine as the library's state.
pub fn state_of(machine: &Machine) -> ofersky::State {
    ofersky::State {
        sp: sp_state(machine),
        dp: dp_state(machine),
        queue: machine.queue,
    }
}

fn sp_state(machine: &Machine) -> ofersky::SpState {
    let sp = &machine.sp;
    ofersky::SpState {
        sp_latch: sp.sp_latch,
        ram_latch: sp.ram_latch,
        sp_addr: sp.sp_addr,
        ram_addr: sp.ram_addr,
        len: sp.len,
        count: sp.count,
        skip: sp.skip,
        row_len: sp.row,
        waiting_word: sp.waiting,
        busy: sp.busy.into(),
        storing: sp.storing.into(),
        full: sp.full.into(),
        waiting_storing: sp.waiting_storing.into(),
        halted: sp.halted.into(),
        broke: sp.broke.into(),
        single_step: sp.single_step.into(),
        interrupt_on_break: sp.interrupt_on_break.into(),
        signals: sp.signals,
        line: sp.line.into(),
        semaphore: sp.semaphore.into(),
    }
}

fn dp_state(machine: &Machine) -> ofersky::DpState {
    let dp = &machine.dp;
    ofersky::DpState {
        start: dp.start,
        end: dp.end,
        current: dp.current,
        limit: dp.limit,
        clock: dp.clock,
        cmd_busy_count: dp.cmd_busy_count,
        pipe_busy_count: dp.pipe_busy_count,
        tmem_busy_count: dp.tmem_busy_count,
        start_pending: dp.start_pending.into(),
        end_pending: dp.end_pending.into(),
        xbus: dp.xbus.into(),
        freeze: dp.freeze.into(),
        flush: dp.flush.into(),
        pipe_busy: dp.pipe_busy.into(),
        words_left: dp.words_left,
        line: dp.line.into(),
        queued: dp.queued,
        head: dp.head,
    }
}

/// Where a timed call begins: in plain Rust and in a library.
pub struct Start {
    pub machine: Machine,
    pub state: ofersky::State,
}

impl Start {
    /// After register writes from power-up.
    pub fn written(writes: &[(u32, u32)]) -> Start {
        let mut machine = Machine::default();
        let mut state = ofersky::power_up();
        for &(address, value) in writes {
            machine.write(address, value);
            state = ofersky::write_register(state, address, value).state;
        }
        Start::of(machine, state)
    }

    /// After so many fetches more.
    pub fn fetched(self, words: usize, b: &Buffers) -> Start {
        let (mut machine, mut state) = (self.machine, self.state);
        for _ in 0..words {
            machine.dp.fetch(&mut machine.queue, &b.rdram, &b.dmem);
            state = ofersky::dp_turn(state, &b.rdram, &b.dmem[..]).state;
        }
        Start::of(machine, state)
    }

    fn of(machine: Machine, state: ofersky::State) -> Start {
        assert_eq!(state_of(&machine), state);
        Start { machine, state }
    }
}
