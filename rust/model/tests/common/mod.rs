//! States, memories and expectations that the tests of the calls share.

#![allow(dead_code)]

use model::calls::*;

/// Bytes of DMEM, and of IMEM.
pub const BANK: usize = 4_096;

/// Addresses that are not multiples of 4: in the SP block, in the DP block, in
/// its mirrors, just outside them and far away. A register call gives 10 for
/// each.
pub const MISALIGNED: [u32; 32] = [
    0x0404_0001,
    0x0404_0002,
    0x0404_0003,
    0x0404_0006,
    0x0404_001D,
    0x0404_001F,
    0x0410_0001,
    0x0410_0002,
    0x0410_000E,
    0x0410_001E,
    0x0410_001F,
    0x0410_0021,
    0x0410_0023,
    0x0414_0002,
    0x041F_FFE1,
    0x041F_FFFD,
    0x041F_FFFE,
    0x041F_FFFF,
    0x0403_FFFE,
    0x0403_FFFF,
    0x0404_0021,
    0x0404_0022,
    0x040F_FFFF,
    0x0420_0001,
    0x0420_0002,
    0x0420_0003,
    0x0000_0001,
    0x0000_0002,
    0x0000_0007,
    0x0400_0001,
    0xFFFF_FFFE,
    0xFFFF_FFFF,
];

/// Multiples of 4 outside the SP block and the DP mirrors. A register call gives
/// 5 for each.
pub const OUTSIDE: [u32; 20] = [
    0x0000_0000,
    0x0000_0004,
    0x0000_0008,
    0x0400_0000,
    0x0403_FFFC,
    0x0404_0020,
    0x0404_0024,
    0x0404_003C,
    0x0404_0040,
    0x0407_FFE0,
    0x040F_FFE0,
    0x040F_FFFC,
    0x0420_0000,
    0x0420_0004,
    0x0420_001C,
    0x0430_0000,
    0x1404_0000,
    0x8410_0004,
    0xA410_0000,
    0xFFFF_FFFC,
];

/// Addresses in mirrors of the DP registers, each with the register's first
/// address.
pub const MIRRORS: [(u32, u32); 18] = [
    (0x0410_0020, 0x0410_0000),
    (0x0410_0024, 0x0410_0004),
    (0x0410_0028, 0x0410_0008),
    (0x0410_002C, 0x0410_000C),
    (0x0410_0030, 0x0410_0010),
    (0x0410_0034, 0x0410_0014),
    (0x0410_0038, 0x0410_0018),
    (0x0410_003C, 0x0410_001C),
    (0x0414_0000, 0x0410_0000),
    (0x0414_001C, 0x0410_001C),
    (0x041F_FFE0, 0x0410_0000),
    (0x041F_FFE4, 0x0410_0004),
    (0x041F_FFE8, 0x0410_0008),
    (0x041F_FFEC, 0x0410_000C),
    (0x041F_FFF0, 0x0410_0010),
    (0x041F_FFF4, 0x0410_0014),
    (0x041F_FFF8, 0x0410_0018),
    (0x041F_FFFC, 0x0410_001C),
];

/// A state and memories of its own, which the calls are lent.
#[derive(Clone, PartialEq)]
pub struct Bench {
    pub state: State,
    pub rdram: Vec<u8>,
    pub dmem: Vec<u8>,
    pub imem: Vec<u8>,
}

impl Bench {
    pub fn new() -> Bench {
        Bench {
            state: power_up(),
            rdram: vec![0; 65_536],
            dmem: vec![0; BANK],
            imem: vec![0; BANK],
        }
    }

    /// Engines that run over memories that are filled.
    pub fn running() -> Bench {
        let mut bench = Bench::new();
        bench.state = running();
        bench.fill();
        bench
    }

    /// Bytes that are never zero and do not repeat by a power of two.
    pub fn fill(&mut self) {
        let memories = [&mut self.rdram, &mut self.dmem, &mut self.imem];
        for (seed, memory) in memories.into_iter().enumerate() {
            for (i, byte) in memory.iter_mut().enumerate() {
                *byte = 1 + ((i * 7 + i / 251 + 83 * seed) % 255) as u8;
            }
        }
    }

    /// Goes on with an outcome's state, which must be sound.
    pub fn took(&mut self, outcome: Outcome, expected: Answer) {
        assert_eq!(outcome.answer, expected);
        assert!(is_sound(&outcome.state));
        self.state = outcome.state;
    }

    pub fn writes(&mut self, pairs: &[(u32, u32)]) {
        for (address, value) in pairs {
            let outcome = write_register(&self.state, *address, *value);
            self.took(outcome, success(0, 0));
        }
    }

    /// The same kind of pairs in one call.
    pub fn burst(&mut self, pairs: &[(u32, u32)]) -> Answer {
        let outcome = burst(&self.state, pairs);
        self.answered(outcome)
    }

    pub fn reads(&mut self, pairs: &[(u32, u32)]) {
        for (address, value) in pairs {
            let outcome = read_register(&self.state, *address);
            self.took(outcome, success((*value).into(), 0));
        }
    }

    pub fn lines(&self, sp: u8, dp: u8) {
        assert_eq!((self.state.sp.line, self.state.dp.line), (sp, dp));
    }

    /// Goes on with an outcome's state and gives its answer.
    fn answered(&mut self, outcome: Outcome) -> Answer {
        let answer = outcome.answer;
        self.took(outcome, answer);
        answer
    }

    pub fn sp_turn(&mut self) -> Answer {
        let (rdram, dmem, imem) = (&mut self.rdram, &mut self.dmem, &mut self.imem);
        let outcome = sp_turn(&self.state, rdram, dmem, imem);
        self.answered(outcome)
    }

    /// Turns that each move a word.
    pub fn sp_turns(&mut self, turns: u32) {
        for _ in 0..turns {
            assert_eq!(self.sp_turn(), success(0, 1));
        }
    }

    pub fn sp_row(&mut self) -> Answer {
        let (rdram, dmem, imem) = (&mut self.rdram, &mut self.dmem, &mut self.imem);
        let outcome = sp_row(&self.state, rdram, dmem, imem);
        self.answered(outcome)
    }

    /// A run with the budgets of the SP, the DP and the consumer. Gives the SP's
    /// answer and the consumer's words.
    pub fn run(&mut self, budgets: [u32; 3], out: &mut [u8]) -> (Answer, u32) {
        let (rdram, dmem, imem) = (&mut self.rdram, &mut self.dmem, &mut self.imem);
        let [sp, dp, consumer] = budgets;
        let ran = run(&self.state, sp, dp, consumer, rdram, dmem, imem, out);
        (self.answered(ran.outcome), ran.words)
    }

    /// A run in which the SP alone takes turns.
    pub fn run_sp(&mut self, budget: u32) -> Answer {
        let (answer, words) = self.run([budget, 0, 0], &mut []);
        assert_eq!(words, 0);
        answer
    }

    /// A run in which the SP takes no turn, and the consumer has the DP's budget.
    /// Gives the number of words put out.
    pub fn run_dp(&mut self, budget: u32, out: &mut [u8]) -> u32 {
        let (answer, words) = self.run([0, budget, budget], out);
        assert_eq!(answer, success(0, 0));
        words
    }

    pub fn dp_turn(&mut self) -> Answer {
        let outcome = dp_turn(&self.state, &self.rdram, &self.dmem);
        self.answered(outcome)
    }

    pub fn consumer_turn(&mut self) -> Answer {
        let outcome = consumer_turn(&self.state);
        self.answered(outcome)
    }

    /// DP turns that each fetch a word.
    pub fn fetches(&mut self, turns: u32) {
        for _ in 0..turns {
            assert_eq!(self.dp_turn(), success(0, 1));
        }
    }

    /// A fetch and then a consumer turn, whose answer is given. With nothing
    /// queued before, it is about the word that was fetched.
    pub fn fetch_and_consume(&mut self) -> Answer {
        let queued = self.state.queue.len();
        let fetched = self.dp_turn();
        let consumed = self.consumer_turn();
        assert_eq!(fetched.value, 0);
        let after = queued + fetched.count as usize - consumed.count as usize;
        assert_eq!(self.state.queue.len(), after);
        consumed
    }

    pub fn look(&self) -> Part {
        look_ahead(&self.state, &self.rdram, &self.dmem)
    }

    /// A replay with its listing. The state is not gone on with.
    pub fn replay(&mut self, recording: &[u8]) -> (Replayed, String) {
        let mut out = vec![0x55; 70_000];
        let (rdram, dmem, imem) = (&mut self.rdram, &mut self.dmem, &mut self.imem);
        let replayed = replay(&self.state, recording, rdram, dmem, imem, &mut out);
        assert!(out[replayed.written..].iter().all(|byte| *byte == 0x55));
        out.truncate(replayed.written);
        let listing = String::from_utf8(out).expect("a text");
        (replayed, listing)
    }

    /// A replay that does all its records, so that there is no refused one
    /// whose place could be given.
    pub fn replay_to_end(&mut self, recording: &[u8], count: u32) -> (State, String) {
        let (replayed, listing) = self.replay(recording);
        assert_eq!(replayed.outcome.answer, success(0, count));
        assert_eq!(replayed.place, 0);
        (replayed.outcome.state, listing)
    }
}

pub fn success(value: u64, count: u32) -> Answer {
    Answer {
        number: 0,
        value,
        count,
    }
}

/// A burst of addresses, each with its value.
pub fn burst(state: &State, pairs: &[(u32, u32)]) -> Outcome {
    let (addresses, values): (Vec<u32>, Vec<u32>) = pairs.iter().copied().unzip();
    write_registers(state, &addresses, &values)
}

/// The outcome of a call that is declined.
pub fn declined(state: &State, number: u32) -> Outcome {
    Outcome {
        state: state.clone(),
        answer: Answer {
            number,
            value: 0,
            count: 0,
        },
    }
}

/// A sound state with a store and a list that run and a word that is queued, so
/// that no turn on it leaves it as it was.
pub fn running() -> State {
    let mut state = power_up();
    state.sp.busy = 1;
    state.sp.storing = 1;
    state.sp.row_len = 0x20;
    state.sp.len = 0x18;
    state.dp.current = 0x28;
    state.dp.limit = 0x38;
    state.queue = vec![0x2700_0000_0000_0001];
    state
}

/// A sound state in which no two numbers of an engine are alike and most flags
/// are on.
pub fn full_state() -> State {
    State {
        sp: full_sp(),
        dp: full_dp(),
        queue: vec![0x2900_0000_0000_0002, 0x0F00_0000_0000_0003, u64::MAX],
    }
}

fn full_sp() -> SpState {
    SpState {
        sp_latch: 0x1008,
        ram_latch: 0x10,
        sp_addr: 0x1018,
        ram_addr: 0x20,
        len: 0x30,
        count: 0x40,
        skip: 0x50,
        row_len: 0x60,
        waiting_word: 0xFFFF_FFF1,
        busy: 1,
        storing: 1,
        full: 1,
        waiting_storing: 1,
        halted: 0,
        broke: 0,
        single_step: 1,
        interrupt_on_break: 1,
        signals: 0xA5,
        line: 0,
        semaphore: 0,
    }
}

fn full_dp() -> DpState {
    DpState {
        start: 0x70,
        end: 0x80,
        current: 0x90,
        limit: 0xA0,
        clock: 0x10,
        cmd_busy_count: 0xFF_F00F,
        pipe_busy_count: 0x30,
        tmem_busy_count: 0x40,
        start_pending: 1,
        end_pending: 1,
        xbus: 1,
        freeze: 0,
        flush: 0,
        pipe_busy: 1,
        words_left: 21,
        line: 1,
        head: 30,
    }
}

type Flag = (&'static str, fn(&mut State) -> &mut u8);

/// Every field that is a flag.
pub const FLAGS: [Flag; 17] = [
    ("busy", |state| &mut state.sp.busy),
    ("storing", |state| &mut state.sp.storing),
    ("full", |state| &mut state.sp.full),
    ("waiting_storing", |state| &mut state.sp.waiting_storing),
    ("halted", |state| &mut state.sp.halted),
    ("broke", |state| &mut state.sp.broke),
    ("single_step", |state| &mut state.sp.single_step),
    ("interrupt_on_break", |state| {
        &mut state.sp.interrupt_on_break
    }),
    ("sp line", |state| &mut state.sp.line),
    ("semaphore", |state| &mut state.sp.semaphore),
    ("start_pending", |state| &mut state.dp.start_pending),
    ("end_pending", |state| &mut state.dp.end_pending),
    ("xbus", |state| &mut state.dp.xbus),
    ("freeze", |state| &mut state.dp.freeze),
    ("flush", |state| &mut state.dp.flush),
    ("pipe_busy", |state| &mut state.dp.pipe_busy),
    ("dp line", |state| &mut state.dp.line),
];

/// A number's name, its field, the greatest value and the step between values.
type Number = (&'static str, fn(&mut State) -> &mut u32, u32, u32);

/// Every field that is a 32-bit number.
pub const NUMBERS: [Number; 17] = [
    ("sp_latch", |state| &mut state.sp.sp_latch, 0x1FF8, 8),
    ("ram_latch", |state| &mut state.sp.ram_latch, 0xFF_FFF8, 8),
    ("sp_addr", |state| &mut state.sp.sp_addr, 0x1FF8, 8),
    ("ram_addr", |state| &mut state.sp.ram_addr, 0xFF_FFF8, 8),
    ("len", |state| &mut state.sp.len, 0xFF8, 8),
    ("count", |state| &mut state.sp.count, 0xFF, 1),
    ("skip", |state| &mut state.sp.skip, 0xFF8, 8),
    ("row_len", |state| &mut state.sp.row_len, 0xFF8, 8),
    (
        "waiting_word",
        |state| &mut state.sp.waiting_word,
        u32::MAX,
        1,
    ),
    ("start", |state| &mut state.dp.start, 0xFF_FFF8, 8),
    ("end", |state| &mut state.dp.end, 0xFF_FFF8, 8),
    ("current", |state| &mut state.dp.current, 0xFF_FFF8, 8),
    ("limit", |state| &mut state.dp.limit, 0xFF_FFF8, 8),
    ("clock", |state| &mut state.dp.clock, 0xFF_FFFF, 1),
    (
        "cmd_busy_count",
        |state| &mut state.dp.cmd_busy_count,
        0xFF_FFFF,
        1,
    ),
    (
        "pipe_busy_count",
        |state| &mut state.dp.pipe_busy_count,
        0xFF_FFFF,
        1,
    ),
    (
        "tmem_busy_count",
        |state| &mut state.dp.tmem_busy_count,
        0xFF_FFFF,
        1,
    ),
];

/// What the calls on memory give: those that take IMEM, and those that do
/// not. A call that is declined leaves all as it was.
pub fn expect_numbers(bench: &Bench, all: u32, without_imem: u32) {
    let mut tried = bench.clone();
    let (rdram, dmem, imem) = (&mut tried.rdram, &mut tried.dmem, &mut tried.imem);
    let mut out = [0x55; 32];
    let turned = sp_turn(&bench.state, rdram, dmem, imem);
    let rowed = sp_row(&bench.state, rdram, dmem, imem);
    let ran = run(&bench.state, 4, 4, 4, rdram, dmem, imem, &mut out);
    let outcomes = [
        (turned, all),
        (rowed, all),
        (ran.outcome, all),
        (dp_turn(&bench.state, rdram, dmem), without_imem),
    ];
    for (outcome, number) in outcomes {
        assert_eq!(outcome.answer.number, number);
        if number != 0 {
            assert_eq!(outcome, declined(&bench.state, number));
        }
    }
    assert_eq!((ran.words == 0, out == [0x55; 32]), (all != 0, all != 0));
    if all != 0 {
        assert!(tried == *bench);
        expect_replay(bench, &[6], all);
    }
}

/// What the calls that take no memory give.
pub fn expect_register_calls(state: &State, number: u32) {
    let outcomes = [
        read_register(state, 0x0404_001C),
        write_register(state, 0x0410_0000, 8),
        write_registers(state, &[0x0410_0000], &[8]),
        write_registers(state, &[], &[]),
        tick(state, 1),
        sp_break(state),
        acknowledge(state),
        consumer_turn(state),
    ];
    for outcome in outcomes {
        assert_eq!(outcome.answer.number, number);
        if number != 0 {
            assert_eq!(outcome, declined(state, number));
        }
    }
}

/// A replay that is declined before its first record, or at it.
pub fn expect_replay(bench: &Bench, recording: &[u8], number: u32) {
    let mut tried = bench.clone();
    let (replayed, listing) = tried.replay(recording);
    assert_eq!(replayed.outcome, declined(&bench.state, number));
    assert_eq!(replayed.place, 0);
    assert_eq!(replayed.findings, Findings::default());
    assert_eq!(listing, format!("replay 1\nstop 0 {number} 0\n"));
    assert!(tried == *bench);
}

/// Reads a recording and writes what was read, record by record.
pub fn copied(recording: &[u8]) -> Vec<u8> {
    let mut copy: Vec<u8> = recording.iter().map(|byte| !byte).collect();
    let mut place = 0;
    while place < recording.len() {
        let read = read_record(recording, place);
        assert_eq!(read.number, 0);
        let answer = write_record(read.kind, read.address, read.value, &mut copy, place);
        assert_eq!(answer, success(read.place as u64, 0));
        place = read.place;
    }
    copy
}

/// A xorshift generator of random numbers.
pub struct Random(pub u64);

impl Random {
    pub fn number(&mut self) -> u32 {
        self.0 ^= self.0 << 13;
        self.0 ^= self.0 >> 7;
        self.0 ^= self.0 << 17;
        (self.0.wrapping_mul(0x2545_F491_4F6C_DD1D) >> 32) as u32
    }

    pub fn word(&mut self) -> u64 {
        u64::from(self.number()) << 32 | u64::from(self.number())
    }

    /// Words for a queue: often none, or as many as it holds.
    pub fn queue(&mut self) -> Vec<u64> {
        let words = match self.number() % 4 {
            0 => 0,
            1 => 32,
            _ => self.number() % 33,
        };
        (0..words).map(|_| self.word()).collect()
    }

    /// A sound state; numbers are often at the edge of their field.
    pub fn sound_state(&mut self) -> State {
        loop {
            let mut state = power_up();
            for (_, field) in FLAGS {
                *field(&mut state) = self.number() as u8 & 1;
            }
            for (_, field, widest, _) in NUMBERS {
                *field(&mut state) = match self.number() % 8 {
                    0 => widest,
                    1 => 0,
                    _ => self.number() & widest,
                };
            }
            state.dp.words_left = (self.number() % 22) as u8;
            state.dp.head = (self.number() % 32) as u8;
            state.queue = self.queue();
            if is_sound(&state) {
                return state;
            }
        }
    }
}
