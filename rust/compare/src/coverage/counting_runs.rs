//! The runs of a counting replay, turn by turn.

use crate::coverage::counting_replay::CountingReplay;
use crate::coverage::events::Event;
use crate::coverage::shared_bytes::shares;
use crate::data::state_fields::from_model;
use model::calls::{self, State};

/// The words that the output of a replay's run has room for.
const OUTPUT_WORDS: usize = 256;

/// The words that the queue has room for.
const QUEUE_WORDS: usize = 32;

/// What the turns of a run gave: how many words the SP moved and the DP fetched, and those that
/// were consumed.
#[derive(Default)]
struct Rounds {
    moved: u32,
    fetched: u32,
    words: Vec<u64>,
}

impl CountingReplay {
    fn budget(&mut self, budget: u32) {
        self.events.count_if(budget == 0, Event::ZeroBudget);
        self.events.count_if(budget == u32::MAX, Event::HugeBudget);
    }

    pub(super) fn sp_run(&mut self, budget: u32) {
        self.budget(budget);
        let before = self.state.sp;
        self.events.count_if(before.busy == 0, Event::IdleRun);
        let moved = self.rounds([budget, 0, 0]).moved;
        let after = self.state.sp;
        let (idle, acted) = (after.busy == 0, moved > 0);
        let events = &mut self.events;
        events.count_if(idle && acted, Event::IdleStop);
        events.count_if(!idle, Event::BudgetStop);
        events.count_if(acted && before.len < before.row_len, Event::RowBegunWithin);
        let within = !idle && after.len < after.row_len;
        events.count_if(acted && within, Event::RowEndedWithin);
        let two_rows = before.len / 8 + before.row_len / 8 + 2;
        let several = before.count > 1 && moved > two_rows;
        events.count_if(several, Event::SeveralRows);
    }

    /// The consumer has the same budget as the DP.
    pub(super) fn dp_run(&mut self, budget: u32) {
        self.budget(budget);
        let before = self.state.clone();
        let done = self.rounds([0, budget, budget]);
        let (frozen, full) = self.stops(budget, done.words.len());
        self.events.count_if(frozen, Event::FrozenStop);
        self.events.count_if(full, Event::OutputStop);
        self.queue_of_run(&before, &done);
    }

    /// What the queue was and is, of a run that fetched or consumed.
    fn queue_of_run(&mut self, before: &State, done: &Rounds) {
        let left = self.state.queue.len();
        let (within, consumed) = (before.dp.words_left > 0, !done.words.is_empty());
        let events = &mut self.events;
        events.count_if(consumed && !before.queue.is_empty(), Event::QueuedRun);
        events.count_if(consumed && within, Event::MidCommandRun);
        let within = consumed && self.state.dp.words_left > 0;
        events.count_if(within && left > 0, Event::MidCommandLeft);
        events.count_if(left > 0 && done.fetched > 0, Event::LeftQueued);
        events.count_if(left == QUEUE_WORDS && done.fetched > 0, Event::LeftFull);
    }

    /// Is anything frozen, and did the output end the consumer?
    fn stops(&self, budget: u32, words: usize) -> (bool, bool) {
        let dp = &self.state.dp;
        let queued = !self.state.queue.is_empty();
        let more = queued || dp.current < dp.limit;
        let full = words == OUTPUT_WORDS && budget as usize > OUTPUT_WORDS;
        (more && dp.freeze == 1, queued && dp.freeze == 0 && full)
    }

    pub(super) fn run(&mut self, sp_budget: u32, dp_budget: u32) {
        self.events.count(Event::MergedRun);
        let zero = sp_budget == 0 || dp_budget == 0;
        self.events.count_if(zero, Event::MergedZeroBudget);
        let before = self.state.clone();
        let budgets = [sp_budget, dp_budget, dp_budget];
        let sp_first = self.both_act(budgets).then(|| self.sp_first(budgets));
        let done = self.rounds(budgets);
        let (frozen, full) = self.stops(dp_budget, done.words.len());
        self.queue_of_run(&before, &done);
        let events = &mut self.events;
        events.count_if(frozen, Event::MergedFrozen);
        events.count_if(full, Event::MergedOutputStop);
        let Some(sp_first) = sp_first else {
            assert!(done.moved == 0 || done.fetched == 0);
            return;
        };
        events.count_if(done.moved < done.fetched, Event::SpEndedFirst);
        events.count_if(done.moved > done.fetched, Event::DpEndedFirst);
        // The others take turns in as many rounds at most.
        let others = done.fetched + done.words.len() as u32;
        events.count_if(done.moved > others + 1, Event::SpAlone);
        let shares = shares(&from_model(&before), self.rdram.len());
        let decided = (&sp_first.0, &sp_first.1) != (&self.state, &done.words);
        events.count_if(!shares, Event::OtherBytes);
        events.count_if(shares, Event::SameBytes);
        events.count_if(decided, Event::OrderDecided);
        self.unforeseen |= decided && !shares;
    }

    /// Will both engines take turns in a run? A full queue holds the DP up only until the consumer
    /// has taken a word.
    fn both_act(&self, [sp, dp, _]: [u32; 3]) -> bool {
        let (busy, frozen) = (self.state.sp.busy == 1, self.state.dp.freeze == 1);
        sp > 0 && dp > 0 && busy && self.lists() && !frozen
    }

    /// The state and the words if all SP turns came before the others. The memories would be the
    /// same, for only the SP writes.
    fn sp_first(&self, [sp, dp, consumer]: [u32; 3]) -> (State, Vec<u64>) {
        let memories = [&self.rdram, &self.dmem, &self.imem].map(Vec::clone);
        let mut replay = CountingReplay::new(self.state.clone(), memories);
        replay.rounds([sp, 0, 0]);
        let words = replay.rounds([0, dp, consumer]).words;
        (replay.state, words)
    }

    fn lists(&self) -> bool {
        self.state.dp.current < self.state.dp.limit
    }

    /// The turns of a run, round by round. The model is not asked for those that cannot do
    /// anything: long runs would take long.
    fn rounds(&mut self, [sp, dp, consumer]: [u32; 3]) -> Rounds {
        let mut done = Rounds::default();
        let room = OUTPUT_WORDS.min(consumer as usize);
        loop {
            let moved = done.moved < sp && self.state.sp.busy == 1 && self.sp_turn();
            let fetched = done.fetched < dp && self.lists() && self.dp_turn();
            let consumes = done.words.len() < room && !self.state.queue.is_empty();
            let word = match consumes {
                true => self.consumer_turn(),
                false => None,
            };
            done.moved += u32::from(moved);
            done.fetched += u32::from(fetched);
            done.words.extend(word);
            if !moved && !fetched && word.is_none() {
                return done;
            }
        }
    }

    /// One SP turn with a word to move; whether it moved it.
    fn sp_turn(&mut self) -> bool {
        let sp = self.state.sp;
        let past = sp.ram_addr as usize >= self.rdram.len();
        let events = &mut self.events;
        events.count_if(sp.storing == 0, Event::Loaded);
        events.count_if(sp.storing == 1, Event::Stored);
        events.count_if(sp.storing == 0 && past, Event::LoadedZeros);
        events.count_if(sp.storing == 1 && past, Event::DroppedStore);
        events.count_if(sp.sp_addr & 0xFF8 == 0xFF8, Event::BankEnd);
        events.count_if(sp.ram_addr == 0xFF_FFF8, Event::WordWrap);
        let row = sp.len == 0 && sp.count > 0;
        let skipped = (sp.ram_addr + 8) % (1 << 24) + sp.skip;
        events.count_if(row, Event::RowEnd);
        events.count_if(row && sp.skip > 0, Event::RowSkipped);
        events.count_if(row && skipped >= 1 << 24, Event::SkipWrap);
        let end = sp.len == 0 && sp.count == 0;
        events.count_if(end, Event::TransferEnd);
        events.count_if(end && sp.full == 1, Event::WaitingBegan);
        let [rdram, dmem, imem] = [&mut self.rdram, &mut self.dmem, &mut self.imem];
        let outcome = calls::sp_turn(&self.state, rdram, dmem, imem);
        self.state = outcome.state;
        outcome.answer.count == 1
    }

    /// One DP turn; whether it fetched a word.
    fn dp_turn(&mut self) -> bool {
        let before = self.state.dp;
        let full = self.state.queue.len() == QUEUE_WORDS;
        let outcome = calls::dp_turn(&self.state, &self.rdram, &self.dmem);
        self.state = outcome.state;
        let events = &mut self.events;
        if outcome.answer.count == 0 {
            let lists = before.current < before.limit && before.freeze == 0;
            events.count_if(lists && full, Event::QueueHeldUp);
            return false;
        }
        let dmem = before.xbus == 1;
        let past = !dmem && before.current as usize >= self.rdram.len();
        events.count(Event::Fetched);
        events.count_if(dmem, Event::FetchedFromDmem);
        events.count_if(past, Event::FetchedZeros);
        events.count_if(dmem && before.current & 0xFF8 == 0xFF8, Event::DmemEnd);
        events.count_if(self.state.queue.len() == QUEUE_WORDS, Event::QueueFilled);
        let after = &self.state.dp;
        events.count_if(before.pipe_busy < after.pipe_busy, Event::PipeOn);
        let began = before.end_pending == 1 && after.end_pending == 0;
        events.count_if(began, Event::WaitingListByTurn);
        true
    }

    /// One consumer turn, and the word that it took.
    fn consumer_turn(&mut self) -> Option<u64> {
        let before = self.state.dp;
        let outcome = calls::consumer_turn(&self.state);
        self.state = outcome.state;
        if outcome.answer.count == 0 {
            return None;
        }
        let first = (outcome.answer.value >> 56) as u8;
        let sync = first % 64 == 0x29;
        let events = &mut self.events;
        events.count(Event::Consumed);
        if before.words_left == 0 {
            events.first_bytes[first as usize] += 1;
            events.count_if(sync, Event::SyncFull);
            events.count_if(sync && !self.state.queue.is_empty(), Event::SyncFullBefore);
        } else {
            events.count_if(sync, Event::SyncFullLook);
        }
        let after = &self.state.dp;
        events.count_if(before.pipe_busy > after.pipe_busy, Event::PipeOff);
        Some(outcome.answer.value)
    }
}
