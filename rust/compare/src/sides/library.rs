//! The library's side of a call.

use crate::data::call::{judged, Call, Case};
use crate::sides::observed::{part_of, Observed};
use crate::sides::padded_memory::Padded;
use ofersky::{Ran, Replayed, State};

/// The library's side.
pub fn library(case: &Case) -> Observed {
    library_with_ring(case).normalize(case)
}

/// The library's side with its ring as it is.
pub fn library_with_ring(case: &Case) -> Observed {
    let mut seen = Observed::lent(case);
    if !case.call.takes_bytes() {
        call_library(case, &mut seen, [&mut [], &mut [], &mut [], &mut []]);
        return seen;
    }
    let shift = case.lent.shift();
    let [rdram, dmem, imem, out, _] = &seen.bytes;
    let mut padded = [rdram, dmem, imem, out].map(|bytes| Padded::new(bytes, shift));
    call_library(case, &mut seen, padded.each_mut().map(Padded::lent));
    for (bytes, padded) in seen.bytes.iter_mut().zip(&mut padded) {
        bytes.copy_from_slice(padded.lent());
        seen.outside |= !padded.padding_is_unchanged();
    }
    seen
}

/// The call itself, over RDRAM, DMEM, IMEM and the output or the buffer.
fn call_library(case: &Case, seen: &mut Observed, lent: [&mut [u8]; 4]) {
    let [rdram, dmem, imem, out] = lent;
    let s = case.state;
    match &case.call {
        Call::PowerUp => seen.outcome.state = ofersky::power_up(),
        Call::IsSound => seen.sound = ofersky::is_sound(s),
        Call::Read { address } => seen.outcome = ofersky::read_register(s, *address),
        Call::Write { address, value } => {
            seen.outcome = ofersky::write_register(s, *address, *value)
        }
        Call::WriteRegisters { .. } => seen.burst(s, case.lent.shift()),
        Call::Tick { n } => seen.outcome = ofersky::tick(s, *n),
        Call::Break => seen.outcome = ofersky::sp_break(s),
        Call::Acknowledge => seen.outcome = ofersky::acknowledge(s),
        Call::SpTurn => seen.outcome = ofersky::sp_turn(s, rdram, dmem, imem),
        Call::SpRow => seen.outcome = ofersky::sp_row(s, rdram, dmem, imem),
        Call::DpTurn => seen.outcome = ofersky::dp_turn(s, rdram, dmem),
        Call::ConsumerTurn => seen.outcome = ofersky::consumer_turn(s),
        Call::Run { budgets, .. } => {
            let [sp, dp, consumer] = *budgets;
            seen.take_run(ofersky::run(s, sp, dp, consumer, rdram, dmem, imem, out))
        }
        Call::Look => seen.look(s, rdram, dmem),
        Call::ReadRecord { recording, place } => {
            seen.reading = ofersky::read_record(recording, *place)
        }
        Call::WriteRecord { record, place, .. } => {
            seen.outcome.answer = ofersky::write_record(*record, out, *place)
        }
        Call::Replay { recording, .. } => {
            let replayed = ofersky::replay(s, recording, rdram, dmem, imem, out);
            seen.take(replayed);
            seen.judge(&replayed);
        }
        Call::Verdict { replayed } => seen.judge(&judged(s, replayed)),
    }
}

impl Observed {
    /// All that a run gives.
    fn take_run(&mut self, ran: Ran) {
        Ran {
            outcome: self.outcome,
            words: self.words,
        } = ran;
    }

    /// The library's part and the bytes there.
    fn look(&mut self, state: State, rdram: &[u8], dmem: &[u8]) {
        self.part = ofersky::look_ahead(state, rdram, dmem);
        // A part that doesn't fit is told by its numbers; taking it would only panic.
        if part_of(&self.part, rdram, dmem).is_some() {
            self.bytes[4] = ofersky::next_word(state, rdram, dmem).to_vec();
        }
    }

    /// The library's burst over pairs between other numbers. It may read the pairs alone, and
    /// change none.
    fn burst(&mut self, state: State, shift: usize) {
        let mut padded = [0, 1].map(|i| Padded::new(&self.pairs[i], shift));
        let [addresses, values] = padded.each_mut().map(Padded::lent);
        self.outcome = ofersky::write_registers(state, addresses, values);
        self.pairs = padded.each_mut().map(|padded| padded.lent().to_vec());
        self.outside = !padded.iter().all(Padded::padding_is_unchanged);
    }

    /// The library's verdict.
    fn judge(&mut self, replayed: &Replayed) {
        self.code = ofersky::verdict_code(replayed);
        self.verdict = Some(ofersky::verdict(replayed));
    }
}
