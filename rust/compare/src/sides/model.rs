//! The model's side of a call.

use crate::data::call::{judged, Call, Case};
use crate::data::state_fields::{from_model, to_model};
use crate::data::verdicts;
use crate::sides::observed::{part_of, Observed};
use model::calls;
use ofersky::{Answer, Outcome, Part, Reading, Record, Replayed};

/// The model's side.
pub fn model(case: &Case) -> Observed {
    let mut seen = Observed::lent(case);
    let [rdram, dmem, imem, out, word] = &mut seen.bytes;
    let s = &to_model(&case.state);
    let given = |outcome| given(case, outcome);
    match &case.call {
        Call::PowerUp => seen.outcome.state = from_model(&calls::power_up()),
        Call::IsSound => seen.sound = calls::is_sound(s),
        Call::Read { address } => seen.outcome = given(calls::read_register(s, *address)),
        Call::Write { address, value } => {
            seen.outcome = given(calls::write_register(s, *address, *value))
        }
        Call::WriteRegisters { addresses, values } => {
            seen.outcome = given(calls::write_registers(s, addresses, values))
        }
        Call::Tick { n } => seen.outcome = given(calls::tick(s, *n)),
        Call::Break => seen.outcome = given(calls::sp_break(s)),
        Call::Acknowledge => seen.outcome = given(calls::acknowledge(s)),
        Call::SpTurn => seen.outcome = given(calls::sp_turn(s, rdram, dmem, imem)),
        Call::SpRow => seen.outcome = given(calls::sp_row(s, rdram, dmem, imem)),
        Call::DpTurn => seen.outcome = given(calls::dp_turn(s, rdram, dmem)),
        Call::ConsumerTurn => seen.outcome = given(calls::consumer_turn(s)),
        Call::Run { budgets, .. } => seen.run_by_model(case, s, *budgets),
        Call::Look => (seen.part, *word) = looked(s, rdram, dmem),
        Call::ReadRecord { recording, place } => {
            seen.reading = reading(calls::read_record(recording, *place))
        }
        Call::WriteRecord { record, place, .. } => seen.write_by_model(record, *place),
        Call::Replay { recording, .. } => {
            let replayed = calls::replay(s, recording, rdram, dmem, imem, out);
            seen.judge_by_model(&replayed);
            seen.take(replay(case, replayed));
        }
        Call::Verdict { replayed } => {
            seen.judge_by_model(&verdicts::to_model(&judged(case.state, replayed)))
        }
    }
    seen
}

/// The model's side of an accepted run, with all SP turns before the others.
pub fn sp_first(case: &Case) -> Observed {
    let mut seen = Observed::lent(case);
    let [rdram, dmem, imem, out, _] = &mut seen.bytes;
    if let Call::Run { budgets, .. } = case.call {
        let [sp, dp, consumer] = budgets;
        let s = to_model(&case.state);
        let moved = calls::run(&s, sp, 0, 0, rdram, dmem, imem, out).outcome;
        let mut ran = calls::run(&moved.state, 0, dp, consumer, rdram, dmem, imem, out);
        ran.outcome.answer.count = moved.answer.count;
        (seen.outcome, seen.words) = (given(case, ran.outcome), ran.words);
    }
    seen
}

impl Observed {
    /// The model's run.
    fn run_by_model(&mut self, case: &Case, s: &calls::State, [sp, dp, consumer]: [u32; 3]) {
        let [rdram, dmem, imem, out, _] = &mut self.bytes;
        let ran = calls::run(s, sp, dp, consumer, rdram, dmem, imem, out);
        (self.outcome, self.words) = (given(case, ran.outcome), ran.words);
    }

    /// The model's record, written to the buffer.
    fn write_by_model(&mut self, record: &Record, place: usize) {
        let Record {
            value,
            address,
            kind,
        } = *record;
        let buffer = &mut self.bytes[3];
        let written = calls::write_record(kind, address, value, buffer, place);
        self.outcome.answer = answer(written);
    }

    /// The model's verdict.
    fn judge_by_model(&mut self, replayed: &calls::Replayed) {
        let verdict = calls::verdict(replayed);
        self.code = verdict.code();
        self.verdict = Some(verdicts::from_model(verdict));
    }
}

/// What the model gave. It has no ring: a state that it gives back as handed in is the case's.
fn given(case: &Case, outcome: calls::Outcome) -> Outcome {
    let state = if case.call.keeps_state(outcome.answer.number) {
        assert_eq!(outcome.state, to_model(&case.state));
        case.state
    } else {
        from_model(&outcome.state)
    };
    Outcome {
        state,
        answer: answer(outcome.answer),
    }
}

fn answer(given: calls::Answer) -> Answer {
    let calls::Answer {
        number,
        value,
        count,
    } = given;
    Answer {
        number,
        value,
        count,
    }
}

/// The model's part, and the bytes there.
fn looked(state: &calls::State, rdram: &[u8], dmem: &[u8]) -> (Part, Vec<u8>) {
    let calls::Part {
        memory,
        offset,
        length,
    } = calls::look_ahead(state, rdram, dmem);
    let part = Part {
        memory,
        offset,
        length,
    };
    let word = part_of(&part, rdram, dmem).unwrap_or(&[]).to_vec();
    (part, word)
}

fn replay(case: &Case, replayed: calls::Replayed) -> Replayed {
    Replayed {
        outcome: given(case, replayed.outcome),
        written: replayed.written,
        place: replayed.place,
        findings: verdicts::findings(replayed.findings),
    }
}

fn reading(found: calls::Reading) -> Reading {
    Reading {
        item: Record {
            value: found.value,
            address: found.address,
            kind: found.kind,
        },
        place: found.place,
        number: found.number,
    }
}
