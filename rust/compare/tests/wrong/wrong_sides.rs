//! Sides that are wrong on purpose: each is the model with one mistake.

use compare::cases::bursts::burst;
use compare::data::call::{Call, Case};
use compare::data::registers::is_register;
use compare::data::ring::normalized;
use compare::data::words_left::row_words;
use compare::sides::model::{model, sp_first};
use compare::sides::observed::Observed;
use ofersky::{Answer, Findings, Verdict, NOTHING_COMPARED, PASSED};

/// The easy slip of the rules: SKIP is added after the last row too.
pub fn skip_after_the_last_row(case: &Case) -> Observed {
    let mut seen = model(case);
    let ended = seen.number() == 0 && seen.outcome.answer.count > 0;
    let sp = &mut seen.outcome.state.sp;
    if ended && sp.busy == 0 && sp.len == 0xFF8 {
        sp.ram_addr = (sp.ram_addr + sp.skip) % (1 << 24);
    }
    seen
}

/// Framing on the whole first byte: the table is that of the rules only for bytes below 64.
pub fn sync_full_by_the_whole_byte(case: &Case) -> Observed {
    let mut seen = model(case);
    let [.., output, _] = &seen.bytes;
    let whole = output.chunks(8).next().is_some_and(|word| word[0] == 0xE9);
    if case.state.dp.words_left == 0 && seen.words > 0 && whole {
        seen.outcome.state.dp.line = case.state.dp.line;
    }
    seen
}

/// The listing's last line without its end.
pub fn no_last_line_end(case: &Case) -> Observed {
    let mut seen = model(case);
    let listing = &mut seen.bytes[3];
    if seen.written > 0 && listing[seen.written - 1] == b'\n' {
        listing[seen.written - 1] = 0x5A;
        seen.written -= 1;
    }
    seen
}

/// The number of the refused record, and not the byte where it begins.
pub fn place_counts_records(case: &Case) -> Observed {
    let mut seen = model(case);
    if seen.number() != 0 {
        seen.place = seen.outcome.answer.count as usize;
    }
    seen
}

/// The findings dropped where the replay stops, so that a recording seems not to have differed
/// before.
pub fn drops_findings_of_a_stop(case: &Case) -> Observed {
    let mut seen = model(case);
    if seen.number() != 0 {
        seen.findings = Findings::default();
    }
    seen
}

/// A pass where nothing was compared.
pub fn passes_on_nothing(case: &Case) -> Observed {
    let mut seen = model(case);
    if seen.code == NOTHING_COMPARED {
        seen.code = PASSED;
        seen.verdict = Some(Verdict::Passed { compared: 0 });
    }
    seen
}

/// An address that is not a multiple of 4 refused as if it were one.
pub fn misaligned_refused_by_5(case: &Case) -> Observed {
    let mut seen = model(case);
    if seen.number() == 10 {
        seen.outcome.answer.number = 5;
    }
    seen
}

/// A store that writes one byte of IMEM where the length of RDRAM is refused.
pub fn writes_before_it_declines(case: &Case) -> Observed {
    let mut seen = model(case);
    if seen.number() == 1 {
        seen.bytes[2][8] ^= 1;
    }
    seen
}

/// A writer that refuses a record which just fits.
pub fn no_room_for_the_last_byte(case: &Case) -> Observed {
    let mut seen = model(case);
    let output = case.call.output();
    let answer = &mut seen.outcome.answer;
    if answer.number == 0 && answer.value == output.len() as u64 {
        (answer.number, answer.value) = (14, 0);
        seen.bytes[3] = output;
    }
    seen
}

/// A writer that clears the byte after the record.
pub fn clears_the_next_byte(case: &Case) -> Observed {
    let mut seen = model(case);
    let after = seen.outcome.answer.value as usize;
    if seen.number() == 0 && after < seen.bytes[3].len() {
        seen.bytes[3][after] = 0;
    }
    seen
}

/// A run in which the others wait until the SP has taken all its turns.
pub fn all_sp_turns_first(case: &Case) -> Observed {
    sp_first(case)
}

/// A run whose first turn is the consumer's.
pub fn begins_with_the_consumer(case: &Case) -> Observed {
    let Call::Run { budgets, out } = case.call else {
        return model(case);
    };
    let [sp, dp, consumer] = budgets;
    let run = |state, budgets, out| {
        let (lent, call) = (case.lent, Call::Run { budgets, out });
        model(&Case { state, lent, call })
    };
    let first = run(case.state, [0, 0, consumer.min(1)], out);
    let (state, taken) = (first.outcome.state, first.words as usize);
    let mut seen = run(state, [sp, dp, consumer - first.words], out - 8 * taken);
    let words = [
        &first.bytes[3][..8 * taken],
        &seen.bytes[3][..8 * seen.words as usize],
    ]
    .concat();
    seen.bytes[3] = case.call.output();
    seen.bytes[3][..words.len()].copy_from_slice(&words);
    seen.words += first.words;
    seen
}

/// A run that fetches no more words than the output has room for.
pub fn no_fetch_without_room(case: &Case) -> Observed {
    let mut case = case.clone();
    if let Call::Run { budgets, out } = &mut case.call {
        budgets[1] = budgets[1].min(*out as u32 / 8);
    }
    model(&case)
}

/// The oldest word always taken from slot 0.
pub fn ring_from_slot_0(case: &Case) -> Observed {
    let mut case = case.clone();
    case.state.dp.head = 0;
    model(&case)
}

/// A refusal that clears the slot behind the last word.
pub fn clears_a_slot_and_declines(case: &Case) -> Observed {
    let mut seen = model(case);
    let dp = &case.state.dp;
    if seen.number() != 0 && dp.queued < 32 {
        let slot = dp.head.wrapping_add(dp.queued) % 32;
        seen.outcome.state.queue[usize::from(slot)] = 0;
    }
    seen
}

/// The bit of the queued words shown where words are left of a command.
pub fn bit_6_by_words_left(case: &Case) -> Observed {
    let mut seen = model(case);
    let value = &mut seen.outcome.answer.value;
    *value = *value & !0x40 | u64::from(case.state.dp.words_left > 0) << 6;
    seen
}

/// A row as long as it was at its start, however much of it is moved already.
pub fn row_from_its_start(case: &Case) -> Observed {
    let seen = model(case);
    if seen.number() != 0 || seen.outcome.answer.count == 0 {
        return seen;
    }
    let mut case = case.clone();
    case.state.sp.len = case.state.sp.row_len;
    model(&case)
}

/// A row that stores nothing where a word of it is past the lent length.
pub fn drops_the_whole_row(case: &Case) -> Observed {
    let mut seen = model(case);
    let sp = &case.state.sp;
    let end = sp.ram_addr as usize + 8 * row_words(&case.state) as usize;
    if sp.storing == 1 && end > case.lent.rdram {
        [seen.bytes[0], ..] = case.lent.bytes();
    }
    seen
}

/// A run that moves the rest of a row at once, whatever budget is left.
pub fn block_past_the_budget(case: &Case) -> Observed {
    let mut case = case.clone();
    let words = row_words(&case.state);
    if let Call::Run { budgets, .. } = &mut case.call {
        if budgets[0] > 0 {
            budgets[0] = budgets[0].max(words);
        }
    }
    model(&case)
}

/// The words that were consumed given as the SP's count, and the reverse.
pub fn counts_exchanged(case: &Case) -> Observed {
    let mut seen = model(case);
    let count = &mut seen.outcome.answer.count;
    (*count, seen.words) = (seen.words, *count);
    seen
}

/// A burst that takes back what it did where a pair is refused.
pub fn takes_pairs_back(case: &Case) -> Observed {
    let mut seen = model(case);
    if matches!(seen.number(), 5 | 10) {
        seen.outcome.state = normalized(&case.state);
    }
    seen
}

/// A burst that leaves out a pair which is refused, and goes on.
pub fn goes_on_behind_a_bad_pair(case: &Case) -> Observed {
    let [addresses, values] = case.call.pairs();
    let pairs = addresses.iter().copied().zip(values.iter().copied());
    let good: Vec<(u32, u32)> = pairs.filter(|pair| is_register(pair.0)).collect();
    let (lent, call) = (case.lent, burst(&good));
    let state = case.state;
    let mut seen = model(case);
    seen.outcome.state = model(&Case { state, lent, call }).outcome.state;
    seen
}

/// A burst that clears the last value which it takes.
pub fn clears_a_value(case: &Case) -> Observed {
    let mut seen = model(case);
    if let Some(last) = seen.outcome.answer.count.checked_sub(1) {
        seen.pairs[1][last as usize] = 0;
    }
    seen
}

/// A burst that may be of 63 pairs at most.
pub fn refuses_64_pairs(case: &Case) -> Observed {
    let mut seen = model(case);
    if case.call.pairs()[0].len() == 64 {
        (seen.outcome.state, seen.outcome.answer) = (case.state, Answer::default());
        seen.outcome.answer.number = 11;
    }
    seen
}
