//! Cases in which a wrong side shows.

use compare::cases::addresses::not_register;
use compare::cases::bursts::{burst, refused_by};
use compare::cases::records::{any_record, buffer_length, place_for};
use compare::cases::replayed::any_replayed;
use compare::cases::states::{both_busy, sound};
use compare::cases::traffic::Traffic;
use compare::coverage::counting_replay::CountingReplay;
use compare::data::call::{Call, Case};
use compare::data::memory::{filled, Lent};
use compare::data::state_fields::to_model;
use model::machine::{DP_STATUS, SP_RAMADDR};
use ofersky::{State, LISTING_BYTES};
use random::Random;

/// A recording of traffic from power-up.
pub fn recording(random: &mut Random) -> Case {
    let (state, lent) = (ofersky::power_up(), Lent::new(4_096, 3));
    let mut traffic = Traffic::new(random, CountingReplay::new(to_model(&state), lent.bytes()));
    for _ in 0..6 {
        traffic.sequence();
    }
    let call = Call::Replay {
        recording: traffic.bytes,
        out: LISTING_BYTES,
    };
    Case { state, lent, call }
}

/// The same, with a record at the end that is refused.
pub fn stopped_recording(random: &mut Random) -> Case {
    let mut case = recording(random);
    if let Call::Replay { recording, .. } = &mut case.call {
        recording.extend([2, 4, 4, 0, 2, 0, 0, 0, 0]);
    }
    case
}

/// A struct of any numbers, to be judged.
pub fn verdict(random: &mut Random) -> Case {
    let replayed = Box::new(any_replayed(random));
    let (state, lent) = (sound(random, 4_096), Lent::new(0, 0));
    let call = Call::Verdict { replayed };
    Case { state, lent, call }
}

pub fn bad_read(random: &mut Random) -> Case {
    let address = not_register(random);
    let (state, lent) = (sound(random, 4_096), Lent::new(0, 0));
    let call = Call::Read { address };
    Case { state, lent, call }
}

pub fn run(random: &mut Random) -> Case {
    let state = both_busy(random, 4_096);
    let lent = Lent::new(4_096, u64::from(random.below(1_000) + 1));
    let budgets = [random.next_u32(), random.next_u32(), random.next_u32()];
    let call = Call::Run { budgets, out: 64 };
    Case { state, lent, call }
}

/// A run in which the SP stores each word of the list just after the DP has fetched it, so that
/// only the order of the turns can show. Nothing is queued.
pub fn run_behind_the_dp(random: &mut Random) -> Case {
    let mut case = run(random);
    let State { sp, dp, .. } = &mut case.state;
    let words = 1 + random.below(20);
    (dp.start_pending, dp.end_pending, dp.freeze, dp.queued) = (0, 0, 0, 0);
    dp.current = 8 + 8 * random.below(100);
    dp.limit = dp.current + 8 * words;
    (sp.full, sp.count, sp.storing) = (0, 0, 1 - dp.xbus);
    (sp.len, sp.row_len) = (8 * words, 8 * words);
    (sp.sp_addr, sp.ram_addr) = (dp.current - 8, dp.current - 8);
    case
}

/// The same with a full queue. None of the words that there is room for is a SYNC_FULL, because
/// that would show the order of a fetch and a consumer turn by PIPE_BUSY, too.
pub fn run_with_full_queue(random: &mut Random) -> Case {
    let mut case = run_behind_the_dp(random);
    case.state.dp.queued = 32;
    case.state.queue = case.state.queue.map(|word| word & u64::MAX >> 8);
    case
}

/// A run without a list. The first of the queued words is a SYNC_FULL by the low bits of its byte.
pub fn run_of_queued_words(random: &mut Random) -> Case {
    let mut case = run(random);
    let State { dp, queue, .. } = &mut case.state;
    (dp.start_pending, dp.end_pending, dp.limit) = (0, 0, dp.current);
    (dp.words_left, dp.queued) = (0, 1 + random.below(32) as u8);
    queue[usize::from(dp.head)] = 0xE9 << 56 | random.next_u64() >> 8;
    case
}

pub fn consumer_turn(random: &mut Random) -> Case {
    let (state, lent) = (sound(random, 4_096), Lent::new(0, 0));
    let call = Call::ConsumerTurn;
    Case { state, lent, call }
}

/// A read of DP STATUS with nothing queued.
pub fn dp_status(random: &mut Random) -> Case {
    let mut case = consumer_turn(random);
    let address = DP_STATUS;
    case.call = Call::Read { address };
    case.state.dp.queued = 0;
    case
}

pub fn sp_turn(random: &mut Random) -> Case {
    Case {
        state: sound(random, 4_096),
        lent: Lent::new(random.pick(&[4_096, 4_096, 4_096, 4_095]), 0),
        call: Call::SpTurn,
    }
}

pub fn sp_row(random: &mut Random) -> Case {
    let lent = Lent::new(
        random.pick(&[16, 64, 4_096]),
        u64::from(1 + random.below(1_000)),
    );
    let (state, call) = (sound(random, lent.rdram), Call::SpRow);
    Case { state, lent, call }
}

/// The same from the start of RDRAM.
pub fn sp_row_from_0(random: &mut Random) -> Case {
    let mut case = sp_row(random);
    case.state.sp.ram_addr = 0;
    case
}

/// A burst of up to 64 pairs, all to one register, of which one is mostly refused.
pub fn any_length(random: &mut Random) -> Case {
    let length = 1 + random.index(64);
    let mut pairs = vec![(SP_RAMADDR, 0); length];
    pairs.iter_mut().for_each(|pair| pair.1 = random.next_u32());
    if !random.once_in(4) {
        let number = random.pick(&[10, 5]);
        pairs[random.index(length)].0 = refused_by(random, number);
    }
    let (state, lent) = (sound(random, 4_096), Lent::new(0, 0));
    let call = burst(&pairs);
    Case { state, lent, call }
}

/// A run with a small budget for the SP.
pub fn short_run(random: &mut Random) -> Case {
    let mut case = run(random);
    let budgets = [1 + random.below(4), 0, 0];
    case.call = Call::Run { budgets, out: 0 };
    case
}

pub fn write_record(random: &mut Random) -> Case {
    let record = any_record(random);
    let buffer = filled(buffer_length(random), random.below(1_000).into());
    let place = place_for(random, record.kind, buffer.len());
    let call = Call::WriteRecord {
        record,
        buffer,
        place,
    };
    let (state, lent) = (ofersky::power_up(), Lent::new(0, 0));
    Case { state, lent, call }
}
