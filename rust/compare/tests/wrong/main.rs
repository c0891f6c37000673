//! The comparison must be able to fail: sides that are wrong on purpose, and what is reported of
//! them.

mod cases;
mod wrong_sides;

use cases::*;
use compare::comparison::Comparison;
use compare::data::call::Case;
use compare::data::recording::{hex, pieces};
use compare::sides::model::model;
use compare::sides::observed::Side;
use random::Random;
use std::panic::{catch_unwind, set_hook, take_hook, AssertUnwindSafe};
use wrong_sides::*;

/// The seed of the cases.
#[derive(Clone, Copy)]
struct Seed(u64);

impl Seed {
    /// What is reported of a side that is wrong about calls.
    fn call(self, wrong: Side, make: fn(&mut Random) -> Case) -> String {
        self.reported(wrong, "call", make)
    }

    /// What is reported of a side that is wrong about recordings.
    fn recording(self, wrong: Side, make: fn(&mut Random) -> Case) -> String {
        self.reported(wrong, "recording", make)
    }

    /// What is reported of a wrong side, over cases that are made in order.
    fn reported(self, wrong: Side, noun: &'static str, make: fn(&mut Random) -> Case) -> String {
        let result = catch_unwind(AssertUnwindSafe(|| {
            let mut random = Random::new(self.0);
            let mut comparison = Comparison::of(model, wrong, noun);
            for _ in 0..20_000 {
                comparison.check(&make(&mut random));
            }
        }));
        let panic = result.expect_err("the wrong side is found");
        *panic.downcast::<String>().expect("a report")
    }
}

/// The hex bytes of the recording in a report.
fn shown_recording(report: &str) -> Vec<u8> {
    let line = report.lines().find(|line| line.starts_with("recording of"));
    let hex = line.expect("a recording").rsplit(' ').next().unwrap();
    let byte = |i: usize| u8::from_str_radix(&hex[2 * i..2 * i + 2], 16).unwrap();
    (0..hex.len() / 2).map(byte).collect()
}

/// The reports of those that are wrong about bursts.
fn reports_of_bursts(seed: Seed) -> [String; 4] {
    [
        seed.call(takes_pairs_back, any_length),
        seed.call(goes_on_behind_a_bad_pair, any_length),
        seed.call(clears_a_value, any_length),
        seed.call(refuses_64_pairs, any_length),
    ]
}

/// The reports of these twelve, of five that are wrong about the queue, of three about rows and of
/// those about bursts, with the panic's own message kept off the screen.
fn reports(seed: Seed) -> ([String; 12], [String; 5], [String; 3], [String; 4]) {
    let hook = take_hook();
    set_hook(Box::new(|_| {}));
    let reports = [
        seed.recording(skip_after_the_last_row, recording),
        seed.recording(no_last_line_end, recording),
        seed.call(sync_full_by_the_whole_byte, run_of_queued_words),
        seed.call(writes_before_it_declines, sp_turn),
        seed.call(no_room_for_the_last_byte, write_record),
        seed.call(clears_the_next_byte, write_record),
        seed.recording(place_counts_records, stopped_recording),
        seed.call(misaligned_refused_by_5, bad_read),
        seed.recording(drops_findings_of_a_stop, stopped_recording),
        seed.call(passes_on_nothing, verdict),
        seed.call(all_sp_turns_first, run_behind_the_dp),
        seed.call(counts_exchanged, run),
    ];
    let queues = [
        seed.call(begins_with_the_consumer, run_with_full_queue),
        seed.call(no_fetch_without_room, run),
        seed.call(ring_from_slot_0, consumer_turn),
        seed.call(clears_a_slot_and_declines, bad_read),
        seed.call(bit_6_by_words_left, dp_status),
    ];
    let rows = [
        seed.call(row_from_its_start, sp_row),
        seed.call(drops_the_whole_row, sp_row_from_0),
        seed.call(block_past_the_budget, short_run),
    ];
    let bursts = reports_of_bursts(seed);
    set_hook(hook);
    for report in reports.iter().chain(&queues).chain(&rows).chain(&bursts) {
        println!("{report}");
    }
    (reports, queues, rows, bursts)
}

/// Whatever the cases are.
#[test]
fn wrong_sides_are_found() {
    (77..82).for_each(|seed| are_found(Seed(seed)));
}

fn are_found(seed: Seed) {
    let (reports, queues, rows, bursts) = reports(seed);
    let [skip, line_end, framing, declined, room, next_byte, place, number, found, pass, order, counts] =
        reports;

    let shortest = shown_recording(&skip);
    assert!(skip.starts_with("difference at recording "));
    assert_eq!(pieces(&shortest).len(), 2, "a write and a run suffice");
    assert_eq!(&hex(&shortest)[..10], "0104040008");
    assert!(skip.contains("\n  sp.ram_addr: expected 0x8 by the model, given 0x10 by the library"));

    assert!(shown_recording(&line_end).is_empty());
    assert!(line_end.contains("\n  written: expected 0x"));

    assert!(framing.starts_with("difference at call "));
    assert!(framing.contains(&shown_run([0, 0, 1], 8)));
    assert!(framing.contains("state: dp.queued 0x1, "));
    assert!(framing.contains("] 0xE900000000000000\n"));
    assert!(framing.contains("\n  dp.line: expected 0x1 by the model, given 0x0 by the library"));

    assert!(declined.contains("state: as at power-up\n"));
    assert!(declined.contains("\n  IMEM at 0x8: expected "));

    assert!(room.contains(", value 0x0, at place 0\nbuffer of "));
    assert!(room.contains(" bytes: all zeros\n"));
    assert!(room.contains("\n  number: expected 0x0 by the model, given 0xE by the library"));

    assert!(next_byte.contains(", value 0x0, at place 0\nbuffer of "));
    assert!(next_byte.contains("; bytes that differ: 1\n"));

    stop_is_found(&place);
    assert!(number.contains("\n  number: expected 0xA by the model, given 0x5 by the library"));
    dropped_findings_are_found(&found);
    judged_struct_is_found(&pass);
    wrong_runs_are_found(&order, &counts);
    wrong_queues_are_found(&queues);
    wrong_rows_are_found(&rows);
    wrong_bursts_are_found(&bursts);
}

/// A run as reports show it.
fn shown_run([sp, dp, consumer]: [u32; 3], out: usize) -> String {
    format!("run, SP budget 0x{sp:X}, DP budget 0x{dp:X}, consumer budget 0x{consumer:X}, output of {out} bytes\n")
}

/// Each by two words of a row: one is moved already, one is past the lent length, and one is past
/// the budget.
fn wrong_rows_are_found([start, whole, block]: &[String; 3]) {
    assert!(start.contains("sp_row\nstate: sp.row_len 0x8, sp.busy 0x1\n"));
    assert!(start.contains("\n  count: expected 0x1 by the model, given 0x2 by the library"));

    assert!(whole.contains("sp.len 0x8, sp.row_len 0x8, sp.busy 0x1, sp.storing 0x1\n"));
    assert!(whole.contains("memory: RDRAM 8 bytes, "));
    assert!(whole.contains("differs:\n  RDRAM at 0x0: expected "));

    assert!(block.contains(&shown_run([1, 0, 0], 0)));
    assert!(block.contains("sp.len 0x8, sp.row_len 0x8, sp.busy 0x1\n"));
    assert!(block.contains("\n  count: expected 0x1 by the model, given 0x2 by the library"));
}

/// Two by a good pair and a bad one, in either order; one by a pair alone; and one by 64 pairs, of
/// which none can be left out.
fn wrong_bursts_are_found([back, on, value, most]: &[String; 4]) {
    let of_pairs = |pairs| {
        format!("write_registers of {pairs} addresses and {pairs} values\nstate: as at power-up\n")
    };
    assert!(back.contains(&(of_pairs(2) + "  RAMADDR, 0x00000008\n  0x")));
    assert!(back.contains("differs:\n  sp.ram_latch: expected 0x8 by the model, given 0x0"));

    assert!(on.contains(&(of_pairs(2) + "  0x")));
    assert!(on.contains(", 0x00000000\n  RAMADDR, 0x00000008\ndiffers:\n"));
    assert!(on.contains("differs:\n  sp.ram_latch: expected 0x0 by the model, given 0x8"));

    assert!(value.contains(&(of_pairs(1) + "  CURRENT, 0x00000001\ndiffers:\n")));
    assert!(value.contains("differs:\n  values at 0x0: expected 0x00000001 by the model, given"));

    assert!(most.contains(&of_pairs(64)));
    assert_eq!(most.matches("\n  CURRENT, 0x00000000").count(), 64);
    assert!(most.contains("differs:\n  number: expected 0x0 by the model, given 0xB"));
    assert!(most.contains("\n  count: expected 0x40 by the model, given 0x0 by the library"));
}

/// Each by the least that shows it. A word taken early from a full queue lets the DP fetch before
/// the SP's second turn.
fn wrong_queues_are_found([begins, room, ring, declined, bit_6]: &[String; 5]) {
    assert!(begins.contains(&shown_run([2, 1, 1], 8)));
    assert!(begins.contains("dp.queued 0x20\n"));
    assert!(begins.contains("\n  queue[31]: expected "));

    assert!(room.contains(&shown_run([0, 1, 0], 0)));
    assert!(room.contains("\n  dp.queued: expected 0x1 by the model, given 0x0 by the library"));

    assert!(ring.contains("state: dp.queued 0x1, dp.head 0x1, queue[1] 0x1\n"));
    assert!(ring.contains("\n  value: expected 0x1 by the model, given 0x0 by the library"));

    assert!(declined.contains("state: queue[0] 0x1\n"));
    assert!(declined.contains("\n  queue[0]: expected 0x1 by the model, given 0x0"));

    assert!(bit_6.contains("state: dp.words_left 0x1\n"));
    assert!(bit_6.contains("\n  value: expected 0x80 by the model, given 0xC0 by the library"));
}

/// Two SP turns show that the DP's first did not come between them. One turn shows whose a count
/// is.
fn wrong_runs_are_found(order: &str, counts: &str) {
    assert!(order.contains(&shown_run([2, 1, 0], 0)));
    assert!(order.contains("\n  queue[0]: expected "));
    assert!(counts.contains("\n  count: expected 0x"));
    assert!(counts.contains("\n  words: expected 0x"));
}

/// What was compared before the stop is all that differs: one read or check suffices.
fn dropped_findings_are_found(report: &str) {
    let shortest = shown_recording(report);
    assert_eq!(pieces(&shortest).len(), 2, "one record before it suffices");
    assert!(matches!(shortest[0], 2 | 9));
    let differs = "differs:\n  findings.compared: expected 0x1 by the model, given 0x0";
    assert!(report.contains(differs));
}

/// Every number of the struct is lowered to 0, and the verdict is all that differs.
fn judged_struct_is_found(report: &str) {
    let all_zero = "verdict, number 0x0, value 0x0, count 0x0, written 0x0, place 0x0, \
        compared 0x0, differed 0x0, first_index 0x0, first_place 0x0\nstate: as at power-up\n";
    assert!(report.contains(all_zero));
    let differs = "differs:\n  verdict: expected 0x66 by the model, given 0x64 by the library\n";
    assert!(report.ends_with(differs));
}

/// The place is all that differs: where the second of two records begins.
fn stop_is_found(report: &str) {
    let shortest = pieces(&shown_recording(report));
    assert_eq!(shortest.len(), 2, "one record before it suffices");
    let place = shortest[1].start;
    let differs =
        format!("differs:\n  place: expected 0x{place:X} by the model, given 0x1 by the library\n");
    assert!(report.ends_with(&differs));
}
