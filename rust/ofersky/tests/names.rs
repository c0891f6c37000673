//! The names of C and of Rust stand for the same numbers, and the answers have them.

mod common;

use common::text;
use ofersky::checked::Checked;
use ofersky::*;
use std::collections::BTreeMap;

/// Every constant of the header that has a number, by its name.
fn header() -> BTreeMap<String, u64> {
    let mut constants = BTreeMap::new();
    for line in text("c/ofersky.h").lines() {
        let Some(rest) = line.strip_prefix("#define OFERSKY_") else {
            continue;
        };
        let Some((name, rest)) = rest.split_once(' ') else {
            continue; // the guard
        };
        if name.contains('(') || rest.starts_with('"') {
            continue;
        }
        let number = rest.split(' ').next().unwrap().trim_end_matches('u');
        let number = match number.strip_prefix("0x") {
            Some(digits) => u64::from_str_radix(digits, 16),
            None => number.parse(),
        };
        let before = constants.insert(name.to_string(), number.expect(line));
        assert_eq!(before, None, "{name} stands twice");
    }
    constants
}

/// `constants!(PREFIX module: A B)` pairs OFERSKY_PREFIX_A with `module::A`.
macro_rules! constants {
    ($prefix:literal $module:ident: $($name:ident)*) => {
        vec![$((concat!($prefix, stringify!($name)), $module::$name as u64)),*]
    };
}

fn rust() -> BTreeMap<String, u64> {
    let mut all = vec![("OK", 0), ("VERSION", u64::from(version()))];
    all.extend(
        constants!("" ofersky: PASSED DIFFERS NOTHING_COMPARED REFUSED QUEUE_WORDS RECORD_DMEM
        RECORD_IMEM RDRAM_BYTES_MAX BANK_BYTES BURST_PAIRS_MAX RECORDING_BYTES_MAX LISTING_BYTES),
    );
    all.extend(
        constants!("" registers: SP_SPADDR SP_RAMADDR SP_RDLEN SP_WRLEN SP_STATUS SP_DMA_FULL
        SP_DMA_BUSY SP_SEMAPHORE DP_START DP_END DP_CURRENT DP_STATUS DP_CLOCK DP_CMD_BUSY
        DP_PIPE_BUSY DP_TMEM_BUSY DP_MIRROR_BYTES),
    );
    all.extend(
        constants!("SP_STATUS_" sp_status: HALTED BROKE DMA_BUSY DMA_FULL SSTEP INTBREAK
        CLR_HALT SET_HALT CLR_BROKE CLR_INTR SET_INTR CLR_SSTEP SET_SSTEP CLR_INTBREAK
        SET_INTBREAK),
    );
    all.extend(
        constants!("DP_STATUS_" dp_status: XBUS FREEZE FLUSH START_GCLK PIPE_BUSY CMD_BUSY READY
        DMA_BUSY END_PENDING START_PENDING CLR_XBUS SET_XBUS CLR_FREEZE SET_FREEZE CLR_FLUSH
        SET_FLUSH CLR_TMEM_BUSY CLR_PIPE_BUSY CLR_CMD_BUSY CLR_CLOCK),
    );
    let mut all: BTreeMap<_, _> = all
        .into_iter()
        .map(|(name, n)| (name.to_string(), n))
        .collect();
    for kind in Kind::ALL {
        all.insert(upper("KIND", &format!("{kind:?}")), kind as u64);
    }
    for refusal in Refusal::ALL {
        all.insert(upper("ERR", &format!("{refusal:?}")), refusal as u64);
    }
    all
}

/// `SpRun` as `KIND_SP_RUN`.
fn upper(prefix: &str, name: &str) -> String {
    let mut text = prefix.to_string();
    for c in name.chars() {
        if c.is_uppercase() {
            text.push('_');
        }
        text.extend(c.to_uppercase());
    }
    text
}

#[test]
fn constants_of_c_are_those_of_rust() {
    assert_eq!(header(), rust());
}

#[test]
fn versions_agree() {
    let [major, minor, patch] = [
        env!("CARGO_PKG_VERSION_MAJOR"),
        env!("CARGO_PKG_VERSION_MINOR"),
        env!("CARGO_PKG_VERSION_PATCH"),
    ]
    .map(|number| number.parse::<u32>().unwrap());
    assert_eq!(VERSION, 10_000 * major + 100 * minor + patch);
    assert_eq!(version(), VERSION);
    let string = concat!(
        "#define OFERSKY_VERSION_STRING \"",
        env!("CARGO_PKG_VERSION"),
        "\"\n"
    );
    assert!(text("c/ofersky.h").contains(string));
    assert!(text("c/ofersky.h").contains(concat!("Version ", env!("CARGO_PKG_VERSION"), ".\n")));
    assert!(text("CHANGELOG.md").contains(concat!("\n## ", env!("CARGO_PKG_VERSION"))));
}

#[test]
fn refusals_and_kinds_come_back_from_their_numbers() {
    for number in 0..300 {
        let refusal = Refusal::from_number(number);
        assert_eq!(
            refusal.is_some(),
            (1..=11).contains(&number) || number == 14
        );
        if let Some(refusal) = refusal {
            assert_eq!(refusal.number(), number);
            assert_eq!(refusal.to_string(), message(number));
        }
    }
    for number in 0..=255 {
        let kind = Kind::from_number(number);
        assert_eq!(kind.is_some(), (1..=10).contains(&number));
        if let Some(kind) = kind {
            assert_eq!(kind as u8, number);
        }
    }
}

/// Every bit that can be read or written, by its number; those of signals are functions.
#[test]
fn signals_have_their_bits() {
    for n in 0..8 {
        let on = write_register(power_up(), registers::SP_STATUS, sp_status::set_sig(n)).state;
        assert_eq!(on.sp.signals, 1 << n);
        let read = read_register(on, registers::SP_STATUS).answer.value;
        assert_eq!(read, u64::from(sp_status::sig(n)));
        let off = write_register(on, registers::SP_STATUS, sp_status::clr_sig(n)).state;
        assert_eq!(off, power_up());
    }
}

/// `checked` sorts by the number and gives the answer back as it came, whatever it is.
#[test]
fn nothing_is_lost_by_checked() {
    for number in [0, 5, 10, 12, u32::MAX] {
        let answer = Answer {
            number,
            value: 3,
            count: 4,
        };
        let state = State {
            queue: [7; QUEUE_WORDS],
            ..power_up()
        };
        let outcome = Outcome { state, answer };
        expect_whole(answer, number);
        expect_whole(outcome, number);
        expect_whole(Ran { outcome, words: 5 }, number);
        let item = Record::new(Kind::Check, 8, 9);
        let reading = Reading {
            item,
            place: 6,
            number,
        };
        expect_whole(reading, number);
        let replayed = Replayed {
            outcome,
            written: 1,
            place: 2,
            ..Replayed::default()
        };
        expect_whole(replayed, number);
    }
}

fn expect_whole<T: Checked + Copy + PartialEq + std::fmt::Debug>(given: T, number: u32) {
    match given.checked() {
        Ok(whole) => {
            assert_eq!(number, 0);
            assert_eq!(whole, given);
        }
        Err(refused) => {
            assert_ne!(number, 0);
            assert_eq!(refused.number(), number);
            assert_eq!(refused.refusal(), Refusal::from_number(number));
            assert!(refused.to_string().ends_with(message(number)));
            assert_eq!(*refused.given, given);
        }
    }
}
