//! A case in words, so that a reader can do it again by hand.

use crate::data::call::{Call, Case};
use crate::data::recording::hex;
use crate::data::state_fields::FIELDS;
use crate::data::verdicts::NUMBERS;
use crate::report::recording::{address_name, readable};
use ofersky::{Replayed, State};

/// A case in full.
pub fn describe(case: &Case) -> String {
    let mut text = format!("{}{}\n", case.call.name(), arguments(&case.call));
    if !matches!(
        case.call,
        Call::PowerUp | Call::ReadRecord { .. } | Call::WriteRecord { .. }
    ) {
        text += &format!("state: {}\n", state(&case.state));
    }
    if case.call.takes_memory() {
        let lent = case.lent;
        text += &format!(
            "memory: RDRAM {} bytes, DMEM {}, IMEM {}, ",
            lent.rdram, lent.dmem, lent.imem
        );
        text += &match lent.fill {
            0 => "all zeros\n".to_string(),
            fill => format!("pattern {fill}\n"),
        };
    }
    if let Call::Replay { recording, .. } | Call::ReadRecord { recording, .. } = &case.call {
        let shown = hex(&recording[..recording.len().min(2_048)]);
        text += &format!("recording of {} bytes: {shown}\n", recording.len());
        text += &readable(recording);
    }
    text += &pairs(case.call.pairs());
    if let Call::WriteRecord { buffer, .. } = &case.call {
        text += &format!("buffer of {} bytes: {}\n", buffer.len(), bytes(buffer));
    }
    text
}

/// One line a pair of a burst. Of a very long one, the first ones.
fn pairs([addresses, values]: [&[u32]; 2]) -> String {
    let mut text = String::new();
    let all = addresses.len().max(values.len());
    for i in 0..all.min(70) {
        let address = addresses.get(i).map(|address| address_name(*address));
        let address = address.unwrap_or("no address".to_string());
        let value = values.get(i).map(|value| format!("0x{value:08X}"));
        let value = value.unwrap_or("no value".to_string());
        text += &format!("  {address}, {value}\n");
    }
    if all > 70 {
        text += &format!("  and {} more\n", all - 70);
    }
    text
}

/// The first bytes of a buffer, in hex, if they are not zeros.
fn bytes(buffer: &[u8]) -> String {
    if buffer.iter().all(|byte| *byte == 0) {
        return "all zeros".to_string();
    }
    hex(&buffer[..buffer.len().min(2_048)])
}

fn arguments(call: &Call) -> String {
    match call {
        Call::Read { address } => format!(" {}", address_name(*address)),
        Call::Write { address, value } => format!(" {} 0x{value:08X}", address_name(*address)),
        Call::WriteRegisters { addresses, values } => format!(
            " of {} addresses and {} values",
            addresses.len(),
            values.len()
        ),
        Call::Tick { n } => format!(" 0x{n:X}"),
        Call::Run {
            budgets: [sp, dp, consumer],
            out,
        } => format!(
            ", SP budget 0x{sp:X}, DP budget 0x{dp:X}, consumer budget 0x{consumer:X}, output of {out} bytes"
        ),
        Call::ReadRecord { place, .. } => format!(" at place {place}"),
        Call::WriteRecord { record, place, .. } => format!(
            ", kind {}, address {}, value 0x{:X}, at place {place}",
            record.kind,
            address_name(record.address),
            record.value
        ),
        Call::Replay { out, .. } => format!(", listing buffer of {out} bytes"),
        Call::Verdict { replayed } => format!(", {}", made(replayed)),
        _ => String::new(),
    }
}

/// The numbers of a struct that is judged.
fn made(replayed: &Replayed) -> String {
    let numbers: Vec<String> = NUMBERS
        .iter()
        .map(|number| format!("{} 0x{:X}", number.name, (number.get)(replayed)))
        .collect();
    numbers.join(", ")
}

/// The fields that are not zero.
fn state(state: &State) -> String {
    let fields: Vec<String> = FIELDS
        .iter()
        .filter(|field| (field.get)(state) != 0)
        .map(|field| format!("{} 0x{:X}", field.name, (field.get)(state)))
        .collect();
    if fields.is_empty() {
        "as at power-up".to_string()
    } else {
        fields.join(", ")
    }
}
