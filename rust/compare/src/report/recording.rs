//! Recordings in words: a line for each record, with the names of the registers.

use crate::data::recording::{hex, pieces, record_length};
use crate::data::registers::first_copy;
use model::machine::REGISTERS;

/// The names of the sixteen registers, in the order of `REGISTERS`.
const REGISTER_NAMES: [&str; 16] = [
    "SPADDR",
    "RAMADDR",
    "RDLEN",
    "WRLEN",
    "SP STATUS",
    "DMA_FULL",
    "DMA_BUSY",
    "SEMAPHORE",
    "START",
    "END",
    "CURRENT",
    "DP STATUS",
    "CLOCK",
    "CMD_BUSY",
    "PIPE_BUSY",
    "TMEM_BUSY",
];

/// An address by its register's name, in a mirror with the address, or in hex.
pub fn address_name(address: u32) -> String {
    let first = first_copy(address);
    match REGISTERS.iter().position(|register| *register == first) {
        Some(i) if first == address => REGISTER_NAMES[i].to_string(),
        Some(i) => format!("{} at 0x{address:08X}", REGISTER_NAMES[i]),
        None => format!("0x{address:08X}"),
    }
}

/// What a record says.
fn meaning(record: &[u8]) -> String {
    if record_length(record[0]) != Some(record.len()) {
        return "no whole record".to_string();
    }
    let number = |from: usize, to: usize| hex(&record[from..to]);
    let address = || {
        let bytes = record[1..5].try_into().expect("four bytes");
        address_name(u32::from_be_bytes(bytes))
    };
    match record[0] {
        1 => format!("write {} {}", address(), number(5, 9)),
        2 => format!("read {}, expected {}", address(), number(5, 9)),
        3 => format!("SP run, budget {}", number(1, 5)),
        4 => format!("DP run, budget {}", number(1, 5)),
        5 => format!("tick {}", number(1, 5)),
        6 => "BREAK".to_string(),
        7 => "acknowledge".to_string(),
        8 => format!("store {} {}", address(), number(5, 13)),
        9 => format!("check {}, expected {}", address(), number(5, 13)),
        _ => format!(
            "run, SP budget {}, DP and consumer budget {}",
            number(1, 5),
            number(5, 9)
        ),
    }
}

/// One line a record: its bytes and what they say. Of a very long recording, the first ones.
pub fn readable(recording: &[u8]) -> String {
    let mut text = String::new();
    let pieces = pieces(recording);
    for piece in pieces.iter().take(60) {
        let bytes = &recording[piece.clone()];
        let shown = hex(&bytes[..bytes.len().min(16)]);
        text += &format!("  {shown:<26}  {}\n", meaning(bytes));
    }
    if pieces.len() > 60 {
        text += &format!("  and {} more\n", pieces.len() - 60);
    }
    text
}
