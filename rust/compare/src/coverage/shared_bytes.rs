//! Whether the SP has yet to write a byte that the lists have yet to fetch.

use ofersky::State;

/// Is a byte that the SP has yet to write one that the lists have yet to fetch?
pub fn shares(state: &State, rdram: usize) -> bool {
    let dp = &state.dp;
    let waiting = if dp.end_pending == 1 { dp.end } else { 0 };
    let lists = [(dp.current, dp.limit), (dp.start, waiting)];
    let in_rdram = |address: u32| {
        let fitted = (address as usize) < rdram;
        fitted && lists.iter().any(|list| (list.0..list.1).contains(&address))
    };
    let in_dmem = |offset: u32| {
        let first = |from: u32| from + (offset.wrapping_sub(from) & 0xFFF);
        lists.iter().any(|list| first(list.0) < list.1)
    };
    yet_to_write(state).into_iter().any(|place| match place {
        Place::Rdram(address) => dp.xbus == 0 && in_rdram(address),
        Place::Bank(offset) => dp.xbus == 1 && offset < 0x1000 && in_dmem(offset),
    })
}

/// Where a word of a transfer goes; offsets of IMEM follow those of DMEM.
enum Place {
    Rdram(u32),
    Bank(u32),
}

/// The places of all words that the SP has yet to write, by the rule's formula and not by turns.
fn yet_to_write(state: &State) -> Vec<Place> {
    let sp = &state.sp;
    let mut places = Vec::new();
    if sp.busy == 1 {
        let base = (sp.ram_addr, sp.sp_addr, sp.storing == 1);
        // What is left of the row under way, then the rows after it.
        places.extend(rows(base, (sp.len, 0, 0)));
        let (ram, bank) = (
            sp.ram_addr + sp.len + 8 + sp.skip,
            moved_on(sp.sp_addr, sp.len + 8),
        );
        let rest = (ram, bank, sp.storing == 1);
        if let Some(count) = sp.count.checked_sub(1) {
            places.extend(rows(rest, (sp.row_len, count, sp.skip)));
        }
    }
    if sp.full == 1 {
        let base = (sp.ram_latch, sp.sp_latch, sp.waiting_storing == 1);
        let word = sp.waiting_word;
        let shape = (word & 0xFF8, word >> 12 & 0xFF, word >> 20 & 0xFF8);
        places.extend(rows(base, shape));
    }
    places
}

/// An SP address so many bytes on, in its bank.
fn moved_on(address: u32, bytes: u32) -> u32 {
    address & 0x1000 | (address + bytes) & 0xFFF
}

/// The words of rows from an RDRAM address and an SP address on, in one direction; their LEN, COUNT
/// and SKIP.
fn rows(
    (ram, bank, storing): (u32, u32, bool),
    (len, count, skip): (u32, u32, u32),
) -> impl Iterator<Item = Place> {
    let words = len / 8 + 1;
    (0..=count).flat_map(move |r| {
        (0..words).map(move |c| match storing {
            true => Place::Rdram((ram + r * (8 * words + skip) + 8 * c) & 0xFF_FFFF),
            false => Place::Bank(moved_on(bank, 8 * (r * words + c))),
        })
    })
}
