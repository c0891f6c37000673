//! A row at a time: the current row finished in one call. Registers and bytes are
//! worked out by hand, and the row is compared with as many turns.

mod common;

use common::*;
use model::calls::*;
use model::machine::{
    SP_DMA_BUSY, SP_DMA_FULL, SP_RAMADDR, SP_RDLEN, SP_SPADDR, SP_STATUS, SP_WRLEN,
};

/// A transfer over memories that are filled, with this much RDRAM.
fn transfer(rdram: usize, spaddr: u32, ramaddr: u32, length: (u32, u32)) -> Bench {
    let mut bench = Bench::new();
    bench.rdram = vec![0; rdram];
    bench.fill();
    bench.writes(&[(SP_SPADDR, spaddr), (SP_RAMADDR, ramaddr), length]);
    bench
}

/// A row that moves this many words, and what the registers read then.
fn row(bench: &mut Bench, words: u32, ramaddr: u32, spaddr: u32, length: u32) {
    assert_eq!(bench.sp_row(), success(0, words));
    bench.reads(&[(SP_RAMADDR, ramaddr), (SP_SPADDR, spaddr)]);
    bench.reads(&[(SP_RDLEN, length), (SP_WRLEN, length)]);
}

/// The word of this number, eight bytes each.
fn word(memory: &[u8], number: usize) -> &[u8] {
    &memory[8 * number..8 * number + 8]
}

/// M2's load: 12 rows of 8 words, with SKIP 0x20.
fn m2() -> Bench {
    transfer(0x2000, 0, 0x1000, (SP_RDLEN, 0x0200_B03F))
}

#[test]
fn m2_a_row_a_turn_and_the_rest_of_a_row() {
    let mut bench = m2();
    row(&mut bench, 8, 0x1060, 0x40, 0x0200_A038);
    bench.sp_turns(1);
    bench.reads(&[(SP_RAMADDR, 0x1068), (SP_SPADDR, 0x48)]);
    bench.reads(&[(SP_RDLEN, 0x0200_A030)]);
    row(&mut bench, 7, 0x10C0, 0x80, 0x0200_9038);
    row(&mut bench, 8, 0x1120, 0xC0, 0x0200_8038);
    // One word is left of the next row.
    bench.sp_turns(7);
    bench.reads(&[(SP_RDLEN, 0x0200_8000)]);
    row(&mut bench, 1, 0x1180, 0x100, 0x0200_7038);
}

#[test]
fn m3_twelve_rows() {
    let mut bench = m2();
    let before = bench.clone();
    for r in 1..12 {
        let length = 0x0200_0038 | (11 - r) << 12;
        row(&mut bench, 8, 0x1000 + 0x60 * r, 0x40 * r, length);
        bench.reads(&[(SP_DMA_BUSY, 1)]);
    }
    row(&mut bench, 8, 0x1460, 0x300, 0x0200_0FF8);
    bench.reads(&[(SP_DMA_BUSY, 0), (SP_STATUS, 0)]);
    // Row r is the 0x40 bytes from 0x1000 + 0x60 r on.
    for r in 0..12 {
        let from = 0x1000 + 0x60 * r;
        let loaded = &bench.dmem[0x40 * r..0x40 * r + 0x40];
        assert_eq!(loaded, &before.rdram[from..from + 0x40]);
    }
    assert_eq!(bench.dmem[0x300..], before.dmem[0x300..]);
    assert!(bench.rdram == before.rdram && bench.imem == before.imem);
    let ended = bench.clone();
    row(&mut bench, 0, 0x1460, 0x300, 0x0200_0FF8);
    assert!(bench == ended);
}

#[test]
fn m4_the_longest_load_by_rows() {
    let mut bench = Bench::new();
    bench.writes(&[(SP_RDLEN, 0xFFFF_FFFF)]);
    for _ in 0..256 {
        assert_eq!(bench.sp_row(), success(0, 512));
    }
    bench.reads(&[(SP_RAMADDR, 0x1F_E808), (SP_DMA_BUSY, 0)]);
}

#[test]
fn m5_the_row_wraps_in_its_bank() {
    let mut bench = transfer(0x100, 0xFFFF_FFFF, 0x40, (SP_RDLEN, 0x0F));
    let before = bench.clone();
    row(&mut bench, 2, 0x50, 0x1008, 0xFF8);
    assert_eq!(word(&bench.imem, 511), word(&before.rdram, 8));
    assert_eq!(word(&bench.imem, 0), word(&before.rdram, 9));
    assert_eq!(bench.imem[8..0xFF8], before.imem[8..0xFF8]);
    assert!(bench.dmem == before.dmem && bench.rdram == before.rdram);
}

/// At 0x1000 a row of DMEM goes on at its start, and not in IMEM.
#[test]
fn a_row_of_dmem_does_not_run_into_imem() {
    let mut load = transfer(0x100, 0xFF0, 0, (SP_RDLEN, 0x1F));
    let before = load.clone();
    row(&mut load, 4, 0x20, 0x010, 0xFF8);
    assert_eq!(load.dmem[0xFF0..], before.rdram[..0x10]);
    assert_eq!(load.dmem[..0x10], before.rdram[0x10..0x20]);
    assert_eq!(load.dmem[0x10..0xFF0], before.dmem[0x10..0xFF0]);
    assert!(load.imem == before.imem);

    let mut store = transfer(0x100, 0xFF0, 0, (SP_WRLEN, 0x1F));
    row(&mut store, 4, 0x20, 0x010, 0xFF8);
    assert_eq!(store.rdram[..0x10], before.dmem[0xFF0..]);
    assert_eq!(store.rdram[0x10..0x20], before.dmem[..0x10]);
    assert_eq!(store.rdram[0x20..], before.rdram[0x20..]);
    assert!(store.dmem == before.dmem && store.imem == before.imem);
}

/// All 512 words from an offset within the bank, so that the row ends just before it.
#[test]
fn a_row_as_long_as_the_bank() {
    let mut bench = transfer(0x2000, 0x1808, 0x10, (SP_RDLEN, 0x0080_1FFF));
    let before = bench.clone();
    row(&mut bench, 512, 0x1018, 0x1808, 0x0080_0FF8);
    assert_eq!(bench.imem[0x808..], before.rdram[0x10..0x808]);
    assert_eq!(bench.imem[..0x808], before.rdram[0x808..0x1010]);
    assert!(bench.dmem == before.dmem);
}

/// Past 0xFFFFF8 comes 0. The words below it are not fitted here: they load zeros.
#[test]
fn a_load_at_the_top_of_rdram() {
    let mut bench = transfer(0x20, 0x100, 0xFF_FFF0, (SP_RDLEN, 0x1F));
    let before = bench.clone();
    row(&mut bench, 4, 0x10, 0x120, 0xFF8);
    assert_eq!(bench.dmem[0x100..0x110], [0; 0x10]);
    assert_eq!(bench.dmem[0x110..0x120], before.rdram[..0x10]);
    assert_eq!(bench.dmem[0x120..], before.dmem[0x120..]);
}

#[test]
fn a_store_at_the_top_of_rdram() {
    let mut bench = transfer(0x20, 0x100, 0xFF_FFF0, (SP_WRLEN, 0x1F));
    let before = bench.clone();
    row(&mut bench, 4, 0x10, 0x120, 0xFF8);
    assert_eq!(bench.rdram[..0x10], before.dmem[0x110..0x120]);
    assert_eq!(bench.rdram[0x10..], before.rdram[0x10..]);
}

/// The longest RDRAM has every address: nothing reads as zeros and nothing is dropped.
#[test]
fn rows_at_the_top_of_the_longest_rdram() {
    let mut load = transfer(16_777_216, 0x1000, 0xFF_FFF0, (SP_RDLEN, 0x1F));
    let top = load.rdram[0xFF_FFF0..].to_vec();
    row(&mut load, 4, 0x10, 0x1020, 0xFF8);
    assert_eq!(load.imem[..0x20], [&top, &load.rdram[..0x10]].concat());

    load.writes(&[(SP_SPADDR, 0), (SP_WRLEN, 0x1F)]);
    row(&mut load, 4, 0x10, 0x20, 0xFF8);
    assert_eq!(load.rdram[0xFF_FFF0..], load.dmem[..0x10]);
    assert_eq!(load.rdram[..0x10], load.dmem[0x10..0x20]);
}

/// SKIP wraps too, and only after a row that is not the last.
#[test]
fn skip_at_the_top_of_rdram() {
    let mut bench = transfer(0, 0, 0xFF_FFE0, (SP_RDLEN, 0x0100_1007));
    row(&mut bench, 1, 0xFF_FFF8, 8, 0x0100_0000);
    row(&mut bench, 1, 0, 0x10, 0x0100_0FF8);
    let mut bench = transfer(0, 0, 0xFF_FFE0, (SP_RDLEN, 0x0200_1007));
    row(&mut bench, 1, 8, 8, 0x0200_0000);
}

/// RDRAM ends after the second word: the others load zeros, or are dropped, and count.
#[test]
fn a_row_partly_past_the_lent_length() {
    let mut load = transfer(0x18, 0x200, 8, (SP_RDLEN, 0x27));
    let before = load.clone();
    row(&mut load, 5, 0x30, 0x228, 0xFF8);
    assert_eq!(load.dmem[0x200..0x210], before.rdram[8..]);
    assert_eq!(load.dmem[0x210..0x228], [0; 0x18]);
    assert_eq!(load.dmem[0x228..], before.dmem[0x228..]);

    let mut store = transfer(0x18, 0x200, 8, (SP_WRLEN, 0x27));
    row(&mut store, 5, 0x30, 0x228, 0xFF8);
    assert_eq!(store.rdram[..8], before.rdram[..8]);
    assert_eq!(store.rdram[8..], before.dmem[0x200..0x210]);
    assert!(store.dmem == before.dmem && store.imem == before.imem);
}

#[test]
fn a_row_with_no_rdram_at_all() {
    let mut load = transfer(0, 0xFF8, 0, (SP_RDLEN, 0x17));
    let before = load.clone();
    row(&mut load, 3, 0x18, 0x010, 0xFF8);
    assert_eq!(word(&load.dmem, 511), [0; 8]);
    assert_eq!(load.dmem[..0x10], [0; 0x10]);
    assert_eq!(load.dmem[0x10..0xFF8], before.dmem[0x10..0xFF8]);
    let mut store = transfer(0, 0xFF8, 0, (SP_WRLEN, 0x17));
    row(&mut store, 3, 0x18, 0x010, 0xFF8);
    assert!(store.dmem == before.dmem && store.imem == before.imem);
}

/// Five words over the bank's end, the top of RDRAM and the lent length, in this order.
#[test]
fn a_row_over_all_three() {
    let mut load = transfer(0x10, 0x1FF8, 0xFF_FFF0, (SP_RDLEN, 0x27));
    let before = load.clone();
    row(&mut load, 5, 0x18, 0x1020, 0xFF8);
    assert_eq!(word(&load.imem, 511), [0; 8]);
    assert_eq!(word(&load.imem, 0), [0; 8]);
    assert_eq!(load.imem[8..0x18], before.rdram[..]);
    assert_eq!(word(&load.imem, 3), [0; 8]);
    assert_eq!(load.imem[0x20..0xFF8], before.imem[0x20..0xFF8]);

    let mut store = transfer(0x10, 0x1FF8, 0xFF_FFF0, (SP_WRLEN, 0x27));
    row(&mut store, 5, 0x18, 0x1020, 0xFF8);
    assert_eq!(store.rdram, before.imem[8..0x18]);
}

/// The transfer that waits starts in the same call, and no word of it is moved.
#[test]
fn a_waiting_transfer_of_the_other_direction() {
    let mut bench = transfer(0x100, 0x40, 0x80, (SP_RDLEN, 0x0080_100F));
    bench.writes(&[(SP_SPADDR, 0x1010), (SP_RAMADDR, 0x20)]);
    bench.writes(&[(SP_WRLEN, 0x0180_2017)]);
    let before = bench.clone();
    row(&mut bench, 2, 0x98, 0x50, 0x0080_0008);
    bench.reads(&[(SP_DMA_FULL, 1), (SP_DMA_BUSY, 1)]);
    assert_eq!((bench.state.sp.storing, bench.state.sp.row_len), (0, 8));
    row(&mut bench, 2, 0x20, 0x1010, 0x0180_2010);
    bench.reads(&[(SP_DMA_FULL, 0), (SP_DMA_BUSY, 1)]);
    assert_eq!((bench.state.sp.storing, bench.state.sp.row_len), (1, 0x10));
    assert_eq!(bench.dmem[0x40..0x50], before.rdram[0x80..0x90]);
    assert_eq!(bench.dmem[0x50..0x60], before.rdram[0x98..0xA8]);
    assert!(bench.rdram == before.rdram && bench.imem == before.imem);
    row(&mut bench, 3, 0x50, 0x1028, 0x0180_1010);
    assert_eq!(bench.rdram[0x20..0x38], before.imem[0x10..0x28]);
    assert_eq!(bench.rdram[0x38..], before.rdram[0x38..]);
}

/// A load that waits behind a store; what waited keeps its values.
#[test]
fn a_waiting_load_behind_the_last_word_of_a_store() {
    let mut bench = transfer(0x100, 0x40, 0x80, (SP_WRLEN, 0x07));
    bench.writes(&[(SP_SPADDR, 0x1010), (SP_RAMADDR, 0x20)]);
    bench.writes(&[(SP_RDLEN, 0xFFFF_FFFF)]);
    let waited = bench.state.sp;
    row(&mut bench, 1, 0x20, 0x1010, 0xFF8F_FFF8);
    let sp = bench.state.sp;
    assert_eq!((sp.full, sp.storing, sp.row_len), (0, 0, 0xFF8));
    assert_eq!((sp.waiting_word, sp.waiting_storing), (0xFFFF_FFFF, 0));
    assert_eq!(
        (sp.sp_latch, sp.ram_latch),
        (waited.sp_latch, waited.ram_latch)
    );
}

/// ROW is looked at where the next row begins, and not before.
#[test]
fn a_handed_in_row_is_as_long_as_len_says() {
    for (len, words) in [(0, 1), (0x10, 3), (0xFF0, 511), (0xFF8, 512)] {
        let mut bench = transfer(0x2000, 0, 0, (SP_RDLEN, 0x0000_3FFF));
        bench.state.sp.len = len;
        row(&mut bench, words, 8 * words, 8 * words % 0x1000, 0x2FF8);
    }
}

/// HALTED does not stop a row, and nothing but the transfer's registers changes.
#[test]
fn a_row_leaves_all_else_as_it_was() {
    let mut bench = Bench::new();
    bench.state = full_state();
    bench.state.sp.halted = 1;
    bench.fill();
    let mut expected = bench.state.clone();
    let sp = &mut expected.sp;
    // Seven words at SPADDR 0x1018 and RAMADDR 0x20, and then SKIP 0x50.
    (sp.sp_addr, sp.ram_addr) = (0x1050, 0x20 + 0x38 + 0x50);
    (sp.len, sp.count) = (0x60, 0x3F);
    assert_eq!(bench.sp_row(), success(0, 7));
    assert_eq!(bench.state, expected);
}

#[test]
fn an_idle_row_changes_nothing() {
    let mut bench = Bench::running();
    bench.state.sp.busy = 0;
    // An idle engine may have any LEN.
    bench.state.sp.len = 0xFF8;
    let before = bench.clone();
    assert_eq!(bench.sp_row(), success(0, 0));
    assert!(bench == before);
}

/// Each wrong input with each later one, on an engine that would move a word and on an
/// idle one. The first in the table is given, and all is as it was.
#[test]
fn refusals_of_a_row() {
    for (wrong, busy) in (0..16).flat_map(|wrong| [(wrong, 0), (wrong, 1)]) {
        let is = |bit: u32| wrong >> bit & 1 == 1;
        let mut bench = Bench::running();
        bench.state.sp.busy = busy;
        bench.rdram.truncate(if is(0) { 4_092 } else { 4_096 });
        bench.dmem.truncate(if is(1) { 4_088 } else { BANK });
        bench.imem.truncate(if is(2) { 0 } else { BANK });
        bench.state.sp.halted = if is(3) { 2 } else { 1 };
        let before = bench.clone();
        let (rdram, dmem, imem) = (&mut bench.rdram, &mut bench.dmem, &mut bench.imem);
        let outcome = sp_row(&before.state, rdram, dmem, imem);
        let Some(first) = (0..4).find(|bit| is(*bit)) else {
            let words = if busy == 1 { 4 } else { 0 };
            assert_eq!(outcome.answer, success(0, words));
            continue;
        };
        assert_eq!(outcome, declined(&before.state, first + 1));
        assert!(bench == before);
    }
}

/// LEN/8 + 1 turns, and a run with that budget, leave what the row leaves.
#[test]
fn a_row_is_its_turns() {
    let mut random = Random(0x0F1E_2D3C_4B5A_6978);
    let mut rows = [0; 3];
    for _ in 0..3_000 {
        let mut bench = Bench::new();
        bench.rdram = vec![0; random.number() as usize % 0x400 * 8];
        bench.fill();
        bench.state = random.sound_state();
        let sp = bench.state.sp;
        let words = match sp.busy {
            0 => 0,
            _ => sp.len / 8 + 1,
        };
        let [mut turned, mut run] = [bench.clone(), bench.clone()];
        turned.sp_turns(words);
        assert_eq!(run.run_sp(words), success(0, words));
        assert_eq!(bench.sp_row(), success(0, words));
        assert!(bench == turned && bench == run, "{sp:?}");
        rows[usize::from(sp.busy + sp.full)] += 1;
    }
    // Idle ones, busy ones and those with a transfer that waits.
    assert!(rows.iter().all(|seen| *seen >= 300), "{rows:?}");
}
