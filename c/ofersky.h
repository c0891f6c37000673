/* Two DMA engines over lent memory, sixteen registers and two interrupt lines; recordings and
 * their replay. Version 0.8.0.
 *
 * Link crates/ofersky/out/libofersky.a, which `rt lib` writes there (x86-64 Linux).
 *
 * Every call takes every value of its parameters and answers it. Bad input is refused by the first
 * number that applies: the state comes back as handed in, value, count and words are 0, and no
 * lent byte differs. There are two exceptions:
 *
 * - A replay that is refused at a record. What the records before it did stays done, the count is
 *   their number, and the listing is written.
 * - A burst of register writes that is refused at a pair, by OFERSKY_ERR_MISALIGNED or
 *   OFERSKY_ERR_NO_REGISTER. What the pairs before it did stays done, and the count is their
 *   number.
 *
 * What a caller owes is what C always asks. A pointer points to as many bytes, or in a burst to as
 * many 32-bit numbers, as the length beside it says; with length 0 it is still not NULL. Memory
 * that a call may write overlaps nothing else that the call is lent.
 */
#ifndef OFERSKY_H
#define OFERSKY_H

#include <stdbool.h>
#include <stddef.h>
#include <stdint.h>

#ifdef __cplusplus
extern "C" {
#endif

/* ---- Version ---------------------------------------------------------------------------------
 *
 * 10,000 * major + 100 * minor + patch. While the major number is 0, the minor number moves when a
 * program may have to change or may be answered differently: a struct's layout or field names, a
 * call's name or parameters, the answer to some input. The patch number moves with additions and
 * everything else. A program and a library fit if major and minor are the same:
 *
 *     if (ofersky_version() / 100 != OFERSKY_VERSION / 100) ...
 */
#define OFERSKY_VERSION 800
#define OFERSKY_VERSION_STRING "0.8.0"

/* The OFERSKY_VERSION that the library was built with. */
uint32_t ofersky_version(void);

/* ---- Numbers: what a call answers -------------------------------------------------------------
 *
 * A call gives the first that applies, in this order: 9, 11, 1, 2, 3, 4, 7, 8, 10, 5, 6, 14. Each
 * call names those that it can give.
 */
#define OFERSKY_OK 0
#define OFERSKY_ERR_RDRAM_LENGTH 1
#define OFERSKY_ERR_DMEM_LENGTH 2
#define OFERSKY_ERR_IMEM_LENGTH 3
#define OFERSKY_ERR_UNSOUND_STATE 4
#define OFERSKY_ERR_NO_REGISTER 5
#define OFERSKY_ERR_MEMORY_ADDRESS 6
#define OFERSKY_ERR_UNKNOWN_KIND 7
#define OFERSKY_ERR_CUT_SHORT 8
#define OFERSKY_ERR_RECORDING_TOO_LONG 9
#define OFERSKY_ERR_MISALIGNED 10
#define OFERSKY_ERR_BURST_LENGTHS 11
#define OFERSKY_ERR_NO_ROOM 14

/* One short sentence for a number, without a full stop. Any number is safe. */
static inline const char *ofersky_message(uint32_t number) {
    switch (number) {
    case OFERSKY_OK: return "success";
    case OFERSKY_ERR_RDRAM_LENGTH:
        return "RDRAM length is not a multiple of 8 from 0 to 16,777,216";
    case OFERSKY_ERR_DMEM_LENGTH: return "DMEM length is not 4,096";
    case OFERSKY_ERR_IMEM_LENGTH: return "IMEM length is not 4,096";
    case OFERSKY_ERR_UNSOUND_STATE: return "state is not sound";
    case OFERSKY_ERR_NO_REGISTER: return "no register at this address";
    case OFERSKY_ERR_MEMORY_ADDRESS: return "memory address not allowed";
    case OFERSKY_ERR_UNKNOWN_KIND: return "unknown record kind";
    case OFERSKY_ERR_CUT_SHORT: return "record is cut short";
    case OFERSKY_ERR_RECORDING_TOO_LONG: return "recording is longer than 16,383 bytes";
    case OFERSKY_ERR_MISALIGNED: return "register address is not a multiple of 4";
    case OFERSKY_ERR_BURST_LENGTHS:
        return "burst has two lengths that differ, or more than 64 pairs";
    case OFERSKY_ERR_NO_ROOM: return "record would end past the buffer or past 16,383 bytes";
    default: return "not a number of this library";
    }
}

/* ---- Register addresses -----------------------------------------------------------------------
 *
 * The DP registers are mirrored every OFERSKY_DP_MIRROR_BYTES bytes, up to 0x041FFFFC.
 */
#define OFERSKY_SP_SPADDR 0x04040000u
#define OFERSKY_SP_RAMADDR 0x04040004u
#define OFERSKY_SP_RDLEN 0x04040008u /* a write loads: RDRAM into DMEM or IMEM */
#define OFERSKY_SP_WRLEN 0x0404000Cu /* a write stores: DMEM or IMEM into RDRAM */
#define OFERSKY_SP_STATUS 0x04040010u
#define OFERSKY_SP_DMA_FULL 0x04040014u
#define OFERSKY_SP_DMA_BUSY 0x04040018u
#define OFERSKY_SP_SEMAPHORE 0x0404001Cu

#define OFERSKY_DP_START 0x04100000u
#define OFERSKY_DP_END 0x04100004u
#define OFERSKY_DP_CURRENT 0x04100008u
#define OFERSKY_DP_STATUS 0x0410000Cu
#define OFERSKY_DP_CLOCK 0x04100010u
#define OFERSKY_DP_CMD_BUSY 0x04100014u
#define OFERSKY_DP_PIPE_BUSY 0x04100018u
#define OFERSKY_DP_TMEM_BUSY 0x0410001Cu
#define OFERSKY_DP_MIRROR_BYTES 0x20u

/* ---- Bits of SP STATUS ------------------------------------------------------------------------
 *
 * Where a write has both bits of a CLR and SET pair on, neither acts. n is 0 to 7.
 */
#define OFERSKY_SP_STATUS_HALTED 0x0001u
#define OFERSKY_SP_STATUS_BROKE 0x0002u
#define OFERSKY_SP_STATUS_DMA_BUSY 0x0004u
#define OFERSKY_SP_STATUS_DMA_FULL 0x0008u
#define OFERSKY_SP_STATUS_SSTEP 0x0020u
#define OFERSKY_SP_STATUS_INTBREAK 0x0040u
#define OFERSKY_SP_STATUS_SIG(n) (0x0080u << (n))

#define OFERSKY_SP_STATUS_CLR_HALT 0x0001u
#define OFERSKY_SP_STATUS_SET_HALT 0x0002u
#define OFERSKY_SP_STATUS_CLR_BROKE 0x0004u
#define OFERSKY_SP_STATUS_CLR_INTR 0x0008u /* lowers the SP interrupt line */
#define OFERSKY_SP_STATUS_SET_INTR 0x0010u /* raises it */
#define OFERSKY_SP_STATUS_CLR_SSTEP 0x0020u
#define OFERSKY_SP_STATUS_SET_SSTEP 0x0040u
#define OFERSKY_SP_STATUS_CLR_INTBREAK 0x0080u
#define OFERSKY_SP_STATUS_SET_INTBREAK 0x0100u
#define OFERSKY_SP_STATUS_CLR_SIG(n) (0x0200u << 2 * (n))
#define OFERSKY_SP_STATUS_SET_SIG(n) (0x0400u << 2 * (n))

/* ---- Bits of DP STATUS ----------------------------------------------------------------------- */
#define OFERSKY_DP_STATUS_XBUS 0x0001u /* lists are fetched from DMEM */
#define OFERSKY_DP_STATUS_FREEZE 0x0002u
#define OFERSKY_DP_STATUS_FLUSH 0x0004u
#define OFERSKY_DP_STATUS_START_GCLK 0x0008u /* always the same as PIPE_BUSY */
#define OFERSKY_DP_STATUS_PIPE_BUSY 0x0020u
#define OFERSKY_DP_STATUS_CMD_BUSY 0x0040u /* a word is queued */
#define OFERSKY_DP_STATUS_READY 0x0080u    /* always on */
#define OFERSKY_DP_STATUS_DMA_BUSY 0x0100u /* a list runs */
#define OFERSKY_DP_STATUS_END_PENDING 0x0200u
#define OFERSKY_DP_STATUS_START_PENDING 0x0400u

#define OFERSKY_DP_STATUS_CLR_XBUS 0x0001u
#define OFERSKY_DP_STATUS_SET_XBUS 0x0002u
#define OFERSKY_DP_STATUS_CLR_FREEZE 0x0004u
#define OFERSKY_DP_STATUS_SET_FREEZE 0x0008u
#define OFERSKY_DP_STATUS_CLR_FLUSH 0x0010u
#define OFERSKY_DP_STATUS_SET_FLUSH 0x0020u     /* also empties the queue */
#define OFERSKY_DP_STATUS_CLR_TMEM_BUSY 0x0040u /* this and the next three: counter to 0 */
#define OFERSKY_DP_STATUS_CLR_PIPE_BUSY 0x0080u
#define OFERSKY_DP_STATUS_CLR_CMD_BUSY 0x0100u
#define OFERSKY_DP_STATUS_CLR_CLOCK 0x0200u

/* ---- Kinds of records, and addresses in STORE and CHECK -------------------------------------- */
#define OFERSKY_KIND_WRITE 1       /* address, value: writes a register */
#define OFERSKY_KIND_READ 2        /* address, expected value: reads a register and compares */
#define OFERSKY_KIND_SP_RUN 3      /* budget */
#define OFERSKY_KIND_DP_RUN 4      /* budget, for the DP and for the consumer */
#define OFERSKY_KIND_TICK 5        /* number of ticks */
#define OFERSKY_KIND_BREAK 6       /* the SP meets a BREAK */
#define OFERSKY_KIND_ACKNOWLEDGE 7 /* lowers the DP interrupt line */
#define OFERSKY_KIND_STORE 8       /* address, word: stores to memory */
#define OFERSKY_KIND_CHECK 9       /* address, expected word: reads memory and compares */
#define OFERSKY_KIND_RUN 10        /* SP budget, DP budget */

#define OFERSKY_RECORD_DMEM 0x04000000u /* addresses from 0 on are of RDRAM */
#define OFERSKY_RECORD_IMEM 0x04001000u

/* ---- Sizes ----------------------------------------------------------------------------------- */
#define OFERSKY_RDRAM_BYTES_MAX 16777216 /* RDRAM may have any multiple of 8 up to this */
#define OFERSKY_BANK_BYTES 4096          /* DMEM and IMEM have this each */
#define OFERSKY_QUEUE_WORDS 32
#define OFERSKY_BURST_PAIRS_MAX 64
#define OFERSKY_RECORDING_BYTES_MAX 16383
#define OFERSKY_LISTING_BYTES 69204 /* so many bytes always suffice for a listing */

/* ---- Verdicts of replays ----------------------------------------------------------------------
 *
 * No verdict is 0 or the number of a refusal, so that a variable nobody set is no pass.
 */
#define OFERSKY_PASSED 100           /* it came to its end, and all comparisons were as expected */
#define OFERSKY_DIFFERS 101          /* it came to its end, and some comparison was not */
#define OFERSKY_NOTHING_COMPARED 102 /* it came to its end, and nothing was compared */
#define OFERSKY_REFUSED 103          /* it did not come to its end, whatever was compared before */

/* ---- Structs --------------------------------------------------------------------------------- */

/* The registers of the SP engine. A flag is a byte, 0 or 1; any other byte makes the state
 * unsound. */
typedef struct {
    uint32_t sp_latch, ram_latch; /* SPADDR and RAMADDR as written; the next transfer uses them */
    uint32_t sp_addr, ram_addr;   /* the running or last transfer; bit 12 of sp_addr: IMEM */
    uint32_t len, count, skip;
    uint32_t row_len;      /* LEN at the start of the transfer */
    uint32_t waiting_word; /* the length word that waits, or waited last */
    uint8_t busy, storing; /* storing: from the bank into RDRAM */
    uint8_t full;
    uint8_t waiting_storing; /* the direction that waits, or waited last */
    uint8_t halted, broke, single_step, interrupt_on_break;
    uint8_t signals; /* no flag: SIG0 to SIG7 are bits 0 to 7 */
    uint8_t line;    /* the SP interrupt line */
    uint8_t semaphore;
} ofersky_sp;

/* The registers of the DP engine. */
typedef struct {
    uint32_t start, end;     /* as last written */
    uint32_t current, limit; /* the running list: its next word's address, and its end */
    uint32_t clock, cmd_busy_count, pipe_busy_count, tmem_busy_count;
    uint8_t start_pending, end_pending;
    uint8_t xbus, freeze, flush;
    uint8_t pipe_busy;    /* a fetched word turns it on; a SYNC_FULL, when consumed, turns it off */
    uint8_t words_left;   /* no flag: words left of the command that is being consumed */
    uint8_t line;         /* the DP interrupt line */
    uint8_t queued, head; /* no flags: number of queued words; slot of the oldest, below 32 */
} ofersky_dp;

/* Both engines, and the words that were fetched and not yet consumed. These are in a ring of 32
 * slots: the oldest in slot dp.head, the next in the slot after it, and slot 0 comes after slot
 * 31. ofersky_queued_word reads them. dp.head, and slots without a queued word, are
 * representation: no answer depends on them, but memcmp sees them. */
typedef struct {
    ofersky_sp sp;
    ofersky_dp dp;
    uint64_t queue[OFERSKY_QUEUE_WORDS];
} ofersky_state;

typedef struct {
    uint32_t number; /* OFERSKY_OK or an OFERSKY_ERR_ number */
    uint64_t value;
    uint32_t count;
} ofersky_answer;

typedef struct {
    ofersky_state state;
    ofersky_answer answer;
} ofersky_outcome;

/* What a run gives. */
typedef struct {
    ofersky_outcome outcome; /* its count is the number of words that the SP moved */
    uint32_t words;          /* the number of words that were consumed; they are in out */
} ofersky_ran;

/* Where the next drawing word is: in RDRAM (memory 0) or in DMEM (memory 1), length bytes from
 * offset on. The length is 8, or 0. */
typedef struct {
    uint32_t memory, offset, length;
} ofersky_part;

/* A record. The value is the second field of kinds 1, 2, 8 and 9, and the only field of kinds 3, 4
 * and 5; of kind 10 its upper half is the SP's budget and its lower half the budget of the DP and
 * of the consumer. A field that a kind does not have is 0 in a record that was read, and is
 * ignored in one that is written. */
typedef struct {
    uint64_t value;
    uint32_t address;
    uint8_t kind;
} ofersky_record;

/* The record and the place after it; when refused: kind 0, place 0 and the number. */
typedef struct {
    ofersky_record item;
    size_t place;
    uint32_t number;
} ofersky_reading;

/* What the reads (kind 2) and checks (kind 9) of a replay found, over the accepted records,
 * whatever stopped it. All of it is 0 for a replay that did not begin (9, 1, 2, 3, 4). */
typedef struct {
    uint32_t compared;    /* how many were compared with what they expect */
    uint32_t differed;    /* how many of them found something else */
    uint32_t first_index; /* the first that differed: its index among all records, from 0 on */
    size_t first_place;   /* and the byte of the recording where it begins; both 0 if none */
} ofersky_findings;

typedef struct {
    ofersky_outcome outcome; /* its count is the number of accepted records */
    size_t written;          /* bytes of the listing */
    size_t place;            /* where the refused record begins; 0 if no record was refused */
    ofersky_findings findings;
} ofersky_replayed;

/* ---- Calls ----------------------------------------------------------------------------------- */

/* Every register and flag zero. */
ofersky_state ofersky_power_up(void);

/* Whether the calls accept a state. */
bool ofersky_is_sound(ofersky_state s);

/* The i-th queued word, for i below dp.queued; 0 is the oldest. Any state and any i are safe. */
static inline uint64_t ofersky_queued_word(const ofersky_state *s, uint32_t i) {
    return s->queue[(s->dp.head + i) % OFERSKY_QUEUE_WORDS];
}

/* Reads or writes a register. Refusals: 4, 10, 5. */
ofersky_outcome ofersky_read_register(ofersky_state s, uint32_t address);
ofersky_outcome ofersky_write_register(ofersky_state s, uint32_t address, uint32_t value);

/* A burst: writes value k at address k, one pair after the other, each on the state that the last
 * one left, up to the first pair that is refused. The count is the number of pairs written. Both
 * lengths are numbers of pairs, from 0 to 64. Refusals: 11 and 4, with nothing done; then those of
 * a pair: 10, 5. */
ofersky_outcome ofersky_write_registers(ofersky_state s, const uint32_t *addresses,
                                        size_t addresses_length, const uint32_t *values,
                                        size_t values_length);

/* Adds n to CLOCK, to CMD_BUSY if a word is queued and to PIPE_BUSY if that flag is on; the SP
 * meets a BREAK; the DP interrupt is acknowledged. Refusal: 4. */
ofersky_outcome ofersky_tick(ofersky_state s, uint32_t n);
ofersky_outcome ofersky_sp_break(ofersky_state s);
ofersky_outcome ofersky_acknowledge(ofersky_state s);

/* One SP turn: moves one word. The count is 1, or 0 if the engine is idle. Refusals: 1, 2, 3, 4. */
ofersky_outcome ofersky_sp_turn(ofersky_state s, uint8_t *rdram, size_t rdram_bytes, uint8_t *dmem,
                                size_t dmem_bytes, uint8_t *imem, size_t imem_bytes);

/* Finishes the current row: LEN / 8 + 1 SP turns in one call, or none if the engine is idle. After
 * the last row a waiting transfer has started, and no word of it is moved. The count is the number
 * of words moved; words past the end of RDRAM, which read as zeros or are dropped, count too.
 * Refusals: 1, 2, 3, 4. */
ofersky_outcome ofersky_sp_row(ofersky_state s, uint8_t *rdram, size_t rdram_bytes, uint8_t *dmem,
                               size_t dmem_bytes, uint8_t *imem, size_t imem_bytes);

/* One DP turn: fetches the word at CURRENT into the queue, if a list runs, FREEZE is off and fewer
 * than 32 words are queued. The count is 1 if it fetched, else 0. Refusals: 1, 2, 4. */
ofersky_outcome ofersky_dp_turn(ofersky_state s, const uint8_t *rdram, size_t rdram_bytes,
                                const uint8_t *dmem, size_t dmem_bytes);

/* One consumer turn: takes the oldest word from the queue, if there is one and FREEZE is off. The
 * value is the word and the count 1; otherwise both are 0. A SYNC_FULL turns PIPE_BUSY off and
 * raises the DP line here. Refusal: 4. */
ofersky_outcome ofersky_consumer_turn(ofersky_state s);

/* Rounds of SP turn, DP turn, consumer turn. A turn is passed over where it would do nothing or
 * its budget is used, and the consumer's also where out has fewer than 8 bytes left; a turn that
 * is passed over uses no budget. The run ends when all three would be passed over: without room in
 * out the DP still fetches until the queue is full, and the next run begins with those words. The
 * consumed words are in out, in order from its start; the rest of out is as before. Where the SP
 * writes bytes that are yet to be fetched, this order decides. Refusals: 1, 2, 3, 4. */
ofersky_ran ofersky_run(ofersky_state s, uint32_t sp_budget, uint32_t dp_budget,
                        uint32_t consumer_budget, uint8_t *rdram, size_t rdram_bytes, uint8_t *dmem,
                        size_t dmem_bytes, uint8_t *imem, size_t imem_bytes, uint8_t *out,
                        size_t out_bytes);

/* Where the word at CURRENT is, which the next fetch takes, also while the queue is full; or an
 * empty part. It has no number. */
ofersky_part ofersky_look_ahead(ofersky_state s, const uint8_t *rdram, size_t rdram_bytes,
                                const uint8_t *dmem, size_t dmem_bytes);

/* The record at a place of a recording. Refusals: 9, 7, 8; then 10 and 5 for the address of a
 * register, 6 for one of memory. */
ofersky_reading ofersky_read_record(const uint8_t *recording, size_t recording_bytes, size_t place);

/* Writes a record into a buffer, from a place on. The value is the place after it; no other byte
 * of the buffer differs. The upper half of the value is ignored in kinds 1 to 5. Refusals: 7; 10,
 * 5 or 6 as in reading; then 14. */
ofersky_answer ofersky_write_record(ofersky_record item, uint8_t *buffer, size_t buffer_bytes,
                                    size_t place);

/* Replays a recording and writes its listing to out. It stops at the first record that is refused.
 * A record of kind 3 is a run with the budgets b, 0, 0; of kind 4 with 0, b, b; of kind 10 with a,
 * b, b. Each such run has room for 256 consumed words; words that are queued then wait for the
 * next run. Refusals: 9, 1, 2, 3, 4 before the first record; then those of a record: 7, 8, 10, 5,
 * 6. */
ofersky_replayed ofersky_replay(ofersky_state s, const uint8_t *recording, size_t recording_bytes,
                                uint8_t *rdram, size_t rdram_bytes, uint8_t *dmem,
                                size_t dmem_bytes, uint8_t *imem, size_t imem_bytes, uint8_t *out,
                                size_t out_bytes);

/* The verdict of what a replay gave, for every value of the struct: OFERSKY_REFUSED if its number
 * is not 0; else OFERSKY_DIFFERS if differed is above 0; else OFERSKY_NOTHING_COMPARED if compared
 * is 0; else OFERSKY_PASSED. */
uint32_t ofersky_verdict(ofersky_replayed r);

#ifdef __cplusplus
}
#endif

#endif
