/* Calls every function of the library from C, with good and bad input, and checks the answers
 * against values worked out from the rules. The layout of every struct is checked at compile time.
 *
 *     (cd crates/ofersky && rt lib)
 *     cc -I c c/every_call.c crates/ofersky/out/libofersky.a -o every_call && ./every_call
 *
 * It writes a line for each message and for each check that fails, and last how many there were.
 * Its status is 0 if none failed.
 */
#include "ofersky.h"

#include <inttypes.h>
#include <stdio.h>
#include <string.h>

#define SIZE(type, bytes) _Static_assert(sizeof(type) == (bytes), #type " has another size")
#define AT(type, field, place)                                                                     \
    _Static_assert(offsetof(type, field) == (place), #type "." #field " is at another place")

SIZE(ofersky_sp, 48);
AT(ofersky_sp, sp_latch, 0);
AT(ofersky_sp, ram_latch, 4);
AT(ofersky_sp, sp_addr, 8);
AT(ofersky_sp, ram_addr, 12);
AT(ofersky_sp, len, 16);
AT(ofersky_sp, count, 20);
AT(ofersky_sp, skip, 24);
AT(ofersky_sp, row_len, 28);
AT(ofersky_sp, waiting_word, 32);
AT(ofersky_sp, busy, 36);
AT(ofersky_sp, storing, 37);
AT(ofersky_sp, full, 38);
AT(ofersky_sp, waiting_storing, 39);
AT(ofersky_sp, halted, 40);
AT(ofersky_sp, broke, 41);
AT(ofersky_sp, single_step, 42);
AT(ofersky_sp, interrupt_on_break, 43);
AT(ofersky_sp, signals, 44);
AT(ofersky_sp, line, 45);
AT(ofersky_sp, semaphore, 46);

SIZE(ofersky_dp, 44);
AT(ofersky_dp, start, 0);
AT(ofersky_dp, end, 4);
AT(ofersky_dp, current, 8);
AT(ofersky_dp, limit, 12);
AT(ofersky_dp, clock, 16);
AT(ofersky_dp, cmd_busy_count, 20);
AT(ofersky_dp, pipe_busy_count, 24);
AT(ofersky_dp, tmem_busy_count, 28);
AT(ofersky_dp, start_pending, 32);
AT(ofersky_dp, end_pending, 33);
AT(ofersky_dp, xbus, 34);
AT(ofersky_dp, freeze, 35);
AT(ofersky_dp, flush, 36);
AT(ofersky_dp, pipe_busy, 37);
AT(ofersky_dp, words_left, 38);
AT(ofersky_dp, line, 39);
AT(ofersky_dp, queued, 40);
AT(ofersky_dp, head, 41);

SIZE(ofersky_state, 352);
AT(ofersky_state, sp, 0);
AT(ofersky_state, dp, 48);
AT(ofersky_state, queue, 96);

SIZE(ofersky_answer, 24);
AT(ofersky_answer, number, 0);
AT(ofersky_answer, value, 8);
AT(ofersky_answer, count, 16);

SIZE(ofersky_outcome, 376);
AT(ofersky_outcome, state, 0);
AT(ofersky_outcome, answer, 352);

SIZE(ofersky_ran, 384);
AT(ofersky_ran, outcome, 0);
AT(ofersky_ran, words, 376);

SIZE(ofersky_part, 12);
AT(ofersky_part, memory, 0);
AT(ofersky_part, offset, 4);
AT(ofersky_part, length, 8);

SIZE(ofersky_record, 16);
AT(ofersky_record, value, 0);
AT(ofersky_record, address, 8);
AT(ofersky_record, kind, 12);

SIZE(ofersky_reading, 32);
AT(ofersky_reading, item, 0);
AT(ofersky_reading, place, 16);
AT(ofersky_reading, number, 24);

SIZE(ofersky_findings, 24);
AT(ofersky_findings, compared, 0);
AT(ofersky_findings, differed, 4);
AT(ofersky_findings, first_index, 8);
AT(ofersky_findings, first_place, 16);

SIZE(ofersky_replayed, 416);
AT(ofersky_replayed, outcome, 0);
AT(ofersky_replayed, written, 376);
AT(ofersky_replayed, place, 384);
AT(ofersky_replayed, findings, 392);

static uint8_t rdram[512], dmem[OFERSKY_BANK_BYTES], imem[OFERSKY_BANK_BYTES], out[32];
static unsigned checks, failures;

/* RDRAM, DMEM and IMEM with their lengths, as calls take them. */
#define BANKS dmem, sizeof dmem, imem, sizeof imem
#define MEMORY rdram, sizeof rdram, BANKS
#define EXPECT(given, expected) expect(__LINE__, #given, (uint64_t)(given), (uint64_t)(expected))

static void expect(int line, const char *what, uint64_t given, uint64_t expected) {
    checks++;
    if (given == expected) return;
    failures++;
    printf("line %d: %s is %" PRIX64 ", expected %" PRIX64 "\n", line, what, given, expected);
}

static ofersky_state written(ofersky_state s, uint32_t address, uint32_t value) {
    ofersky_outcome o = ofersky_write_register(s, address, value);
    EXPECT(o.answer.number, OFERSKY_OK);
    return o.state;
}

static uint64_t value_of(ofersky_state s, uint32_t address) {
    ofersky_outcome o = ofersky_read_register(s, address);
    EXPECT(o.answer.number, OFERSKY_OK);
    return o.answer.value;
}

/* A refused call: number, value and count 0, and the state as handed in. */
static void expect_refused(ofersky_outcome o, uint32_t number, ofersky_state s) {
    EXPECT(o.answer.number, number);
    EXPECT(o.answer.value, 0);
    EXPECT(o.answer.count, 0);
    EXPECT(memcmp(&o.state.sp, &s.sp, offsetof(ofersky_sp, semaphore) + 1), 0);
    EXPECT(memcmp(&o.state.dp, &s.dp, offsetof(ofersky_dp, head) + 1), 0);
    EXPECT(memcmp(o.state.queue, s.queue, sizeof s.queue), 0);
}

static void messages(void) {
    for (uint32_t number = 0; number <= 16; number++)
        printf("message %" PRIu32 " %s\n", number, ofersky_message(number));
    EXPECT(ofersky_version(), OFERSKY_VERSION);
}

static void registers(void) {
    ofersky_state s = ofersky_power_up();
    EXPECT(ofersky_is_sound(s), true);
    EXPECT(value_of(s, OFERSKY_SP_STATUS), 0);
    EXPECT(value_of(s, OFERSKY_DP_STATUS), OFERSKY_DP_STATUS_READY);
    s = written(s, OFERSKY_SP_STATUS, OFERSKY_SP_STATUS_SET_SIG(7) | OFERSKY_SP_STATUS_SET_SIG(0));
    EXPECT(value_of(s, OFERSKY_SP_STATUS), OFERSKY_SP_STATUS_SIG(7) | OFERSKY_SP_STATUS_SIG(0));
    EXPECT(s.sp.signals, 0x81);
    s = written(s, OFERSKY_SP_STATUS, OFERSKY_SP_STATUS_CLR_SIG(7));
    EXPECT(value_of(s, OFERSKY_SP_STATUS), 0x80);
    ofersky_outcome o = ofersky_read_register(s, OFERSKY_SP_SEMAPHORE);
    EXPECT(o.answer.value, 0);
    EXPECT(value_of(o.state, OFERSKY_SP_SEMAPHORE), 1);
    EXPECT(value_of(s, OFERSKY_DP_STATUS + 3 * OFERSKY_DP_MIRROR_BYTES), OFERSKY_DP_STATUS_READY);
    expect_refused(ofersky_read_register(s, OFERSKY_SP_SPADDR + 2), OFERSKY_ERR_MISALIGNED, s);
    expect_refused(ofersky_write_register(s, 0x04040020, 1), OFERSKY_ERR_NO_REGISTER, s);
    s.sp.busy = 2;
    EXPECT(ofersky_is_sound(s), false);
    expect_refused(ofersky_read_register(s, OFERSKY_SP_SPADDR), OFERSKY_ERR_UNSOUND_STATE, s);
}

static void bursts(void) {
    const uint32_t addresses[] = {OFERSKY_SP_SPADDR, OFERSKY_DP_START, 0x04040020};
    const uint32_t values[] = {0x1FF8, 0x100, 0};
    ofersky_state s = ofersky_power_up();
    ofersky_outcome o = ofersky_write_registers(s, addresses, 2, values, 2);
    EXPECT(o.answer.number, OFERSKY_OK);
    EXPECT(o.answer.count, 2);
    EXPECT(o.state.sp.sp_latch, 0x1FF8);
    EXPECT(o.state.dp.start, 0x100);
    EXPECT(o.state.dp.start_pending, 1);
    o = ofersky_write_registers(s, addresses, 3, values, 3);
    EXPECT(o.answer.number, OFERSKY_ERR_NO_REGISTER);
    EXPECT(o.answer.count, 2);
    EXPECT(o.state.dp.start, 0x100);
    o = ofersky_write_registers(s, addresses, 3, values, 2);
    expect_refused(o, OFERSKY_ERR_BURST_LENGTHS, s);
}

static void events(void) {
    ofersky_state s = ofersky_tick(ofersky_power_up(), 0x01000005).state;
    EXPECT(value_of(s, OFERSKY_DP_CLOCK), 5); /* 24 bits */
    EXPECT(value_of(s, OFERSKY_DP_CMD_BUSY), 0);
    s = written(s, OFERSKY_SP_STATUS, OFERSKY_SP_STATUS_SET_INTBREAK);
    s = ofersky_sp_break(s).state;
    EXPECT(value_of(s, OFERSKY_SP_STATUS),
           OFERSKY_SP_STATUS_HALTED | OFERSKY_SP_STATUS_BROKE | OFERSKY_SP_STATUS_INTBREAK);
    EXPECT(s.sp.line, 1);
    s = written(s, OFERSKY_SP_STATUS, OFERSKY_SP_STATUS_CLR_INTR | OFERSKY_SP_STATUS_CLR_HALT);
    EXPECT(s.sp.line, 0);
    EXPECT(s.sp.halted, 0);
    s.dp.words_left = 22;
    expect_refused(ofersky_tick(s, 1), OFERSKY_ERR_UNSOUND_STATE, s);
    expect_refused(ofersky_sp_break(s), OFERSKY_ERR_UNSOUND_STATE, s);
    expect_refused(ofersky_acknowledge(s), OFERSKY_ERR_UNSOUND_STATE, s);
    expect_refused(ofersky_consumer_turn(s), OFERSKY_ERR_UNSOUND_STATE, s);
}

/* A transfer of three words into the end of IMEM: one by a turn, the rest by the row. */
static void transfers(void) {
    for (int i = 0; i < 24; i++) rdram[0x40 + i] = (uint8_t)(i + 1);
    ofersky_state s = written(ofersky_power_up(), OFERSKY_SP_SPADDR, 0x1FF8);
    s = written(s, OFERSKY_SP_RAMADDR, 0x40);
    s = written(s, OFERSKY_SP_RDLEN, 0x17);
    expect_refused(ofersky_sp_turn(s, rdram, 4, BANKS), OFERSKY_ERR_RDRAM_LENGTH, s);
    expect_refused(ofersky_sp_turn(s, rdram, 512, dmem, 8, imem, 8), OFERSKY_ERR_DMEM_LENGTH, s);
    expect_refused(ofersky_sp_row(s, rdram, 512, dmem, 4096, imem, 8), OFERSKY_ERR_IMEM_LENGTH, s);
    ofersky_outcome o = ofersky_sp_turn(s, MEMORY);
    EXPECT(o.answer.count, 1);
    EXPECT(memcmp(imem + 0xFF8, rdram + 0x40, 8), 0);
    EXPECT(imem[0], 0);
    o = ofersky_sp_row(o.state, MEMORY);
    EXPECT(o.answer.count, 2);
    EXPECT(memcmp(imem, rdram + 0x48, 16), 0);
    EXPECT(dmem[0], 0);
    EXPECT(value_of(o.state, OFERSKY_SP_SPADDR), 0x1010);
    EXPECT(value_of(o.state, OFERSKY_SP_RAMADDR), 0x58);
    EXPECT(value_of(o.state, OFERSKY_SP_DMA_BUSY), 0);
    EXPECT(ofersky_sp_row(o.state, MEMORY).answer.count, 0);
}

/* A list of one word, a SYNC_FULL. */
static void lists(void) {
    const uint64_t word = 0xE900000000000005;
    rdram[0x100] = 0xE9, rdram[0x107] = 5;
    ofersky_state s = written(ofersky_power_up(), OFERSKY_DP_START, 0x100);
    s = written(s, OFERSKY_DP_END, 0x108);
    EXPECT(value_of(s, OFERSKY_DP_STATUS), OFERSKY_DP_STATUS_READY | OFERSKY_DP_STATUS_DMA_BUSY);
    ofersky_part part = ofersky_look_ahead(s, rdram, sizeof rdram, dmem, sizeof dmem);
    EXPECT(part.memory, 0);
    EXPECT(part.offset, 0x100);
    EXPECT(part.length, 8);
    EXPECT(ofersky_look_ahead(s, rdram, 0x100, dmem, sizeof dmem).length, 0);
    expect_refused(ofersky_dp_turn(s, rdram, 512, dmem, 0), OFERSKY_ERR_DMEM_LENGTH, s);
    ofersky_outcome o = ofersky_dp_turn(s, rdram, sizeof rdram, dmem, sizeof dmem);
    EXPECT(o.answer.value, 0);
    EXPECT(o.answer.count, 1);
    EXPECT(o.state.dp.queued, 1);
    EXPECT(ofersky_queued_word(&o.state, 0), word);
    EXPECT(value_of(o.state, OFERSKY_DP_STATUS),
           OFERSKY_DP_STATUS_READY | OFERSKY_DP_STATUS_CMD_BUSY | OFERSKY_DP_STATUS_PIPE_BUSY |
               OFERSKY_DP_STATUS_START_GCLK);
    o = ofersky_consumer_turn(o.state);
    EXPECT(o.answer.value, word);
    EXPECT(o.answer.count, 1);
    EXPECT(o.state.dp.line, 1);
    EXPECT(value_of(o.state, OFERSKY_DP_STATUS), OFERSKY_DP_STATUS_READY);
    EXPECT(ofersky_acknowledge(o.state).state.dp.line, 0);
}

/* The SP stores two words of DMEM while a list of three words is fetched from DMEM; the output has
 * room for two words. */
static void runs(void) {
    memset(dmem, 0x27, 24); /* 0x27 is a command of one word */
    ofersky_state s = written(ofersky_power_up(), OFERSKY_SP_WRLEN, 0x0F);
    s = written(s, OFERSKY_DP_STATUS, OFERSKY_DP_STATUS_SET_XBUS);
    s = written(s, OFERSKY_DP_END, 24);
    memset(out, 0xFF, sizeof out);
    ofersky_ran ran = ofersky_run(s, 100, 100, 100, MEMORY, out, 20);
    EXPECT(ran.outcome.answer.number, OFERSKY_OK);
    EXPECT(ran.outcome.answer.count, 2);
    EXPECT(ran.words, 2);
    EXPECT(memcmp(out, dmem, 16), 0);
    EXPECT(out[16], 0xFF);
    EXPECT(memcmp(rdram, dmem, 16), 0);
    EXPECT(rdram[16], 0);
    EXPECT(ran.outcome.state.dp.queued, 1);
    EXPECT(ran.outcome.state.dp.current, 24);
    ran = ofersky_run(s, 100, 100, 100, rdram, 1, BANKS, out, 20);
    expect_refused(ran.outcome, OFERSKY_ERR_RDRAM_LENGTH, s);
    EXPECT(ran.words, 0);
}

static void expect_record(ofersky_record item, size_t bytes) {
    uint8_t buffer[16];
    ofersky_answer a = ofersky_write_record(item, buffer, sizeof buffer, 2);
    EXPECT(a.number, OFERSKY_OK);
    EXPECT(a.value, 2 + bytes);
    EXPECT(buffer[2], item.kind);
    ofersky_reading r = ofersky_read_record(buffer, 2 + bytes, 2);
    EXPECT(r.number, OFERSKY_OK);
    EXPECT(r.place, 2 + bytes);
    EXPECT(r.item.kind, item.kind);
    EXPECT(r.item.address, item.address);
    EXPECT(r.item.value, item.value);
    EXPECT(ofersky_write_record(item, buffer, 1 + bytes, 2).number, OFERSKY_ERR_NO_ROOM);
    if (bytes > 1) EXPECT(ofersky_read_record(buffer, 1 + bytes, 2).number, OFERSKY_ERR_CUT_SHORT);
}

static void records(void) {
    expect_record((ofersky_record){0x12345678, OFERSKY_SP_RDLEN, OFERSKY_KIND_WRITE}, 9);
    expect_record((ofersky_record){0x80, OFERSKY_DP_STATUS, OFERSKY_KIND_READ}, 9);
    expect_record((ofersky_record){7, 0, OFERSKY_KIND_SP_RUN}, 5);
    expect_record((ofersky_record){7, 0, OFERSKY_KIND_DP_RUN}, 5);
    expect_record((ofersky_record){7, 0, OFERSKY_KIND_TICK}, 5);
    expect_record((ofersky_record){0, 0, OFERSKY_KIND_BREAK}, 1);
    expect_record((ofersky_record){0, 0, OFERSKY_KIND_ACKNOWLEDGE}, 1);
    expect_record((ofersky_record){~0ull, OFERSKY_RECORD_DMEM, OFERSKY_KIND_STORE}, 13);
    expect_record((ofersky_record){~0ull, OFERSKY_RECORD_IMEM, OFERSKY_KIND_CHECK}, 13);
    expect_record((ofersky_record){0x100000002, 0, OFERSKY_KIND_RUN}, 9);
    static uint8_t bytes[OFERSKY_RECORDING_BYTES_MAX + 1];
    EXPECT(ofersky_read_record(bytes, sizeof bytes, 0).number, OFERSKY_ERR_RECORDING_TOO_LONG);
    EXPECT(ofersky_read_record(bytes, 1, 0).number, OFERSKY_ERR_UNKNOWN_KIND);
    ofersky_record item = {0, 1, OFERSKY_KIND_STORE};
    EXPECT(ofersky_write_record(item, bytes, 16, 0).number, OFERSKY_ERR_MEMORY_ADDRESS);
    item.kind = OFERSKY_KIND_READ;
    EXPECT(ofersky_write_record(item, bytes, 16, 0).number, OFERSKY_ERR_MISALIGNED);
}

/* Two words to the end of IMEM, a run, and a read that expects SPADDR. */
static void replays(void) {
    uint8_t bytes[] = {1, 4, 4, 0, 0, 0, 0, 0x1F, 0xF8, 1, 4, 4, 0,    8, 0, 0,
                       0, 15, 3, 0, 0, 0, 2, 2,    4,    4, 0, 0, 0, 0, 0x10, 8};
    const char *lines = "replay 1\nS 00000002\nR 04040000 00001008 ok\nend 4\n";
    static uint8_t listing[OFERSKY_LISTING_BYTES];
    ofersky_state s = ofersky_power_up();
    ofersky_replayed r = ofersky_replay(s, bytes, 32, MEMORY, listing, sizeof listing);
    EXPECT(r.outcome.answer.number, OFERSKY_OK);
    EXPECT(r.outcome.answer.count, 4);
    EXPECT(r.written, strlen(lines));
    EXPECT(memcmp(listing, lines, strlen(lines)), 0);
    EXPECT(r.findings.compared, 1);
    EXPECT(ofersky_verdict(r), OFERSKY_PASSED);
    bytes[31] = 9;
    r = ofersky_replay(s, bytes, 32, MEMORY, listing, sizeof listing);
    EXPECT(r.findings.differed, 1);
    EXPECT(r.findings.first_index, 3);
    EXPECT(r.findings.first_place, 23);
    EXPECT(ofersky_verdict(r), OFERSKY_DIFFERS);
    r = ofersky_replay(s, bytes, 23, MEMORY, listing, sizeof listing);
    EXPECT(ofersky_verdict(r), OFERSKY_NOTHING_COMPARED);
    r = ofersky_replay(s, bytes, 24, MEMORY, listing, sizeof listing);
    EXPECT(r.outcome.answer.number, OFERSKY_ERR_CUT_SHORT);
    EXPECT(r.place, 23);
    EXPECT(ofersky_verdict(r), OFERSKY_REFUSED);
}

int main(void) {
    messages();
    registers();
    bursts();
    events();
    transfers();
    lists();
    runs();
    records();
    replays();
    printf("%u checks, %u failed\n", checks, failures);
    return failures != 0;
}
