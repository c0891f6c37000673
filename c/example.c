/* A tour of the calls:
 *
 * - loads two words to the end of IMEM, where the second one wraps to the bank's start, while a
 *   list of three words is fetched; the last of these stays queued and is consumed alone,
 * - writes registers in a burst in which one address is bad,
 * - loads twelve rows, one at a time,
 * - writes the first load as a recording and replays it: as it is, with a wrong expectation,
 *   without its read, and with a bad address.
 *
 *     (cd crates/ofersky && rt lib)
 *     cc -I c c/example.c crates/ofersky/out/libofersky.a -o example && ./example
 */
#include "ofersky.h"

#include <inttypes.h>
#include <stdio.h>

static uint8_t rdram[32768], dmem[OFERSKY_BANK_BYTES], imem[OFERSKY_BANK_BYTES], words[64];

/* RDRAM, DMEM and IMEM with their lengths, as calls take them. */
#define MEMORY rdram, sizeof rdram, dmem, sizeof dmem, imem, sizeof imem

/* A register write whose refusal, if there is one, is shown. */
static ofersky_state written(ofersky_state s, uint32_t address, uint32_t value) {
    ofersky_outcome o = ofersky_write_register(s, address, value);
    if (o.answer.number != OFERSKY_OK)
        printf("write %08X: %s\n", address, ofersky_message(o.answer.number));
    return o.state;
}

/* What a register reads as. */
static unsigned value_of(ofersky_state s, uint32_t address) {
    return (unsigned)ofersky_read_register(s, address).answer.value;
}

static void calls(void) {
    ofersky_state s = ofersky_power_up();
    s = written(s, OFERSKY_SP_SPADDR, 0x1FF8); /* the last word of IMEM */
    s = written(s, OFERSKY_SP_RDLEN, 0x0F);    /* two words */
    s = written(s, OFERSKY_DP_START, 0x0100);
    s = written(s, OFERSKY_DP_END, 0x0118); /* three words */
    s = written(s, 0x04040002, 0);          /* not a multiple of 4 */
    s = written(s, 0x04040020, 0);          /* no register */
    rdram[0x0110] = 0xE9;                   /* the list's last word is a SYNC_FULL */
    ofersky_ran ran = ofersky_run(s, 100, 100, 2, MEMORY, words, sizeof words);
    s = ran.outcome.state;
    printf("moved %u words, ", ran.outcome.answer.count);
    printf("SPADDR %08X\n", value_of(s, OFERSKY_SP_SPADDR));
    printf("consumed %u words, CURRENT %08X\n", ran.words, value_of(s, OFERSKY_DP_CURRENT));
    printf("queued: %u, the oldest %016" PRIX64 "\n", s.dp.queued, ofersky_queued_word(&s, 0));
    ofersky_outcome turn = ofersky_consumer_turn(s);
    printf("consumed %016" PRIX64 ", DP line %u\n", turn.answer.value, turn.state.dp.line);
    s.sp.busy = 2; /* a flag is 0 or 1 */
    printf("refused: %s\n", ofersky_message(ofersky_tick(s, 1).answer.number));
}

/* A transfer and a list are set up at once, but the fourth address is not a multiple of 4. */
static void burst(void) {
    static const uint32_t addresses[] = {OFERSKY_SP_RAMADDR, OFERSKY_SP_RDLEN, OFERSKY_DP_START,
                                         0x04100006, OFERSKY_DP_END};
    static const uint32_t values[] = {0x2000, 0x0F, 0x0100, 0x0110, 0x0118};
    ofersky_outcome o = ofersky_write_registers(ofersky_power_up(), addresses, 5, values, 5);
    uint32_t done = o.answer.count;
    printf("%u pairs written: %s\n", done, ofersky_message(o.answer.number));
    printf("RAMADDR %08X, ", value_of(o.state, OFERSKY_SP_RAMADDR));
    printf("START %08X, ", value_of(o.state, OFERSKY_DP_START));
    printf("DP STATUS %08X\n", value_of(o.state, OFERSKY_DP_STATUS));
    /* The pairs after the bad one. */
    uint32_t next = done + 1, left = 5 - next;
    o = ofersky_write_registers(o.state, addresses + next, left, values + next, left);
    printf("%u pair written, ", o.answer.count);
    printf("CURRENT %08X, ", value_of(o.state, OFERSKY_DP_CURRENT));
    printf("DP STATUS %08X\n", value_of(o.state, OFERSKY_DP_STATUS));
    /* An address without its value. */
    o = ofersky_write_registers(o.state, addresses, 3, values, 2);
    printf("%u pairs written: %s\n", o.answer.count, ofersky_message(o.answer.number));
}

static void rows(void) {
    ofersky_state s = written(ofersky_power_up(), OFERSKY_SP_RAMADDR, 0x1000);
    /* Twelve rows of eight words, with 32 bytes skipped between them. */
    s = written(s, OFERSKY_SP_RDLEN, 0x0200B03F);
    uint32_t number = 0, moved = 0;
    for (;;) {
        ofersky_outcome row = ofersky_sp_row(s, MEMORY);
        if (row.answer.count == 0) break; /* idle, or refused */
        s = row.state;
        moved += row.answer.count;
        if (number++ == 0) {
            printf("a row of %u words, ", moved);
            printf("RAMADDR %08X\n", value_of(s, OFERSKY_SP_RAMADDR));
        }
    }
    printf("%u rows, %u words, ", number, moved);
    printf("RAMADDR %08X\n", value_of(s, OFERSKY_SP_RAMADDR));
}

/* What a replay says of its recording. Only OFERSKY_PASSED is a pass. */
static void show_verdict(ofersky_replayed done) {
    ofersky_findings found = done.findings;
    switch (ofersky_verdict(done)) {
    case OFERSKY_PASSED:
        printf("passed: %u compared\n", found.compared);
        break;
    case OFERSKY_DIFFERS:
        printf("differs: %u of %u compared, ", found.differed, found.compared);
        printf("first record %u at byte %zu\n", found.first_index, found.first_place);
        break;
    case OFERSKY_NOTHING_COMPARED:
        printf("nothing compared\n");
        break;
    case OFERSKY_REFUSED:
        printf("refused at byte %zu: ", done.place);
        printf("%s\n", ofersky_message(done.outcome.answer.number));
        break;
    }
}

/* Replays a recording from power-up and shows its listing and its verdict. */
static void replay(const uint8_t *bytes, size_t length) {
    static uint8_t listing[OFERSKY_LISTING_BYTES];
    ofersky_state s = ofersky_power_up();
    ofersky_replayed done = ofersky_replay(s, bytes, length, MEMORY, listing, sizeof listing);
    fwrite(listing, 1, done.written, stdout);
    show_verdict(done);
}

static void recording(void) {
    static const ofersky_record records[] = {
        {.kind = OFERSKY_KIND_WRITE, .address = OFERSKY_SP_SPADDR, .value = 0x1FF8},
        {.kind = OFERSKY_KIND_WRITE, .address = OFERSKY_SP_RDLEN, .value = 0x0F},
        {.kind = OFERSKY_KIND_SP_RUN, .value = 2},
        {.kind = OFERSKY_KIND_READ, .address = OFERSKY_SP_SPADDR, .value = 0x1008}, /* expected */
    };
    static uint8_t bytes[32];
    size_t place = 0;
    for (int i = 0; i < 4; i++) {
        ofersky_answer a = ofersky_write_record(records[i], bytes, sizeof bytes, place);
        if (a.number != OFERSKY_OK) printf("record %d: %s\n", i, ofersky_message(a.number));
        place = a.value;
    }
    replay(bytes, place);
    bytes[31] = 9; /* the last byte of what the read expects: 0x1009 */
    replay(bytes, place);
    replay(bytes, 23); /* without the read */
    bytes[27] = 2;     /* the last byte of the read's address: not a multiple of 4 */
    replay(bytes, place);
}

int main(void) {
    calls();
    burst();
    rows();
    recording();
    return 0;
}
