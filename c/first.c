#include "ofersky.h"
#include <stdio.h>

static uint8_t rdram[32768], dmem[4096], imem[4096], out[64];

int main(void) {
    rdram[7] = 42;
    /* RDLEN 0x0F loads two words from RDRAM into DMEM; the run moves them. */
    ofersky_state s = ofersky_write_register(ofersky_power_up(), OFERSKY_SP_RDLEN, 0x0F).state;
    ofersky_ran ran = ofersky_run(s, 100, 100, 100, rdram, sizeof rdram, dmem, sizeof dmem,
                                  imem, sizeof imem, out, sizeof out);
    ofersky_answer answer = ran.outcome.answer;
    printf("%s: %u words moved, ", ofersky_message(answer.number), answer.count);
    printf("byte 7 of DMEM is %u\n", dmem[7]);
    return answer.number != OFERSKY_OK;
}
