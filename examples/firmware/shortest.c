/* A call-up in one file: power-up, flags cleared, one word queued, and its bits on the line. */
#include "icelichen_bridge.h"
#include "icelichen_frames.h"
#include <stdio.h>

static icelichen_bridge bridge;
static uint16_t tx[ICELICHEN_TX], rx[ICELICHEN_RX];

static uint32_t give(uint32_t kind, uint32_t value)
{
    return icelichen_event(&bridge, tx, ICELICHEN_TX, rx, ICELICHEN_RX, kind, value);
}

/* The frame of one data word, as a host sends it, then chip select released: whether all of it was done. */
static int sent(uint32_t command, uint32_t address, uint16_t word)
{
    uint16_t frame[3];
    int32_t length = icelichen_frame(command, 0, address, 0, &word, 1, frame, 3);
    for (int32_t i = 0; i < length; i++)
        if (icelichen_note(give(ICELICHEN_WORD, frame[i])) != ICELICHEN_DONE)
            return 0;
    return length == 3 && icelichen_note(give(ICELICHEN_RELEASE, 0)) == ICELICHEN_DONE;
}

int main(void)
{
    if (icelichen_note(icelichen_power_up(&bridge, ICELICHEN_OTP_GOOD)) != ICELICHEN_DONE
        || !sent(ICELICHEN_REG_WR_CRC, 7, 0x8000)       /* the flags cleared: with POR up nothing goes out */
        || !sent(ICELICHEN_FWD_WR_CRC, 0, 0xAAF0))      /* VSYNC */
        return 1;
    for (int tick = 0; tick < 36; tick++)               /* start bit, word, check bit, END */
        putchar('0' + (int)icelichen_sout(give(ICELICHEN_TICK, 1)));
    putchar('\n');
}
