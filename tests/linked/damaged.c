/* What the firmware does when its memory is damaged: note 2 once, then a bridge as after a dip of the supply (examples/firmware/firmware.c, `give`).
 * It takes the firmware's text in, since no one else can reach its bridge. Exit status 1 with what is wrong. */
#include "firmware.c"

#include <stdio.h>
#include <string.h>

enum { POR_UP = 0x0403 };                   /* STATUS at power-up, 01 "Numbers on both sides" */

static uint16_t sdo, pins;
static unsigned sout, notes[ICELICHEN_NO_EVENT + 1], nested;

unsigned board_read_sin(void) { return 1; }
void board_write_sout(unsigned bit) { sout = bit; }
void board_write_sdo(uint16_t word) { sdo = word; }
void board_write_status(uint16_t status) { pins = status; }
void board_note(uint32_t kind, unsigned note) { (void)kind; notes[note]++; }
unsigned board_mask(void) { return nested++; }
void board_unmask(unsigned before) { nested = before; }

/* A word on the wire: what SDO has is there before the word is. */
static uint16_t exchanged(uint16_t word)
{
    firmware_spi_next();
    uint16_t out = sdo;
    firmware_spi_word(word);
    return out;
}

static uint16_t status(void)
{
    unsigned early = exchanged(0xC007) != 0xFFFF || exchanged(0x7BBC) != 0xFFFF;    /* REG_RD_CRC of STATUS, and its CRC word */
    uint16_t word = early ? 0 : exchanged(0xFFFF);
    firmware_chip_select();
    return word;
}

static unsigned wrong(const char *what, unsigned is_wrong)
{
    if (is_wrong != 0)
        fprintf(stderr, "damaged: %s\n", what);
    return is_wrong;
}

int main(void)
{
    unsigned bad = 0;
    firmware_start(ICELICHEN_OTP_GOOD);
    bad += wrong("STATUS after the start", status() != POR_UP || notes[ICELICHEN_BROKEN_RECORD] != 0);
    firmware_millisecond(1);
    bad += wrong("the pins after the start", pins != POR_UP);
    memset(&bridge, 0xFF, sizeof bridge);
    sout = 0;
    firmware_line_tick();
    bad += wrong("no note 2", notes[ICELICHEN_BROKEN_RECORD] != 1);
    bad += wrong("the line is not idle", sout != 1);
    bad += wrong("no bridge after note 2", status() != POR_UP || notes[ICELICHEN_BROKEN_RECORD] != 1);
    firmware_supply(4);
    bad += wrong("a supply of 4", notes[ICELICHEN_NO_EVENT] != 1 || status() != POR_UP);
    bad += wrong("a mask was left", nested != 0);
    return bad != 0;
}
