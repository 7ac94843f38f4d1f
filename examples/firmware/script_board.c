/*
 * script_board.c - a board for the bench: its interrupts come from a script (01 The bench program; docs/BENCH.md).
 *
 *   script_board [SCRIPT]        a file, else standard input
 *
 * Prints for each event what the bench program prints, byte for byte: kind, value, note, SDO, SOUT. Exit status 0, also after `bad script` and
 * `bad record`; 2 with the reason where the script cannot be read, or what is printed cannot be written.
 */
#include "board.h"
#include "firmware.h"
#include "icelichen_bridge.h"

#include <errno.h>
#include <stdbool.h>
#include <stdio.h>
#include <stdlib.h>
#include <string.h>

static const unsigned char HEAD[] = {'C', 'W', 'B', 0, 1};      /* mark, and version 1 with its high byte first */

/* What an event says, unless it says otherwise (01 What the bridge is): note 0, SDO 0xFFFF, SOUT 1. */
static const struct pins {
    unsigned sin, note, sout;
    uint16_t sdo;
} QUIET = {1, ICELICHEN_DONE, 1, 0xFFFF};

static struct pins pins;
static bool masked;

static void fail(const char *what, const char *why)
{
    fprintf(stderr, "script_board: %s: %s\n", what, why);
    exit(2);
}

unsigned board_read_sin(void)
{
    return pins.sin;
}

void board_write_sout(unsigned bit)
{
    pins.sout = bit;
}

void board_write_sdo(uint16_t word)
{
    pins.sdo = word;
}

/* A script does not show these pins. */
void board_write_status(uint16_t status)
{
    (void)status;
}

void board_note(uint32_t kind, unsigned note)
{
    (void)kind;
    pins.note = note;
}

unsigned board_mask(void)
{
    unsigned before = masked;
    masked = true;
    return before;
}

void board_unmask(unsigned before)
{
    masked = before != 0;
}

/* One record. False where it is cut, or no event: those are the script's to judge, since no interrupt brings such values. */
static bool read_record(FILE *in, int kind, uint16_t *value)
{
    static const uint16_t MOST[] = {ICELICHEN_MAKERS_OTP_GOOD, 0xFFFF, 0, 1, 0xFFFF};
    int high = getc(in), low = high == EOF ? EOF : getc(in);
    if (low == EOF || kind > ICELICHEN_CLOCK)
        return false;
    *value = (uint16_t)(high << 8 | low);
    return *value <= MOST[kind];
}

/* A word's SDO is asked for with the word itself: a script has no time between them, and an answer word that was fetched earlier would be read from
 * RX before the ticks that stand between (docs/HOST-GUIDE.md 1, "SDO on a full-duplex wire"). */
static void raise_interrupt(int kind, uint16_t value)
{
    if (masked)
        fail("an interrupt", "it is masked, so the firmware did not let go of its bridge");
    switch (kind) {
    case ICELICHEN_POWER:
        firmware_supply(value);
        break;
    case ICELICHEN_WORD:
        firmware_spi_next();
        firmware_spi_word(value);
        break;
    case ICELICHEN_RELEASE:
        firmware_chip_select();
        break;
    case ICELICHEN_TICK:
        pins.sin = value;
        firmware_line_tick();
        break;
    default:
        firmware_millisecond(value);
        break;
    }
}

/* The script's events; NULL, or the word that stands for what is wrong. */
static const char *play(FILE *in)
{
    unsigned char head[sizeof HEAD];
    if (fread(head, 1, sizeof head, in) != sizeof head || memcmp(head, HEAD, sizeof head) != 0)
        return "bad script";
    firmware_start(ICELICHEN_OTP_GOOD);
    for (int kind = getc(in); kind != EOF; kind = getc(in)) {
        uint16_t value;
        if (!read_record(in, kind, &value))
            return "bad record";
        pins = QUIET;
        raise_interrupt(kind, value);
        printf("%d %04X %u %04X %u\n", kind, value, pins.note, pins.sdo, pins.sout);
    }
    return NULL;
}

int main(int argc, char **argv)
{
    const char *name = argc > 1 ? argv[1] : "standard input";
    if (argc > 2)
        fail(argv[2], "expected one script at most");
    FILE *in = argc > 1 ? fopen(name, "rb") : stdin;
    if (in == NULL)
        fail(name, strerror(errno));
    const char *wrong = play(in);
    if (ferror(in))
        fail(name, "it cannot be read");
    if (wrong != NULL)
        puts(wrong);
    if (fflush(stdout) != 0 || ferror(stdout))
        fail("standard output", "it cannot be written");
    return 0;
}
