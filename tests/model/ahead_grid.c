/*
 * ahead_grid.c - long forwards of a paced host, event by event through the independent program. For ../ahead.py.
 *
 *   ahead_grid < trials
 *
 * A trial is a line of five numbers: n p a level tick. From power-up with POR cleared, TXFFLVL is written with `level` (-1: not written), and
 * a FWD_WR of n words is given: a - 1 words, tick -1, which is to be idle, the a-th word, tick 0, which is to be the start bit, then a word after
 * every p ticks, tick 0 counted. Note 13 is to come at tick `tick`, 0: never. SOUT has to be the start bit, the words taken, each with its check
 * bit, and END; every other note 0, but 5 for words behind note 13. A command that does not starve is to be sent at tick 17 n + 18: its CRC word
 * and then a soft reset are taken without a note.
 *
 * Prints how many trials were sent whole, how many starved, and the events; or the first that is not so, by n, p, a and the last tick made (-2:
 * none), and exit status 1.
 */
#include <stdlib.h>

#define main model_main
#include "bridge_model.c"
#undef main

enum { WORD = 1, RELEASE = 2, TICK = 3, MOST_WORDS = 512 };
enum { REG_WR = 0xB000, FWD_WR = 0x3000, SOFTRESET = 0xE000, CLEAR_FLAGS = 0x8000, FILLER = 0xFFFF };

struct trial {
    unsigned n, p, a;
    int level;
    long late;                          /* the tick of note 13; 0: none */
};

static struct trial trial;
static struct bridge bridge, cleared;
static uint16_t word[MOST_WORDS];
static long tick;
static unsigned long events;

static void happens(unsigned kind, uint16_t value, int note, unsigned sout)
{
    struct result r = step(&bridge, kind, value);
    events++;
    if (r.note == note && r.sout == sout)
        return;
    printf("n %u, p %u, a %u, tick %ld: a %s with note %d and SOUT %u, expected note %d and SOUT %u\n", trial.n, trial.p, trial.a, tick,
           kind == TICK ? "tick" : kind == WORD ? "host word" : "release", r.note, r.sout, note, sout);
    exit(1);
}

/* The frame of a command word and so many data words, from its CRC word on: the answer is fetched, chip select released. */
static void finish(uint16_t command, const uint16_t *data, unsigned count)
{
    uint16_t crc = crc_step(0xFFFF, command);
    for (unsigned i = 0; i < count; i++)
        crc = crc_step(crc, data[i]);
    happens(WORD, crc, DONE, 1);
    happens(WORD, FILLER, DONE, 1);
    happens(WORD, FILLER, DONE, 1);
    happens(RELEASE, 0, DONE, 1);
}

static void write_one(unsigned address, uint16_t value)
{
    uint16_t command = (uint16_t)(REG_WR | address);
    happens(WORD, command, DONE, 1);
    happens(WORD, value, DONE, 1);
    finish(command, &value, 1);
}

/* SOUT at this tick where so many words are sent. */
static unsigned line_bit(unsigned sent)
{
    if (tick == 0)
        return 0;
    unsigned k = (unsigned)(tick - 1) / GROUP_BITS, bit = (unsigned)(tick - 1) % GROUP_BITS;
    if (k >= sent)
        return 1;
    return bit < 16 ? (unsigned)word[k] >> (15 - bit) & 1u : (unsigned)~word[k] & 1u;
}

static void run_trial(void)
{
    unsigned came = 0, sent = trial.late ? (unsigned)(trial.late - 1) / GROUP_BITS : trial.n;
    long last = 1L + GROUP_BITS * sent + END_BITS - 1;
    uint16_t command = (uint16_t)(FWD_WR | (trial.n - 1));
    bridge = cleared;
    tick = -2;
    for (unsigned i = 0; i < trial.n; i++)
        word[i] = (uint16_t)(40503u * (i + 1) + 977u * trial.n + trial.p);
    if (trial.level >= 0)
        write_one(TXFFLVL, (uint16_t)trial.level);
    happens(WORD, command, DONE, 1);
    while (came + 1 < trial.a)
        happens(WORD, word[came++], DONE, 1);
    tick = -1;
    happens(TICK, 1, DONE, 1);
    happens(WORD, word[came++], DONE, 1);
    for (tick = 0; tick <= last; tick++) {
        bool starves = trial.late > 0 && tick == trial.late;
        happens(TICK, 1, starves ? TX_UNDERFLOW : DONE, line_bit(sent));
        if ((unsigned)(tick + 1) % trial.p == 0 && came < trial.n)
            happens(WORD, word[came++], trial.late > 0 && tick >= trial.late ? BLOCKED : DONE, 1);
    }
    tick = last;
    if (trial.late > 0)
        return;
    finish(command, word, trial.n);
    happens(WORD, SOFTRESET, DONE, 1);
    finish(SOFTRESET, word, 0);
}

int main(void)
{
    unsigned long whole = 0, starved = 0;
    power_up(&bridge, true);
    write_one(STATUS, CLEAR_FLAGS);
    cleared = bridge;
    while (scanf("%u %u %u %d %ld", &trial.n, &trial.p, &trial.a, &trial.level, &trial.late) == 5) {
        run_trial();
        if (trial.late > 0)
            starved++;
        else
            whole++;
    }
    printf("%lu %lu %lu\n", whole, starved, events);
    return 0;
}
