/*
 * sent.c - sends the library's frames to the bench program, and reads its answers by the library.
 *
 *   sent plan MOST          orders by number, in parts of at most MOST events: FIRST LAST COMMAND EVENTS a line
 *   sent script FIRST LAST  the bench script of these orders: for each a power-up, the frame, the answer's words, chip select released
 *   sent judge FIRST LAST   what the bench printed of that script on standard input: a line for each command, or the first thing wrong
 *
 * Each takes a layout behind that (02 item 7; 0, 1 or 2, the header's numbers) and then uses the functions that take one: the power-up
 * is in that layout, and for 2 a register write turns SPI_CRC_ALG on before the frame.
 *
 * Orders are numbered in the order of 01's table, each with every number of data words that it can have: one for each command word that
 * the layout allows. Wrong is a note that is not of the bridge's state (01 Notes: 0, 5, 8, 9, 10, 11), an answer word during the frame, and
 * an answer that the library does not read as the order's.
 */
#include "icelichen_frames.h"
#include "orders.h"

#include <stdio.h>
#include <stdlib.h>
#include <string.h>

enum { POWER, WORD, RELEASE };
enum { MOST_WORDS = 4096, MOST_ANSWER = 257, FILLER = 0xFFFF };
enum { OUR_POWER_UP = 1, MAKERS_POWER_UP = 3, SPICTRL = 1, XMODEM = 0x00A4 };   /* SPICTRL as it resets, with SPI_CRC_ALG */

struct job {
    unsigned first, last;
    void (*one)(const struct order *o, size_t words);
};

static struct job job;
static bool in;                         /* the functions that take a layout */
static uint32_t layout;
static unsigned number;                 /* of the next order */
static uint16_t frame[MOST_WORDS + ICELICHEN_BESIDE];
static struct { unsigned orders, notes[16]; } seen;
static unsigned long line;

static void fail(const struct order *o, size_t words, const char *what)
{
    fprintf(stderr, "sent: command %u ends %u address %u count %u words %zu, line %lu: %s\n", o->command, o->ends, o->address, o->count,
            words, line, what);
    exit(1);
}

/* Data words of an order. A register write leaves bit 0 of SPICTRL alone, or there would be no answer (01 Registers). */
static uint16_t data_word(const struct order *o, size_t at)
{
    uint16_t word = (uint16_t)(number * 40503u + at * 7919u);
    return o->command == ICELICHEN_REG_WR_CRC || o->command == ICELICHEN_REG_WR ? word & 0xFFFE : word;
}

static size_t written(const struct order *o, size_t words)
{
    uint16_t data[MOST_WORDS];
    for (size_t i = 0; i < words; i++)
        data[i] = data_word(o, i);
    int32_t length = in ? icelichen_frame_in(layout, o->command, o->ends, o->address, o->count, data, words, frame, CELLS_OF(frame))
                        : icelichen_frame(o->command, o->ends, o->address, o->count, data, words, frame, CELLS_OF(frame));
    if (length != (int32_t)words + ICELICHEN_BESIDE)
        fail(o, words, "the library did not write it");
    return (size_t)length;
}

static uint16_t power_up(void)
{
    return layout == ICELICHEN_OURS ? OUR_POWER_UP : MAKERS_POWER_UP;
}

/* The frame that turns SPI_CRC_ALG on, by the CRC of power-up; no words where it stays off. */
static size_t turned_on(uint16_t *words)
{
    const uint16_t control = XMODEM;
    if (layout != ICELICHEN_MAKERS_XMODEM)
        return 0;
    return (size_t)icelichen_frame_in(ICELICHEN_MAKERS, ICELICHEN_REG_WR_CRC, 0, SPICTRL, 0, &control, 1, words, 1 + ICELICHEN_BESIDE);
}

static size_t answer_length(const struct order *o)
{
    return o->count > 0 ? o->count + 1u : 2u;
}

/* ---- plan ---- */

static unsigned long most, events;
static unsigned from;
static uint32_t command;

static void close_part(void)
{
    if (number > from)
        printf("%u %u %u %lu\n", from, number - 1, command, events);
    from = number;
    events = 0;
}

static void planned(const struct order *o, size_t words)
{
    uint16_t before[1 + ICELICHEN_BESIDE];
    size_t turned = turned_on(before);
    unsigned long more = 1 + (turned > 0 ? turned + 1 : 0) + words + ICELICHEN_BESIDE + answer_length(o) + 1;
    if (o->command != command || events + more > most)
        close_part();
    command = o->command;
    events += more;
}

/* ---- script ---- */

static void event(unsigned kind, uint16_t value)
{
    putchar((int)kind);
    putchar(value >> 8);
    putchar(value & 0xFF);
}

static void scripted(const struct order *o, size_t words)
{
    uint16_t before[1 + ICELICHEN_BESIDE];
    size_t length = written(o, words), turned = turned_on(before);
    event(POWER, power_up());
    for (size_t i = 0; i < turned; i++)
        event(WORD, before[i]);
    if (turned > 0)
        event(RELEASE, 0);
    for (size_t i = 0; i < length; i++)
        event(WORD, frame[i]);
    for (size_t i = 0; i < answer_length(o); i++)
        event(WORD, FILLER);
    event(RELEASE, 0);
}

/* ---- judge ---- */

/* The next printed line (01 The bench program: kind, value, note, SDO, SOUT), which must be of this event. */
static void printed(const struct order *o, size_t words, unsigned kind, unsigned value, unsigned *note, unsigned *sdo)
{
    char text[64];
    unsigned was_kind, was_value, sout;
    line++;
    if (!fgets(text, sizeof text, stdin) || sscanf(text, "%u %x %u %x %u", &was_kind, &was_value, note, sdo, &sout) != 5)
        fail(o, words, "no line of the bench's");
    if (was_kind != kind || was_value != value || *note > 15)
        fail(o, words, "a line of another event");
}

static void judge_answer(const struct order *o, size_t words)
{
    uint16_t answer[MOST_ANSWER];
    unsigned note, sdo;
    size_t length = answer_length(o);
    for (size_t i = 0; i < length; i++) {
        printed(o, words, WORD, FILLER, &note, &sdo);
        if (note != 0 && note != 15)
            fail(o, words, "a note in the answer that is neither 0 nor 15");
        answer[i] = (uint16_t)sdo;
    }
    int32_t status = in ? icelichen_status_in(layout, o->command, o->ends, o->address, o->count, answer, length)
                        : icelichen_status(o->command, o->ends, o->address, o->count, answer, length);
    int32_t data = in ? icelichen_data_in(layout, o->command, o->ends, o->address, o->count, answer, length)
                      : icelichen_data(o->command, o->ends, o->address, o->count, answer, length);
    if (o->count > 0 ? data != (int32_t)o->count || status != ICELICHEN_OUTSIDE_LIMITS : status != answer[0] || data != ICELICHEN_OUTSIDE_LIMITS)
        fail(o, words, "the bench's answer is not read as this order's");
}

static void judged(const struct order *o, size_t words)
{
    uint16_t before[1 + ICELICHEN_BESIDE];
    unsigned note, sdo;
    size_t length = written(o, words), turned = turned_on(before);
    printed(o, words, POWER, power_up(), &note, &sdo);
    for (size_t i = 0; i < turned; i++)
        printed(o, words, WORD, before[i], &note, &sdo);
    if (turned > 0)
        printed(o, words, RELEASE, 0, &note, &sdo);
    if (note != 0)
        fail(o, words, "a power-up or the frame before it: not note 0");
    for (size_t i = 0; i < length; i++) {
        printed(o, words, WORD, frame[i], &note, &sdo);
        if (note != 0 && note != 5 && (note < 8 || note > 11))
            fail(o, words, "a note that is not of the bridge's state");
        if (sdo != FILLER)
            fail(o, words, "an answer word during the frame");
        seen.notes[note]++;
    }
    judge_answer(o, words);
    printed(o, words, RELEASE, 0, &note, &sdo);
    if (note != 0)
        fail(o, words, "chip select released: not note 0");
    seen.orders++;
}

/* ---- all orders ---- */

static void each_number_of_words(const struct row *row, const struct order *o)
{
    for (size_t words = row->least; words <= most_words(row, o); words++) {
        if (number >= job.first && number <= job.last)
            job.one(o, words);
        number++;
    }
}

static void each(void)
{
    for (size_t i = 0; i < CELLS_OF(ROWS); i++)
        each_order(&ROWS[i], each_number_of_words);
}

static unsigned long asked(const char *text)
{
    char *end;
    unsigned long value = strtoul(text, &end, 10);
    if (*text < '0' || *text > '9' || *end) {
        fprintf(stderr, "sent: expected a number, found `%s`\n", text);
        exit(2);
    }
    return value;
}

int main(int count, char **words)
{
    const char *verb = count > 1 ? words[1] : "";
    int needed = strcmp(verb, "plan") == 0 ? 3 : 4;
    job = (struct job){0, ~0u, planned};
    in = count == needed + 1;
    if ((count != needed && !in) || (needed == 4 && strcmp(verb, "script") != 0 && strcmp(verb, "judge") != 0)) {
        fprintf(stderr, "sent: plan MOST, script FIRST LAST or judge FIRST LAST, and then a layout or none\n");
        return 2;
    }
    layout = in ? (uint32_t)asked(words[needed]) : ICELICHEN_OURS;
    if (needed == 3) {
        most = asked(words[2]);
        each();
        close_part();
        return 0;
    }
    job = (struct job){(unsigned)asked(words[2]), (unsigned)asked(words[3]), strcmp(verb, "script") == 0 ? scripted : judged};
    if (job.one == scripted)
        fwrite("CWB\0\1", 1, 5, stdout);
    each();
    if (job.one == judged) {
        printf("%u orders;", seen.orders);
        for (unsigned note = 0; note < 16; note++)
            if (seen.notes[note])
                printf(" note %u: %u", note, seen.notes[note]);
        printf("\n");
    }
    return 0;
}
