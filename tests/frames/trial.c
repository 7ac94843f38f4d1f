/*
 * trial.c - goes through the host frames of document 02, items 1 and 7, and prints what it saw.
 *
 *   gcc -std=c11 -Wall -Wextra -Werror -O2 -Iinclude tests/frames/trial.c tests/frames/model.c
 *
 * It calls the six functions only through include/icelichen_frames.h. Linked with tests/frames/model.c and with the library it
 * must print the same, byte for byte. Written from 01 "Frames", 02 items 1, 4 and 7, document 001's table 7-2, what was decided about
 * them, and the header's text.
 *
 *   ways     what follows, with the three functions that have no layout, with the others in each layout, and in none (3):
 *   grid     orders within and just outside 01's limits, four lengths of buffer each, with guard cells around the buffer
 *   all      every command word that the table allows, each once
 *   word     every data word in a frame of one word
 *   answer   right and wrong answers to every order within the limits
 *   outside  answers to the orders of the grid
 *   value    every STATUS value, and every CRC word behind some
 *
 *   known    frames worked out beside the tables, the sheet's own numbers among them
 *   no layout  every order, with numbers that are no layout's
 *
 * Digests are FNV-1a of 32 bits over words, high byte first. The last line counts the faults that need no second program to be
 * seen (a refusal that wrote, a guard cell changed, a wrong CRC word, a turned bit not found ..); with one the exit status is 1.
 */
#define _DEFAULT_SOURCE
#include "icelichen_frames.h"
#include "orders.h"

#include <stdbool.h>
#include <stdio.h>
#include <stdlib.h>
#include <string.h>
#include <sys/mman.h>
#include <unistd.h>

enum { GUARD = 64, POOL = 70000, MUCH = 1000, ARENA = GUARD + POOL + ICELICHEN_BESIDE + MUCH + GUARD };
enum { WATCHED = 4097, LONGEST = 300, SHORT_ANSWER = 13, ALL_ONES_TO = 260, FAULTS_TOLD = 50, FRAMES_TOLD = 5000 };

/* The functions that are tried, and what is due of them. */
static const struct way {
    const char *name;
    bool in;                            /* those that take a layout */
    uint32_t layout;
    uint16_t start;                     /* of its CRC (02 item 7) */
    bool refused;                       /* no layout's number: nothing is written or taken */
} WAYS[] = {
    {"without a layout", false, ICELICHEN_OURS, 0xFFFF, false},
    {"in our layout", true, ICELICHEN_OURS, 0xFFFF, false},
    {"in the maker's", true, ICELICHEN_MAKERS, 0xFFFF, false},
    {"in the maker's by XMODEM", true, ICELICHEN_MAKERS_XMODEM, 0x0000, false},
    {"in no layout", true, 3, 0xFFFF, true},
};

/* Cut to 8 or 16 bits some of these would be a layout's. */
static const uint32_t NO_LAYOUTS[] = {3, 4, 5, 14, 127, 255, 256, 257, 258, 65535, 65536, 65537, 65538, 2147483648, 2147483649, 4294967294,
                                      4294967295};

/* What came of a number of calls. */
struct tally {
    unsigned calls, taken;
    uint32_t digest;
};

/* The grid. 11, 12, 13 words are the edge of REG_WR (02 item 4); 65,536 and 65,537 would be 0 and 1 in 16 bits, 65,538 would be FWD_WR_CRC. */
static const uint32_t COMMANDS[] = {0, 1, 2, 3, 4, 5, 6, 7, 8, 9, 10, 11, 12, 13, 14, 15, 16, 17, 18, 19, 20, 65535, 65538, 65548};
static const uint32_t ENDS[] = {0, 1, 2, 63, 126, 127, 128, 2047, 65535, 65536};
static const uint32_t ADDRESSES[] = {0, 1, 2, 3, 4, 5, 6, 7, 8, 9, 10, 11, 12, 13, 16, 65535, 65536, 4294967295};
static const uint32_t COUNTS[] = {0, 1, 2, 11, 12, 13, 255, 256, 257, 65535, 65536, 65537};
static const size_t NUMBERS[] = {0, 1, 2, 11, 12, 13, 30, 31, 32, 33, 511, 512, 513, 4095, 4096, 4097, 65536, 65537, 70000};

static uint16_t *pool;                  /* data words; a page that cannot be read lies behind them */
static uint16_t fresh[ARENA];           /* the pattern before a call */
static uint16_t arena[ARENA];           /* guard cells, the buffer, guard cells */
static uint16_t *const buffer = arena + GUARD;
static uint16_t *store;                 /* an answer lies at its end, and behind it a page that cannot be read */
static bool came_out[65536];            /* command words */
static struct way way;                  /* the one that is tried */
static struct tally overall;            /* all calls of it */
static uint32_t seed;
static unsigned frames_told;
static unsigned faults;

/* ---- words, digests, the CRC ---- */

static uint16_t next_word(void)
{
    seed ^= seed << 13;
    seed ^= seed >> 17;
    seed ^= seed << 5;
    return (uint16_t)(seed >> 8);
}

/* This many words, right before a page that cannot be read: one word too far ends the program. */
static uint16_t *guarded(size_t words)
{
    size_t page = (size_t)sysconf(_SC_PAGESIZE), room = (words * sizeof(uint16_t) + page - 1) / page * page;
    unsigned char *from = mmap(NULL, room + page, PROT_READ | PROT_WRITE, MAP_PRIVATE | MAP_ANONYMOUS, -1, 0);
    if (from == MAP_FAILED || mprotect(from + room, page, PROT_NONE) != 0) {
        fprintf(stderr, "trial: no memory with a guard behind it\n");
        exit(2);
    }
    return (uint16_t *)(void *)(from + room) - words;
}

/* FNV-1a: its start, and its step for two bytes. */
#define NO_WORDS 2166136261u

static uint32_t mix(uint32_t digest, uint16_t word)
{
    digest = (digest ^ (word >> 8)) * 16777619u;
    return (digest ^ (word & 0xFF)) * 16777619u;
}

static uint32_t digest_of(const uint16_t *words, size_t length)
{
    uint32_t digest = NO_WORDS;
    for (size_t i = 0; i < length; i++)
        digest = mix(digest, words[i]);
    return digest;
}

static uint32_t mix_long(uint32_t digest, uint32_t value)
{
    return mix(mix(digest, (uint16_t)(value >> 16)), (uint16_t)value);
}

/* 01 "Frames", a byte at a time: the eight bits q that leave at x^16 come back at x^12, x^5 and 1; at x^12 the upper four of them
 * leave once more. */
static uint16_t crc_byte(uint16_t crc, unsigned byte)
{
    unsigned q = (crc >> 8) ^ byte;
    q ^= q >> 4;
    return (uint16_t)(((unsigned)crc << 8) ^ (q << 12) ^ (q << 5) ^ q);
}

static uint16_t crc_of(const uint16_t *words, size_t length)
{
    uint16_t crc = way.start;
    for (size_t i = 0; i < length; i++)
        crc = crc_byte(crc_byte(crc, words[i] >> 8), words[i] & 0xFF);
    return crc;
}

static void fault(const char *what, const struct order *o, size_t words, size_t length)
{
    if (++faults <= FAULTS_TOLD)
        printf("FAULT %s, layout %u: command %u ends %u address %u count %u words %zu length %zu\n",
               what, way.layout, o->command, o->ends, o->address, o->count, words, length);
}

static void count_call(int32_t result)
{
    overall.calls++;
    overall.taken += result >= 0;
    overall.digest = mix_long(overall.digest, (uint32_t)result);
}

/* ---- grid: limits, buffers, guards ---- */

static int32_t write_frame(const struct order *o, const uint16_t *words, size_t number, size_t length)
{
    int32_t result = way.in ? icelichen_frame_in(way.layout, o->command, o->ends, o->address, o->count, words, number, buffer, length)
                            : icelichen_frame(o->command, o->ends, o->address, o->count, words, number, buffer, length);
    count_call(result);
    if (result >= ICELICHEN_BESIDE && (size_t)result <= length)
        overall.digest = mix(mix(overall.digest, buffer[0]), buffer[result - 1]);
    if (way.refused && result != ICELICHEN_OUTSIDE_LIMITS)
        fault("a number that is no layout's not refused", o, number, length);
    return result;
}

/* Cells looked at: the buffer, as far as a frame of this many words would reach, and the guards. */
static size_t zone_of(size_t number, size_t length)
{
    size_t frame = number + ICELICHEN_BESIDE;
    return GUARD + (frame > length ? frame : length) + GUARD;
}

static bool guards_kept(size_t zone, size_t length)
{
    size_t behind = GUARD + length;
    return memcmp(arena, fresh, GUARD * sizeof *arena) == 0
        && memcmp(arena + behind, fresh + behind, (zone - behind) * sizeof *arena) == 0;
}

/* After a call: guards untouched, a refusal untouched all over. Answers the digest of the buffer and puts the pattern back. */
static uint32_t look(const struct order *o, size_t number, size_t length, int32_t result, uint32_t unchanged)
{
    size_t zone = zone_of(number, length);
    if (memcmp(arena, fresh, zone * sizeof *arena) == 0)
        return unchanged;
    uint32_t digest = digest_of(buffer, length);
    if (!guards_kept(zone, length))
        fault("guard cell changed", o, number, length);
    if (result < 0)
        fault("a refusal wrote", o, number, length);
    memcpy(arena, fresh, zone * sizeof *arena);
    return digest;
}

/* Every result but 20 has its line; a writer that seldom says 20 has no more lines than these, its digests tell the rest. */
static void tell_frame(const struct order *o, size_t number, size_t length, int32_t result)
{
    if (++frames_told > FRAMES_TOLD)
        return;
    printf("frame %u ends %u address %u count %u words %zu in %zu: %d buffer %08X guards %s", o->command, o->ends, o->address,
           o->count, number, length, (int)result, (unsigned)digest_of(buffer, length),
           guards_kept(zone_of(number, length), length) ? "kept" : "CHANGED");
    if (result >= ICELICHEN_BESIDE && (size_t)result <= length)
        printf(" command %04X crc %04X", buffer[0], buffer[result - 1]);
    printf("\n");
}

/* All addresses and counts of the grid, one length of buffer; the digest is over results and buffers. */
static struct tally grid_part(uint32_t command, uint32_t ends, size_t number, size_t length, uint32_t unchanged)
{
    struct tally t = {0, 0, NO_WORDS};
    struct order o = {command, ends, 0, 0};
    uint32_t cells;
    for (size_t a = 0; a < CELLS_OF(ADDRESSES); a++) {
        for (size_t c = 0; c < CELLS_OF(COUNTS); c++) {
            o.address = ADDRESSES[a];
            o.count = COUNTS[c];
            int32_t result = write_frame(&o, pool + (POOL - number), number, length);
            t.calls++;
            t.taken += result >= 0;
            t.digest = mix_long(t.digest, (uint32_t)result);
            if (result != ICELICHEN_OUTSIDE_LIMITS)
                tell_frame(&o, number, length, result);
            /* More words than any command carries are refusals alone: looked at once, behind the loop, to save time. */
            if (result >= 0 || number <= WATCHED) {
                cells = look(&o, number, length, result, unchanged);
                t.digest = mix_long(t.digest, cells);
            }
        }
    }
    cells = look(&o, number, length, ICELICHEN_OUTSIDE_LIMITS, unchanged);
    t.digest = mix_long(t.digest, cells);
    return t;
}

/* One number of data words: buffers of the right length, one shorter, none, much longer. */
static void grid_number(size_t number)
{
    const size_t lengths[4] = {number + 2, number + 1, 0, number + 2 + MUCH};
    uint32_t unchanged[4];
    for (size_t i = 0; i < 4; i++)
        unchanged[i] = digest_of(fresh + GUARD, lengths[i]);
    printf("pattern %zu: %08X %08X %08X %08X\n", number, (unsigned)unchanged[0], (unsigned)unchanged[1], (unsigned)unchanged[2],
           (unsigned)unchanged[3]);
    for (size_t c = 0; c < CELLS_OF(COMMANDS); c++) {
        for (size_t e = 0; e < CELLS_OF(ENDS); e++) {
            struct tally t[4];
            for (size_t i = 0; i < 4; i++)
                t[i] = grid_part(COMMANDS[c], ENDS[e], number, lengths[i], unchanged[i]);
            printf("grid %u ends %u words %zu:", COMMANDS[c], ENDS[e], number);
            for (size_t i = 0; i < 4; i++)
                printf(" %u of %u %08X", t[i].taken, t[i].calls, (unsigned)t[i].digest);
            printf("\n");
        }
    }
}

/* ---- all: every command word of the layout's table ---- */

static struct { unsigned orders, written, distinct; uint32_t digest; } all;

/* One order with every number of words it can have, each time other words. A frame with its CRC word has the CRC 0. */
static void all_of_order(const struct row *row, const struct order *o)
{
    for (size_t number = row->least; number <= most_words(row, o); number++) {
        const uint16_t *words = pool + all.orders * 37u % (POOL - 4096);
        size_t length = number + ICELICHEN_BESIDE;
        int32_t result = write_frame(o, words, number, length);
        all.orders++;
        all.written += result == (int32_t)length;
        if (way.refused) {
            look(o, number, length, result, 0);
            continue;
        }
        if (result != (int32_t)length)
            fault("an order within the limits not written", o, number, length);
        if (crc_of(buffer, length) != 0 || memcmp(buffer + 1, words, number * sizeof *words) != 0)
            fault("not these words and their CRC", o, number, length);
        if (!guards_kept(zone_of(number, length), length))
            fault("guard cell changed", o, number, length);
        all.distinct += !came_out[buffer[0]];
        came_out[buffer[0]] = true;
        all.digest = mix_long(all.digest, digest_of(buffer, length));
        memcpy(arena, fresh, zone_of(number, length) * sizeof *arena);
    }
}

/* For each command number: how many command words came out, and a digest of them in ascending order. */
static void tell_command_words(void)
{
    for (unsigned number = 0; number < 16; number++) {
        unsigned distinct = 0;
        uint32_t digest = NO_WORDS;
        for (unsigned low = 0; low < 4096; low++) {
            if (came_out[number * 4096 + low]) {
                distinct++;
                digest = mix(digest, (uint16_t)(number * 4096 + low));
            }
        }
        printf("all number %u: %u distinct command words %08X\n", number, distinct, (unsigned)digest);
    }
}

static void all_words(void)
{
    unsigned orders = 0, distinct = 0;
    uint32_t digest = NO_WORDS;
    for (size_t i = 0; i < CELLS_OF(ROWS); i++) {
        all.orders = all.written = all.distinct = 0;
        all.digest = NO_WORDS;
        each_order(&ROWS[i], all_of_order);
        printf("all %u %s: orders %u written %u distinct command words %u frames %08X\n", ROWS[i].command, ROWS[i].name,
               all.orders, all.written, all.distinct, (unsigned)all.digest);
        if (all.distinct != (way.refused ? 0 : all.orders))
            fault("two orders, one command word", &(struct order){ROWS[i].command, 0, 0, 0}, 0, 0);
        orders += all.orders;
        distinct += all.distinct;
        digest = mix_long(digest, all.digest);
    }
    tell_command_words();
    printf("all: orders %u distinct command words %u of 65536 frames %08X\n", orders, distinct, (unsigned)digest);
}

/* ---- word: every data word ---- */

static void every_word(void)
{
    const struct order o = {ICELICHEN_FWD_WR_CRC, 0, 0, 0};
    uint32_t digest = NO_WORDS;
    for (unsigned value = 0; value < 65536; value++) {
        uint16_t word = (uint16_t)value;
        int32_t result = write_frame(&o, &word, 1, 3);
        digest = mix_long(mix_long(digest, (uint32_t)result), digest_of(buffer, 3));
        if ((value & 0x0FFF) == 0x0FFF)
            printf("word %04X: %d %04X %04X %04X so far %08X\n", value, (int)result, buffer[0], buffer[1], buffer[2],
                   (unsigned)digest);
    }
    look(&o, 1, 3, 3, 0);
}

/* ---- answer: to every order within the limits ---- */

static uint16_t *lay(size_t length)
{
    uint16_t *answer = store + (LONGEST - length);
    for (size_t i = 0; i < length; i++)
        answer[i] = next_word();
    return answer;
}

/* An answer with its right CRC word. */
static uint16_t *lay_right(size_t length)
{
    uint16_t *answer = lay(length);
    answer[length - 1] = crc_of(answer, length - 1);
    return answer;
}

/* Both readers are asked; the digest is over what they say. */
static unsigned ask(const struct order *o, const uint16_t *answer, size_t length, struct tally *t)
{
    int32_t status = way.in ? icelichen_status_in(way.layout, o->command, o->ends, o->address, o->count, answer, length)
                            : icelichen_status(o->command, o->ends, o->address, o->count, answer, length);
    int32_t data = way.in ? icelichen_data_in(way.layout, o->command, o->ends, o->address, o->count, answer, length)
                          : icelichen_data(o->command, o->ends, o->address, o->count, answer, length);
    unsigned taken = (status >= 0 ? 1u : 0u) + (data >= 0 ? 1u : 0u);
    count_call(status);
    count_call(data);
    if (way.refused && (status != ICELICHEN_OUTSIDE_LIMITS || data != ICELICHEN_OUTSIDE_LIMITS))
        fault("an answer in no layout not refused", o, 0, length);
    t->calls += 2;
    t->taken += taken;
    t->digest = mix_long(mix_long(t->digest, (uint32_t)status), (uint32_t)data);
    return taken;
}

static void tell(const char *name, const struct tally *t)
{
    printf(" %s %u of %u %08X", name, t->taken, t->calls, (unsigned)t->digest);
}

static bool is_due(const struct row *row, const struct order *o, size_t length)
{
    return length == (row->reads > 0 ? o->count + 1u : 2u);
}

/* A right answer, also one of ones and one of zeros before the CRC word. It stays as it was. */
static void right_answers(const struct order *o, size_t due)
{
    struct tally t = {0, 0, NO_WORDS};
    for (unsigned fill = 0; fill < 3; fill++) {
        uint16_t *answer = lay(due);
        if (fill > 0)
            memset(answer, fill == 1 ? 0xFF : 0, (due - 1) * sizeof *answer);
        answer[due - 1] = crc_of(answer, due - 1);
        uint32_t before = digest_of(answer, due);
        if (ask(o, answer, due, &t) != (way.refused ? 0 : 1))
            fault("a right answer, not taken by one reader", o, 0, due);
        if (digest_of(answer, due) != before)
            fault("an answer changed", o, 0, due);
    }
    tell("right", &t);
}

/* One bit turned in each word; each bit where the answer is short. */
static void turned_answers(const struct order *o, size_t due)
{
    struct tally t = {0, 0, NO_WORDS};
    uint16_t *answer = lay_right(due);
    for (size_t i = 0; i < due; i++) {
        for (unsigned bit = 0; bit < 16; bit++) {
            if (due > SHORT_ANSWER && bit != (i * 7 + due) % 16)
                continue;
            answer[i] ^= (uint16_t)(1u << bit);
            if (ask(o, answer, due, &t) != 0)
                fault("a turned bit not found", o, 0, due);
            answer[i] ^= (uint16_t)(1u << bit);
        }
    }
    tell("turned", &t);
}

/* A right answer without its last or first word, with a word more behind or before it; and none. Then wrong lengths with a CRC
 * word that is right for them, which are STATUS where data is due and the other way round too. */
static void wrong_lengths(const struct row *row, const struct order *o, size_t due)
{
    static const size_t sealed[] = {1, 2, 3, 4, 5, 12, 13, 14, 256, 257, 258};
    struct tally t = {0, 0, NO_WORDS};
    uint16_t *answer = lay_right(due);
    unsigned taken = ask(o, answer, due - 1, &t) + ask(o, answer + 1, due - 1, &t);
    answer = lay(due + 1);
    answer[due - 1] = crc_of(answer, due - 1);
    taken += ask(o, answer, due + 1, &t);
    answer = lay(due + 1);
    answer[due] = crc_of(answer + 1, due - 1);
    taken += ask(o, answer, due + 1, &t);
    taken += ask(o, store + LONGEST, 0, &t);
    taken += ask(o, lay_right(due - 1), due - 1, &t) + ask(o, lay_right(due + 1), due + 1, &t);
    for (size_t i = 0; i < CELLS_OF(sealed); i++)
        if (!is_due(row, o, sealed[i]))
            taken += ask(o, lay_right(sealed[i]), sealed[i], &t);
    if (taken != 0)
        fault("a wrong length taken", o, 0, due);
    tell("length", &t);
}

/* The other kind's answer at its own length: a read of one word and STATUS have the same, and the order alone decides. */
static void other_kind(const struct order *o)
{
    struct tally t = {0, 0, NO_WORDS};
    for (size_t length = 2; length <= 13; length++)
        ask(o, lay_right(length), length, &t);
    tell("kind", &t);
}

/* What a host reads where nothing is answered. */
static void ones_answers(const struct order *o)
{
    struct tally t = {0, 0, NO_WORDS};
    for (size_t length = 0; length <= ALL_ONES_TO; length++) {
        uint16_t *answer = store + (LONGEST - length);
        memset(answer, 0xFF, length * sizeof *answer);
        if (ask(o, answer, length, &t) != 0)
            fault("an answer of ones taken", o, 0, length);
    }
    tell("ones", &t);
}

static void random_answers(const struct order *o, size_t due)
{
    struct tally t = {0, 0, NO_WORDS};
    for (unsigned i = 0; i < 16; i++) {
        size_t length = i % 2 ? due : next_word() % (ALL_ONES_TO + 1u);
        ask(o, lay(length), length, &t);
    }
    tell("random", &t);
}

static void answers_of_order(const struct row *row, const struct order *o)
{
    size_t due = row->reads > 0 ? o->count + 1u : 2u;
    printf("answer %u ends %u address %u count %u:", o->command, o->ends, o->address, o->count);
    right_answers(o, due);
    turned_answers(o, due);
    wrong_lengths(row, o, due);
    other_kind(o);
    ones_answers(o);
    random_answers(o, due);
    printf("\n");
}

/* ---- outside: the grid's orders ---- */

static void outside_group(uint32_t command, uint32_t ends)
{
    struct tally status = {0, 0, NO_WORDS}, data = status, none = status;
    for (size_t a = 0; a < CELLS_OF(ADDRESSES); a++) {
        for (size_t c = 0; c < CELLS_OF(COUNTS); c++) {
            struct order o = {command, ends, ADDRESSES[a], COUNTS[c]};
            size_t length = o.count < LONGEST ? o.count + 1u : 2u;
            ask(&o, lay_right(2), 2, &status);
            ask(&o, lay_right(length), length, &data);
            ask(&o, store + LONGEST, 0, &none);
        }
    }
    printf("outside %u ends %u:", command, ends);
    tell("status", &status);
    tell("data", &data);
    tell("none", &none);
    printf("\n");
}

/* ---- value: every STATUS, every CRC word ---- */

static void every_value(const struct order *o)
{
    struct tally t = {0, 0, NO_WORDS};
    for (unsigned value = 0; value < 65536; value++) {
        uint16_t *answer = lay(2);
        answer[0] = (uint16_t)value;
        answer[1] = crc_of(answer, 1);
        ask(o, answer, 2, &t);
    }
    printf("value %u every word:", o->command);
    tell("right", &t);
    printf("\n");
}

static void every_crc(const struct order *o, uint16_t first)
{
    struct tally t = {0, 0, NO_WORDS};
    uint16_t *answer = lay(2);
    unsigned right = 0;
    answer[0] = first;
    for (unsigned value = 0; value < 65536; value++) {
        answer[1] = (uint16_t)value;
        if (ask(o, answer, 2, &t) != 0)
            right = value;
    }
    printf("value %u %04X every CRC word:", o->command, first);
    tell("right", &t);
    printf(" last %04X\n", right);
    if (t.taken != (way.refused ? 0 : 1))
        fault("not one right CRC word", o, 0, 2);
}

static void values(void)
{
    /* 01 "Numbers on both sides": the CRCs of 0xFFFF, 0xFFFE, 0xFFFD are 0x0000, 0x1021, 0x2042; STATUS at power-up and after. */
    static const uint16_t first[] = {0xFFFF, 0xFFFE, 0xFFFD, 0x0000, 0x0403, 0x041B, 0x0400, 0x0431, 0x8000};
    for (size_t i = 0; i < CELLS_OF(ROWS); i++) {
        const struct order o = {ROWS[i].command, 0, 0, ROWS[i].reads > 0 ? 1 : 0};
        every_value(&o);
        for (size_t k = 0; k < (i < 2 || i == 6 ? CELLS_OF(first) : 1); k++)
            every_crc(&o, first[k]);
    }
}

/* ---- ways ---- */

/* All of it, with the same words as every other way. */
static void try_way(void)
{
    seed = 0x0DD5EED5;
    frames_told = 0;
    overall = (struct tally){0, 0, NO_WORDS};
    memset(came_out, 0, sizeof came_out);
    printf("way: %s\n", way.name);
    for (size_t i = 0; i < CELLS_OF(NUMBERS); i++)
        grid_number(NUMBERS[i]);
    all_words();
    every_word();
    for (size_t i = 0; i < CELLS_OF(ROWS); i++)
        each_order(&ROWS[i], answers_of_order);
    for (size_t c = 0; c < CELLS_OF(COMMANDS); c++)
        for (size_t e = 0; e < CELLS_OF(ENDS); e++)
            outside_group(COMMANDS[c], ENDS[e]);
    values();
    printf("way: %s:", way.name);
    tell("taken", &overall);
    printf("\n");
}

/* The header: with ICELICHEN_OURS the three that take a layout are the three that take none. */
static void try_ways(void)
{
    struct tally first = {0, 0, 0};
    for (size_t i = 0; i < CELLS_OF(WAYS); i++) {
        way = WAYS[i];
        try_way();
        if (!way.in)
            first = overall;
        else if (way.layout == ICELICHEN_OURS && (overall.taken != first.taken || overall.digest != first.digest))
            fault("our layout is not what the functions without one do", &(struct order){0, 0, 0, 0}, 0, 0);
    }
}

/* ---- known ---- */

/* Data word i is 0xAAF0 + i. 0xD383 and 0xCE8C are document 001's (7.5.4, SOFTRESET_CRC); the other CRC words are from Python's
 * binascii.crc_hqx, the command words read off 01's table and table 7-2. */
static const struct known {
    uint32_t layout;
    struct order order;
    size_t words;
    uint16_t command, crc;
} KNOWN[] = {
    {0, {2, 0, 0, 0}, 1, 0x2000, 0xAE24},    {1, {2, 0, 0, 0}, 1, 0x2000, 0xAE24},     {2, {2, 0, 0, 0}, 1, 0x2000, 0x2AE4},
    {0, {14, 0, 0, 0}, 0, 0xE000, 0x0DBD},   {1, {14, 0, 0, 0}, 0, 0xE1E1, 0xD383},    {2, {14, 0, 0, 0}, 0, 0xE1E1, 0xCE8C},
    {0, {5, 3, 0, 0}, 2, 0x5062, 0x4FDF},    {1, {5, 3, 0, 0}, 2, 0x5103, 0xB9F2},     {2, {5, 3, 0, 0}, 2, 0x5103, 0xB7E2},
    {1, {4, 127, 0, 0}, 0, 0x407F, 0x9FBB},  {1, {4, 0, 0, 0}, 31, 0x4F80, 0x6B0C},    {1, {7, 127, 0, 0}, 1, 0x707F, 0x2F26},
    {2, {6, 1, 0, 0}, 32, 0x6F81, 0x89FB},   {1, {2, 0, 0, 0}, 512, 0x21FF, 0xB943},   {1, {3, 0, 0, 0}, 4096, 0x3FFF, 0x82F9},
    {1, {8, 0, 0, 1}, 0, 0x8000, 0x0697},    {2, {9, 0, 0, 256}, 0, 0x90FF, 0x061B},   {2, {11, 0, 0, 0}, 12, 0xB00B, 0xA89E},
    {0, {10, 0, 1, 0}, 1, 0xA001, 0x442C},   {1, {10, 0, 1, 0}, 1, 0xA040, 0x6EB1},    {1, {10, 0, 10, 0}, 2, 0xA281, 0x80FD},
    {0, {13, 0, 7, 1}, 0, 0xD007, 0x78CF},   {1, {13, 0, 7, 1}, 0, 0xD1C0, 0xE255},    {2, {12, 0, 11, 1}, 0, 0xC2C0, 0xA97A},
    {1, {13, 0, 0, 12}, 0, 0xD00B, 0xB943},
};

static void known_frames(void)
{
    static uint16_t data[4096];
    for (size_t i = 0; i < CELLS_OF(data); i++)
        data[i] = (uint16_t)(0xAAF0 + i);
    for (size_t i = 0; i < CELLS_OF(KNOWN); i++) {
        const struct known *k = &KNOWN[i];
        size_t length = k->words + ICELICHEN_BESIDE;
        way = (struct way){"known", true, k->layout, k->layout == ICELICHEN_MAKERS_XMODEM ? 0 : 0xFFFF, false};
        int32_t result = write_frame(&k->order, data, k->words, length);
        printf("known %u, command %u words %zu: %d %04X %04X\n", k->layout, k->order.command, k->words, (int)result, buffer[0],
               buffer[length - 1]);
        if (result != (int32_t)length || buffer[0] != k->command || buffer[length - 1] != k->crc)
            fault("another frame than the known one", &k->order, k->words, length);
        memcpy(arena, fresh, zone_of(k->words, length) * sizeof *arena);
    }
}

/* ---- no layout ---- */

static struct tally refused;

/* The least and the most words, buffers that are enough, none and much longer; answers that are right by either CRC. */
static void refused_order(const struct row *row, const struct order *o)
{
    const size_t numbers[2] = {row->least, most_words(row, o)}, due = row->reads > 0 ? o->count + 1u : 2u;
    for (size_t i = 0; i < 6; i++) {
        size_t number = numbers[i % 2], length = i < 2 ? number + ICELICHEN_BESIDE : i < 4 ? 0 : number + ICELICHEN_BESIDE + MUCH;
        int32_t result = write_frame(o, pool + (POOL - number), number, length);
        refused.calls++;
        refused.taken += result >= 0;
        look(o, number, length, result, 0);
    }
    for (unsigned i = 0; i < 2; i++) {
        way.start ^= 0xFFFF;
        ask(o, lay_right(due), due, &refused);
    }
}

static void no_layouts(void)
{
    for (size_t i = 0; i < CELLS_OF(NO_LAYOUTS); i++) {
        way = (struct way){"no layout", true, NO_LAYOUTS[i], 0xFFFF, true};
        refused = (struct tally){0, 0, NO_WORDS};
        for (size_t k = 0; k < CELLS_OF(ROWS); k++)
            each_order(&ROWS[k], refused_order);
        printf("no layout %u:", way.layout);
        tell("taken", &refused);
        printf("\n");
    }
}

int main(void)
{
    seed = 0x1CE11C4E;
    pool = guarded(POOL);
    store = guarded(LONGEST);
    for (size_t i = 0; i < POOL; i++)
        pool[i] = next_word();
    for (size_t i = 0; i < ARENA; i++)
        fresh[i] = next_word();
    memcpy(arena, fresh, sizeof arena);
    uint32_t words = digest_of(pool, POOL);

    try_ways();
    known_frames();
    no_layouts();

    if (digest_of(pool, POOL) != words)
        fault("data words changed", &(struct order){0, 0, 0, 0}, POOL, 0);
    printf("faults %u\n", faults);
    return faults > 0;
}
