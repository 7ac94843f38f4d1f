/*
 * guarded.h - calls of include/icelichen_bridge.h, each with a look at all that it must leave (header.c).
 *
 * Bridge, stores and results have guard bytes around them and are looked at after every call; records end at a page that cannot be read.
 */
#define _DEFAULT_SOURCE
#include "icelichen_bridge.h"
#include "icelichen_frames.h"

#include <assert.h>
#include <stdalign.h>
#include <stdbool.h>
#include <stdio.h>
#include <stdlib.h>
#include <string.h>
#include <sys/mman.h>
#include <unistd.h>

static_assert(sizeof(icelichen_bridge) == 184, "the bridge has 184 bytes");
static_assert(alignof(icelichen_bridge) == alignof(uint64_t), "it is aligned as a uint64_t is");

#define GUARD 64
#define LONGEST 40                      /* events of a list */
#define ROOM (LONGEST * ICELICHEN_RESULT + 7)
#define KINDS 5
#define REGISTERS 12
#define STATES 40                       /* that are tried, of each script */
#define GOES_ON 12                      /* events behind a bridge that was taken */
#define RANDOM_BRIDGES 20000
#define SPOILED 300                     /* of each state */
#define MUCH 0xFFFFFFFFu
#define FAULTS_TOLD 50
#define NOTES 16
#define COUNT_OF(array) (sizeof(array) / sizeof((array)[0]))

/* What a caller owns. Guards of uneven sizes give stores and results the least alignment that they may have. */
struct place {
    unsigned char before_bridge[GUARD];
    icelichen_bridge bridge;
    unsigned char before_tx[GUARD + 2];
    uint16_t tx[ICELICHEN_TX];
    unsigned char before_rx[GUARD];
    uint16_t rx[ICELICHEN_RX];
    unsigned char before_results[GUARD + 1];
    unsigned char results[ROOM];
    unsigned char behind[GUARD];
};

struct event {
    uint32_t kind, value;
};

/* What a call may write. */
enum writes { NOTHING = 0, BRIDGE = 1, STORES = 2 };

static const uint32_t MOST[KINDS] = {ICELICHEN_MAKERS_OTP_GOOD, 0xFFFF, 0, 1, 0xFFFF};  /* value of an event, 01 and 02 item 7 */

static struct place *one, *list, *other, *rubbish;      /* each runs the scripts its own way */
static struct place *trial;             /* for what is not part of a run */
static struct place was;                /* before a call */
static unsigned char *records_end;      /* a page that cannot be read begins here */
static uint32_t seed = 0x1CE11C4E;
static unsigned faults;
static unsigned long calls, listed, states, taken, refused, drained, stops[NOTES], notes[NOTES], answered[2];

/* ---- numbers, memory, faults ---- */

static uint32_t next_number(void)
{
    seed ^= seed << 13;
    seed ^= seed >> 17;
    seed ^= seed << 5;
    return seed;
}

static uint32_t below(uint32_t limit)
{
    return (next_number() >> 8) % limit;
}

static void fill(void *from, size_t length)
{
    for (size_t i = 0; i < length; i++)
        ((unsigned char *)from)[i] = (unsigned char)(next_number() >> 16);
}

/* The byte behind so many that can be read and written. */
static unsigned char *end_of(size_t length)
{
    size_t page = (size_t)sysconf(_SC_PAGESIZE), room = (length + page - 1) / page * page;
    void *from = mmap(NULL, room + page, PROT_READ | PROT_WRITE, MAP_PRIVATE | MAP_ANONYMOUS, -1, 0);
    if (from == MAP_FAILED || mprotect((unsigned char *)from + room, page, PROT_NONE) != 0) {
        fprintf(stderr, "header: no memory with a guard behind it\n");
        exit(2);
    }
    return (unsigned char *)from + room;
}

/* A place that ends so many bytes before a page that cannot be read: 8 or 16 put its bridge at both alignments. */
static struct place *new_place(size_t shift)
{
    struct place *made = (struct place *)(void *)(end_of(sizeof *made + shift) - sizeof *made - shift);
    fill(made, sizeof *made);
    return made;
}

static void fault(const char *what, uint32_t first, uint32_t second)
{
    if (++faults <= FAULTS_TOLD)
        printf("FAULT %s: %u, %u (call %lu)\n", what, (unsigned)first, (unsigned)second, calls);
}

static bool same_bridge(const struct place *a, const struct place *b)
{
    return memcmp(&a->bridge, &b->bridge, sizeof a->bridge) == 0;
}

static bool same_stores(const struct place *a, const struct place *b)
{
    return memcmp(a->tx, b->tx, sizeof a->tx) == 0 && memcmp(a->rx, b->rx, sizeof a->rx) == 0;
}

/* ---- calls, each with a look at all that it must leave ---- */

static void before_call(const struct place *p)
{
    memcpy(&was, p, sizeof was);
    calls++;
}

/* All bytes but those that the call may have written are as they were. */
static void after_call(const char *what, const struct place *p, unsigned may, size_t results, uint32_t answer)
{
    if ((may & BRIDGE) != 0)
        was.bridge = p->bridge;
    if ((may & STORES) != 0) {
        memcpy(was.tx, p->tx, sizeof was.tx);
        memcpy(was.rx, p->rx, sizeof was.rx);
    }
    memcpy(was.results, p->results, results);
    if (memcmp(&was, p, sizeof was) != 0)
        fault(what, answer, may);
}

static bool is_refusal(unsigned note)
{
    return note == ICELICHEN_WRONG_STORES || note == ICELICHEN_BROKEN_RECORD || note == ICELICHEN_NO_EVENT;
}

/* An answer of this kind of event is one: its note, SDO with words alone, SOUT with ticks alone. */
static void check_answer(uint32_t kind, uint32_t answer)
{
    unsigned note = icelichen_note(answer);
    bool quiet = is_refusal(note);
    if (note >= NOTES && note != ICELICHEN_NO_EVENT)
        fault("no note", kind, answer);
    if (icelichen_sdo(answer) != 0xFFFF && (quiet || kind != ICELICHEN_WORD))
        fault("SDO without a word's answer", kind, answer);
    if ((answer & 0xFF) > 1 || (icelichen_sout(answer) != 1 && (quiet || kind != ICELICHEN_TICK)))
        fault("SOUT without a tick", kind, answer);
}

static uint32_t event_in(struct place *p, size_t tx, size_t rx, uint32_t kind, uint32_t value)
{
    before_call(p);
    uint32_t answer = icelichen_event(&p->bridge, p->tx, tx, p->rx, rx, kind, value);
    check_answer(kind, answer);
    after_call("an event wrote what it must not", p, is_refusal(icelichen_note(answer)) ? NOTHING : BRIDGE | STORES, 0, answer);
    return answer;
}

static uint32_t event(struct place *p, uint32_t kind, uint32_t value)
{
    return event_in(p, ICELICHEN_TX, ICELICHEN_RX, kind, value);
}

/* The records are laid before the page that cannot be read. */
static int64_t events_in(struct place *p, size_t tx, size_t rx, const unsigned char *records, size_t length, size_t room)
{
    unsigned char *from = records_end - length;
    memcpy(from, records, length);
    before_call(p);
    int64_t done = icelichen_events(&p->bridge, p->tx, tx, p->rx, rx, from, length, p->results, room);
    size_t written = done > 0 ? (size_t)done * ICELICHEN_RESULT : 0;
    if (written > room || (done >= 0 && (size_t)done * ICELICHEN_RECORD != length))
        fault("a list with another number done", (uint32_t)done, (uint32_t)length);
    else
        after_call("a list wrote what it must not", p, done < 0 ? NOTHING : BRIDGE | STORES, written, (uint32_t)done);
    if (memcmp(from, records, length) != 0)
        fault("records changed", (uint32_t)done, (uint32_t)length);
    return done;
}

static uint64_t drain_in(struct place *p, size_t tx, size_t rx, uint32_t budget)
{
    before_call(p);
    uint64_t answer = icelichen_drain(&p->bridge, p->tx, tx, p->rx, rx, budget);
    uint32_t ticks = icelichen_ticks(answer);
    unsigned stop = icelichen_stop(answer);
    if (stop != 0 && stop != ICELICHEN_TX_EMPTY && stop != ICELICHEN_RX_FULL && (!is_refusal(stop) || ticks != 0))
        fault("a drain ended otherwise", ticks, stop);
    if (ticks > budget)
        fault("a drain made too many ticks", ticks, budget);
    after_call("a drain wrote what it must not", p, is_refusal(stop) || ticks == 0 ? NOTHING : BRIDGE | STORES, 0, stop);
    return answer;
}

static uint64_t drain(struct place *p, uint32_t budget)
{
    return drain_in(p, ICELICHEN_TX, ICELICHEN_RX, budget);
}

static uint32_t power_up(struct place *p, uint32_t power)
{
    before_call(p);
    uint32_t answer = icelichen_power_up(&p->bridge, power);
    check_answer(ICELICHEN_POWER, answer);
    after_call("a power-up wrote what it must not", p, icelichen_note(answer) == 0 ? BRIDGE : NOTHING, 0, answer);
    return answer;
}

static uint32_t answering(struct place *p)
{
    before_call(p);
    uint32_t answer = icelichen_answering(&p->bridge);
    if (answer > 1)
        fault("it neither answers nor does not", answer, 0);
    after_call("a question wrote", p, NOTHING, 0, answer);
    return answer;
}

static int32_t reads(struct place *p, uint32_t address)
{
    before_call(p);
    int32_t value = icelichen_register(&p->bridge, address);
    if (value > 0xFFFF || (value < 0 && value != ICELICHEN_OUTSIDE_LIMITS && value != -ICELICHEN_BROKEN_RECORD))
        fault("a register reads what none can", (uint32_t)value, address);
    after_call("a look at a register wrote", p, NOTHING, 0, (uint32_t)value);
    return value;
}
