/*
 * stack.c - the stack that each function of include/icelichen_bridge.h takes, at most, over the events of scripts.
 *
 *   stack SCRIPT..       random scripts (tests/model/make_scripts.py); prints a line for each function: its name, bytes
 *
 * A call runs on a stack of its own that was painted before; the deepest byte that is not paint any more is the call's. What it takes is
 * counted from its return address down, arguments on the stack not among it; what it reserves and never writes is not seen. Where that
 * address lies says a stand-in, called from the same place.
 */
#define _DEFAULT_SOURCE
#include "icelichen_bridge.h"

#include <stdio.h>
#include <stdlib.h>
#include <string.h>
#include <ucontext.h>

#define STACK (1 << 16)
#define PAINT 0xA5
#define LIST 32                         /* events of a list */
#define BUDGET 1000                     /* ticks of a drain */
#define HEAD 5                          /* bytes of a script before its records */

enum call { POWER_UP, EVENT, EVENTS, DRAIN, ANSWERING, REGISTER, CALLS };
static const char *const NAMES[CALLS] = {"icelichen_power_up", "icelichen_event", "icelichen_events", "icelichen_drain", "icelichen_answering", "icelichen_register"};

static struct {
    enum call call;
    uint32_t kind, value, budget;
    const uint8_t *records;
    size_t length;
} asked;

static icelichen_bridge bridge;
static uint16_t tx[ICELICHEN_TX], rx[ICELICHEN_RX];
static uint8_t results[LIST * ICELICHEN_RESULT];
static _Alignas(16) unsigned char stack[STACK];
static ucontext_t caller, callee;
static unsigned char *top;              /* the end of the return address, as the stand-in saw it */
static size_t most[CALLS];

typedef uint32_t power_up_call(icelichen_bridge *, uint32_t);
typedef uint32_t event_call(icelichen_bridge *, uint16_t *, size_t, uint16_t *, size_t, uint32_t, uint32_t);
typedef int64_t events_call(icelichen_bridge *, uint16_t *, size_t, uint16_t *, size_t, const uint8_t *, size_t, uint8_t *, size_t);
typedef uint64_t drain_call(icelichen_bridge *, uint16_t *, size_t, uint16_t *, size_t, uint32_t);

typedef uint32_t answering_call(const icelichen_bridge *);
typedef int32_t register_call(const icelichen_bridge *, uint32_t);

/* A frame address lies below the return address and the frame pointer before it, eight bytes each (x86-64). */
#define STAND_IN __attribute__((noinline)) static
#define SEE_TOP (top = (unsigned char *)__builtin_frame_address(0) + 16)

STAND_IN uint32_t no_power_up(icelichen_bridge *b, uint32_t power)
{
    (void)b;
    SEE_TOP;
    return power;
}

STAND_IN uint32_t no_event(icelichen_bridge *b, uint16_t *t, size_t tl, uint16_t *r, size_t rl, uint32_t kind, uint32_t value)
{
    (void)b, (void)t, (void)tl, (void)r, (void)rl;
    SEE_TOP;
    return kind + value;
}

STAND_IN int64_t no_events(icelichen_bridge *b, uint16_t *t, size_t tl, uint16_t *r, size_t rl, const uint8_t *from, size_t fl, uint8_t *to, size_t l)
{
    (void)b, (void)t, (void)tl, (void)r, (void)rl, (void)from, (void)to;
    SEE_TOP;
    return (int64_t)(fl + l);
}

STAND_IN uint64_t no_drain(icelichen_bridge *b, uint16_t *t, size_t tl, uint16_t *r, size_t rl, uint32_t budget)
{
    (void)b, (void)t, (void)tl, (void)r, (void)rl;
    SEE_TOP;
    return budget;
}

STAND_IN uint32_t no_answering(const icelichen_bridge *b)
{
    SEE_TOP;
    return (uint32_t)b->cells[0];
}

STAND_IN int32_t no_register(const icelichen_bridge *b, uint32_t address)
{
    SEE_TOP;
    return (int32_t)(b->cells[0] + address);
}

static power_up_call *volatile do_power_up;
static event_call *volatile do_event;
static events_call *volatile do_events;
static drain_call *volatile do_drain;
static answering_call *volatile do_answering;
static register_call *volatile do_register;

static void use(int real)
{
    do_power_up = real ? icelichen_power_up : no_power_up;
    do_event = real ? icelichen_event : no_event;
    do_events = real ? icelichen_events : no_events;
    do_drain = real ? icelichen_drain : no_drain;
    do_answering = real ? icelichen_answering : no_answering;
    do_register = real ? icelichen_register : no_register;
}

/* Runs on the painted stack. */
static void do_call(void)
{
    switch (asked.call) {
    case POWER_UP:
        do_power_up(&bridge, asked.value);
        break;
    case EVENT:
        do_event(&bridge, tx, ICELICHEN_TX, rx, ICELICHEN_RX, asked.kind, asked.value);
        break;
    case EVENTS:
        do_events(&bridge, tx, ICELICHEN_TX, rx, ICELICHEN_RX, asked.records, asked.length, results, sizeof results);
        break;
    case DRAIN:
        do_drain(&bridge, tx, ICELICHEN_TX, rx, ICELICHEN_RX, asked.budget);
        break;
    case ANSWERING:
        do_answering(&bridge);
        break;
    default:
        do_register(&bridge, asked.kind + 6);
        break;
    }
}

static void switched(void)
{
    memset(stack, PAINT, sizeof stack);
    getcontext(&callee);
    callee.uc_stack.ss_sp = stack;
    callee.uc_stack.ss_size = sizeof stack;
    callee.uc_link = &caller;
    makecontext(&callee, do_call, 0);
    swapcontext(&caller, &callee);
}

/* The call that is asked for: first its stand-in, then itself. */
static void measure(enum call call)
{
    asked.call = call;
    use(0);
    switched();
    use(1);
    switched();
    const unsigned char *deepest = stack;
    while (deepest < top && *deepest == PAINT)
        deepest++;
    size_t bytes = (size_t)(top - deepest);
    most[call] = bytes > most[call] ? bytes : most[call];
}

/* So many events as a list, with a drain behind it; then, from where they began, one by one. */
static void play(const uint8_t *records, size_t count)
{
    static uint16_t tx_before[ICELICHEN_TX], rx_before[ICELICHEN_RX];
    icelichen_bridge before = bridge;
    memcpy(tx_before, tx, sizeof tx);
    memcpy(rx_before, rx, sizeof rx);
    asked.records = records;
    asked.length = count * ICELICHEN_RECORD;
    measure(EVENTS);
    asked.budget = BUDGET;
    measure(DRAIN);
    bridge = before;
    memcpy(tx, tx_before, sizeof tx);
    memcpy(rx, rx_before, sizeof rx);
    for (size_t i = 0; i < count; i++) {
        const uint8_t *record = records + i * ICELICHEN_RECORD;
        asked.kind = record[0];
        asked.value = (uint32_t)record[1] << 8 | record[2];
        measure(EVENT);
        measure(ANSWERING);
        measure(REGISTER);
    }
}

static void play_script(const char *name)
{
    static uint8_t bytes[1 << 20];
    FILE *in = fopen(name, "rb");
    size_t length = in == NULL ? 0 : fread(bytes, 1, sizeof bytes, in);
    if (length <= HEAD || length == sizeof bytes) {
        fprintf(stderr, "stack: %s: expected a script of less than 1 MiB\n", name);
        exit(2);
    }
    fclose(in);
    size_t count = (length - HEAD) / ICELICHEN_RECORD;
    asked.value = ICELICHEN_OTP_GOOD;
    measure(POWER_UP);
    for (size_t at = 0; at < count; at += LIST)
        play(bytes + HEAD + at * ICELICHEN_RECORD, count - at < LIST ? count - at : LIST);
}

int main(int argc, char **argv)
{
    for (int i = 1; i < argc; i++)
        play_script(argv[i]);
    for (int call = 0; call < CALLS; call++)
        printf("%s %zu\n", NAMES[call], most[call]);
    return 0;
}
