/*
 * header.c - the bridge's speed through include/icelichen_bridge.h, for a program in C.
 *
 *   header ROUNDS step|list|drain < script.cwb
 *
 * The workloads of plain.c and crates/speed, done by the proved library: `step` is one call of icelichen_event an event, `list` a
 * round's events in one call of icelichen_events, `drain` as `step` with icelichen_drain at each round's end. Prints what those print,
 * how much was done and a sum of all answers: the same where the same was done. A record that is no event is passed over, as in
 * crates/speed. The CRC alone, their further modes, has no function in the header.
 */
#include "icelichen_bridge.h"

#include <stdbool.h>
#include <stdio.h>
#include <stdlib.h>
#include <string.h>

enum { ROUND_BYTES = 65536, MOST_ROUNDS = 1000000, BUDGET = 1000000 };

static const unsigned char HEAD[] = { 'C', 'W', 'B', 0, 1 };

static icelichen_bridge bridge;
static uint16_t tx[ICELICHEN_TX], rx[ICELICHEN_RX];
static uint8_t records[ROUND_BYTES];
static uint8_t results[ROUND_BYTES / ICELICHEN_RECORD * ICELICHEN_RESULT];

/* What was done so far: events and ticks, and the sum of their answers. */
struct ran {
    unsigned long long done;
    uint32_t sum;
};

static uint32_t mixed(uint32_t sum, uint32_t said)
{
    return sum * 31u + said;
}

static void one_event(struct ran *ran, const uint8_t *record)
{
    uint32_t value = (uint32_t)record[1] << 8 | record[2];
    uint32_t answer = icelichen_event(&bridge, tx, ICELICHEN_TX, rx, ICELICHEN_RX, record[0], value);
    unsigned note = icelichen_note(answer);
    if (note == ICELICHEN_NO_EVENT)
        return;
    ran->sum = mixed(ran->sum, mixed(mixed(icelichen_sdo(answer), note), icelichen_sout(answer)));
    ran->done++;
}

static void step_round(struct ran *ran, size_t bytes)
{
    for (size_t i = 0; i + ICELICHEN_RECORD <= bytes; i += ICELICHEN_RECORD)
        one_event(ran, records + i);
}

static void drain_round(struct ran *ran, size_t bytes)
{
    step_round(ran, bytes);
    uint64_t drained = icelichen_drain(&bridge, tx, ICELICHEN_TX, rx, ICELICHEN_RX, BUDGET);
    ran->sum = mixed(ran->sum, mixed(icelichen_ticks(drained), icelichen_stop(drained)));
    ran->done += icelichen_ticks(drained);
}

/* A list that is refused has nothing done. */
static void list_round(struct ran *ran, size_t bytes)
{
    int64_t many = icelichen_events(&bridge, tx, ICELICHEN_TX, rx, ICELICHEN_RX, records, bytes, results, sizeof results);
    if (many < 0)
        return;
    for (const uint8_t *r = results; r < results + ICELICHEN_RESULT * many; r += ICELICHEN_RESULT)
        ran->sum = mixed(ran->sum, mixed(mixed((uint32_t)r[1] << 8 | r[2], r[0]), r[3]));
    ran->done += (unsigned long long)many;
}

static bool is_number(const char *text, long *number)
{
    char *end;
    *number = strtol(text, &end, 10);
    return end != text && *end == 0 && *number >= 0 && *number <= MOST_ROUNDS;
}

/* By its letter, as plain.c and crates/speed take it. */
static bool is_mode(const char *text)
{
    return text[0] == 's' || text[0] == 'l' || text[0] == 'd';
}

static bool good_head(FILE *in)
{
    unsigned char head[sizeof HEAD];
    return fread(head, 1, sizeof head, in) == sizeof head && memcmp(head, HEAD, sizeof head) == 0;
}

int main(int argc, char **argv)
{
    struct ran ran = { 0, 0 };
    long rounds;
    if (argc != 3 || !is_number(argv[1], &rounds) || !is_mode(argv[2]) || !good_head(stdin)) {
        fputs("use: header ROUNDS step|list|drain < script.cwb\n", stderr);
        return 2;
    }
    size_t bytes = fread(records, 1, sizeof records, stdin);
    icelichen_power_up(&bridge, ICELICHEN_OTP_GOOD);
    while (rounds-- > 0) {
        switch (argv[2][0]) {
        case 'l': list_round(&ran, bytes); break;
        case 'd': drain_round(&ran, bytes); break;
        default:  step_round(&ran, bytes); break;
        }
    }
    printf("%llu done, sum %08x\n", ran.done, (unsigned)ran.sum);
    return 0;
}
