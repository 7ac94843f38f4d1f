/*
 * header.c - every promise of include/icelichen_bridge.h, tried from the C side.
 *
 *   header SCRIPT..      random scripts (tests/model/make_scripts.py), whose events lead to the states that are tried
 *
 *   power-up   every number, over memory that holds anything; the power-up event beside it
 *   order      kinds and values that are no event's (note 22), stores of wrong lengths (1), no bridge (2), in this order
 *   doubtful   bridges never powered up, of random bytes, with one bit or one number changed: refused by all calls, or taken by all
 *   lists      a list beside its events one by one: results, bridge and stores; refusals, cuts, results too short
 *   elsewhere  a bridge copied to another place goes on the same; stores that held something else at the start
 *   drain      beside single ticks: how many, where they end, what is left
 *   paper      drains whose ticks 01 gives
 *   answering  in an answer the host's word does not matter, else SDO is FFFF
 *   registers  read as a host finds them
 *
 * guarded.h has the calls, each with a look at all that it must leave. The text is C and C++. Every fault has a line; with one the exit status is
 * 1. The last line counts.
 */
#include "guarded.h"

/* ---- the next host word ---- */

/* In an answer every word does the same; else it finds FFFF on SDO. */
static void try_answering(const struct place *state)
{
    static const uint32_t WORDS[] = {0xFFFF, 0, 0x2000, 0xE000, 0xB007};
    static struct place first;
    uint32_t answer = 0;
    for (size_t i = 0; i < sizeof WORDS / sizeof *WORDS; i++) {
        memcpy(trial, state, sizeof *trial);
        uint32_t early = answering(trial);
        uint32_t now = event(trial, ICELICHEN_WORD, WORDS[i]);
        if (i == 0) {
            answer = now;
            memcpy(&first, trial, sizeof first);
            answered[early]++;
        } else if (early != 0 && (now != answer || memcmp(&first, trial, sizeof first) != 0))
            fault("in an answer the host's word matters", WORDS[i], now);
        if (early == 0 && icelichen_sdo(now) != 0xFFFF)
            fault("a word outside an answer is answered", WORDS[i], now);
    }
}

/* ---- registers ---- */

/* What a host fetches of a register, in a copy. */
static int32_t fetched(const struct place *p, uint32_t spoken, uint32_t address)
{
    static struct place copy;
    uint16_t frame[2], answer[2], none = 0;
    memcpy(&copy, p, sizeof copy);
    int32_t length = icelichen_frame_in(spoken, ICELICHEN_REG_RD, 0, address, 1, &none, 0, frame, COUNT_OF(frame));
    for (int32_t i = 0; i < length; i++)
        if (icelichen_note(event(&copy, ICELICHEN_WORD, frame[i])) != ICELICHEN_DONE)
            return -1;
    for (size_t i = 0; i < COUNT_OF(answer); i++)
        answer[i] = icelichen_sdo(event(&copy, ICELICHEN_WORD, 0xFFFF));
    return icelichen_data_in(spoken, ICELICHEN_REG_RD, 0, address, 1, answer, COUNT_OF(answer)) == 1 ? answer[0] : -1;
}

/* Every register reads what a host finds there. Registers 0 and 1 say how it has to speak (02 item 7). */
static void try_registers(const struct place *state)
{
    memcpy(trial, state, sizeof *trial);
    event(trial, ICELICHEN_RELEASE, 0);
    uint32_t spoken = reads(trial, 0) != 0xED99 ? ICELICHEN_OURS : (reads(trial, 1) & 4) == 0 ? ICELICHEN_MAKERS : ICELICHEN_MAKERS_XMODEM;
    for (uint32_t address = 0; address < REGISTERS; address++)
        if (reads(trial, address) != fetched(trial, spoken, address))
            fault("a host finds another value in a register", address, spoken);
    if (reads(trial, REGISTERS) != ICELICHEN_OUTSIDE_LIMITS || reads(trial, 65536 + 7) != ICELICHEN_OUTSIDE_LIMITS || reads(trial, MUCH) != ICELICHEN_OUTSIDE_LIMITS)
        fault("an address past the last register", REGISTERS, spoken);
}

/* ---- power-up ---- */

static void try_power_ups(void)
{
    static const uint32_t none[] = {4, 5, 255, 256, 257, 65536, 65537, 0x80000001u, 0xFFFFFFFFu};
    icelichen_bridge made[4];
    for (uint32_t power = 0; power < 4; power++) {
        for (unsigned i = 0; i < 3; i++) {              /* whatever the memory held */
            if (i == 0)
                memset(&trial->bridge, 0, sizeof trial->bridge);
            else
                fill(&trial->bridge, sizeof trial->bridge);
            if (icelichen_note(power_up(trial, power)) != ICELICHEN_DONE)
                fault("a power-up refused", power, i);
            if (i > 0 && memcmp(&made[power], &trial->bridge, sizeof made[power]) != 0)
                fault("a power-up keeps something of the memory", power, i);
            made[power] = trial->bridge;
        }
        for (uint32_t before = 0; before < power; before++)
            if (memcmp(&made[before], &made[power], sizeof made[power]) == 0)
                fault("two power-ups are one", before, power);
    }
    for (size_t i = 0; i < COUNT_OF(none); i++) {
        fill(&trial->bridge, sizeof trial->bridge);
        if (icelichen_note(power_up(trial, none[i])) != ICELICHEN_NO_EVENT)
            fault("no power-up, and taken", none[i], 0);
    }
}

/* The power-up event gives what the function gives, from every state. */
static void try_power_event(const struct place *state)
{
    for (uint32_t power = 0; power < 4; power++) {
        memcpy(trial, state, sizeof *trial);
        icelichen_bridge made;
        icelichen_power_up(&made, power);
        if (icelichen_note(event(trial, ICELICHEN_POWER, power)) != ICELICHEN_DONE || memcmp(&made, &trial->bridge, sizeof made) != 0)
            fault("a power-up event gives another bridge", power, 0);
        if (!same_stores(trial, state))
            fault("a power-up event writes to a store", power, 0);
    }
}

/* ---- order: 22, then 1, then 2 ---- */

static bool is_event(uint32_t kind, uint32_t value)
{
    return kind < KINDS && value <= MOST[kind];
}

static void try_numbers(const struct place *state, size_t tx, size_t rx, bool broken)
{
    /* 256 + 3, 65536 + 3, 65536, 65537: cut to 8 or 16 bits they would be a tick, and values of events */
    static const uint32_t kinds[] = {0, 1, 2, 3, 4, 5, 6, 7, 255, 256, 259, 65535, 65536, 65539, 0x80000003u, 0xFFFFFFFFu};
    static const uint32_t values[] = {0, 1, 2, 3, 4, 5, 255, 256, 257, 65535, 65536, 65537, 0x80000000u, 0x80000001u, 0xFFFFFFFFu};
    bool wrong = tx != ICELICHEN_TX || rx != ICELICHEN_RX;
    for (size_t k = 0; k < COUNT_OF(kinds); k++) {
        for (size_t v = 0; v < COUNT_OF(values); v++) {
            memcpy(trial, state, sizeof *trial);
            unsigned note = icelichen_note(event_in(trial, tx, rx, kinds[k], values[v]));
            unsigned due = !is_event(kinds[k], values[v]) ? ICELICHEN_NO_EVENT : wrong ? ICELICHEN_WRONG_STORES : broken ? ICELICHEN_BROKEN_RECORD : 0;
            if (due != 0 ? note != due : is_refusal(note))
                fault("another note for kind and value", kinds[k], values[v]);
        }
    }
    memcpy(trial, state, sizeof *trial);
    unsigned stop = icelichen_stop(drain_in(trial, tx, rx, below(3)));
    if (wrong ? stop != ICELICHEN_WRONG_STORES : broken ? stop != ICELICHEN_BROKEN_RECORD : is_refusal(stop))
        fault("another end of a drain", stop, broken);
}

static void try_order(const struct place *state)
{
    static const size_t tx[] = {ICELICHEN_TX, 0, 1, ICELICHEN_TX - 1, ICELICHEN_TX + 1, ICELICHEN_RX};
    static const size_t rx[] = {ICELICHEN_RX, 0, 1, ICELICHEN_RX - 1, ICELICHEN_RX + 1};
    static struct place lent;
    for (unsigned broken = 0; broken < 3; broken++) {
        memcpy(&lent, state, sizeof lent);
        if (broken > 0)
            memset(&lent.bridge, broken == 1 ? 0 : 0xFF, sizeof lent.bridge);
        for (size_t i = 0; i < COUNT_OF(tx); i++)
            for (size_t k = 0; k < COUNT_OF(rx); k++)
                try_numbers(&lent, tx[i], rx[k], broken > 0);
    }
}

/* Lengths that are the right ones in sixteen bits. */
static void try_long_stores(void)
{
    static uint16_t cells[65536 + ICELICHEN_TX], fresh[COUNT_OF(cells)];
    static uint16_t right[ICELICHEN_TX];
    static const unsigned char record[ICELICHEN_RECORD] = {ICELICHEN_TICK, 0, 1};
    unsigned char result[ICELICHEN_RESULT];
    icelichen_bridge bridge;
    fill(fresh, sizeof fresh);
    memcpy(cells, fresh, sizeof cells);
    icelichen_power_up(&bridge, ICELICHEN_OTP_GOOD);
    for (unsigned i = 0; i < 2; i++) {
        uint16_t *tx = i == 0 ? cells : right, *rx = i == 0 ? right : cells;
        size_t wide = i == 0 ? 65536 + ICELICHEN_TX : ICELICHEN_TX, deep = i == 0 ? ICELICHEN_RX : 65536 + ICELICHEN_RX;
        if (icelichen_note(icelichen_event(&bridge, tx, wide, rx, deep, ICELICHEN_WORD, 0x2000)) != ICELICHEN_WRONG_STORES
            || icelichen_events(&bridge, tx, wide, rx, deep, record, sizeof record, result, sizeof result) != -ICELICHEN_WRONG_STORES
            || icelichen_stop(icelichen_drain(&bridge, tx, wide, rx, deep, 5)) != ICELICHEN_WRONG_STORES)
            fault("a store of 65,536 cells more taken", i, 0);
        calls += 3;
    }
    if (memcmp(cells, fresh, sizeof cells) != 0)
        fault("a store that is too long written", 0, 0);
}

/* ---- doubtful: is it a bridge? ---- */

static uint32_t some_value(uint32_t kind)
{
    return below(MOST[kind] + 1);
}

/* Random events behind a bridge that was taken: every step keeps the record rules. */
static void go_on(struct place *p)
{
    for (unsigned i = 0; i < GOES_ON; i++) {
        uint32_t kind = 1 + below(KINDS - 1);
        if (is_refusal(icelichen_note(event(p, kind, some_value(kind)))))
            fault("a bridge that was taken is refused later", i, kind);
    }
}

/* All seven calls refuse the bridge, or none does. Answers whether it was taken. */
static bool doubtful(const struct place *state, const icelichen_bridge *bridge)
{
    static const unsigned char records[] = {ICELICHEN_WORD, 0x20, 0, ICELICHEN_TICK, 0, 1, ICELICHEN_CLOCK, 0, 9};
    unsigned refusals = 0;
    for (uint32_t call = 0; call < KINDS + 2; call++) {
        memcpy(trial, state, sizeof *trial);
        trial->bridge = *bridge;
        if (call < KINDS)
            refusals += icelichen_note(event(trial, call, some_value(call))) == ICELICHEN_BROKEN_RECORD;
        else if (call == KINDS)
            refusals += icelichen_stop(drain(trial, 100)) == ICELICHEN_BROKEN_RECORD;
        else
            refusals += events_in(trial, ICELICHEN_TX, ICELICHEN_RX, records, sizeof records, ROOM) == -ICELICHEN_BROKEN_RECORD;
    }
    trial->bridge = *bridge;
    if (refusals != 0 && (answering(trial) != 0 || reads(trial, 7) != -ICELICHEN_BROKEN_RECORD))
        fault("what is no bridge answers, or has registers", refusals, 0);
    if (refusals == 0 && reads(trial, 7) < 0)
        fault("a bridge that is taken has no STATUS", refusals, 0);
    if (refusals == KINDS + 2) {
        refused++;
        return false;
    }
    if (refusals != 0)
        fault("some calls refuse a bridge, others take it", refusals, 0);
    taken++;
    go_on(trial);
    return true;
}

/* A bridge that was never powered up. */
static void try_no_bridge(const struct place *state)
{
    icelichen_bridge bridge;
    for (unsigned byte = 0; byte < 2; byte++) {
        memset(&bridge, byte == 0 ? 0 : 0xFF, sizeof bridge);
        if (doubtful(state, &bridge))
            fault("a bridge that was never powered up is taken", byte, 0);
    }
    for (unsigned i = 0; i < RANDOM_BRIDGES; i++) {
        fill(&bridge, sizeof bridge);
        doubtful(state, &bridge);
    }
}

static void try_flips(const struct place *state)
{
    for (unsigned bit = 0; bit < sizeof(icelichen_bridge) * 8; bit++) {
        icelichen_bridge bridge = state->bridge;
        bridge.cells[bit / 64] ^= (uint64_t)1 << bit % 64;
        doubtful(state, &bridge);
    }
    if (!doubtful(state, &state->bridge))
        fault("a bridge of a run is refused", 0, 0);
}

/* One to three numbers of sixteen bits, near a limit or anywhere. */
static void try_spoiled(const struct place *state)
{
    static const uint16_t near_limits[] = {0, 1, 2, 7, 8, 9, 17, 18, 127, 128, 255, 256, 257, 511, 512, 513, 4096, 4097, 0x8000, 0xFFFF};
    for (unsigned i = 0; i < SPOILED; i++) {
        icelichen_bridge bridge = state->bridge;
        for (unsigned many = 1 + below(3); many > 0; many--) {
            unsigned at = below(ICELICHEN_CELLS), shift = 16 * below(4);
            uint64_t number = below(2) == 0 ? near_limits[below(COUNT_OF(near_limits))] : next_number() & 0xFFFF;
            bridge.cells[at] = (bridge.cells[at] & ~((uint64_t)0xFFFF << shift)) | number << shift;
        }
        doubtful(state, &bridge);
    }
}

/* ---- drain beside single ticks ---- */

/* The ticks of a drain one by one, in `list`: before each a drain of one tick does the same, so that none ends too soon. */
static void check_ticks(const struct place *state, uint32_t ticks, unsigned stop)
{
    static struct place saved;
    memcpy(list, state, sizeof *list);
    for (uint32_t i = 0; i < ticks; i++) {
        memcpy(&saved, list, sizeof saved);
        uint64_t single = drain(list, 1);
        memcpy(trial, &saved, sizeof saved);
        unsigned note = icelichen_note(event(trial, ICELICHEN_TICK, 1));
        if (icelichen_ticks(single) != 1 || icelichen_stop(single) != note || !same_bridge(list, trial) || !same_stores(list, trial))
            fault("a drain of one tick is no tick", i, note);
        if (note != (i + 1 == ticks ? stop : 0))
            fault("a drain went over a note", i, note);
    }
}

static void try_drain(const struct place *state, uint32_t budget)
{
    struct place *p = other;
    memcpy(p, state, sizeof *p);
    uint64_t answer = drain(p, budget);
    uint32_t ticks = icelichen_ticks(answer);
    unsigned stop = icelichen_stop(answer);
    drained += ticks;
    stops[stop % NOTES]++;
    check_ticks(state, ticks, stop);
    if (!same_bridge(p, list) || !same_stores(p, list))
        fault("a drain is not its ticks", ticks, budget);
    if (stop == 0 && ticks < budget && drain(p, MUCH) != 0)
        fault("a drain ended before its end", ticks, budget);
}

static void try_drains(const struct place *state)
{
    const uint32_t budgets[] = {0, 1, 2 + below(30), 32 + below(1000), MUCH};
    for (size_t i = 0; i < COUNT_OF(budgets); i++)
        try_drain(state, budgets[i]);
}

/* ---- lists ---- */

static unsigned char records[LONGEST * ICELICHEN_RECORD + 2];
static uint32_t answers[LONGEST];

static void lay_records(const struct event *events, size_t count)
{
    for (size_t i = 0; i < count; i++) {
        unsigned char *record = records + i * ICELICHEN_RECORD;
        record[0] = (unsigned char)events[i].kind;
        record[1] = (unsigned char)(events[i].value >> 8);
        record[2] = (unsigned char)events[i].value;
    }
}

static bool is_result(const unsigned char *result, uint32_t answer)
{
    return result[0] == answer >> 24 && result[1] == (answer >> 16 & 0xFF) && result[2] == (answer >> 8 & 0xFF) && result[3] == (answer & 0xFF);
}

/* One thing wrong with the records; answers how long they are then. */
static size_t spoil(size_t count)
{
    static const unsigned char no_events[][ICELICHEN_RECORD] = {
        {ICELICHEN_POWER, 0, 4}, {ICELICHEN_POWER, 1, 0}, {ICELICHEN_RELEASE, 0, 1}, {ICELICHEN_RELEASE, 1, 0}, {ICELICHEN_TICK, 0, 2},
        {ICELICHEN_TICK, 1, 1},  {5, 0, 0},               {6, 0, 0},                 {0x83, 0, 1},              {255, 255, 255},
    };
    if (count == 0 || below(3) == 0) {                  /* cut, or one or two bytes more */
        fill(records + count * ICELICHEN_RECORD, 2);
        return count * ICELICHEN_RECORD + (count > 0 && below(2) == 0 ? (size_t)0 - 1 - below(2) : 1 + below(2));
    }
    memcpy(records + below((uint32_t)count) * ICELICHEN_RECORD, no_events[below(COUNT_OF(no_events))], ICELICHEN_RECORD);
    return count * ICELICHEN_RECORD;
}

/* Sixteen calls: every mix of the four reasons to refuse a list. The first of them is told. */
static void try_refusals(const struct place *state, const struct event *events, size_t count)
{
    for (unsigned mix = 0; mix < 16; mix++) {
        bool bad = (mix & 1) != 0, narrow = (mix & 2) != 0 && count > 0, wrong = (mix & 4) != 0, broken = (mix & 8) != 0;
        lay_records(events, count);
        size_t length = bad ? spoil(count) : count * ICELICHEN_RECORD, need = count * ICELICHEN_RESULT;
        size_t room = narrow ? (below(2) == 0 ? need - 1 : below((uint32_t)need)) : need + below(8);
        size_t tx = ICELICHEN_TX, rx = ICELICHEN_RX;
        if (wrong && below(2) == 0)
            tx += below(2) == 0 ? 1 : (size_t)0 - 1;
        else if (wrong)
            rx = below(2) == 0 ? 0 : ICELICHEN_RX - 1;
        memcpy(trial, state, sizeof *trial);
        if (broken)
            memset(&trial->bridge, below(2) == 0 ? 0 : 0xFF, sizeof trial->bridge);
        int64_t due = bad ? -ICELICHEN_NO_EVENT : narrow ? -ICELICHEN_SHORT_RESULTS : wrong ? -ICELICHEN_WRONG_STORES : broken ? -ICELICHEN_BROKEN_RECORD : (int64_t)count;
        int64_t done = events_in(trial, tx, rx, records, length, room);
        if (done != due)
            fault("another answer of a list", mix, (uint32_t)done);
    }
}

/* These events in one list, in `list`, which stands where `one` stood before them; `one` has done them. */
static void check_list(const struct event *events, size_t count)
{
    lay_records(events, count);
    int64_t done = events_in(list, ICELICHEN_TX, ICELICHEN_RX, records, count * ICELICHEN_RECORD, count * ICELICHEN_RESULT + below(8));
    if (done != (int64_t)count)
        fault("a list refused", (uint32_t)done, (uint32_t)count);
    for (size_t i = 0; i < count; i++)
        if (!is_result(list->results + i * ICELICHEN_RESULT, answers[i]))
            fault("a list's result is not its event's", (uint32_t)i, answers[i]);
    if (!same_bridge(list, one) || !same_stores(list, one))
        fault("a list leaves something else than its events", (uint32_t)count, 0);
    listed += count;
}

/* ---- the run ---- */

static void check_elsewhere(struct place *p, const struct event *events, size_t count, bool stores)
{
    for (size_t i = 0; i < count; i++)
        if (event(p, events[i].kind, events[i].value) != answers[i])
            fault("another answer elsewhere", (uint32_t)i, answers[i]);
    if (!same_bridge(p, one) || (stores && !same_stores(p, one)))
        fault("another bridge elsewhere", (uint32_t)count, stores);
}

/* Some events of the script, each way: one by one, as a list, in a copy elsewhere, and over other stores. */
static void run_some(const struct event *events, size_t count)
{
    memcpy(list, one, sizeof *list);
    other->bridge = one->bridge;
    memcpy(other->tx, one->tx, sizeof one->tx);
    memcpy(other->rx, one->rx, sizeof one->rx);
    try_refusals(one, events, count);
    for (size_t i = 0; i < count; i++) {
        answers[i] = event(one, events[i].kind, events[i].value);
        if (is_refusal(icelichen_note(answers[i])))
            fault("an event of a run refused", events[i].kind, answers[i]);
        else
            notes[icelichen_note(answers[i]) % NOTES]++;
    }
    check_list(events, count);
    check_elsewhere(other, events, count, true);
    check_elsewhere(rubbish, events, count, false);
}

static void try_state(const struct place *state)
{
    static struct place lent;
    memcpy(&lent, state, sizeof lent);
    states++;
    try_power_event(&lent);
    try_answering(&lent);
    try_registers(&lent);
    try_drains(&lent);
    try_spoiled(&lent);
    try_flips(&lent);
    if (states % 10 == 1)                               /* many calls, little to do with the state */
        try_order(&lent);
}

static void run(const struct event *events, size_t count)
{
    size_t apart = count / STATES + 1, next = 0;
    power_up(one, ICELICHEN_OTP_GOOD);
    power_up(rubbish, ICELICHEN_OTP_GOOD);
    for (size_t at = 0, some; at < count; at += some) {
        some = below(LONGEST + 1);
        some = some < count - at ? some : count - at;
        run_some(events + at, some);
        if (at >= next) {
            try_state(one);
            next += apart;
        }
    }
}

/* ---- paper ---- */

/* A frame by the library of icelichen_frames.h, taken without a note; chip select released behind it. */
static void host(uint32_t command, uint32_t ends, uint32_t address, const uint16_t *words, size_t count)
{
    uint16_t frame[40];
    int32_t length = icelichen_frame(command, ends, address, 0, words, count, frame, COUNT_OF(frame));
    for (int32_t i = 0; i < length; i++)
        if (icelichen_note(event(one, ICELICHEN_WORD, frame[i])) != ICELICHEN_DONE)
            fault("a frame met a note", command, (uint32_t)i);
    if (length < 0 || icelichen_note(event(one, ICELICHEN_RELEASE, 0)) != ICELICHEN_DONE)
        fault("a frame was not written or cut", command, (uint32_t)length);
}

static void wake(void)
{
    const uint16_t clear = 0x8000;
    power_up(one, ICELICHEN_OTP_GOOD);
    host(ICELICHEN_REG_WR_CRC, 0, 7, &clear, 1);
}

static void due(uint32_t budget, uint32_t ticks, unsigned stop)
{
    uint64_t answer = drain(one, budget);
    if (icelichen_ticks(answer) != ticks || icelichen_stop(answer) != stop)
        fault("a drain on paper", icelichen_ticks(answer), icelichen_stop(answer));
}

/* 01 "The line": 19 + 17 x words + 18 x extra ENDs, 18 x extra ENDs without words; POR up, nothing starts. */
static void try_paper(void)
{
    const uint16_t words[] = {0xAAF0, 0x1234};
    power_up(one, ICELICHEN_OTP_GOOD);
    host(ICELICHEN_FWD_WR_CRC, 0, 0, words, 1);
    due(MUCH, 0, 0);
    wake();
    due(MUCH, 0, 0);
    host(ICELICHEN_FWD_WR_CRC, 0, 0, words, 1);
    due(0, 0, 0);
    due(10, 10, 0);
    due(MUCH, 26, 0);
    due(MUCH, 0, 0);
    host(ICELICHEN_FWD_WR_END_CRC, 3, 0, words, 0);
    due(54, 54, 0);
    due(1, 0, 0);
    host(ICELICHEN_FWD_WR_END_CRC, 2, 0, words, 2);
    host(ICELICHEN_FWD_RD_END_CRC, 0, 0, words, 2);
    due(MUCH, 19 + 34 + 36 + 19 + 34, 0);
}

/* Note 13: a forward released at its first word, and the second does not come: start bit, seventeen bits, and the tick that finds none. */
static void try_starved(void)
{
    const uint16_t level = 0;
    wake();
    host(ICELICHEN_REG_WR_CRC, 0, 3, &level, 1);
    event(one, ICELICHEN_WORD, 0x3002);
    event(one, ICELICHEN_WORD, 0x1111);
    due(MUCH, 19, ICELICHEN_TX_EMPTY);
    due(MUCH, 17, 0);                                   /* the rest of its END */
}

/* So many ticks with SOUT looped back to SIN a bit later. */
static void loop(unsigned ticks)
{
    unsigned bit = 1;
    for (unsigned i = 0; i < ticks; i++)
        bit = icelichen_sout(event(one, ICELICHEN_TICK, bit));
}

/* Note 14: RX is filled by eight commands of 32 words, then the chain gives back FFFE, whose check bit is a drain's 1. */
static void try_full(void)
{
    uint16_t words[32];
    fill(words, sizeof words);
    wake();
    for (unsigned i = 0; i < 8; i++) {
        host(ICELICHEN_FWD_RD_END_CRC, 0, 0, words, COUNT_OF(words));
        loop(19 + 17 * 32 + 1);
    }
    host(ICELICHEN_FWD_RD_END_CRC, 0, 0, words, 2);
    event(one, ICELICHEN_TICK, 1);                      /* its place begins: what comes back belongs to it */
    event(one, ICELICHEN_TICK, 0);
    for (unsigned i = 0; i < 16; i++)
        event(one, ICELICHEN_TICK, i < 15);
    due(MUCH, 1, ICELICHEN_RX_FULL);
    due(MUCH, 53 - 19, 0);
}

/* ---- scripts ---- */

/* The events of a script whose records are all good; the caller frees them. */
static struct event *read_script(const char *name, size_t *count)
{
    FILE *in = fopen(name, "rb");
    size_t room = 1 << 20, length = 0;
    unsigned char *bytes = (unsigned char *)malloc(room);
    struct event *events = (struct event *)malloc(room / ICELICHEN_RECORD * sizeof *events);
    if (in != NULL && bytes != NULL && events != NULL)
        length = fread(bytes, 1, room, in);
    if (length <= 5 || length == room || memcmp(bytes, "CWB\0\1", 5) != 0) {
        fprintf(stderr, "header: %s: expected a script of less than 1 MiB\n", name);
        exit(2);
    }
    fclose(in);
    *count = (length - 5) / ICELICHEN_RECORD;
    for (size_t i = 0; i < *count; i++) {
        const unsigned char *record = bytes + 5 + i * ICELICHEN_RECORD;
        events[i].kind = record[0];
        events[i].value = (uint32_t)record[1] << 8 | record[2];
    }
    free(bytes);
    return events;
}

static void check_notes(void)
{
    for (unsigned note = 0; note < NOTES; note++)
        if (notes[note] == 0 && note != ICELICHEN_WRONG_STORES && note != ICELICHEN_BROKEN_RECORD)
            fault("a note that no script met", note, 0);
    if (answered[0] == 0 || answered[1] == 0)
        fault("states all in an answer, or none", (uint32_t)answered[0], (uint32_t)answered[1]);
}

int main(int argc, char **argv)
{
    one = new_place(16);
    list = new_place(8);
    other = new_place(8);
    rubbish = new_place(16);
    trial = new_place(8);
    records_end = end_of(sizeof records);
    try_power_ups();
    try_long_stores();
    power_up(one, ICELICHEN_OTP_GOOD);
    try_no_bridge(one);
    try_paper();
    try_starved();
    try_full();
    for (int i = 1; i < argc; i++) {
        size_t count;
        struct event *events = read_script(argv[i], &count);
        run(events, count);
        free(events);
    }
    if (argc > 1)
        check_notes();
    printf("%lu calls, %lu events in lists, %lu states; %lu bridges in doubt refused, %lu taken; %lu ticks drained, ended by note 13 %lu times, by 14 %lu; %u faults\n",
           calls, listed, states, refused, taken, drained, stops[ICELICHEN_TX_EMPTY], stops[ICELICHEN_RX_FULL], faults);
    return faults > 0;
}
