/*
 * plain.c - the plain C program that the bridge's speed is measured beside.
 *
 *   plain ROUNDS step|list|drain|crc|wide < script.cwb
 *
 * The rules are those of ../model/bridge_model.c, which changes its state in place. Added here: the record
 * rules of docs/RECORD-RULES.md, tested before every event, once before a list and once before a drain, as the bridge does, and a
 * table for the CRC, of 256 entries: what is fastest here, though a controller has sixteen since 02 item 5. Prints
 * what the bridge's own program prints (crates/speed): how much was done, and a sum of all answers. For `crc` and
 * `wide` that is the CRC of the script's bytes as words, by sixteen entries and by 256.
 */
#include <stdint.h>
#include <stdlib.h>

/* The CRC of each byte, for crc_step; the first sixteen are those of each nibble, for crc_by_nibbles. */
static uint16_t crc_of[256];

static void make_table(void)
{
    for (unsigned byte = 0; byte < 256; byte++) {
        unsigned crc = byte << 8;
        for (int bit = 0; bit < 8; bit++)
            crc = crc & 0x8000 ? crc << 1 ^ 0x1021 : crc << 1;
        crc_of[byte] = (uint16_t)crc;
    }
}

static uint16_t crc_byte(uint16_t crc, unsigned byte)
{
    return (uint16_t)(crc << 8 ^ crc_of[crc >> 8 ^ byte]);
}

static uint16_t crc_step(uint16_t crc, uint16_t word)
{
    return crc_byte(crc_byte(crc, word >> 8), word & 0xFF);
}

static uint16_t crc_by_nibbles(uint16_t crc, uint16_t word)
{
    for (int shift = 12; shift >= 0; shift -= 4)
        crc = (uint16_t)(crc << 4 ^ crc_of[crc >> 12 ^ (word >> shift & 0xF)]);
    return crc;
}

#define OWN_CRC_STEP
#define main model_main
#include "../model/bridge_model.c"
#undef main

enum { WORDS_MOST = 4096, ENDS_MOST = 127, ROUND_BYTES = 65536, BUDGET = 1000000 };

static bool ring_holds(const struct ring *r, unsigned size)
{
    return r->size == size && r->head < size && r->count <= size;
}

/* SPICTRL has bits that its layout lets a host write (02 item 7). OTP is up in INIT alone; the number of a bad word is 0 while
   CHECK_BIT is down (02 item 4), its type is its range; DRDY says whether RX is empty, and is 0 over the level. */
static bool registers_hold(const struct bridge *b)
{
    return (b->spictrl & ~(unsigned)writable_spictrl(b)) == 0 && (b->diagmask & ~0x0B01u) == 0 && b->tx_level < TX_SIZE
        && b->rx_level < RX_SIZE && b->flag.otp == (b->state == INIT) && (b->flag.check_bit || b->check_word == 0)
        && (b->rx.count == 0 ? b->drdy : !(b->rx.count > b->rx_level && b->drdy));
}

/* As it was queued. */
static bool untouched(const struct place *p)
{
    return !p->compare && !p->check_error && !p->sent && !p->read && p->sent_crc == 0xFFFF && p->read_crc == 0xFFFF;
}

/* Words, or ENDs (02 item 3): these are not read back, and sent they are no place any more. */
static bool place_holds(const struct place *p)
{
    if (p->words > 0)
        return p->words <= WORDS_MOST && p->ends == 0 && !p->of_pair;
    return p->ends > 0 && p->ends <= ENDS_MOST && !p->store && untouched(p);
}

/* Of those that have begun: each but the youngest is sent, and its reading awaited; the youngest is not one to be freed. */
static bool begun_holds(const struct place *p, bool youngest)
{
    return youngest ? !(p->sent && p->read) : p->words > 0 && p->sent && !p->read;
}

/* ENDs of a pair that have not begun stand behind their words, and these are not sent: with their last bit the ENDs begin. */
static bool waiting_holds(const struct bridge *b, unsigned i)
{
    const struct place *p = &b->place[i];
    bool behind_words = i > 0 && b->place[i - 1].words > 0 && !b->place[i - 1].sent;
    return !p->begun && untouched(p) && (!p->of_pair || behind_words);
}

/* Those that have begun stand first. How many they are, and the words that the others will take. */
static bool places_hold(const struct bridge *b, unsigned *begun, long *waiting)
{
    unsigned n = 0;
    long sum = 0;
    if (b->places > PLACES)
        return false;
    while (n < b->places && b->place[n].begun)
        n++;
    for (unsigned i = 0; i < b->places; i++) {
        const struct place *p = &b->place[i];
        if (!place_holds(p) || !(i < n ? begun_holds(p, i + 1 == n) : waiting_holds(b, i)))
            return false;
        if (i >= n)
            sum += p->words;
    }
    *begun = n;
    *waiting = sum;
    return true;
}

/* The sender is at the youngest place that has begun, until that is sent, or at an END that belongs to none. Extra ENDs are
   the one thing longer than an END; note 13 is remembered through the END of its words. */
static bool sender_holds(const struct bridge *b, unsigned begun)
{
    const struct sender *s = &b->sender;
    bool busy = begun > 0 && !b->place[begun - 1].sent;
    bool ends = busy && b->place[begun - 1].words == 0;
    if (s->place != (busy ? (int)begun - 1 : -1) || (s->starved && (s->mode != SEND_ONES || !busy || ends)))
        return false;
    switch (s->mode) {
    case SEND_IDLE:
        return !busy;
    case SEND_WORDS:
        return busy && s->bit < GROUP_BITS && s->words_left > 0 && s->words_left <= b->place[begun - 1].words;
    default:
        return s->ones_left > 0 && s->ones_left <= END_BITS * (ends ? b->place[begun - 1].ends : 1);
    }
}

/* A command being read belongs to the oldest place or to none, and is stored only where that place asks for it. How many words
   of it were right (02 item 4) is free: the line is, and the type is the range. */
static bool reader_holds(const struct bridge *b, unsigned begun)
{
    const struct reader *r = &b->reader;
    const struct place *oldest = &b->place[0];
    if (r->mode == READ_IDLE)
        return r->place == -1;
    if (r->bit > GROUP_BITS || r->run >= END_BITS)
        return false;
    if (r->place != -1 && !(r->place == 0 && begun > 0 && oldest->words > 0 && !oldest->read))
        return false;
    return !r->storing || (r->place == 0 && oldest->store && !b->flag.rx_ovf && !b->flag.rx_uvf);
}

static bool forward_holds(const struct frame *f)
{
    bool nothing = f->cmd.data == 0 && f->cmd.ends == 0;
    bool due = named_crc(&f->cmd) || f->released || f->blocked || f->came < f->cmd.data || nothing;
    bool own = f->released || f->blocked || f->stored == f->came;
    return f->came <= f->cmd.data && f->cmd.data <= WORDS_MOST && f->cmd.ends <= ENDS_MOST && own && due
        && !(f->released && named_crc(&f->cmd));
}

static bool collect_holds(const struct frame *f)
{
    if (is_forward(&f->cmd))
        return forward_holds(f);
    if (f->stored != 0 || f->released)
        return false;
    if (f->cmd.number == 8 || f->cmd.number == 9)
        return f->came == 0 && f->cmd.reads > 0 && f->cmd.reads <= RX_SIZE;
    if (f->cmd.number == 10 || f->cmd.number == 11)
        return f->came <= f->cmd.data && f->cmd.data > 0 && f->cmd.address + f->cmd.data <= REGISTERS;
    if (f->cmd.number == 12 || f->cmd.number == 13)
        return f->came == 0 && f->cmd.reads > 0 && f->cmd.address + f->cmd.reads <= REGISTERS;
    return f->cmd.number == 14 && f->came == 0;
}

/* `left` counts the CRC word too. */
static bool answer_holds(const struct frame *f)
{
    if (f->cmd.reads == 0)
        return f->left >= 1 && f->left <= 2;
    if (f->cmd.number <= 9)
        return f->left >= 1 && f->left <= RX_SIZE + 1;
    return f->left >= 1 && f->cmd.address + f->left - 1 <= REGISTERS;
}

static bool frame_holds(const struct frame *f)
{
    switch (f->phase) {
    case COLLECT: return collect_holds(f);
    case ANSWER:  return answer_holds(f);
    default:      return true;
    }
}

/* The words that the youngest command will still take; its ENDs, if it has both, stand behind them. */
static long youngest_takes(const struct bridge *b, long sending_now)
{
    unsigned places = b->places;
    if (places > 0 && b->place[places - 1].of_pair)
        places--;
    return places > 0 && !b->place[places - 1].begun ? (long)b->place[places - 1].words : sending_now;
}

/* A frame's CRC starts as one of its layout's does: ours has one, the maker's two (02 item 7). */
static bool start_holds(const struct bridge *b)
{
    const struct frame *f = &b->frame;
    return (f->phase != COLLECT && f->phase != ANSWER) || f->start == CRC_START || (b->makers && f->start == XMODEM_START);
}

/* Every word of TX has a command that will take it, and only the youngest can starve. An open forward is marked as
   blocked while a blocking flag is up. */
static bool ledger_holds(const struct bridge *b, long waiting)
{
    const struct frame *f = &b->frame;
    const struct sender *s = &b->sender;
    bool forward = f->phase == COLLECT && is_forward(&f->cmd);
    if (forward && !f->blocked && blocking_flag(b))
        return false;
    bool owes = forward && f->released && !f->blocked;
    long to_come = owes ? (long)f->cmd.data - (long)f->came : 0;
    long mine = forward && !f->released && !f->blocked ? (long)f->stored : 0;
    long sending_now = s->mode == SEND_WORDS ? (long)s->words_left - (s->bit > 0) : 0;
    return (long)b->tx.count + to_come == sending_now + waiting + mine && to_come <= youngest_takes(b, sending_now);
}

static bool rules_hold(const struct bridge *b)
{
    unsigned begun;
    long waiting;
    return ring_holds(&b->tx, TX_SIZE) && ring_holds(&b->rx, RX_SIZE) && registers_hold(b)
        && places_hold(b, &begun, &waiting) && sender_holds(b, begun) && reader_holds(b, begun)
        && frame_holds(&b->frame) && start_holds(b) && ledger_holds(b, waiting);
}

/* One event as the bridge's `step` does it: the record rules first. */
static struct result checked_step(struct bridge *b, unsigned kind, uint16_t value)
{
    struct result refused = { 2, 0xFFFF, 1 };
    return rules_hold(b) ? step(b, kind, value) : refused;
}

static bool at_rest(const struct bridge *b)
{
    return !sending(b) && place_to_begin(b) < 0;
}

/* 01 "The line", draining. */
static unsigned drain(struct bridge *b, unsigned budget, int *note)
{
    unsigned ticks = 0;
    *note = DONE;
    if (!rules_hold(b)) {
        *note = 2;
        return 0;
    }
    while (ticks < budget && *note == DONE && !at_rest(b)) {
        *note = step(b, 3, 1).note;
        ticks++;
    }
    return ticks;
}

static uint32_t mixed(uint32_t sum, uint32_t said)
{
    return sum * 31u + said;
}

/* A record's kind and value are an event's; a power-up's goes to 3 (02 item 7). */
static bool is_event(unsigned kind, unsigned value)
{
    static const uint16_t most[] = { 3, 0xFFFF, 0, 1, 0xFFFF };
    return kind < sizeof most / sizeof *most && value <= most[kind];
}

static bool are_events(const unsigned char *records, size_t n)
{
    for (size_t i = 0; i < n; i += 3)
        if (!is_event(records[i], (unsigned)records[i + 1] << 8 | records[i + 2]))
            return false;
    return true;
}

/* 02 item 6: a list of records, four bytes each; the record rules once. Answers how many were done. */
static size_t list(struct bridge *b, const unsigned char *records, size_t n, unsigned char *out, size_t room, int *note)
{
    *note = n % 3 || !are_events(records, n) ? 22 : room / 4 < n / 3 ? 23 : rules_hold(b) ? DONE : 2;
    if (*note != DONE)
        return 0;
    for (size_t i = 0; i < n; i += 3, out += 4) {
        struct result r = step(b, records[i], (uint16_t)(records[i + 1] << 8 | records[i + 2]));
        out[0] = (unsigned char)r.note;
        out[1] = (unsigned char)(r.sdo >> 8);
        out[2] = (unsigned char)r.sdo;
        out[3] = (unsigned char)r.sout;
    }
    return n / 3;
}

static void list_rounds(const unsigned char *records, size_t n, long rounds)
{
    static struct bridge b;
    static unsigned char results[4 * ROUND_BYTES / 3 + 4];
    unsigned long long done = 0;
    uint32_t sum = 0;
    power_up(&b, true);
    while (rounds-- > 0) {
        int note;
        size_t many = list(&b, records, n, results, sizeof results, &note);
        for (const unsigned char *r = results; r < results + 4 * many; r += 4)
            sum = mixed(sum, mixed(mixed((uint32_t)r[1] << 8 | r[2], r[0]), r[3]));
        done += many;
    }
    printf("%llu done, sum %08x\n", done, (unsigned)sum);
}

static void crc_rounds(const unsigned char *records, size_t n, long rounds, bool wide)
{
    unsigned long long done = 0;
    uint16_t crc = 0xFFFF;
    while (rounds-- > 0) {
        for (size_t i = 0; i + 2 <= n; i += 2) {
            uint16_t word = (uint16_t)(records[i] << 8 | records[i + 1]);
            crc = wide ? crc_step(crc, word) : crc_by_nibbles(crc, word);
        }
        done += n / 2;
    }
    printf("%llu done, sum %08x\n", done, (unsigned)crc);
}

int main(int argc, char **argv)
{
    static struct bridge b;
    static unsigned char records[ROUND_BYTES];
    unsigned long long done = 0;
    uint32_t sum = 0;
    if (argc != 3 || !good_head(stdin)) {
        fputs("use: plain ROUNDS step|list|drain|crc|wide < script.cwb\n", stderr);
        return 2;
    }
    long rounds = atol(argv[1]);
    bool drains = argv[2][0] == 'd';
    size_t n = fread(records, 1, sizeof records, stdin);
    make_table();
    if (argv[2][0] == 'c' || argv[2][0] == 'w') {
        crc_rounds(records, n, rounds, argv[2][0] == 'w');
        return 0;
    }
    if (argv[2][0] == 'l') {
        list_rounds(records, n, rounds);
        return 0;
    }
    power_up(&b, true);
    while (rounds-- > 0) {
        for (size_t i = 0; i + 3 <= n; i += 3) {
            struct result r = checked_step(&b, records[i], (uint16_t)(records[i + 1] << 8 | records[i + 2]));
            sum = mixed(sum, mixed(mixed(r.sdo, (uint32_t)r.note), r.sout));
            done++;
        }
        if (drains) {
            int note;
            unsigned ticks = drain(&b, BUDGET, &note);
            sum = mixed(sum, mixed(ticks, (uint32_t)note));
            done += ticks;
        }
    }
    printf("%llu done, sum %08x\n", done, (unsigned)sum);
    return 0;
}
