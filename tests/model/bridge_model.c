/*
 * bridge_model.c - an independent model of the bridge of document 01, with items 2, 3, 4 and 7 of document 02.
 *
 *   bridge_model [-c | -i] [file.cwb]
 *
 * Plain: reads a CWB script (file or standard input), prints one line an event.
 *   -c   prints at the end how often each note occurred, instead of the lines
 *   -i   flushes every line at once and adds two numbers: the SOUT bit the next tick
 *        would give, and how the next frame is to be written (0 our layout, 1 the
 *        maker's, 2 the maker's with CRC start 0). Used by make_scripts.py, which
 *        needs the one for a loop-back and the other for its frames
 *
 * The section of 01 that a function follows is named above it; "points" is
 * docs/DECISIONS.md, "sheet" is document 001, whose command words and registers
 * the maker's layout has (02 item 7).
 */
#include <stdbool.h>
#include <stdint.h>
#include <stdio.h>
#include <string.h>

enum { TX_SIZE = 512, RX_SIZE = 256, PLACES = 8, END_BITS = 18, GROUP_BITS = 17 };
enum { REGISTERS = 12, SIN_LIMIT_MS = 5 };
enum { START_LEVEL = 63 };              /* 02 item 2: TXFFLVL at power-up, in our layout */
enum { LAST_NUMBER = 65535 };           /* 02 item 4: where the number of a word stops */
enum { MAKERS_DEVID = 0xED99, MAKERS_SPICTRL = 0x00A0, MAKERS_LEVEL = 511 };     /* sheet 7.6.1, 7.6.2, 7.6.4: reset values */
enum { CRC_START = 0xFFFF, XMODEM_START = 0, SPI_CRC_ALG = 4, NO_STATUS = 1 };  /* the last two: bits of SPICTRL, sheet table 7-6 */
enum device_state { NORMAL = 0, INIT = 1, FAILSAFE = 3 };

/* 01 "Notes": the numbers of those this program can meet (1 and 2 never are). */
enum {
    DONE = 0, MALFORMED = 3, DISCARDED = 4, BLOCKED = 5, BAD_CRC_NAMED = 6, BAD_CRC = 7,
    TX_OVERFLOW = 8, QUEUE_OVERFLOW = 9, CCSI_BUSY = 10, RESET_BUSY = 11, CUT_FRAME = 12,
    TX_UNDERFLOW = 13, RX_OVERFLOW = 14, RX_UNDERFLOW = 15, NOTES = 16
};

/* 01 "Registers": addresses; the last is of 02 item 4. */
enum {
    DEVID, SPICTRL, CCSICTRL, TXFFLVL, RXFFLVL, DEVCTRL, DIAGMASK, STATUS, IFST, TXFFST, RXFFST, BADWORD
};

struct ring {
    uint16_t cell[TX_SIZE];             /* RX uses the first 256 */
    unsigned size, head, count;
};

struct flags {
    bool otp, por, srst, reg_write, spi_crc, spi_cs, queue_ovf, check_bit, line_crc, sin;
    bool tx_ovf, tx_uvf, rx_ovf, rx_uvf;
};

/*
 * One place of the queue: words, or extra ENDs. 02 item 3: a forward with both has two, the words first and right
 * behind them the ENDs. The two are one command under way, so the ENDs stand without their words only while they are sent.
 */
struct place {
    unsigned words, ends;               /* one of them is 0 */
    bool of_pair;                       /* ENDs that belong to the words queued just before */
    bool store;                         /* FWD_RD_END forms */
    bool begun, sent, read;
    bool compare, check_error;          /* first sent word is FC write or VSYNC */
    uint16_t sent_crc, read_crc;
};

enum sender_mode { SEND_IDLE, SEND_WORDS, SEND_ONES };
struct sender {
    enum sender_mode mode;
    int place;                          /* index in the queue; -1 for an owed END */
    unsigned words_left, bit;
    unsigned ones_left;                 /* of this place alone, not of the extra ENDs behind its words */
    bool starved;                       /* note 13 came: after this END no extra ENDs follow */
    uint16_t word;
};

enum reader_mode { READ_IDLE, READ_GROUP, READ_PENDING, READ_DISCARD };
struct reader {
    enum reader_mode mode;
    int place;                          /* -1: belongs to none */
    unsigned bit, run;
    uint32_t group;
    uint16_t crc;
    uint16_t words;                     /* 02 item 4: with a right check bit so far, and so the number of the next */
    bool storing, stored, check_error;
};

/* A decoded command word. */
struct command {
    unsigned number, data, ends, reads, address;
};

enum phase { IDLE, COLLECT, ANSWER, DISCARD };
struct frame {
    enum phase phase;
    struct command cmd;
    unsigned came, stored, left;        /* data words come, stored; answer words left */
    bool released, blocked;
    uint16_t start;                     /* of both its CRCs, as its command word found it (02 item 7) */
    uint16_t crc, status;
    uint16_t shadow[REGISTERS];
};

struct bridge {
    bool makers;                        /* the layout of command words and registers: the maker's, or ours (02 item 7) */
    enum device_state state;
    struct flags flag;
    uint16_t spictrl, ccsictrl, tx_level, rx_level, diagmask;
    uint16_t check_word;                /* 02 item 4: of the error that raised CHECK_BIT; 0 while that is down */
    bool drdy;
    struct ring tx, rx;
    struct place place[PLACES];
    unsigned places;
    struct sender sender;
    struct reader reader;
    struct frame frame;
    unsigned last_sin;
    bool stored_end;                    /* this event was the END of a command that stored */
    bool sin_watch;
    uint16_t last_reading, sin_mark, watchdog_mark;
};

struct result {
    int note;
    uint16_t sdo;
    unsigned sout;
};

/* ---- 01 "Frames": the CRC, bit by bit on purpose (no table); the program that is timed has a table of its own. ---- */

#ifndef OWN_CRC_STEP
static uint16_t crc_step(uint16_t crc, uint16_t word)
{
    for (int bit = 15; bit >= 0; bit--) {
        unsigned top = ((crc >> 15) ^ (word >> bit)) & 1u;
        crc = (uint16_t)(crc << 1);
        if (top)
            crc ^= 0x1021;              /* x^12 + x^5 + 1 */
    }
    return crc;
}
#endif

/* ---- 01 "What the bridge is": the rings. ---- */

static void ring_put(struct ring *r, uint16_t word)
{
    r->cell[(r->head + r->count) % r->size] = word;
    r->count++;
}

static uint16_t ring_get(struct ring *r)
{
    uint16_t word = r->cell[r->head];
    r->head = (r->head + 1) % r->size;
    r->count--;
    return word;
}

/* 01 "What the bridge is": the power-up value, with good or bad OTP. */
static void power_up(struct bridge *b, bool good)
{
    memset(b, 0, sizeof *b);
    b->state = good ? NORMAL : INIT;
    b->flag.otp = !good;
    b->flag.por = true;
    b->tx_level = START_LEVEL;
    b->rx_level = 0x00FF;
    b->drdy = true;
    b->tx.size = TX_SIZE;
    b->rx.size = RX_SIZE;
    b->sender.place = -1;
    b->reader.place = -1;
    b->last_sin = 1;
}

/* 02 item 7: values 0 and 1 are 01's, 2 (bad) and 3 (good) choose the maker's layout; its registers reset as in sheet 7.6. */
static void power_event(struct bridge *b, uint16_t value)
{
    power_up(b, value % 2 == 1);
    if (value < 2)
        return;
    b->makers = true;
    b->spictrl = MAKERS_SPICTRL;
    b->tx_level = MAKERS_LEVEL;
}

/* ---- 01 "Registers": reading. ---- */

/* 01 "Notes", last line. */
static bool blocking_flag(const struct bridge *b)
{
    return b->flag.tx_ovf || b->flag.tx_uvf || b->flag.queue_ovf;
}

/* ERR: any flag whose mask bit is not set, or FAILSAFE. */
static bool error_up(const struct bridge *b)
{
    const struct flags *f = &b->flag;
    bool masked = (f->check_bit && !(b->diagmask & 0x0800))
               || (f->line_crc && !(b->diagmask & 0x0200))
               || (f->sin && !(b->diagmask & 0x0100))
               || (f->spi_crc && !(b->diagmask & 0x0001));
    bool plain = f->otp || f->por || f->srst || f->reg_write || f->spi_cs || f->queue_ovf
              || f->tx_ovf || f->tx_uvf || f->rx_ovf || f->rx_uvf;
    return masked || plain || b->state == FAILSAFE;
}

static uint16_t bit_at(bool up, int place)
{
    return (uint16_t)((unsigned)up << place);
}

static uint16_t status_word(const struct bridge *b)
{
    const struct flags *f = &b->flag;
    bool ccsi = f->queue_ovf || f->check_bit || f->line_crc || f->sin;
    return (uint16_t)(bit_at(ccsi, 14) | bit_at(f->tx_ovf || f->tx_uvf, 12)
        | bit_at(f->rx_ovf || f->rx_uvf, 11) | bit_at(b->drdy, 10) | bit_at(f->srst, 9)
        | bit_at(f->spi_cs, 8) | bit_at(f->reg_write, 7) | bit_at(f->spi_crc, 6)
        | (unsigned)b->state << 4 | bit_at(f->otp, 3) | bit_at(f->por, 1)
        | bit_at(error_up(b), 0));
}

static uint16_t interface_word(const struct flags *f)
{
    return (uint16_t)(bit_at(f->spi_cs, 9) | bit_at(f->queue_ovf, 4) | bit_at(f->check_bit, 3)
        | bit_at(f->line_crc, 1) | bit_at(f->sin, 0));
}

static uint16_t fifo_word(bool ovf, bool uvf, unsigned count, unsigned most)
{
    return (uint16_t)(bit_at(ovf, 15) | bit_at(uvf, 14) | (count < most ? count : most));
}

static uint16_t read_register(const struct bridge *b, unsigned address)
{
    const struct flags *f = &b->flag;
    switch (address) {
    case DEVID:     return b->makers ? MAKERS_DEVID : 0;
    case SPICTRL:   return b->spictrl;
    case CCSICTRL:  return b->ccsictrl;
    case TXFFLVL:   return b->tx_level;
    case RXFFLVL:   return b->rx_level;
    case DIAGMASK:  return b->diagmask;
    case STATUS:    return status_word(b);
    case IFST:      return interface_word(f);
    case TXFFST:    return fifo_word(f->tx_ovf, f->tx_uvf, b->tx.count, 511);
    case RXFFST:    return fifo_word(f->rx_ovf, f->rx_uvf, b->rx.count, 255);
    case BADWORD:   return b->check_word;
    default:        return 0;           /* DEVCTRL */
    }
}

/* ---- 01 "Registers", last paragraph: clears and the soft reset. ---- */

/* points "Sender, clears": an owed END counts as sending. */
static bool sending(const struct bridge *b)
{
    return b->sender.mode != SEND_IDLE;
}

/* TX and queue emptied; the reader's command, if it had a place, has none now. */
static void empty_transmit(struct bridge *b)
{
    b->tx.count = 0;
    b->places = 0;
    b->reader.place = -1;
    b->reader.storing = false;
}

static void transmit_clear(struct bridge *b)
{
    empty_transmit(b);
    b->frame.stored = 0;
    b->frame.blocked = true;            /* looked at by forwards alone */
    b->sender.mode = SEND_ONES;
    b->sender.place = -1;
    b->sender.ones_left = END_BITS;
    b->sender.starved = false;
}

static void receive_clear(struct bridge *b)
{
    b->rx.count = 0;
    b->reader.storing = false;
}

static int soft_reset(struct bridge *b)
{
    if (sending(b)) {
        b->flag.srst = true;
        return RESET_BUSY;
    }
    empty_transmit(b);
    receive_clear(b);
    b->reader.mode = READ_IDLE;
    return DONE;
}

/* ---- 01 "Registers": writing one register. ---- */

static int write_ccsictrl(struct bridge *b, uint16_t value)
{
    if (sending(b) || b->reader.mode != READ_IDLE) {
        b->flag.reg_write = true;
        return CCSI_BUSY;
    }
    b->ccsictrl = value;
    return DONE;
}

/* Force acts only in NORMAL, exit only in FAILSAFE, judged before the write. */
static void write_devctrl(struct bridge *b, uint16_t value)
{
    if (b->state == NORMAL && (value & 4))
        b->state = FAILSAFE;
    else if (b->state == FAILSAFE && (value & 1))
        b->state = NORMAL;
}

/* Clearing clears all but OTP and leaves the state. 02 item 4: register 11 reads 0 when the flag is down. */
static void clear_flags(struct bridge *b)
{
    bool otp = b->flag.otp;
    memset(&b->flag, 0, sizeof b->flag);
    b->flag.otp = otp;
    b->check_word = 0;
}

/* 01: watchdog and no answer. 02 item 7, sheet table 7-6: watchdog 13..12, timeout 7..4, algorithm, SDO, no answer; the rest is reserved. */
static uint16_t writable_spictrl(const struct bridge *b)
{
    return b->makers ? 0x30F7 : 0xFF01;
}

static int write_register(struct bridge *b, unsigned address, uint16_t value)
{
    switch (address) {
    case SPICTRL:
        b->spictrl = value & writable_spictrl(b);
        break;
    case CCSICTRL:
        return write_ccsictrl(b, value);
    case TXFFLVL:
        b->tx_level = value & 0x01FF;
        if (value & 0x8000)
            transmit_clear(b);
        break;
    case RXFFLVL:
        b->rx_level = value & 0x00FF;
        if (value & 0x8000)
            receive_clear(b);
        break;
    case DEVCTRL:
        write_devctrl(b, value);
        break;
    case DIAGMASK:
        b->diagmask = value & 0x0B01;
        break;
    case STATUS:
        if (value & 0x8000)
            clear_flags(b);
        break;
    default:                            /* DEVID, IFST, TXFFST, RXFFST, BADWORD: not writable */
        break;
    }
    return DONE;
}

/* ---- 01 "The line": the queue. ---- */

/* A place leaves the queue; the others keep their order. */
static void remove_place(struct bridge *b, int gone)
{
    for (unsigned i = (unsigned)gone; i + 1 < b->places; i++)
        b->place[i] = b->place[i + 1];
    b->places--;
    if (b->sender.place > gone)
        b->sender.place--;
    if (b->reader.place > gone)
        b->reader.place--;
}

/* Freed when sent and read back, or when sent if it has no words; then compared. */
static void free_if_done(struct bridge *b, int index)
{
    const struct place *p = &b->place[index];
    if (!p->sent || (p->words > 0 && !p->read))
        return;
    if (p->compare && !p->check_error && p->sent_crc != p->read_crc)
        b->flag.line_crc = true;
    remove_place(b, index);
}

/* ---- 01 "The line": the sender. ---- */

/* A tick that finds NORMAL, POR clear, no blocking flag and the sender idle. */
static int place_to_begin(const struct bridge *b)
{
    if (b->state != NORMAL || b->flag.por || blocking_flag(b) || sending(b))
        return -1;
    for (unsigned i = 0; i < b->places; i++)
        if (!b->place[i].begun)
            return (int)i;
    return -1;
}

/* 02 item 3: the place of the extra ENDs behind these words; -1 where they have none. */
static int ends_of(const struct bridge *b, int words)
{
    unsigned next = (unsigned)words + 1;
    return next < b->places && b->place[next].of_pair ? (int)next : -1;
}

static void begin_ends(struct bridge *b, int index)
{
    b->place[index].begun = true;
    b->sender.mode = SEND_ONES;
    b->sender.place = index;
    b->sender.ones_left = END_BITS * b->place[index].ends;
}

/*
 * The last 1 of a place: it is sent. 02 item 3: words are sent with their own END. Their extra ENDs follow at once,
 * no start condition is asked for them; after note 13, which ends both, their place is freed instead.
 */
static void place_sent(struct bridge *b, int index)
{
    int ends = ends_of(b, index);
    if (ends >= 0 && b->sender.starved)
        remove_place(b, ends);
    else if (ends >= 0)
        begin_ends(b, ends);
    b->sender.starved = false;
    b->place[index].sent = true;
    free_if_done(b, index);
}

/* One of the 1s of END, of the extra ENDs or of an owed END. */
static void send_one(struct bridge *b)
{
    struct sender *s = &b->sender;
    int index = s->place;
    if (--s->ones_left > 0)
        return;
    s->mode = SEND_IDLE;
    s->place = -1;
    if (index >= 0)
        place_sent(b, index);
}

/* The tick that begins a place: its start bit, or the first 1 of its extra ENDs. */
static unsigned begin_place(struct bridge *b, int index)
{
    struct sender *s = &b->sender;
    struct place *p = &b->place[index];
    if (p->words == 0) {
        begin_ends(b, index);
        send_one(b);
        return 1;
    }
    p->begun = true;
    s->mode = SEND_WORDS;
    s->place = index;
    s->words_left = p->words;
    s->bit = 0;
    if (!b->sin_watch) {                /* a start bit marks if the watch is off */
        b->sin_watch = true;
        b->sin_mark = b->last_reading;
    }
    return 0;
}

/* At a word's first bit it is taken from TX. */
static void take_word(struct bridge *b)
{
    struct sender *s = &b->sender;
    struct place *p = &b->place[s->place];
    s->word = ring_get(&b->tx);
    if (s->words_left == p->words)
        p->compare = (s->word >= 0xAA00 && s->word <= 0xAA0F) || s->word == 0xAAF0;
    p->sent_crc = crc_step(p->sent_crc, s->word);
}

/* Sixteen bits, high first, and the check bit; then the next word or END. */
static unsigned send_word_bit(struct bridge *b)
{
    struct sender *s = &b->sender;
    unsigned out = s->bit < 16 ? (unsigned)(s->word >> (15 - s->bit)) & 1u
                               : (unsigned)~s->word & 1u;
    s->bit++;
    if (s->bit < GROUP_BITS)
        return out;
    s->bit = 0;
    s->words_left--;
    if (s->words_left == 0) {
        s->mode = SEND_ONES;
        s->ones_left = END_BITS;
    }
    return out;
}

/* The sender's part of a tick. */
static unsigned sender_tick(struct bridge *b, int *note)
{
    struct sender *s = &b->sender;
    if (s->mode == SEND_IDLE) {
        int index = place_to_begin(b);
        return index >= 0 ? begin_place(b, index) : 1;
    }
    if (s->mode == SEND_WORDS && s->bit == 0) {
        if (b->tx.count > 0) {
            take_word(b);
        } else {                        /* note 13: this tick's 1 begins one END */
            b->flag.tx_uvf = true;
            *note = TX_UNDERFLOW;
            s->mode = SEND_ONES;
            s->ones_left = END_BITS;
            s->starved = true;
        }
    }
    if (s->mode == SEND_WORDS)
        return send_word_bit(b);
    send_one(b);
    return 1;
}

/* ---- 01 "The line": the reader. ---- */

/* The start 0: belonging and storing are settled here. */
static void reader_start(struct bridge *b)
{
    struct reader *r = &b->reader;
    memset(r, 0, sizeof *r);
    r->mode = READ_GROUP;
    r->crc = CRC_START;                 /* the line's, in both layouts: SPI_CRC_ALG is of SPI alone (sheet table 7-6) */
    r->place = -1;
    for (unsigned i = 0; i < b->places && r->place < 0; i++)
        if (b->place[i].words > 0 && b->place[i].begun && !b->place[i].read)
            r->place = (int)i;
    if (r->place >= 0)
        r->storing = b->place[r->place].store && !b->flag.rx_ovf && !b->flag.rx_uvf;
}

/* 02 item 4: the first number since the flags were cleared is kept, so an error with the flag up leaves it. */
static void reader_check_error(struct bridge *b)
{
    if (!b->flag.check_bit)
        b->check_word = b->reader.words;
    b->flag.check_bit = true;
    b->reader.check_error = true;
    b->reader.mode = READ_DISCARD;
}

static void reader_end(struct bridge *b)
{
    struct reader *r = &b->reader;
    r->mode = READ_IDLE;
    b->stored_end = r->stored;
    if (r->place >= 0) {
        int index = r->place;
        struct place *p = &b->place[index];
        p->read = true;
        p->read_crc = r->crc;
        p->check_error = r->check_error;
        r->place = -1;
        free_if_done(b, index);
    }
}

/* A word with a right check bit. 02 item 4: counted in every command, stored or not, with a place or without. */
static int reader_word(struct bridge *b, uint16_t word)
{
    struct reader *r = &b->reader;
    r->crc = crc_step(r->crc, word);
    if (r->words < LAST_NUMBER)
        r->words++;
    if (!r->storing)
        return DONE;
    if (b->rx.count == RX_SIZE) {
        b->flag.rx_ovf = true;
        r->storing = false;
        return RX_OVERFLOW;
    }
    ring_put(&b->rx, word);
    r->stored = true;
    return DONE;
}

/* The seventeenth bit of a group has come. */
static int reader_group(struct bridge *b)
{
    struct reader *r = &b->reader;
    uint32_t group = r->group;
    r->bit = 0;
    r->group = 0;
    if (group == 0x1FFFF) {             /* seventeen 1s: END now, or the next bit decides */
        if (r->run >= END_BITS)
            reader_end(b);
        else
            r->mode = READ_PENDING;
        return DONE;
    }
    if ((group & 1) == (group >> 1 & 1)) {
        reader_check_error(b);
        return DONE;
    }
    return reader_word(b, (uint16_t)(group >> 1));
}

/* The reader's part of a tick. */
static int reader_tick(struct bridge *b, unsigned sin)
{
    struct reader *r = &b->reader;
    if (r->mode == READ_IDLE) {
        if (sin == 0)
            reader_start(b);
        return DONE;
    }
    r->run = sin ? r->run + 1 : 0;
    if (r->mode == READ_GROUP) {
        r->group = r->group << 1 | sin;
        r->bit++;
        return r->bit == GROUP_BITS ? reader_group(b) : DONE;
    }
    if (r->run >= END_BITS)             /* pending or discarding */
        reader_end(b);
    else if (r->mode == READ_PENDING)
        reader_check_error(b);
    return DONE;
}

/* 01 "The line" and "Notes": sender first, then SIN watch and reader. */
static void line_tick(struct bridge *b, unsigned sin, struct result *res)
{
    int sender_note = DONE;
    res->sout = sender_tick(b, &sender_note);
    if (sin != b->last_sin)
        b->sin_watch = false;
    b->last_sin = sin;
    int reader_note = reader_tick(b, sin);
    res->note = sender_note != DONE ? sender_note : reader_note;
}

/* ---- 01 "Frames": command words. ---- */

/* 01 "Frames", our layout: the low twelve bits of each command. */
static bool our_fields(unsigned low, struct command *c)
{
    unsigned count = (low >> 8) + 1;
    switch (c->number) {
    case 2: case 3:
        c->data = low + 1;
        return c->number == 3 || c->data <= 512;
    case 4: case 5:
        c->data = low & 31;
        c->ends = low >> 5;
        return true;
    case 6: case 7:
        c->data = (low & 31) + 1;
        c->ends = low >> 5;
        return true;
    case 8: case 9:
        c->reads = (low & 0xFF) + 1;
        return low <= 0xFF;
    case 10: case 11: case 12: case 13:
        c->address = low & 15;
        if (c->number <= 11)
            c->data = count;
        else
            c->reads = count;
        return (low & 0xF0) == 0 && c->address + count <= REGISTERS;    /* 02 item 4: 12, not 11 */
    case 14:
        return low == 0;
    default:
        return false;
    }
}

/* 02 item 7, sheet table 7-2, the maker's layout. A data_length of 0 means one word, an opt_data_length of 0 none (sheet 7.5.3). A fixed
 * field has the table's value or the word is malformed. The address limit is 12 here too. */
static bool makers_fields(unsigned low, struct command *c)
{
    unsigned count = (low & 15) + 1;
    switch (c->number) {
    case 2: case 3:                     /* data_length 8..0 below a fixed 0, or 11..0 */
        c->data = low + 1;
        return c->number == 3 || low >> 9 == 0;
    case 4: case 5:                     /* opt_data_length 11..7, extra_end_bytes 6..0 */
        c->data = low >> 7;
        c->ends = low & 127;
        return true;
    case 6: case 7:                     /* data_length 11..7, extra_end_bytes 6..0 */
        c->data = (low >> 7) + 1;
        c->ends = low & 127;
        return true;
    case 8: case 9:                     /* a fixed 0, data_length 7..0 */
        c->reads = (low & 255) + 1;
        return low >> 8 == 0;
    case 10: case 11: case 12: case 13: /* a fixed 0 in 11..10, address 9..6, a fixed 0 in 5..4, data_length 3..0 */
        c->address = low >> 6 & 15;
        if (c->number <= 11)
            c->data = count;
        else
            c->reads = count;
        return low >> 10 == 0 && (low >> 4 & 3) == 0 && c->address + count <= REGISTERS;
    case 14:
        return low == 0x1E1;
    default:
        return false;
    }
}

/* The command number is in bits 15..12 of either. */
static bool decode(const struct bridge *b, uint16_t word, struct command *c)
{
    memset(c, 0, sizeof *c);
    c->number = word >> 12;
    return b->makers ? makers_fields(word & 0x0FFF, c) : our_fields(word & 0x0FFF, c);
}

static bool is_forward(const struct command *c)
{
    return c->number >= 2 && c->number <= 7;
}

/* The commands named _CRC are the even ones. */
static bool named_crc(const struct command *c)
{
    return c->number % 2 == 0;
}

/* 02 item 3: words and the extra ENDs behind them have a place each. */
static unsigned places_needed(const struct command *c)
{
    return (c->data > 0 ? 1u : 0u) + (c->ends > 0 ? 1u : 0u);
}

static void queue_forward(struct bridge *b, const struct command *c)
{
    struct place words = { .words = c->data, .store = c->number >= 6, .sent_crc = CRC_START, .read_crc = CRC_START };
    struct place ends = { .ends = c->ends, .of_pair = c->data > 0, .sent_crc = CRC_START, .read_crc = CRC_START };
    if (c->data > 0)
        b->place[b->places++] = words;
    if (c->ends > 0)
        b->place[b->places++] = ends;
}

/* 01 "Frames": the release of a forward; notes 5 and 9. 02 item 3: all the places it needs, or none. */
static int release_forward(struct bridge *b)
{
    struct frame *f = &b->frame;
    if (places_needed(&f->cmd) == 0)
        return DONE;                    /* queues nothing, never meets 5 or 9 */
    if (f->blocked)
        return BLOCKED;
    if (PLACES - b->places < places_needed(&f->cmd)) {
        b->flag.queue_ovf = true;
        transmit_clear(b);
        return QUEUE_OVERFLOW;
    }
    queue_forward(b, &f->cmd);
    f->released = true;
    return DONE;
}

/* 02 item 7, sheet 7.5.3: CCITT-FALSE begins with 0xFFFF, as ours does, XMODEM with 0. */
static uint16_t start_in_force(const struct bridge *b)
{
    return b->makers && (b->spictrl & SPI_CRC_ALG) ? XMODEM_START : CRC_START;
}

/* 02 item 7, sheet 7.3.4.4.3: a change of the algorithm is for the next command, so a frame keeps what its command word found. */
static int command_word(struct bridge *b, uint16_t word)
{
    struct frame *f = &b->frame;
    struct command c;
    if (word == 0xFFFF)                 /* filler */
        return DONE;
    memset(f, 0, sizeof *f);
    if (!decode(b, word, &c)) {
        f->phase = DISCARD;
        return MALFORMED;
    }
    f->phase = COLLECT;
    f->cmd = c;
    f->start = start_in_force(b);
    f->crc = crc_step(f->start, word);
    f->blocked = blocking_flag(b);
    if (is_forward(&c) && !named_crc(&c) && c.data == 0)
        return release_forward(b);
    return DONE;
}

/* ---- 01 "Frames" and notes 5, 8, 9: a forward's data word. ---- */

static int forward_word(struct bridge *b, uint16_t word)
{
    struct frame *f = &b->frame;
    if (f->blocked)
        return BLOCKED;
    if (b->tx.count == TX_SIZE) {
        b->flag.tx_ovf = true;
        transmit_clear(b);
        return TX_OVERFLOW;
    }
    ring_put(&b->tx, word);
    f->stored++;
    if (named_crc(&f->cmd) || f->released)
        return DONE;
    if (b->tx.count >= b->tx_level + 1u || f->came == f->cmd.data)
        return release_forward(b);
    return DONE;
}

static int data_word(struct bridge *b, uint16_t word)
{
    struct frame *f = &b->frame;
    unsigned index = f->came++;
    f->crc = crc_step(f->crc, word);
    if (is_forward(&f->cmd))
        return forward_word(b, word);
    f->shadow[index] = word;
    if (named_crc(&f->cmd))
        return DONE;                    /* REG_WR_CRC waits for its CRC word */
    return write_register(b, f->cmd.address + index, word);
}

/* ---- 01 "Frames": the CRC word and the answer. ---- */

/* An unreleased forward takes its words back. */
static void take_back(struct bridge *b)
{
    b->tx.count -= b->frame.stored;
    b->frame.stored = 0;
}

/* What a right CRC word does for the commands named _CRC. */
static int crc_effect(struct bridge *b)
{
    const struct frame *f = &b->frame;
    int note = DONE;
    if (!named_crc(&f->cmd))
        return DONE;
    if (is_forward(&f->cmd))
        return release_forward(b);
    if (f->cmd.number == 14)
        return soft_reset(b);
    for (unsigned i = 0; i < f->cmd.data; i++) {
        int one = write_register(b, f->cmd.address + i, f->shadow[i]);
        note = one != DONE ? one : note;
    }
    return note;
}

/* 01 "The line": after each event DRDY is settled. */
static void settle_drdy(struct bridge *b)
{
    if (b->rx.count == 0)
        b->drdy = true;
    else if (b->rx.count > b->rx_level || b->stored_end)
        b->drdy = false;
}

/* The answer begins with the next word; or the frame is over. */
static void begin_answer(struct bridge *b, int note)
{
    struct frame *f = &b->frame;
    bool silent = f->cmd.reads > 0 ? note == BAD_CRC_NAMED : (b->spictrl & NO_STATUS) != 0;
    f->phase = silent ? IDLE : ANSWER;
    f->left = f->cmd.reads > 0 ? f->cmd.reads + 1 : 2;
    f->crc = f->start;
    f->status = status_word(b);
}

static int crc_word(struct bridge *b, uint16_t word)
{
    struct frame *f = &b->frame;
    int note;
    if (word == f->crc) {
        note = crc_effect(b);
    } else {
        b->flag.spi_crc = true;
        note = named_crc(&f->cmd) ? BAD_CRC_NAMED : BAD_CRC;
        if (note == BAD_CRC_NAMED)
            take_back(b);
    }
    settle_drdy(b);                     /* STATUS is taken after all effects */
    begin_answer(b, note);
    return note;
}

/* Note 15, or the oldest word of RX. */
static uint16_t read_rx(struct bridge *b, int *note)
{
    if (b->rx.count > 0)
        return ring_get(&b->rx);
    b->flag.rx_uvf = true;
    b->reader.storing = false;          /* an RX flag rose in the command being read */
    *note = RX_UNDERFLOW;
    return 0xFFFF;
}

static uint16_t answer_word(struct bridge *b, int *note)
{
    struct frame *f = &b->frame;
    uint16_t word;
    f->left--;
    if (f->left == 0) {
        f->phase = IDLE;
        return f->crc;
    }
    if (f->cmd.reads == 0)
        word = f->status;
    else if (f->cmd.number <= 9)
        word = read_rx(b, note);
    else
        word = read_register(b, f->cmd.address++);
    f->crc = crc_step(f->crc, word);
    return word;
}

/* ---- The five events. ---- */

static void host_word(struct bridge *b, uint16_t word, struct result *res)
{
    struct frame *f = &b->frame;
    b->watchdog_mark = b->last_reading; /* 01 "The line": every host word marks */
    switch (f->phase) {
    case IDLE:
        res->note = command_word(b, word);
        break;
    case COLLECT:
        res->note = f->came < f->cmd.data ? data_word(b, word) : crc_word(b, word);
        break;
    case ANSWER:
        res->sdo = answer_word(b, &res->note);
        break;
    case DISCARD:
        res->note = DISCARDED;
        break;
    }
}

/* 01 "Frames", last paragraph: note 12, or nothing but the end of the frame. */
static int chip_select_released(struct bridge *b)
{
    struct frame *f = &b->frame;
    bool cut = f->phase == COLLECT;
    f->phase = IDLE;
    if (!cut)
        return DONE;
    b->flag.spi_cs = true;
    if (is_forward(&f->cmd)) {
        if (!f->released)
            take_back(b);
        else if (f->came < f->cmd.data)
            transmit_clear(b);
    }
    return CUT_FRAME;
}

/* 01 "Registers": so many ms in bits 15..8. 02 item 7, sheet table 7-6: a code in bits 13..12. 0 is off. */
static unsigned watchdog_limit(const struct bridge *b)
{
    static const unsigned coded[4] = { 40, 20, 10, 0 };
    return b->makers ? coded[b->spictrl >> 12 & 3] : b->spictrl >> 8;
}

/* 01 "The line": elapsed time modulo 65,536. */
static void clock_reading(struct bridge *b, uint16_t reading)
{
    unsigned limit = watchdog_limit(b);
    b->last_reading = reading;
    if (b->sin_watch && (uint16_t)(reading - b->sin_mark) >= SIN_LIMIT_MS) {
        b->flag.sin = true;
        b->sin_watch = false;
    }
    if (limit != 0 && b->state == NORMAL && (uint16_t)(reading - b->watchdog_mark) >= limit)
        b->state = FAILSAFE;
}

static struct result step(struct bridge *b, unsigned kind, uint16_t value)
{
    struct result res = { DONE, 0xFFFF, 1 };
    b->stored_end = false;
    switch (kind) {
    case 0: power_event(b, value); break;
    case 1: host_word(b, value, &res); break;
    case 2: res.note = chip_select_released(b); break;
    case 3: line_tick(b, value, &res); break;
    default: clock_reading(b, value); break;
    }
    settle_drdy(b);
    if (blocking_flag(b))               /* note 5: "is or was up during this frame" */
        b->frame.blocked = true;
    return res;
}

/* ---- 01 "The bench program". ---- */

/* One record; 1 good, 0 end of file, -1 wrong or cut. 02 item 7: power goes to 3. */
static int read_record(FILE *in, unsigned *kind, uint16_t *value)
{
    static const uint16_t most[5] = { 3, 0xFFFF, 0, 1, 0xFFFF };
    int k = getc(in);
    if (k == EOF)
        return 0;
    int high = getc(in), low = high == EOF ? EOF : getc(in);
    if (low == EOF || k > 4)
        return -1;
    *kind = (unsigned)k;
    *value = (uint16_t)(high << 8 | low);
    return *value <= most[k] ? 1 : -1;
}

static bool good_head(FILE *in)
{
    static const unsigned char head[5] = { 'C', 'W', 'B', 0, 1 };
    for (int i = 0; i < 5; i++)
        if (getc(in) != head[i])
            return false;
    return true;
}

static unsigned next_sout(const struct bridge *b)
{
    struct bridge copy = *b;
    int note = DONE;
    return sender_tick(&copy, &note);
}

static unsigned next_frame(const struct bridge *b)
{
    return !b->makers ? 0 : start_in_force(b) == CRC_START ? 1 : 2;
}

static void print_event(const struct bridge *b, char mode, unsigned kind, uint16_t value,
                        const struct result *r)
{
    printf("%u %04X %d %04X %u", kind, value, r->note, r->sdo, r->sout);
    if (mode == 'i')
        printf(" %u %u", next_sout(b), next_frame(b));
    putchar('\n');
    if (mode == 'i')
        fflush(stdout);
}

static void run_script(FILE *in, char mode)
{
    static struct bridge b;
    unsigned long count[NOTES] = { 0 };
    unsigned kind;
    uint16_t value;
    int good;
    if (!good_head(in)) {
        puts("bad script");
        return;
    }
    power_up(&b, true);
    while ((good = read_record(in, &kind, &value)) > 0) {
        struct result r = step(&b, kind, value);
        count[r.note]++;
        if (mode != 'c')
            print_event(&b, mode, kind, value, &r);
    }
    if (good < 0)
        puts("bad record");
    for (int i = 0; mode == 'c' && i < NOTES; i++)
        printf("%d %lu\n", i, count[i]);
}

int main(int argc, char **argv)
{
    int next = 1;
    char mode = 0;
    FILE *in = stdin;
    if (next < argc && (strcmp(argv[next], "-c") == 0 || strcmp(argv[next], "-i") == 0))
        mode = argv[next++][1];
    if (next < argc) {
        in = fopen(argv[next], "rb");
        if (in == NULL) {
            perror(argv[next]);
            return 2;
        }
    }
    run_script(in, mode);
    return 0;
}
