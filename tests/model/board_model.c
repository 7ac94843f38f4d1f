/*
 * board_model.c - an independent model of the call-up board (02, item 13) and of its program (docs/BOARD.md).
 *
 *   board_model [--line] < night.txt
 *
 * Written from 02 item 13, what was decided about it, and docs/BOARD.md; not from the crates. The bridge below it is bridge_model.c, event by event.
 */
#include <stdlib.h>

#define main model_main
#include "bridge_model.c"
#undef main

enum { WORD = 1, RELEASE, TICK, CLOCK };                    /* kinds of events, 01 The bench program */
enum { SLOTS = 40, ROWS = 5, MOST_WORDS = 30, VSYNC = 0xAAF0 };
enum { NEEDED_PLACES = 2 };                                 /* words and VSYNC, neither with extra ENDs: one each (02 item 3) */
enum { NO_SLOT = 32, WRONG_WORDS = 33, NOT_READY = 34, NO_ROOM = 35 };
enum { MOST_TEXT = 1 << 20, MOST_SHOWN = 40, MOST_16 = 65535, MOST_TICKS = 1000000, MOST_DELAY = 4096 };
enum { FWD_WR_CRC = 0x2000, REG_WR_CRC = 0xA000, CLEARS = 0x8000, FORCES = 4, EXITS = 1 };

struct call_up {
    unsigned number, slot;
    uint16_t reading;
    size_t words;                       /* as many as the line has; no more than 30 are kept */
    uint16_t word[MOST_WORDS];
};

struct night {
    struct bridge bridge;
    struct bridge ear;                  /* of this one only the reader: it hears SOUT */
    unsigned delay;
    unsigned char chain[MOST_DELAY];    /* the last bits of SOUT, as many as the delay */
    struct call_up slot[SLOTS];         /* the last taken; number 0: none */
    struct call_up due[PLACES];         /* taken and not yet shown, oldest first; each still has the place of its VSYNC */
    unsigned dues, heard;               /* heard: commands whose END stood on SOUT */
    unsigned long ticks, left;          /* left: ticks that the shift may still make */
    bool in_shift;
    unsigned long calls, taken, refused, shown, bad;
    bool line, in_line;                 /* with --line; bits of a `line` are printed and its end is not */
};

/* ---- What is printed. ---- */

/* Before each line: bits since the last one end here. */
static void new_line(struct night *n)
{
    if (n->in_line)
        putchar('\n');
    n->in_line = false;
}

static void print_bit(struct night *n, unsigned bit)
{
    if (!n->line)
        return;
    if (!n->in_line)
        fputs("line ", stdout);
    n->in_line = true;
    putchar(bit ? '1' : '0');
}

static const char *plural(unsigned long count)
{
    return count == 1 ? "" : "s";
}

/* 02 item 13: whatever comes in a night, every note is 0. */
static void must_be_done(int note)
{
    if (note == DONE)
        return;
    fflush(stdout);
    fprintf(stderr, "board_model: note %d\n", note);
    exit(3);
}

/* ---- The chain of boards and the ear on SOUT. ---- */

/* docs/BOARD.md: a call-up is shown with the bit that makes END of its VSYNC. Two commands a call-up, and no others are ever sent. */
static void hear(struct night *n, unsigned bit)
{
    bool open = n->ear.reader.mode != READ_IDLE;
    reader_tick(&n->ear, bit);
    if (!open || n->ear.reader.mode != READ_IDLE)
        return;
    n->heard++;
    if (n->heard % 2 != 0 || n->dues == 0)
        return;
    new_line(n);
    printf("tick %lu: call-up %u, slot %u: shown\n", n->ticks, n->due[0].number, n->due[0].slot);
    n->dues--;
    memmove(n->due, n->due + 1, n->dues * sizeof n->due[0]);
    n->shown++;
}

/* The bit on SIN is SOUT's of `delay` ticks before. SOUT does not depend on SIN, so a copy tells it before the tick is made. */
static void make_tick(struct night *n)
{
    unsigned out = next_sout(&n->bridge), in = out;
    if (n->delay > 0) {
        unsigned char *cell = &n->chain[n->ticks % n->delay];
        in = n->ticks < n->delay ? 1 : *cell;
        *cell = (unsigned char)out;
    }
    struct result r = step(&n->bridge, TICK, (uint16_t)in);
    must_be_done(r.note);
    n->ticks++;
    print_bit(n, r.sout);
    hear(n, r.sout);
}

/* ---- The host's frames. ---- */

/* 02 item 1: command word, data words, CRC word; then chip select. */
static void send_frame(struct night *n, unsigned command, const uint16_t *word, size_t words)
{
    uint16_t crc = crc_step(0xFFFF, (uint16_t)command);
    must_be_done(step(&n->bridge, WORD, (uint16_t)command).note);
    for (size_t i = 0; i < words; i++) {
        crc = crc_step(crc, word[i]);
        must_be_done(step(&n->bridge, WORD, word[i]).note);
    }
    must_be_done(step(&n->bridge, WORD, crc).note);
    must_be_done(step(&n->bridge, RELEASE, 0).note);
}

static void write_one(struct night *n, unsigned address, uint16_t value)
{
    send_frame(n, REG_WR_CRC + address, &value, 1);
}

/* ---- 02 item 13: taking and refusing. ---- */

/* The first reason of 34, in docs/BOARD.md's order; NULL where the bridge is ready. */
static const char *not_ready(const struct bridge *b)
{
    if (b->state == INIT)
        return "it is in INIT";
    if (b->state == FAILSAFE)
        return "it is in FAILSAFE";
    if (b->flag.por)
        return "POR is set";
    if (blocking_flag(b))
        return "a transmit or queue fault is up";
    if (b->frame.phase != IDLE)
        return "a host frame is open";
    return NULL;
}

/* The refusal's number, 0 where the call-up is to be taken. */
static int refusal(const struct bridge *b, const struct call_up *c)
{
    if (c->slot >= SLOTS)
        return NO_SLOT;
    if (c->words < 1 || c->words > MOST_WORDS)
        return WRONG_WORDS;
    if (not_ready(b) != NULL)
        return NOT_READY;
    if (PLACES - b->places < NEEDED_PLACES || b->tx.count + c->words + 1 > TX_SIZE)
        return NO_ROOM;
    return 0;
}

static void take(struct night *n, const struct call_up *c)
{
    static const uint16_t vsync = VSYNC;
    send_frame(n, FWD_WR_CRC + (unsigned)c->words - 1, c->word, c->words);
    send_frame(n, FWD_WR_CRC, &vsync, 1);
    n->slot[c->slot] = *c;
    n->due[n->dues++] = *c;
    n->taken++;
    puts("taken");
}

static void refuse(struct night *n, const struct call_up *c, int why)
{
    const struct bridge *b = &n->bridge;
    n->refused++;
    printf("refused (%d), ", why);
    if (why == NO_SLOT)
        printf("there is no slot %u: slots are 0 to %d\n", c->slot, SLOTS - 1);
    else if (why == WRONG_WORDS)
        printf("a call-up has 1 to %d words\n", MOST_WORDS);
    else if (why == NOT_READY)
        printf("the bridge is not ready: %s\n", not_ready(b));
    else
        printf("no room: %u of %d places and %u of %d words of TX are in use\n", b->places, PLACES, b->tx.count, TX_SIZE);
}

/* In a shift a call-up that finds no room waits, a tick at a time. */
static void call_up(struct night *n, struct call_up *c)
{
    int why;
    c->number = (unsigned)++n->calls;
    while ((why = refusal(&n->bridge, c)) == NO_ROOM && n->in_shift && n->left > 0) {
        n->left--;
        make_tick(n);
    }
    new_line(n);
    printf("tick %lu: call-up %u, slot %u, reading %u, %zu word%s: ", n->ticks, c->number, c->slot, c->reading, c->words, plural(c->words));
    if (why == 0)
        take(n, c);
    else
        refuse(n, c, why);
}

/* The shift ends: ticks while something is sent or may start. */
static void end_shift(struct night *n)
{
    for (; n->left > 0 && (sending(&n->bridge) || place_to_begin(&n->bridge) >= 0); n->left--)
        make_tick(n);
    n->in_shift = false;
}

/* ---- docs/BOARD.md: the text. ---- */

/* What is left of a line, and the word just read off it. */
struct part {
    const char *at;
    size_t length;
};

struct text_line {
    unsigned long number;
    struct part rest, word;
};

/* The next word, between blanks or tabs; of length 0 where there is none. */
static struct part next_word(struct text_line *l)
{
    struct part *r = &l->rest, word;
    while (r->length > 0 && (*r->at == ' ' || *r->at == '\t')) {
        r->at++;
        r->length--;
    }
    word = (struct part){ r->at, 0 };
    while (word.length < r->length && word.at[word.length] != ' ' && word.at[word.length] != '\t')
        word.length++;
    r->at += word.length;
    r->length -= word.length;
    l->word = word;
    return word;
}

static bool is(struct part word, const char *name)
{
    return word.length == strlen(name) && memcmp(word.at, name, word.length) == 0;
}

static void bad_line(struct night *n, const struct text_line *l, const char *expected)
{
    n->bad++;
    new_line(n);
    printf("bad line %lu: expected %s\n", l->number, expected);
}

/* A bad line by the word last read. It is printed as it stands: it may hold any byte. */
static void bad_word(struct night *n, const struct text_line *l, const char *expected)
{
    n->bad++;
    new_line(n);
    printf("bad line %lu: expected %s, found ", l->number, expected);
    if (l->word.length == 0) {
        puts("nothing");
        return;
    }
    putchar('`');
    fwrite(l->word.at, 1, l->word.length < MOST_SHOWN ? l->word.length : MOST_SHOWN, stdout);
    puts("`");
}

/* A number from 0 to `most` as the next word; else the line is told as bad. */
static bool read_number(struct night *n, struct text_line *l, unsigned long most, const char *as, unsigned long *value)
{
    struct part word = next_word(l);
    bool good = word.length > 0;
    char expected[60];
    *value = 0;
    for (size_t i = 0; i < word.length && good; i++) {
        good = word.at[i] >= '0' && word.at[i] <= '9';
        *value = *value * 10 + (unsigned long)(good ? word.at[i] - '0' : 0);
        good = good && *value <= most;
    }
    if (good)
        return true;
    snprintf(expected, sizeof expected, "a number from 0 to %lu as the %s", most, as);
    bad_word(n, l, expected);
    return false;
}

static int hex_digit(char c)
{
    if (c >= '0' && c <= '9')
        return c - '0';
    if (c >= 'A' && c <= 'F')
        return c - 'A' + 10;
    return c >= 'a' && c <= 'f' ? c - 'a' + 10 : -1;
}

/* Four hex digits, or -1. */
static long word_of(struct part word)
{
    long value = 0;
    if (word.length != 4)
        return -1;
    for (int i = 0; i < 4; i++) {
        int digit = hex_digit(word.at[i]);
        if (digit < 0)
            return -1;
        value = value << 4 | digit;
    }
    return value;
}

/* True where the line has nothing more. */
static bool at_end(struct night *n, struct text_line *l)
{
    if (next_word(l).length == 0)
        return true;
    bad_word(n, l, "nothing more");
    return false;
}

/* A line of one number. */
static bool one_number(struct night *n, struct text_line *l, unsigned long most, const char *as, unsigned long *value)
{
    return read_number(n, l, most, as, value) && at_end(n, l);
}

static void call_line(struct night *n, struct text_line *l)
{
    struct call_up c = { 0 };
    unsigned long slot, reading;
    if (!read_number(n, l, MOST_16, "slot", &slot) || !read_number(n, l, MOST_16, "reading", &reading))
        return;
    while (next_word(l).length > 0) {
        long word = word_of(l->word);
        if (word < 0) {
            bad_word(n, l, "a word of four hex digits");
            return;
        }
        if (c.words < MOST_WORDS)
            c.word[c.words] = (uint16_t)word;
        c.words++;
    }
    c.slot = (unsigned)slot;
    c.reading = (uint16_t)reading;
    call_up(n, &c);
}

static void delay_line(struct night *n, struct text_line *l)
{
    unsigned long delay;
    if (!one_number(n, l, MOST_DELAY, "delay", &delay))
        return;
    if (n->ticks > 0)
        bad_line(n, l, "delay before the first tick");
    else
        n->delay = (unsigned)delay;
}

static void shift_line(struct night *n, struct text_line *l)
{
    unsigned long ticks;
    if (!one_number(n, l, MOST_TICKS, "ticks", &ticks))
        return;
    if (n->in_shift) {
        bad_line(n, l, "end before the next shift");
        return;
    }
    n->in_shift = true;
    n->left = ticks;
}

static void end_line(struct night *n, struct text_line *l)
{
    if (!at_end(n, l))
        return;
    if (n->in_shift)
        end_shift(n);
    else
        bad_line(n, l, "shift before end");
}

static void do_line(struct night *n, struct text_line *l)
{
    unsigned long value;
    struct part word = next_word(l);
    if (word.length == 0)
        return;
    if (is(word, "call")) {
        call_line(n, l);
    } else if (is(word, "tick")) {
        if (one_number(n, l, MOST_TICKS, "ticks", &value))
            for (; value > 0; value--)
                make_tick(n);
    } else if (is(word, "clock")) {
        if (one_number(n, l, MOST_16, "reading", &value))
            must_be_done(step(&n->bridge, CLOCK, (uint16_t)value).note);
    } else if (is(word, "clear")) {
        if (at_end(n, l))
            write_one(n, STATUS, CLEARS);
    } else if (is(word, "force")) {
        if (at_end(n, l))
            write_one(n, DEVCTRL, FORCES);
    } else if (is(word, "exit")) {
        if (at_end(n, l))
            write_one(n, DEVCTRL, EXITS);
    } else if (is(word, "delay")) {
        delay_line(n, l);
    } else if (is(word, "shift")) {
        shift_line(n, l);
    } else if (is(word, "end")) {
        end_line(n, l);
    } else {
        bad_word(n, l, "call, tick, clock, clear, force, exit, delay, shift or end");
    }
}

/* A comment goes to the line's end; one carriage return before the line's end belongs to it. */
static struct part without_comment(const char *at, size_t length)
{
    const char *comment = memchr(at, '#', length);
    if (comment != NULL)
        return (struct part){ at, (size_t)(comment - at) };
    return (struct part){ at, length > 0 && at[length - 1] == '\r' ? length - 1 : length };
}

static void do_text(struct night *n, const char *text, size_t length)
{
    struct text_line l = { 0 };
    for (size_t from = 0; from < length;) {
        const char *end = memchr(text + from, '\n', length - from);
        size_t size = end != NULL ? (size_t)(end - text) - from : length - from;
        l.number++;
        l.rest = without_comment(text + from, size);
        do_line(n, &l);
        from += size + 1;
    }
}

/* ---- The panel and the sums. ---- */

static void print_rule(void)
{
    for (int i = 0; i < SLOTS / ROWS; i++)
        fputs("+-----------", stdout);
    puts("+");
}

static void print_upper(const struct call_up *c, int slot)
{
    if (c->number > 0)
        printf("|%3d  %5u ", slot, c->reading);
    else
        printf("|%3d        ", slot);
}

static void print_lower(const struct call_up *c)
{
    char more[24] = "";
    if (c->words > 1)
        snprintf(more, sizeof more, " +%zu", c->words - 1);
    if (c->number > 0)
        printf("|   %04X%-4s", c->word[0], more);
    else
        fputs("|           ", stdout);
}

static void print_panel(const struct night *n)
{
    enum { ROW = SLOTS / ROWS };
    print_rule();
    for (int first = 0; first < SLOTS; first += ROW) {
        for (int slot = first; slot < first + ROW; slot++)
            print_upper(&n->slot[slot], slot);
        puts("|");
        for (int slot = first; slot < first + ROW; slot++)
            print_lower(&n->slot[slot]);
        puts("|");
        print_rule();
    }
}

static void print_sums(const struct night *n)
{
    printf("%lu call-up%s: %lu taken, %lu refused, %lu shown; ", n->calls, plural(n->calls), n->taken, n->refused, n->shown);
    printf("%lu bad line%s; %lu tick%s\n", n->bad, plural(n->bad), n->ticks, plural(n->ticks));
}

int main(int argc, char **argv)
{
    static struct night n;
    static char text[MOST_TEXT + 1];
    if (argc > 2 || (argc == 2 && strcmp(argv[1], "--line") != 0)) {
        fputs("use: board_model [--line] < night.txt\n", stderr);
        return 2;
    }
    size_t length = fread(text, 1, sizeof text, stdin);
    if (length > MOST_TEXT) {
        fprintf(stderr, "expected at most 1 MiB (%d bytes) of text, found more\n", MOST_TEXT);
        return 0;
    }
    n.line = argc == 2;
    power_up(&n.bridge, true);
    power_up(&n.ear, true);
    do_text(&n, text, length);
    if (n.in_shift)
        end_shift(&n);
    new_line(&n);
    puts("");
    print_panel(&n);
    puts("");
    print_sums(&n);
    return 0;
}
