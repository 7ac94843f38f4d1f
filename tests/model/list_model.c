/*
 * list_model.c - an independent model of the list call (02, item 6): a night's events in one call.
 *
 *   list_model [file.cwl]
 *
 * Written from 02 item 6, what was decided about it, and 01; not from the crates. The bridge below it is bridge_model.c, event by event.
 *
 * Reads calls (file or standard input). The file begins with 43 57 4C 00 01. A call is four 16-bit numbers, high byte first: the bytes of its
 * records, and the cells lent of the result slice, of TX and of RX, at most 3000, 4400, 512 and 256; then the records. State and stores go from
 * call to call, and begin at power-up; every cell of the result slice is A5 before each call.
 *
 * Prints two lines a call: the outcome (0, 22, 23 or 1) and how many events were done, in decimal; then the result slice, two hex digits a cell.
 * Note 2 cannot come: the state is always one reached from power-up. A wrong head, a number over its limit, or an end in the middle of a call
 * prints `bad file` and stops.
 */
#define main model_main
#include "bridge_model.c"
#undef main

enum { RECORD = 3, RESULT = 4 };        /* bytes of an event and of what it gives */
enum { MOST_BYTES = 3000, MOST_RESULTS = 4400, BEFORE = 0xA5 };
enum { WRONG_STORES = 1, NO_EVENT = 22, SHORT_RESULT = 23 };

struct call {
    unsigned bytes, results, tx, rx;
    unsigned char record[MOST_BYTES];
    unsigned char result[MOST_RESULTS];
};

struct outcome {
    int number;
    unsigned done;
};

/* ---- 02 item 6: the call. ---- */

static uint16_t value_of(const unsigned char *record)
{
    return (uint16_t)(record[1] << 8 | record[2]);
}

/* 01 "The bench program": the records that are events. 02 item 7: a power-up of 0 to 3, which chooses the layout too. */
static bool is_event(const unsigned char *record)
{
    uint16_t value = value_of(record);
    switch (record[0]) {
    case 0:         return value <= 3;
    case 1: case 4: return true;
    case 2:         return value == 0;
    case 3:         return value <= 1;
    default:        return false;
    }
}

/* No record is cut, and each is an event. */
static bool all_events(const struct call *c)
{
    if (c->bytes % RECORD != 0)
        return false;
    for (unsigned at = 0; at < c->bytes; at += RECORD)
        if (!is_event(c->record + at))
            return false;
    return true;
}

/* What is found before the first event: 22, 23, then 1; each leaves everything as it was lent. */
static int refusal(const struct call *c)
{
    if (!all_events(c))
        return NO_EVENT;
    if (c->results < RESULT * (c->bytes / RECORD))
        return SHORT_RESULT;
    if (c->tx != TX_SIZE || c->rx != RX_SIZE)
        return WRONG_STORES;
    return DONE;
}

/* Note, SDO high byte first, SOUT. */
static void put_result(unsigned char *cell, const struct result *r)
{
    cell[0] = (unsigned char)r->note;
    cell[1] = (unsigned char)(r->sdo >> 8);
    cell[2] = (unsigned char)(r->sdo & 0xFF);
    cell[3] = (unsigned char)r->sout;
}

/* No note of an event stops the list. */
static struct outcome list_call(struct bridge *b, struct call *c)
{
    struct outcome out = { refusal(c), 0 };
    if (out.number != DONE)
        return out;
    for (; out.done < c->bytes / RECORD; out.done++) {
        const unsigned char *record = c->record + RECORD * out.done;
        struct result r = step(b, record[0], value_of(record));
        put_result(c->result + RESULT * out.done, &r);
    }
    return out;
}

/* ---- The file of calls. ---- */

static bool call_head(FILE *in)
{
    static const unsigned char head[5] = { 'C', 'W', 'L', 0, 1 };
    for (int i = 0; i < 5; i++)
        if (getc(in) != head[i])
            return false;
    return true;
}

static bool read_number(FILE *in, unsigned most, unsigned *number)
{
    int high = getc(in), low = high == EOF ? EOF : getc(in);
    if (low == EOF)
        return false;
    *number = (unsigned)high << 8 | (unsigned)low;
    return *number <= most;
}

/* One call; 1 good, 0 end of file, -1 over a limit or cut. */
static int read_call(FILE *in, struct call *c)
{
    int first = getc(in);
    if (first == EOF)
        return 0;
    ungetc(first, in);
    if (!read_number(in, MOST_BYTES, &c->bytes) || !read_number(in, MOST_RESULTS, &c->results)
        || !read_number(in, TX_SIZE, &c->tx) || !read_number(in, RX_SIZE, &c->rx))
        return -1;
    memset(c->result, BEFORE, sizeof c->result);
    return fread(c->record, 1, c->bytes, in) == c->bytes ? 1 : -1;
}

static void print_call(const struct outcome *out, const struct call *c)
{
    printf("%d %u\n", out->number, out->done);
    for (unsigned i = 0; i < c->results; i++)
        printf("%02X", c->result[i]);
    putchar('\n');
}

static void run_calls(FILE *in)
{
    static struct bridge b;
    static struct call c;
    int good = call_head(in) ? 1 : -1;
    power_up(&b, true);
    while (good > 0 && (good = read_call(in, &c)) > 0) {
        struct outcome out = list_call(&b, &c);
        print_call(&out, &c);
    }
    if (good < 0)
        puts("bad file");
}

int main(int argc, char **argv)
{
    FILE *in = stdin;
    if (argc > 2) {
        fputs("use: list_model [file.cwl]\n", stderr);
        return 2;
    }
    if (argc == 2) {
        in = fopen(argv[1], "rb");
        if (in == NULL) {
            perror(argv[1]);
            return 2;
        }
    }
    run_calls(in);
    return 0;
}
