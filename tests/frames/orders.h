/* Every order that 01's table allows ("Frames"), with the address limit of 02 item 4, for the programs that go through them. The limits are the
 * same in the maker's layout (02 item 7): each field of document 001's table 7-2 holds what 01's holds. */
#ifndef ORDERS_H
#define ORDERS_H

#include <stdbool.h>
#include <stddef.h>
#include <stdint.h>

#define CELLS_OF(array) (sizeof(array) / sizeof((array)[0]))

enum { REGISTERS = 12 };

struct order {
    uint32_t command, ends, address, count;
};

/* A row: numbers of data words, and the fields the command has. */
static const struct row {
    const char *name;
    uint16_t command;
    size_t least, most;
    uint16_t ends, reads;               /* most of each */
    bool registers;                     /* address + count (or words) at most 12 */
} ROWS[] = {
    {"FWD_WR_CRC", 2, 1, 512, 0, 0, false},      {"FWD_WR", 3, 1, 4096, 0, 0, false},
    {"FWD_WR_END_CRC", 4, 0, 31, 127, 0, false}, {"FWD_WR_END", 5, 0, 31, 127, 0, false},
    {"FWD_RD_END_CRC", 6, 1, 32, 127, 0, false}, {"FWD_RD_END", 7, 1, 32, 127, 0, false},
    {"DATA_RD_CRC", 8, 0, 0, 0, 256, false},     {"DATA_RD", 9, 0, 0, 0, 256, false},
    {"REG_WR_CRC", 10, 1, 12, 0, 0, true},       {"REG_WR", 11, 1, 12, 0, 0, true},
    {"REG_RD_CRC", 12, 0, 0, 0, 12, true},       {"REG_RD", 13, 0, 0, 0, 12, true},
    {"SOFTRESET_CRC", 14, 0, 0, 0, 0, false},
};

/* The most data words of an order; the least are its row's. */
static inline size_t most_words(const struct row *row, const struct order *o)
{
    return row->registers && row->most > 0 ? (size_t)(REGISTERS - o->address) : row->most;
}

/* The orders of a row, without their data words. */
static inline void each_order(const struct row *row, void (*visit)(const struct row *, const struct order *))
{
    unsigned last_address = row->registers ? REGISTERS - 1 : 0;
    for (unsigned ends = 0; ends <= row->ends; ends++) {
        for (unsigned address = 0; address <= last_address; address++) {
            unsigned last = row->reads == 0 ? 0 : row->registers ? REGISTERS - address : row->reads;
            for (unsigned count = row->reads == 0 ? 0 : 1; count <= last; count++) {
                struct order o = {row->command, ends, address, count};
                visit(row, &o);
            }
        }
    }
}

#endif
