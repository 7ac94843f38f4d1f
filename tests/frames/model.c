/*
 * model.c - the host frames of document 02, item 1, in the layouts of item 7, as an independent program.
 *
 * The six functions of include/icelichen_frames.h. Written from 01 "Frames", 02 items 1, 4 and 7, document 001's table 7-2, what was
 * decided about them, and the header's text; not from the library. tests/frames/trial.c is linked once with this file and once with
 * the library, and both must print the same. Plain on purpose: the CRC goes bit by bit, no table.
 */
#include "icelichen_frames.h"

#include <stdbool.h>

enum { MOST_ENDS = 127, MOST_READ = 256, REGISTERS = 12 };         /* 02 item 4: 12, not 11 */
enum { MOST_FWD_WR_CRC = 512, MOST_FWD_WR = 4096, MOST_FWD_WR_END = 31, MOST_FWD_RD_END = 32 };
enum { STATUS_ANSWER = 2 };

static bool is_layout(uint32_t layout)
{
    return layout == ICELICHEN_OURS || layout == ICELICHEN_MAKERS || layout == ICELICHEN_MAKERS_XMODEM;
}

/* 01 "Frames": x^16 + x^12 + x^5 + 1, start 0xFFFF, high bit first, no final change. 02 item 7, document 001, 7.5.3: XMODEM is the
 * same from 0. */
static uint16_t crc_of(uint32_t layout, const uint16_t *words, size_t length)
{
    uint16_t crc = layout == ICELICHEN_MAKERS_XMODEM ? 0 : 0xFFFF;
    for (size_t i = 0; i < length; i++) {
        for (int bit = 15; bit >= 0; bit--) {
            unsigned out = (crc >> 15) ^ ((words[i] >> bit) & 1u);
            crc = (uint16_t)(crc << 1);
            if (out)
                crc ^= 0x1021;          /* x^12 + x^5 + 1; x^16 is the bit shifted out */
        }
    }
    return crc;
}

/* 02 item 1: these answer data, all the others STATUS. */
static bool is_read(uint32_t command)
{
    return command == ICELICHEN_DATA_RD_CRC || command == ICELICHEN_DATA_RD
        || command == ICELICHEN_REG_RD_CRC || command == ICELICHEN_REG_RD;
}

/* 01 "Frames", the table: are the fields such that some number of data words makes it an order? The header: a field that the
 * command does not have is 0. REG_WR needs at least one word, so its address is at most 11. */
static bool fields_fit(uint32_t command, uint32_t ends, uint32_t address, uint32_t count)
{
    switch (command) {
    case ICELICHEN_FWD_WR_CRC: case ICELICHEN_FWD_WR: case ICELICHEN_SOFTRESET_CRC:
        return ends == 0 && address == 0 && count == 0;
    case ICELICHEN_FWD_WR_END_CRC: case ICELICHEN_FWD_WR_END: case ICELICHEN_FWD_RD_END_CRC: case ICELICHEN_FWD_RD_END:
        return ends <= MOST_ENDS && address == 0 && count == 0;
    case ICELICHEN_DATA_RD_CRC: case ICELICHEN_DATA_RD:
        return ends == 0 && address == 0 && count >= 1 && count <= MOST_READ;
    case ICELICHEN_REG_WR_CRC: case ICELICHEN_REG_WR:
        return ends == 0 && address < REGISTERS && count == 0;
    case ICELICHEN_REG_RD_CRC: case ICELICHEN_REG_RD:
        return ends == 0 && count >= 1 && (uint64_t)address + count <= REGISTERS;
    default:
        return false;
    }
}

/* 01 "Frames", the table: the numbers of data words of a command whose fields fit. */
static bool words_fit(uint32_t command, uint32_t address, size_t words)
{
    switch (command) {
    case ICELICHEN_FWD_WR_CRC:
        return words >= 1 && words <= MOST_FWD_WR_CRC;
    case ICELICHEN_FWD_WR:
        return words >= 1 && words <= MOST_FWD_WR;
    case ICELICHEN_FWD_WR_END_CRC: case ICELICHEN_FWD_WR_END:
        return words <= MOST_FWD_WR_END;
    case ICELICHEN_FWD_RD_END_CRC: case ICELICHEN_FWD_RD_END:
        return words >= 1 && words <= MOST_FWD_RD_END;
    case ICELICHEN_REG_WR_CRC: case ICELICHEN_REG_WR:
        return words >= 1 && words <= (size_t)(REGISTERS - address);
    default:
        return words == 0;              /* reads and the reset carry no data words */
    }
}

/* 01 "Frames", the table: the fields in the low twelve bits. */
static unsigned our_fields(uint32_t command, unsigned ends, unsigned address, unsigned count, unsigned data)
{
    switch (command) {
    case ICELICHEN_FWD_WR_CRC: case ICELICHEN_FWD_WR:
        return data - 1;
    case ICELICHEN_FWD_WR_END_CRC: case ICELICHEN_FWD_WR_END:
        return ends * 32 + data;
    case ICELICHEN_FWD_RD_END_CRC: case ICELICHEN_FWD_RD_END:
        return ends * 32 + (data - 1);
    case ICELICHEN_DATA_RD_CRC: case ICELICHEN_DATA_RD:
        return count - 1;
    case ICELICHEN_REG_WR_CRC: case ICELICHEN_REG_WR:
        return (data - 1) * 256 + address;
    case ICELICHEN_REG_RD_CRC: case ICELICHEN_REG_RD:
        return (count - 1) * 256 + address;
    default:
        return 0;                       /* SOFTRESET_CRC */
    }
}

/* 02 item 7, document 001, table 7-2: lengths above the END bytes, which have bits 6..0; the address has bits 9..6, its length 3..0. */
static unsigned makers_fields(uint32_t command, unsigned ends, unsigned address, unsigned count, unsigned data)
{
    switch (command) {
    case ICELICHEN_FWD_WR_CRC: case ICELICHEN_FWD_WR:
        return data - 1;
    case ICELICHEN_FWD_WR_END_CRC: case ICELICHEN_FWD_WR_END:
        return data * 128 + ends;       /* opt_data_length: 0 is none (7.5.3) */
    case ICELICHEN_FWD_RD_END_CRC: case ICELICHEN_FWD_RD_END:
        return (data - 1) * 128 + ends;
    case ICELICHEN_DATA_RD_CRC: case ICELICHEN_DATA_RD:
        return count - 1;
    case ICELICHEN_REG_WR_CRC: case ICELICHEN_REG_WR:
        return address * 64 + (data - 1);
    case ICELICHEN_REG_RD_CRC: case ICELICHEN_REG_RD:
        return address * 64 + (count - 1);
    default:
        return 0x1E1;                   /* SOFTRESET_CRC */
    }
}

/* Either table: the command number in bits 15..12. */
static uint16_t command_word(uint32_t layout, uint32_t command, uint32_t ends, uint32_t address, uint32_t count, size_t words)
{
    unsigned low = layout == ICELICHEN_OURS ? our_fields(command, ends, address, count, (unsigned)words)
                                            : makers_fields(command, ends, address, count, (unsigned)words);
    return (uint16_t)(command * 4096 + low);
}

/* The last word of an answer is the CRC of those before it (01: "STATUS and its CRC", "the words .. then their CRC"). */
static bool is_sealed(uint32_t layout, const uint16_t *answer, size_t length)
{
    return answer[length - 1] == crc_of(layout, answer, length - 1);
}

/* 02 item 1: 20 first, whatever the buffer, then 21; a refusal writes nothing. A number that is no layout is 20 too (the header). */
int32_t icelichen_frame_in(uint32_t layout, uint32_t command, uint32_t ends, uint32_t address, uint32_t count,
                           const uint16_t *words, size_t words_length, uint16_t *buffer, size_t buffer_length)
{
    if (!is_layout(layout) || !fields_fit(command, ends, address, count) || !words_fit(command, address, words_length))
        return ICELICHEN_OUTSIDE_LIMITS;
    if (buffer_length < words_length + ICELICHEN_BESIDE)
        return ICELICHEN_BUFFER_SHORT;
    buffer[0] = command_word(layout, command, ends, address, count, words_length);
    for (size_t i = 0; i < words_length; i++)
        buffer[1 + i] = words[i];
    buffer[1 + words_length] = crc_of(layout, buffer, 1 + words_length);
    return (int32_t)(words_length + ICELICHEN_BESIDE);
}

/* 02 item 1: any STATUS value with a right CRC word is STATUS. */
int32_t icelichen_status_in(uint32_t layout, uint32_t command, uint32_t ends, uint32_t address, uint32_t count,
                            const uint16_t *answer, size_t answer_length)
{
    if (!is_layout(layout) || !fields_fit(command, ends, address, count) || is_read(command))
        return ICELICHEN_OUTSIDE_LIMITS;
    if (answer_length != STATUS_ANSWER || !is_sealed(layout, answer, answer_length))
        return ICELICHEN_OUTSIDE_LIMITS;
    return answer[0];
}

/* 02 item 1: the data stay in the caller's slice, their number is answered. */
int32_t icelichen_data_in(uint32_t layout, uint32_t command, uint32_t ends, uint32_t address, uint32_t count,
                          const uint16_t *answer, size_t answer_length)
{
    if (!is_layout(layout) || !fields_fit(command, ends, address, count) || !is_read(command))
        return ICELICHEN_OUTSIDE_LIMITS;
    if (answer_length != (size_t)count + 1 || !is_sealed(layout, answer, answer_length))
        return ICELICHEN_OUTSIDE_LIMITS;
    return (int32_t)count;
}

/* The three without a layout are for ours. */
int32_t icelichen_frame(uint32_t command, uint32_t ends, uint32_t address, uint32_t count,
                        const uint16_t *words, size_t words_length, uint16_t *buffer, size_t buffer_length)
{
    return icelichen_frame_in(ICELICHEN_OURS, command, ends, address, count, words, words_length, buffer, buffer_length);
}

int32_t icelichen_status(uint32_t command, uint32_t ends, uint32_t address, uint32_t count,
                         const uint16_t *answer, size_t answer_length)
{
    return icelichen_status_in(ICELICHEN_OURS, command, ends, address, count, answer, answer_length);
}

int32_t icelichen_data(uint32_t command, uint32_t ends, uint32_t address, uint32_t count,
                       const uint16_t *answer, size_t answer_length)
{
    return icelichen_data_in(ICELICHEN_OURS, command, ends, address, count, answer, answer_length);
}
