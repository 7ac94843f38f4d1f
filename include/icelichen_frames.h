/* Host frames for the Icelichen bridge (document 02, items 1 and 7): an order becomes the words to send, and the words that came back become
 * STATUS or data. The functions are proved (crates/icelichen_frames); link libicelichen_frames.a behind your own objects. docs/HOST-GUIDE.md 2
 * has the bits of each command and how to use this; examples/c/call_up.c is a program.
 *
 * An order is a command, its fields, and its data words:
 *   command                          ends      address   count          data words
 *   FWD_WR_CRC                       -         -         -              1 to 512
 *   FWD_WR                           -         -         -              1 to 4096
 *   FWD_WR_END_CRC, FWD_WR_END       0 to 127  -         -              0 to 31
 *   FWD_RD_END_CRC, FWD_RD_END       0 to 127  -         -              1 to 32
 *   DATA_RD_CRC, DATA_RD             -         -         1 to 256       none
 *   REG_WR_CRC, REG_WR               -         0 to 11   -              1 or more, address + words at most 12
 *   REG_RD_CRC, REG_RD               -         0 to 11   1 or more, address + count at most 12     none
 *   SOFTRESET_CRC                    -         -         -              none
 * A field that the command does not have (-) is 0; another number there is refused, since it would be lost. So is every number over 65535.
 * (A number of more than 32 bits C itself cuts: -Wconversion tells.)
 *
 * A result below 0 is a refusal, minus its number. Nothing is written then. Keep results in an int32_t.
 *
 * Layouts: the bridge powers up in ours or, where it stands for TI's chip, in the maker's (document 001, 7.5), which has other bits for the same
 * orders and a CRC that a host can choose. icelichen_frame, icelichen_status and icelichen_data are for ours. The three whose names end in _in
 * take the layout first:
 *   ICELICHEN_OURS             our command words; CRC start 0xFFFF
 *   ICELICHEN_MAKERS           the maker's command words; CRC start 0xFFFF: from power-up on, and while SPICTRL bit 2 (SPI_CRC_ALG) is 0
 *   ICELICHEN_MAKERS_XMODEM    the maker's command words; CRC start 0: while SPICTRL bit 2 is 1
 * What bit 2 says is in force from the next command on. So the frame that turns it, and the answer to that frame, still have the CRC from
 * before, and every frame behind it has the new one, with its answer. A power-up turns it back, a soft reset leaves it. The limits of an order
 * are the same in all three.
 *
 * Pointers: `words` and `answer` point to that many words to read, `buffer` to that many to write. The buffer lies apart from the words: over
 * each other they give a frame of other words, with a right CRC. A pointer is not NULL, also where its length is 0: give any array there.
 *
 * The functions keep nothing, allocate nothing, call nothing and end for every input: any thread and any interrupt may call them.
 */
#ifndef ICELICHEN_FRAMES_H
#define ICELICHEN_FRAMES_H

#include <stddef.h>
#include <stdint.h>

#ifdef __cplusplus
extern "C" {
#endif

enum icelichen_command {
    ICELICHEN_FWD_WR_CRC = 2,
    ICELICHEN_FWD_WR = 3,
    ICELICHEN_FWD_WR_END_CRC = 4,
    ICELICHEN_FWD_WR_END = 5,
    ICELICHEN_FWD_RD_END_CRC = 6,
    ICELICHEN_FWD_RD_END = 7,
    ICELICHEN_DATA_RD_CRC = 8,
    ICELICHEN_DATA_RD = 9,
    ICELICHEN_REG_WR_CRC = 10,
    ICELICHEN_REG_WR = 11,
    ICELICHEN_REG_RD_CRC = 12,
    ICELICHEN_REG_RD = 13,
    ICELICHEN_SOFTRESET_CRC = 14
};

enum icelichen_layout {
    ICELICHEN_OURS = 0,
    ICELICHEN_MAKERS = 1,
    ICELICHEN_MAKERS_XMODEM = 2
};

enum icelichen_refusal {
    ICELICHEN_OUTSIDE_LIMITS = -20, /* an order outside the limits above, an answer of wrong length or CRC, or no layout's number */
    ICELICHEN_BUFFER_SHORT = -21    /* fewer cells than the frame has words */
};

#define ICELICHEN_BESIDE 2          /* words of a frame beside its data words: command word and CRC word */
#define ICELICHEN_MOST_FRAME 4098   /* words of the longest frame */
#define ICELICHEN_STATUS_ANSWER 2   /* words of an answer with STATUS; an answer with data has count + 1 */
#define ICELICHEN_MOST_ANSWER 257   /* words of the longest answer */
#define ICELICHEN_FAULTS 0xFBFF     /* STATUS & this is 0 where all is well: every bit but DRDY (docs/HOST-GUIDE.md 3) */

/* Writes the order's frame with these data words into the buffer: command word, data words, CRC word. Answers how many words it wrote, which
 * is words_length + 2, or a refusal: -20, whatever the buffer, then -21. The cells behind the frame stay as they were. */
int32_t icelichen_frame(uint32_t command, uint32_t ends, uint32_t address, uint32_t count,
                        const uint16_t *words, size_t words_length, uint16_t *buffer, size_t buffer_length);

/* The STATUS value, 0 to 65535, of the answer to an order that answers STATUS: two words. -20 where it is no such answer, where no number of
 * data words brings the order within its limits, or where the order is a read. That it is an answer does not say that all is well. */
int32_t icelichen_status(uint32_t command, uint32_t ends, uint32_t address, uint32_t count,
                         const uint16_t *answer, size_t answer_length);

/* The number of data words at the front of the answer to a read: its count; the answer has one word more. -20 where it is no such answer, where
 * the order is outside its limits, or where it is no read. */
int32_t icelichen_data(uint32_t command, uint32_t ends, uint32_t address, uint32_t count,
                       const uint16_t *answer, size_t answer_length);

/* The same three in the layout given, one of enum icelichen_layout. Any other number is refused with -20, before all else. With ICELICHEN_OURS
 * they are the three above. An answer is read in the layout of its frame. */
int32_t icelichen_frame_in(uint32_t layout, uint32_t command, uint32_t ends, uint32_t address, uint32_t count,
                           const uint16_t *words, size_t words_length, uint16_t *buffer, size_t buffer_length);

int32_t icelichen_status_in(uint32_t layout, uint32_t command, uint32_t ends, uint32_t address, uint32_t count,
                            const uint16_t *answer, size_t answer_length);

int32_t icelichen_data_in(uint32_t layout, uint32_t command, uint32_t ends, uint32_t address, uint32_t count,
                          const uint16_t *answer, size_t answer_length);

#ifdef __cplusplus
}
#endif

#endif
