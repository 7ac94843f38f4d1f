/* The Icelichen bridge for programs in C (documents 01 and 02): host words, chip select, line ticks and clock readings in; SDO, SOUT and a note out.
 * The functions are proved (crates/icelichen_bridge): each call does what document 01 says of its event, and README says what follows, that no
 * accepted command is lost, with its premises. Link libicelichen_bridge.a behind your own objects. README, 'Put it into your controller', has the
 * shortest program; examples/firmware is a whole one; docs/HOST-GUIDE.md 1 says what to call when, 7 what each note asks for. The frames that a host
 * sends are icelichen_frames.h.
 *
 * What you own: one icelichen_bridge, an array of ICELICHEN_TX words and one of ICELICHEN_RX words. Keep them together, hand all three to every
 * call as the call before left them, and write into none of them. They need no first value but this: icelichen_power_up makes the bridge, and
 * it alone; the arrays may hold anything. Memory that holds no bridge, all zeros for one, or a bridge that was damaged so that it is none any more, is
 * refused with note 2; arrays of other lengths with note 1. Then bridge and arrays are as they were. What a bridge left in memory before a restart is
 * a bridge, and is taken: power up first of all.
 *
 * An answer is one number, the four bytes of an event's result in document 02, item 6, the first byte highest: note, SDO (two bytes), SOUT.
 * icelichen_note, icelichen_sdo and icelichen_sout take it apart. SDO is 0xFFFF and SOUT 1 unless the event has something to say there.
 *
 * Pointers: `bridge` points to one icelichen_bridge, aligned as its type says; `tx`, `rx` and `results` to as many cells as their lengths say, to be
 * read and written; `records` to as many bytes to read. What is written lies apart from everything else that the call is given. No pointer is NULL,
 * also where its length is 0: give any array there. That is all that a caller can break.
 *
 * The functions keep nothing, allocate nothing, call nothing but memcpy and end for every input. One bridge is for one caller at a time: a call from an
 * interrupt must not come into another call on the same bridge (examples/firmware masks it). Different bridges do not meet.
 */
#ifndef ICELICHEN_BRIDGE_H
#define ICELICHEN_BRIDGE_H

#include <stddef.h>
#include <stdint.h>

#ifdef __cplusplus
extern "C" {
#endif

#define ICELICHEN_TX 512            /* words of the transmit store */
#define ICELICHEN_RX 256            /* words of the receive store */
#define ICELICHEN_CELLS 23
#define ICELICHEN_RECORD 3          /* bytes of an event in a list: kind, value high byte first */
#define ICELICHEN_RESULT 4          /* bytes of its result: note, SDO high byte first, SOUT */

/* The bridge: 184 bytes, aligned as a uint64_t is. What the cells hold is the library's; copy it whole if you must. */
typedef struct icelichen_bridge {
    uint64_t cells[ICELICHEN_CELLS];
} icelichen_bridge;

/* Events, and their values. */
enum icelichen_kind {
    ICELICHEN_POWER = 0,            /* one of enum icelichen_power */
    ICELICHEN_WORD = 1,             /* the word that the host sent, 0 to 65535; the answer's SDO is what goes back */
    ICELICHEN_RELEASE = 2,          /* chip select released: 0 */
    ICELICHEN_TICK = 3,             /* one line bit: 0 or 1, as SIN reads; the answer's SOUT is what to send */
    ICELICHEN_CLOCK = 4             /* a reading of a millisecond clock, 0 to 65535, going round */
};

enum icelichen_power {
    ICELICHEN_OTP_BAD = 0,          /* document 01's command words and registers */
    ICELICHEN_OTP_GOOD = 1,
    ICELICHEN_MAKERS_OTP_BAD = 2,   /* the maker's, for a host that spoke to TI's chip */
    ICELICHEN_MAKERS_OTP_GOOD = 3
};

/* Notes (document 01): docs/HOST-GUIDE.md 7 says what each asks for. */
enum icelichen_note {
    ICELICHEN_DONE = 0,
    ICELICHEN_WRONG_STORES = 1,
    ICELICHEN_BROKEN_RECORD = 2,
    ICELICHEN_MALFORMED_WORD = 3,
    ICELICHEN_DISCARDED = 4,
    ICELICHEN_BLOCKED = 5,
    ICELICHEN_CRC_REFUSED = 6,
    ICELICHEN_CRC_WRONG = 7,
    ICELICHEN_TX_FULL = 8,
    ICELICHEN_QUEUE_FULL = 9,
    ICELICHEN_LINE_BUSY = 10,
    ICELICHEN_RESET_REFUSED = 11,
    ICELICHEN_CUT_SHORT = 12,
    ICELICHEN_TX_EMPTY = 13,
    ICELICHEN_RX_FULL = 14,
    ICELICHEN_RX_EMPTY = 15,
    ICELICHEN_NO_EVENT = 22,        /* a kind or a value that is no event's: nothing was done */
    ICELICHEN_SHORT_RESULTS = 23    /* of a list: the results have no room */
};

/* Makes the bridge as it is after power-up (one of enum icelichen_power), whatever the memory held. Answers note 0; or, for another number, note
 * 22, and the memory is as it was. */
uint32_t icelichen_power_up(icelichen_bridge *bridge, uint32_t power);

/* One event. A kind or a value that is no event's is note 22 and comes before notes 1 and 2. */
uint32_t icelichen_event(icelichen_bridge *bridge, uint16_t *tx, size_t tx_length, uint16_t *rx, size_t rx_length,
                         uint32_t kind, uint32_t value);

/* A list of events, ICELICHEN_RECORD bytes each, as if each was given to icelichen_event; its result is ICELICHEN_RESULT bytes each. Answers how
 * many were done, which is all of them; or a refusal, minus its number, found before the first and with everything as it was: -22 a record that
 * is no event or is cut, -23 no room for the results, -1, -2, in this order. Cells of the results behind the last are as they were. */
int64_t icelichen_events(icelichen_bridge *bridge, uint16_t *tx, size_t tx_length, uint16_t *rx, size_t rx_length,
                         const uint8_t *records, size_t records_length, uint8_t *results, size_t results_length);

/* Line ticks with SIN 1 until nothing is left to send, a note other than 0, or so many ticks. icelichen_ticks of the answer is how many were made,
 * icelichen_stop the note that ended them: 0, 13 or 14; or 1 or 2, with no tick made. */
uint64_t icelichen_drain(icelichen_bridge *bridge, uint16_t *tx, size_t tx_length, uint16_t *rx, size_t rx_length,
                         uint32_t budget);

/* Whether the next host word will be answered: 1 or 0. Then its value does not matter, and its event may be made before it has come, so that the
 * answer's SDO is there for the word's first clock (docs/HOST-GUIDE.md 1, "SDO on a full-duplex wire"); examples/firmware does. 0 too for what note 2 would
 * refuse. */
uint32_t icelichen_answering(const icelichen_bridge *bridge);

/* What the register at this address reads now, 0 to 65535, as REG_RD would answer it: STATUS, address 7, for the pins FAULT (bit 0) and DRDY (bit
 * 10) where your host has them. -20 for an address over 11; -2 for what note 2 would refuse. Nothing changes by it. */
int32_t icelichen_register(const icelichen_bridge *bridge, uint32_t address);

static inline unsigned icelichen_note(uint32_t answer) { return answer >> 24; }
static inline uint16_t icelichen_sdo(uint32_t answer) { return (uint16_t)(answer >> 8); }
static inline unsigned icelichen_sout(uint32_t answer) { return answer & 1; }
static inline uint32_t icelichen_ticks(uint64_t drained) { return (uint32_t)drained; }
static inline unsigned icelichen_stop(uint64_t drained) { return (unsigned)(drained >> 32); }

#ifdef __cplusplus
}
#endif

#endif
