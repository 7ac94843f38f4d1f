/* A controller's firmware around the bridge: call these from your interrupts. Copy firmware.c as it is and write the board's side (board.h).
 *
 * What stays with the hardware:
 *   pins      SIN is sampled and SOUT set at the same edge of the line clock, one bit a tick; SOUT is 1 until firmware_start has run.
 *             SDO is off the wire while chip select is high, where other parts share it.
 *             FAULT and DRDY are bits of STATUS; CLK_O is the line clock (docs/DIFFERENCES.md 1, Pins).
 *   clocks    the line timer's rate is the boards'; CCSICTRL does not set it (docs/DIFFERENCES.md). A line tick must be done before the next is
 *             due: where it is not, gather bits and give them as one list (icelichen_events; docs/HOST-GUIDE.md 1, "Many events in one call").
 *   voltage   levels of SPI and line, and a brown-out detector that calls firmware_supply: a dip of the supply is a power-up.
 *   SDO       firmware_spi_next puts each word's SDO word into the SPI's transmit register before the word's first clock; the host leaves that
 *             much time between two words (docs/HOST-GUIDE.md 1, "SDO on a full-duplex wire").
 *   stack     what a call takes says tests/linked/sizes.py. The library's code uses the 128 bytes below its stack pointer, as x86-64's calling
 *             convention has it: an interrupt has a stack of its own, or leaves them.
 *   priority  no call on a bridge may come into another one. Every call here is masked (board_mask), so priorities are free: the line
 *             timer's highest, as its bits cannot wait; then SPI, then chip select, which must not overtake the frame's last word.
 */
#ifndef FIRMWARE_H
#define FIRMWARE_H

#include <stdint.h>

/* Before any interrupt is let in. `power` is one of enum icelichen_power. Another number is reported as note 22, and the first event, which finds
 * no bridge, then powers up with bad OTP: nothing is sent. */
void firmware_start(uint32_t power);

void firmware_spi_next(void);               /* chip select fell, or a word has come: the transmit register wants the next word's SDO */
void firmware_spi_word(uint16_t word);      /* sixteen bits have come from the host */
void firmware_chip_select(void);            /* chip select was released */
void firmware_line_tick(void);              /* the line timer */
void firmware_supply(uint32_t power);       /* the supply is back after a dip; a number that is no power-up's is note 22, and all stays */

/* Every millisecond, from a timer or the main loop, and first of all right after a start: milliseconds since then, going round at 65,536. In
 * the maker's layout the watchdog counts from power-up on (docs/HOST-GUIDE.md 1, "A clock reading comes first"). */
void firmware_millisecond(uint16_t reading);

#endif
