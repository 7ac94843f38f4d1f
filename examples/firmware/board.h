/* What the firmware asks of the board. Yours reaches pins and registers; script_board.c is a board that plays a script. */
#ifndef BOARD_H
#define BOARD_H

#include <stdint.h>

unsigned board_read_sin(void);              /* the SIN pin: 0 or 1 */
void board_write_sout(unsigned bit);        /* the SOUT pin */
void board_write_sdo(uint16_t word);        /* into the SPI's transmit register: it goes out with the word that comes next */
void board_write_status(uint16_t status);   /* for the pins FAULT (bit 0) and DRDY (bit 10), where the host has them */
void board_note(uint32_t kind, unsigned note);  /* a note other than 0, of this kind of event: for a log, a lamp, whoever watches */

/* Keeps every interrupt of firmware.h out until the second is given what the first answered. On a Cortex-M: PRIMASK read, then `cpsid i`; and
 * PRIMASK written back, so that within a handler they stay out. */
unsigned board_mask(void);
void board_unmask(unsigned before);

#endif
