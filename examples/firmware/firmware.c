/* The bridge in a controller (firmware.h). It owns one bridge and its two stores; nothing else may write into them. */
#include "firmware.h"

#include "board.h"
#include "icelichen_bridge.h"

#define IDLE_SDO 0xFFFF
#define IDLE_LINE 1
#define STATUS 7                            /* its address (01 Registers) */

static icelichen_bridge bridge;
static uint16_t tx[ICELICHEN_TX], rx[ICELICHEN_RX];
static uint32_t started;                    /* how it was powered up last */
static int fetched;                         /* the event of the host word that is on its way was made, for its SDO word */

static void power_up(uint32_t power)
{
    uint32_t answer = icelichen_power_up(&bridge, power);
    if (icelichen_note(answer) == ICELICHEN_DONE)
        started = power;
    else
        board_note(ICELICHEN_POWER, icelichen_note(answer));
    fetched = 0;
    board_write_sdo(IDLE_SDO);
    board_write_sout(IDLE_LINE);
}

/* Note 2 says that the memory was damaged. No event mends that, a power-up does: the host finds POR in STATUS, as after a dip of the supply. */
static uint32_t give(uint32_t kind, uint32_t value)
{
    unsigned before = board_mask();
    uint32_t answer = icelichen_event(&bridge, tx, ICELICHEN_TX, rx, ICELICHEN_RX, kind, value);
    unsigned note = icelichen_note(answer);
    if (note == ICELICHEN_BROKEN_RECORD)
        power_up(started);
    board_unmask(before);
    if (note != ICELICHEN_DONE)
        board_note(kind, note);
    return answer;
}

void firmware_start(uint32_t power)
{
    power_up(power);
}

/* In an answer the host's word is ignored (01 Frames), so its event can be made before it comes, and SDO is in time. */
void firmware_spi_next(void)
{
    unsigned before = board_mask();
    uint16_t sdo = IDLE_SDO;
    if (!fetched && icelichen_answering(&bridge)) {
        sdo = icelichen_sdo(give(ICELICHEN_WORD, IDLE_SDO));
        fetched = 1;
    }
    board_write_sdo(sdo);
    board_unmask(before);
}

/* Outside an answer a word's own SDO is FFFF, which is on the wire already. */
void firmware_spi_word(uint16_t word)
{
    unsigned before = board_mask();
    if (fetched)
        fetched = 0;
    else
        give(ICELICHEN_WORD, word);
    board_unmask(before);
}

/* What is left of an answer is dropped. */
void firmware_chip_select(void)
{
    unsigned before = board_mask();
    fetched = 0;
    give(ICELICHEN_RELEASE, 0);
    board_write_sdo(IDLE_SDO);
    board_unmask(before);
}

void firmware_line_tick(void)
{
    board_write_sout(icelichen_sout(give(ICELICHEN_TICK, board_read_sin())));
}

/* The pins follow within a millisecond. A host that wants them sooner has this behind every event. */
void firmware_millisecond(uint16_t reading)
{
    unsigned before = board_mask();
    give(ICELICHEN_CLOCK, reading);
    board_write_status((uint16_t)icelichen_register(&bridge, STATUS));
    board_unmask(before);
}

/* Not a power-up event: that would ask the memory for a bridge, and a dip may have left none there. */
void firmware_supply(uint32_t power)
{
    unsigned before = board_mask();
    power_up(power);
    board_unmask(before);
}
