/*
 * call_up.c - the frames of a call-up, and what came back (document 02, item 1; docs/HOST-GUIDE.md 2).
 *
 *   sh examples/c/run         builds the library, this program with it, and runs it
 *
 * A call-up is a forward with the panel's head word and its words, then VSYNC, a forward of one word. The words of a frame go out over SPI,
 * then one word 0xFFFF for each word of the answer, then chip select is released.
 */
#include "icelichen_frames.h"

#include <stdio.h>

enum { ROOM = 64, VSYNC = 0xAAF0 };

static void show(const char *name, const uint16_t *words, int32_t length)
{
    printf("%s:", name);
    for (int32_t i = 0; i < length; i++)
        printf(" %04X", words[i]);
    printf("\n");
}

/* The frame of a forward into `frame`; its length, or 0 where the library refuses it. */
static int32_t forward(const char *name, const uint16_t *words, size_t count, uint16_t *frame)
{
    int32_t length = icelichen_frame(ICELICHEN_FWD_WR_CRC, 0, 0, 0, words, count, frame, ROOM);
    if (length < 0) {
        printf("%s: refusal %d\n", name, (int)-length);
        return 0;
    }
    show(name, frame, length);
    return length;
}

/* What the two words say that came back for a forward. */
static void say_status(const uint16_t *answer, size_t length)
{
    int32_t status = icelichen_status(ICELICHEN_FWD_WR_CRC, 0, 0, 0, answer, length);
    if (status < 0)
        printf("answer %04X %04X: refusal %d, what became of the frame is not known (docs/HOST-GUIDE.md 9)\n", answer[0], answer[1], (int)-status);
    else
        printf("answer %04X %04X: STATUS %04X, %s\n", answer[0], answer[1], (unsigned)status,
               status & ICELICHEN_FAULTS ? "look at its flags" : "all is well");
}

int main(void)
{
    const uint16_t panel[] = {0xAA05, 0x1234, 0x5678};
    const uint16_t vsync[] = {VSYNC};
    const uint16_t none[] = {0};                        /* for no words: a pointer is never NULL */
    uint16_t frame[ROOM];

    if (!forward("panel 5", panel, 3, frame) || !forward("VSYNC", vsync, 1, frame))
        return 1;
    forward("no words", none, 0, frame);                /* a forward carries one word at least */

    say_status((const uint16_t[]){0x0400, 0xD1CB}, 2);  /* as the bridge answers: flags down, RX empty */
    say_status((const uint16_t[]){0x0441, 0x892E}, 2);  /* the CRC word of some frame was wrong */
    say_status((const uint16_t[]){0x0420, 0xD1CB}, 2);  /* one bit turned on the way */

    const uint16_t registers[] = {0x003F, 0x00FF, 0x73A4};  /* as they power up */
    int32_t length = icelichen_frame(ICELICHEN_REG_RD_CRC, 0, 3, 2, none, 0, frame, ROOM);
    int32_t data = icelichen_data(ICELICHEN_REG_RD_CRC, 0, 3, 2, registers, 3);
    show("read registers 3 and 4", frame, length);
    show("they read", registers, data);
    return length < 0 || data < 0;
}
