/*
 * chain.c - the independent program of ../model, event by event, with a chain of boards and a clock. For run.py.
 *
 * A bit on SOUT is on SIN `delay` ticks later (the guide's D). Every `ticks_a_ms` ticks a clock reading follows.
 */
#define main model_main
#include "../model/bridge_model.c"
#undef main

enum { POWER, WORD, RELEASE, TICK, CLOCK };                 /* kinds of events, 01 The bench program */
enum sin_wire { WHOLE, STUCK_AT_0, STUCK_AT_1 };

/* No run of run.py is near it (the longest has 600,000 ticks): a run that fills it would never end. */
enum { MOST_TICKS = 4000000 };

static struct bridge bridge;
static char line[MOST_TICKS];                               /* SOUT, a character a tick */
static long now, delay, ticks_a_ms, first_reading;
static enum sin_wire sin_wire;

unsigned yard_event(unsigned kind, unsigned value)
{
    return step(&bridge, kind, (uint16_t)value).sdo;
}

static void read_clock(void)
{
    yard_event(CLOCK, (unsigned)(first_reading + now / ticks_a_ms));
}

/* Power-up with good OTP, and a clock reading at once (guide, section 1). */
void yard_start(long chain_delay, long ticks, long reading)
{
    now = 0;
    delay = chain_delay;
    ticks_a_ms = ticks;
    first_reading = reading;
    sin_wire = WHOLE;
    power_up(&bridge, true);
    yard_event(POWER, 1);
    read_clock();
}

static unsigned sin_bit(void)
{
    if (sin_wire != WHOLE)
        return sin_wire == STUCK_AT_1;
    if (delay == 0)
        return next_sout(&bridge);
    return now < delay || line[now - delay] == '1';
}

/* 0 where the line's record is full. */
int yard_ticks(long count)
{
    for (; count > 0; count--) {
        if (now == MOST_TICKS)
            return 0;
        line[now] = step(&bridge, TICK, (uint16_t)sin_bit()).sout ? '1' : '0';
        now++;
        if (now % ticks_a_ms == 0)
            read_clock();
    }
    return 1;
}

void yard_sin(int wire)
{
    sin_wire = (enum sin_wire)wire;
}

int yard_answering(void)
{
    return bridge.frame.phase == ANSWER;
}

long yard_now(void)
{
    return now;
}

const char *yard_line(void)
{
    return line;
}
