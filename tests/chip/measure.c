/* What a call of the library used, from what wraps.S kept of it. */
#include "platform.h"

/* Under -icount shift=10 an instruction takes 1,024 ns; the tick of this board takes 50 ns. */
#define INSTRUCTION_NS 1024
#define TICK_NS 50
#define TICKS 0xFFFFFF

/* Written by wraps.S: r4, lr, sp at entry, tick before, tick after, the lowest word written, r5. */
extern uint32_t wrap_state[8];
void empty(void); /* wraps.S: a call that does nothing */

static uint32_t overhead;

static uint32_t ran(void)
{
    uint32_t ticks = (wrap_state[3] - wrap_state[4]) & TICKS; /* it counts down */

    return (uint32_t)(((uint64_t)ticks * TICK_NS + INSTRUCTION_NS / 2) / INSTRUCTION_NS);
}

/* wraps.S calls this behind each call of the library. */
void after_call(void)
{
    measured.stack = wrap_state[2] > wrap_state[5] ? wrap_state[2] - wrap_state[5] : 0;
    measured.instructions = ran() - overhead;
}

void begin_to_measure(void)
{
    empty();
    overhead = ran();
}
