/*
 * firmware: a guarded change as firmware makes it. The chip's registers become a head, a task is
 * booked, and the change is played to head and chip.
 *
 * Prints what the chip is told and what it answers. Exit status: 0 the chip runs as the plan has
 * it; 1 a call is refused.
 */
#include <stdio.h>

#include "play.h"

/* Stands in for a chip: what its registers hold, by their number. */
static uint32_t chip[RIKKOVAN_REGISTERS + 1];

/* On HXT48 at 48 MHz, supply D; LPSYS at 48 MHz on supply S. */
static void start_chip(void)
{
    chip[RIKKOVAN_REG_SYSCLK] = RIKKOVAN_CORE_HXT48;
    chip[RIKKOVAN_REG_HPSYS_SUPPLY] = RIKKOVAN_HPSYS_SUPPLY_D;
    chip[RIKKOVAN_REG_SET_VOUT_M] = RIKKOVAN_D1_BUCK;
    chip[RIKKOVAN_REG_HPSYS_LDO] = RIKKOVAN_D1_LDO;
    chip[RIKKOVAN_REG_LPSYS_SUPPLY] = RIKKOVAN_LPSYS_SUPPLY_S;
}

/* The registers of the chip, put into a head. Its oscillators are ready. */
static void read_chip(uint8_t head[RIKKOVAN_HEAD_BYTES])
{
    uint32_t reg;

    for (reg = 1; reg <= RIKKOVAN_REGISTERS; reg++)
        rikkovan_put_register(head, reg, chip[reg]);
    rikkovan_put_flag(head, RIKKOVAN_FLAG_HXT48, RIKKOVAN_READY);
    rikkovan_put_flag(head, RIKKOVAN_FLAG_HRC48, RIKKOVAN_READY);
    rikkovan_put_flag(head, RIKKOVAN_FLAG_LPSYS_HXT48, RIKKOVAN_READY);
}

static void store(void *self, uint32_t reg, uint32_t value)
{
    (void)self;
    chip[reg] = value;
    printf("store %lu %06lX\n", (unsigned long)reg, (unsigned long)value);
}

static void delay(void *self, uint32_t cycles)
{
    (void)self;
    printf("delay %lu cycles\n", (unsigned long)cycles);
}

/* A DLL is ready at the second poll. */
static uint16_t poll_twice(void *self, uint32_t asked)
{
    static uint16_t polls;
    uint16_t answer = polls++ % 2 ? RIKKOVAN_READY : RIKKOVAN_NOT_READY;

    (void)self;
    printf("poll %lu: %u\n", (unsigned long)asked, answer);
    return answer;
}

static int refused(const char *what, rikkovan_answer answer)
{
    fprintf(stderr, "firmware: %s: %s\n", what, rikkovan_refusal_text(rikkovan_refusal(answer)));
    return 1;
}

int main(void)
{
    const uint8_t plan[RIKKOVAN_PLAN_BYTES] = RIKKOVAN_DEFAULT_PLAN;
    uint8_t head[RIKKOVAN_HEAD_BYTES] = RIKKOVAN_EMPTY_HEAD;
    uint16_t answers[100];
    struct player player = {{store, delay, poll_twice, NULL}, RIKKOVAN_LEND(answers), {0}};
    rikkovan_answer answer;

    start_chip();
    read_chip(head);
    /* Task 1 needs 40,000 cycles in each millisecond. */
    answer = rikkovan_book(RIKKOVAN_LEND(head), 1, 40000, 1000);
    if (!rikkovan_done(answer))
        return refused("booking", answer);
    answer = play_change(&player, head, plan);
    return rikkovan_done(answer) ? 0 : refused("change", answer);
}
