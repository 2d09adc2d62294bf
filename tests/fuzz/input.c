#include "fuzz.h"

#include <string.h>

#define COUNT(array) ((unsigned)(sizeof(array) / sizeof(array)[0]))

uint8_t draw(struct input *input)
{
    return input->next < input->end ? *input->next++ : 0;
}

uint8_t draw_below(struct input *input, unsigned n)
{
    return (uint8_t)(draw(input) % n);
}

uint32_t draw_number(struct input *input, int bytes)
{
    uint32_t number = 0;

    while (bytes-- > 0)
        number = number << 8 | draw(input);
    return number;
}

/* Yes for about one in n, 2 to 256. */
int draw_one_in(struct input *input, unsigned n)
{
    return draw(input) >= 256 - 256 / n;
}

size_t draw_length(struct input *input, size_t usual)
{
    static const size_t hostile[] = {0,   1,   18,  19,  20,   21,   108,  109,
                                     110, 127, 128, 129, 144,  153,  254,  255,
                                     256, 300, 512, 4095, 4096, 4097, 65536, MOST_LENT};

    if (!draw_one_in(input, 16))
        return usual;
    return hostile[draw_below(input, COUNT(hostile))];
}

/* One in eight: a few bytes become anything, the first three above all, or every byte does. */
static void damage(struct input *input, uint8_t *bytes, unsigned len)
{
    unsigned n;

    if (len == 0 || !draw_one_in(input, 8))
        return;
    if (draw_one_in(input, 16))
        for (n = 0; n < len; n++)
            bytes[n] = draw(input);
    for (n = 1 + draw_below(input, 4); n > 0; n--) {
        unsigned at = draw_one_in(input, 4) ? draw_below(input, 3) : draw_below(input, len);

        bytes[at] = draw(input);
    }
}

/* Tasks whose loads are around the lower HCLKs, with ids from 1 on, seldom 1 again. */
void draw_tasks(struct input *input, uint8_t *tasks, unsigned count)
{
    unsigned k;

    for (k = 0; k < count; k++) {
        struct rikkovan_task task;

        task.id = (uint8_t)(draw_one_in(input, 64) ? 1 : k + 1);
        task.cycles = draw_number(input, draw_one_in(input, 16) ? 4 : 3) | 1;
        task.period_us = draw_number(input, 3) % RIKKOVAN_MOST_PERIOD_US + 1;
        rikkovan_put_task(tasks, k, task);
    }
    damage(input, tasks, RIKKOVAN_TASK_BYTES * count);
}

/* Heads that are fit: HPSYS on a clock and just the rails that it needs. */
struct base {
    uint32_t sysclk, cfgr, dll1, supply, buck, ldo;
};

static const struct base bases[] = {
    {RIKKOVAN_CORE_HXT48, RIKKOVAN_VALUE(1, 0, 0), 0, RIKKOVAN_HPSYS_SUPPLY_D, RIKKOVAN_D1_BUCK,
     RIKKOVAN_D1_LDO},
    {RIKKOVAN_CORE_DLL1, RIKKOVAN_VALUE(1, 1, 6), RIKKOVAN_VALUE(1, 0, RIKKOVAN_STAGE_OF(240)),
     RIKKOVAN_HPSYS_SUPPLY_S, RIKKOVAN_S1_BUCK, RIKKOVAN_S1_LDO},
    {RIKKOVAN_CORE_DLL1, RIKKOVAN_VALUE(1, 1, 5), RIKKOVAN_VALUE(1, 0, RIKKOVAN_STAGE_OF(144)),
     RIKKOVAN_HPSYS_SUPPLY_S, RIKKOVAN_S0_BUCK, RIKKOVAN_S0_LDO},
    {RIKKOVAN_CORE_HRC48, RIKKOVAN_VALUE(2, 0, 0), 0, RIKKOVAN_HPSYS_SUPPLY_D, RIKKOVAN_D0_BUCK,
     RIKKOVAN_D0_LDO},
};

static void put_base(uint8_t *head, const struct base *base)
{
    rikkovan_put_register(head, RIKKOVAN_REG_SYSCLK, base->sysclk);
    rikkovan_put_register(head, RIKKOVAN_REG_HPSYS_CFGR, base->cfgr);
    rikkovan_put_register(head, RIKKOVAN_REG_DLL1, base->dll1);
    rikkovan_put_register(head, RIKKOVAN_REG_HPSYS_SUPPLY, base->supply);
    rikkovan_put_register(head, RIKKOVAN_REG_SET_VOUT_M, base->buck);
    rikkovan_put_register(head, RIKKOVAN_REG_BUCK_VOUT, base->buck);
    rikkovan_put_register(head, RIKKOVAN_REG_HPSYS_LDO, base->ldo);
    rikkovan_put_register(head, RIKKOVAN_REG_HPSYS_VOUT, base->ldo);
    rikkovan_put_register(head, RIKKOVAN_REG_LPSYS_SUPPLY, RIKKOVAN_LPSYS_SUPPLY_S);
}

static void draw_register(struct input *input, uint8_t *head, unsigned reg)
{
    unsigned byte;

    for (byte = 0; byte < 3; byte++)
        head[RIKKOVAN_HEAD_AT_A(reg) + byte] =
            draw_below(input, largest_in_register(reg, byte) + 1u);
}

static void draw_flags(struct input *input, uint8_t *head)
{
    unsigned flag;

    for (flag = RIKKOVAN_HEAD_AT_HXT48_READY; flag <= RIKKOVAN_HEAD_AT_LPSYS_HXT48_READY; flag++)
        head[flag] = draw_one_in(input, 8) ? RIKKOVAN_NOT_READY : RIKKOVAN_READY;
    head[RIKKOVAN_HEAD_AT_BOOT_MODE] = draw_one_in(input, 8) ? RIKKOVAN_BOOT_STANDBY : draw(input);
    head[RIKKOVAN_HEAD_AT_WAKE_COUNT] = draw_one_in(input, 8) ? 255 : draw_below(input, 4);
}

/* A fit head with a few registers set, or one with any registers; either may then be damaged. */
void draw_head(struct input *input, uint8_t head[RIKKOVAN_HEAD_BYTES])
{
    static const uint8_t empty[RIKKOVAN_HEAD_AT_TASK(0)] = RIKKOVAN_EMPTY_HEAD;
    unsigned tasks, n;

    memset(head, draw(input), RIKKOVAN_HEAD_BYTES);
    memcpy(head, empty, sizeof empty);
    put_base(head, &bases[draw_below(input, COUNT(bases))]);
    for (n = draw_below(input, 4); n > 0; n--)
        draw_register(input, head, 1u + draw_below(input, RIKKOVAN_REGISTERS));
    if (draw_one_in(input, 16))
        for (n = 1; n <= RIKKOVAN_REGISTERS; n++)
            draw_register(input, head, n);
    draw_flags(input, head);
    tasks = draw_one_in(input, 2) ? draw_below(input, RIKKOVAN_MOST_TASKS + 1) : 0;
    rikkovan_put_task_count(head, (uint8_t)tasks);
    draw_tasks(input, head + RIKKOVAN_HEAD_AT_TASK(0), tasks);
    damage(input, head, RIKKOVAN_HEAD_BYTES);
}

/* A DLL of a plan by the offset of its first field. */
static void remove_dll(uint8_t *plan, int present)
{
    memset(plan + present, 0, 3);
}

static void draw_plan_base(struct input *input, uint8_t *plan)
{
    static const uint8_t usual[RIKKOVAN_PLAN_BYTES] = RIKKOVAN_DEFAULT_PLAN;

    memcpy(plan, usual, sizeof usual);
    switch (draw_below(input, 4)) {
    case 1: /* DLL1 at up to 240 MHz */
        plan[RIKKOVAN_PLAN_AT_DLL1_STAGE] = draw_below(input, 10);
        plan[RIKKOVAN_PLAN_AT_DLL1_HALF] = (uint8_t)draw_one_in(input, 4);
        plan[RIKKOVAN_PLAN_AT_USB] = 0;
        break;
    case 2: /* an oscillator, no DLL */
        remove_dll(plan, RIKKOVAN_PLAN_AT_DLL1_PRESENT);
        remove_dll(plan, RIKKOVAN_PLAN_AT_DLL2_PRESENT);
        plan[RIKKOVAN_PLAN_AT_CORE] = draw_below(input, 2);
        plan[RIKKOVAN_PLAN_AT_HDIV] = draw_below(input, 4);
        plan[RIKKOVAN_PLAN_AT_USB] = 0;
        plan[RIKKOVAN_PLAN_AT_MPI2] = RIKKOVAN_MPI_PERIPHERAL;
        break;
    case 3: /* USB from DLL2, which may be missing */
        plan[RIKKOVAN_PLAN_AT_DLL2_STAGE] = RIKKOVAN_STAGE_OF(240);
        plan[RIKKOVAN_PLAN_AT_USB_SOURCE] = RIKKOVAN_USB_DLL2;
        plan[RIKKOVAN_PLAN_AT_MPI2] = RIKKOVAN_MPI_PERIPHERAL;
        if (draw_one_in(input, 8))
            remove_dll(plan, RIKKOVAN_PLAN_AT_DLL2_PRESENT);
        break;
    }
}

/* A plan that is accepted more often than not, with a few fields set or bytes damaged. */
void draw_plan(struct input *input, uint8_t plan[RIKKOVAN_PLAN_BYTES])
{
    static const uint8_t largest[RIKKOVAN_PLAN_BYTES] = {
        0, 0, 0, 3, 255, RIKKOVAN_MOST_PDIV, RIKKOVAN_MOST_PDIV, 1, RIKKOVAN_MOST_STAGE, 1,
        1, RIKKOVAN_MOST_STAGE, 1, 1, 1, 1, 1, 1, 2, 2};
    unsigned n;

    draw_plan_base(input, plan);
    for (n = draw_one_in(input, 2) ? draw_below(input, 3) : 0; n > 0; n--) {
        unsigned at = RIKKOVAN_PLAN_AT_CORE;

        at += draw_below(input, RIKKOVAN_PLAN_BYTES - RIKKOVAN_PLAN_AT_CORE);
        plan[at] = draw_below(input, largest[at] + 1u);
    }
    damage(input, plan, RIKKOVAN_PLAN_BYTES);
}

/* Counts of a measurement that differ by a number around the limits of a calibration. */
static void draw_measurement(struct input *input, uint16_t pattern[3])
{
    static const uint16_t differences[] = {0, 63, 64, 160, 161, 60000};
    uint16_t difference = differences[draw_below(input, COUNT(differences))];
    int hrc_larger = draw_below(input, 2);

    pattern[0] = RIKKOVAN_READY;
    pattern[1] = (uint16_t)(1000 + (hrc_larger ? 0 : difference));
    pattern[2] = (uint16_t)(1000 + (hrc_larger ? difference : 0));
}

/* Always ready, ready once, measurements, or five words over and over. */
void draw_answers(struct input *input, uint16_t *answers, size_t len)
{
    uint16_t pattern[5] = {RIKKOVAN_READY, 0, 0, 0, 0};
    size_t period = 1, k, ready = MOST_LENT;

    switch (draw_below(input, 4)) {
    case 1:
        pattern[0] = RIKKOVAN_NOT_READY;
        ready = draw_number(input, draw_one_in(input, 4) ? 2 : 1);
        break;
    case 2:
        draw_measurement(input, pattern);
        period = 3;
        break;
    case 3:
        for (period = 0; period < 5; period++)
            pattern[period] = (uint16_t)draw_number(input, draw_one_in(input, 2) ? 2 : 0);
        break;
    }
    for (k = 0; k < len; k++)
        answers[k] = k == ready ? RIKKOVAN_READY : pattern[k % period];
}

/* Mostly stores of what the register may hold; one in 32 is any word. */
void draw_entries(struct input *input, uint32_t *entries, size_t len)
{
    size_t k;

    for (k = 0; k < len; k++) {
        uint32_t number = 1u + draw_below(input, RIKKOVAN_REGISTERS), value = 0;
        unsigned byte;

        for (byte = 0; byte < 3; byte++)
            value = value << 8 | draw_below(input, largest_in_register(number, byte) + 1u);
        entries[k] = RIKKOVAN_STORE(number, value);
        if (draw_one_in(input, 8))
            entries[k] = RIKKOVAN_ENTRY(RIKKOVAN_ENTRY_DELAY + draw_below(input, 2), value);
        if (draw_one_in(input, 32))
            entries[k] = draw_number(input, 4);
    }
}
