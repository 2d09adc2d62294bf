/*
 * Runs every call on a stack of its own that is painted, and holds what it used to the header's
 * RIKKOVAN_STACK_ numbers. Prints a line for each failure.
 */
#define _XOPEN_SOURCE 700
#include <stdio.h>
#include <string.h>
#include <ucontext.h>

#include "rikkovan.h"

#define STACK_BYTES 65536
#define PAINT 0xA5
/* What a caller puts there: arguments that have no register, at most three, and its own frame. */
#define CALLER_BYTES 64

/* What is lent to every call: a fit head at 48 MHz and a plan of 240 MHz, every poll ready. */
static uint8_t head[RIKKOVAN_HEAD_BYTES], stack[STACK_BYTES];
static const uint8_t plan[RIKKOVAN_PLAN_BYTES] = RIKKOVAN_DEFAULT_PLAN;
static uint8_t tasks[RIKKOVAN_MOST_TASKS * RIKKOVAN_TASK_BYTES];
static uint32_t journal[RIKKOVAN_JOURNAL_WORDS], clocks[RIKKOVAN_CLOCKS];
static uint64_t fit[RIKKOVAN_FIT_NUMBERS];
static const uint32_t entries[] = {RIKKOVAN_STORE(RIKKOVAN_REG_HPSYS_CFGR, RIKKOVAN_VALUE(2, 1, 1)),
                                   RIKKOVAN_DELAY(480)};
static uint16_t answers[64];

static void lend(void)
{
    static const uint8_t empty[RIKKOVAN_HEAD_BYTES] = RIKKOVAN_EMPTY_HEAD;
    uint8_t k;

    memcpy(head, empty, sizeof head);
    rikkovan_put_flag(head, RIKKOVAN_FLAG_HXT48, RIKKOVAN_READY);
    rikkovan_put_flag(head, RIKKOVAN_FLAG_HRC48, RIKKOVAN_READY);
    rikkovan_put_register(head, RIKKOVAN_REG_SYSCLK, RIKKOVAN_CORE_HXT48);
    rikkovan_put_register(head, RIKKOVAN_REG_HPSYS_SUPPLY, RIKKOVAN_HPSYS_SUPPLY_D);
    rikkovan_put_register(head, RIKKOVAN_REG_SET_VOUT_M, RIKKOVAN_D1_BUCK);
    rikkovan_put_register(head, RIKKOVAN_REG_HPSYS_LDO, RIKKOVAN_D1_LDO);
    rikkovan_put_register(head, RIKKOVAN_REG_LPSYS_SUPPLY, RIKKOVAN_LPSYS_SUPPLY_S);
    for (k = 0; k < RIKKOVAN_MOST_TASKS; k++) {
        const struct rikkovan_task task = {(uint8_t)(k + 1), 1, 1000};

        rikkovan_put_task(tasks, k, task);
        if (k < 8)
            rikkovan_add_head_task(head, task);
    }
    /* Ready, and two counts of a calibration that goes on to its end. */
    for (k = 0; k < 60; k++)
        answers[k] = k % 3 == 1 ? 100 : 1;
    memset(answers + 60, 0xFF, 4 * sizeof answers[0]);
}

#define HEAD head, sizeof head
#define PLAN plan, sizeof plan
#define JOURNAL journal, RIKKOVAN_JOURNAL_WORDS
#define ANSWERS answers, 64
#define CALL(name, arguments) \
    static void name(void) { (void)rikkovan_##name arguments; }

CALL(plan_check, (PLAN))
CALL(read_clocks, (HEAD, clocks))
CALL(read_lpsys, (HEAD, clocks))
CALL(read_fit, (HEAD, fit))
CALL(moment, (HEAD, entries, 2))
CALL(config_lpsys_hclk_mhz, (HEAD, 20, JOURNAL))
CALL(ensure_safe_lcpu_frequency, (HEAD, JOURNAL))
CALL(set_lpsys_hdiv, (HEAD, 1, JOURNAL))
CALL(set_lpsys_div, (HEAD, 1, 1, 1, JOURNAL))
CALL(config_lpsys_mac_clock, (HEAD, 1, 1, JOURNAL))
CALL(select_lpsys_sysclk, (HEAD, 1, JOURNAL))
CALL(select_lpsys_peri, (HEAD, 1, JOURNAL))
CALL(cancel_lcpu_active_request, (HEAD, JOURNAL))
CALL(wake_lcpu, (HEAD, JOURNAL, ANSWERS))
CALL(ensure_hxt48_ready, (HEAD, JOURNAL, ANSWERS))
CALL(calibrate_hrc48, (HEAD, JOURNAL, ANSWERS))
CALL(init, (HEAD, PLAN, clocks, JOURNAL, ANSWERS))
CALL(reconfigure_sysclk, (HEAD, PLAN, clocks, JOURNAL, ANSWERS))
CALL(load_check, (tasks, sizeof tasks))
CALL(book, (HEAD, 99, 1, 1000))
CALL(release, (HEAD, 1))
CALL(look_up, (HEAD, 99))
CALL(change, (HEAD, PLAN, JOURNAL, ANSWERS))

static void nothing(void)
{
}

static const struct {
    const char *name;
    void (*make)(void);
    size_t most;
} calls[] = {
    {"plan_check", plan_check, RIKKOVAN_STACK_PLAN_CHECK},
    {"read_clocks", read_clocks, RIKKOVAN_STACK_READ_CLOCKS},
    {"read_lpsys", read_lpsys, RIKKOVAN_STACK_READ_LPSYS},
    {"read_fit", read_fit, RIKKOVAN_STACK_READ_FIT},
    {"moment", moment, RIKKOVAN_STACK_MOMENT},
    {"config_lpsys_hclk_mhz", config_lpsys_hclk_mhz, RIKKOVAN_STACK_CONFIG_LPSYS_HCLK_MHZ},
    {"ensure_safe_lcpu_frequency", ensure_safe_lcpu_frequency,
     RIKKOVAN_STACK_ENSURE_SAFE_LCPU_FREQUENCY},
    {"set_lpsys_hdiv", set_lpsys_hdiv, RIKKOVAN_STACK_SET_LPSYS_HDIV},
    {"set_lpsys_div", set_lpsys_div, RIKKOVAN_STACK_SET_LPSYS_DIV},
    {"config_lpsys_mac_clock", config_lpsys_mac_clock, RIKKOVAN_STACK_CONFIG_LPSYS_MAC_CLOCK},
    {"select_lpsys_sysclk", select_lpsys_sysclk, RIKKOVAN_STACK_SELECT_LPSYS_SYSCLK},
    {"select_lpsys_peri", select_lpsys_peri, RIKKOVAN_STACK_SELECT_LPSYS_PERI},
    {"cancel_lcpu_active_request", cancel_lcpu_active_request,
     RIKKOVAN_STACK_CANCEL_LCPU_ACTIVE_REQUEST},
    {"wake_lcpu", wake_lcpu, RIKKOVAN_STACK_WAKE_LCPU},
    {"ensure_hxt48_ready", ensure_hxt48_ready, RIKKOVAN_STACK_ENSURE_HXT48_READY},
    {"calibrate_hrc48", calibrate_hrc48, RIKKOVAN_STACK_CALIBRATE_HRC48},
    {"init", init, RIKKOVAN_STACK_INIT},
    {"reconfigure_sysclk", reconfigure_sysclk, RIKKOVAN_STACK_RECONFIGURE_SYSCLK},
    {"load_check", load_check, RIKKOVAN_STACK_LOAD_CHECK},
    {"book", book, RIKKOVAN_STACK_BOOK},
    {"release", release, RIKKOVAN_STACK_RELEASE},
    {"look_up", look_up, RIKKOVAN_STACK_LOOK_UP},
    {"change", change, RIKKOVAN_STACK_CHANGE},
};

/* The bytes of the painted stack that a function used, with those that lead to it. */
static size_t used_by(void (*make)(void))
{
    static ucontext_t here, there;
    size_t k = 0;

    lend();
    make(); /* once before, so that the linker has found what it calls */
    lend();
    memset(stack, PAINT, sizeof stack);
    getcontext(&there);
    there.uc_stack.ss_sp = stack;
    there.uc_stack.ss_size = sizeof stack;
    there.uc_link = &here;
    makecontext(&there, make, 0);
    swapcontext(&here, &there);
    while (k < sizeof stack && stack[k] == PAINT)
        k++;
    return sizeof stack - k;
}

int main(void)
{
    size_t i, base = used_by(nothing) + CALLER_BYTES;
    int failures = 0;

    for (i = 0; i < sizeof calls / sizeof calls[0]; i++) {
        size_t used = used_by(calls[i].make);

        if (used <= base + calls[i].most)
            continue;
        printf("stack: %s: used %lu bytes, more than %lu\n", calls[i].name, (unsigned long)used,
               (unsigned long)calls[i].most);
        failures++;
    }
    return failures != 0;
}
