/*
 * Faults for the fuzz target to find. The linker's --wrap puts this in place of rikkovan_change,
 * and FAULT in the environment names a fault, none where it is not set.
 */
#include "rikkovan.h"

#include <stdlib.h>
#include <string.h>

/* A change that was made, which a fault may still spoil. */
struct changed {
    uint8_t *head, *plan;
    uint32_t *journal;
    uint64_t journal_len;
    const uint16_t *answers;
    uint64_t answers_len;
    rikkovan_answer answer;
};

static volatile unsigned seen;

static void reads_before_the_plan(struct changed *changed)
{
    seen += changed->plan[-1];
}

static void reads_behind_the_answers(struct changed *changed)
{
    seen += changed->answers[changed->answers_len];
}

static void writes_the_plan(struct changed *changed)
{
    changed->plan[RIKKOVAN_PLAN_AT_VERSION] = 1;
}

static void writes_behind_the_journal(struct changed *changed)
{
    changed->journal[changed->journal_len] = 0;
}

static void writes_past_the_entries(struct changed *changed)
{
    if (rikkovan_entries(changed->answer) != 0)
        changed->journal[rikkovan_entries(changed->answer)] = 0;
}

static void writes_past_the_record(struct changed *changed)
{
    if (rikkovan_done(changed->answer))
        changed->head[RIKKOVAN_HEAD_BYTES - 1] ^= 1;
}

static void counts_an_entry_less(struct changed *changed)
{
    if (rikkovan_entries(changed->answer) != 0)
        changed->answer.word -= UINT64_C(1) << 32;
}

static void takes_another_refusal(struct changed *changed)
{
    if (rikkovan_refusal(changed->answer) == RIKKOVAN_REFUSED_LOAD)
        changed->answer.word--;
}

static void remembers_the_last_call(struct changed *changed)
{
    if (rikkovan_done(changed->answer))
        changed->answer.word += seen++ % 2;
}

/* The core's clock is stored first: the head after the call is right, and the way there is not. */
static void jumps_to_the_clock(struct changed *changed)
{
    uint32_t k = 0, entry;

    if (!rikkovan_done(changed->answer))
        return;
    while (rikkovan_entry_number(changed->journal[k]) != RIKKOVAN_REG_SYSCLK)
        k++;
    entry = changed->journal[k];
    memmove(changed->journal + 1, changed->journal, k * sizeof entry);
    changed->journal[0] = entry;
}

static void waits_a_cycle_less(struct changed *changed)
{
    uint32_t k;

    for (k = 0; k < rikkovan_entries(changed->answer); k++)
        if (rikkovan_is_delay(changed->journal[k]))
            changed->journal[k]--;
}

#define FAULT(name) {#name, name}
static const struct {
    const char *name;
    void (*spoil)(struct changed *changed);
} faults[] = {
    FAULT(reads_before_the_plan),
    FAULT(reads_behind_the_answers),
    FAULT(writes_the_plan),
    FAULT(writes_behind_the_journal),
    FAULT(writes_past_the_entries),
    FAULT(writes_past_the_record),
    FAULT(counts_an_entry_less),
    FAULT(takes_another_refusal),
    FAULT(remembers_the_last_call),
    FAULT(jumps_to_the_clock),
    FAULT(waits_a_cycle_less),
};

uint64_t __real_rikkovan_change(uint8_t *head, uint64_t head_len, const uint8_t *plan,
                                uint64_t plan_len, uint32_t *journal, uint64_t journal_len,
                                const uint16_t *answers, uint64_t answers_len);
uint64_t __wrap_rikkovan_change(uint8_t *head, uint64_t head_len, const uint8_t *plan,
                                uint64_t plan_len, uint32_t *journal, uint64_t journal_len,
                                const uint16_t *answers, uint64_t answers_len);

uint64_t __wrap_rikkovan_change(uint8_t *head, uint64_t head_len, const uint8_t *plan,
                                uint64_t plan_len, uint32_t *journal, uint64_t journal_len,
                                const uint16_t *answers, uint64_t answers_len)
{
    const char *fault = getenv("FAULT");
    struct changed changed = {head,    (uint8_t *)plan, journal, journal_len,
                              answers, answers_len,     {0}};
    size_t k;

    changed.answer = rikkovan_answer_of(__real_rikkovan_change(
        head, head_len, plan, plan_len, journal, journal_len, answers, answers_len));
    for (k = 0; fault != NULL && k < sizeof faults / sizeof faults[0]; k++)
        if (strcmp(fault, faults[k].name) == 0)
            faults[k].spoil(&changed);
    return changed.answer.word;
}
