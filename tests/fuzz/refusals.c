#include "fuzz.h"

static uint32_t plan_refusal(const struct lent *given)
{
    return rikkovan_plan_refusal(rikkovan_plan_check(given->at[PLAN], given->len[PLAN]));
}

static int has_task(const uint8_t *head, uint8_t id)
{
    return model_place(head, id) < rikkovan_get_task_count(head);
}

static uint32_t book_refusal(const struct lent *given, const uint8_t *head)
{
    uint32_t cycles = given->number[0], period_us = given->number[1];

    if (!model_task_is_good(given->byte[0], cycles, period_us))
        return RIKKOVAN_REFUSED_TASK;
    if (has_task(head, given->byte[0]))
        return RIKKOVAN_REFUSED_ID_IN_USE;
    if (rikkovan_get_task_count(head) == RIKKOVAN_MOST_TASKS)
        return RIKKOVAN_REFUSED_TASKS;
    if (model_hclk(head) == 0)
        return RIKKOVAN_REFUSED_HCLK_UNREADABLE;
    if (model_booked_load(head) + model_share(cycles, period_us) > model_hclk(head))
        return RIKKOVAN_REFUSED_LOAD;
    return 0;
}

static uint32_t change_refusal(const struct lent *given, const uint8_t *head)
{
    const uint8_t *plan = given->at[PLAN];

    if (plan_refusal(given) != 0)
        return plan_refusal(given);
    if (!model_is_fit(head))
        return RIKKOVAN_REFUSED_UNFIT;
    if (rikkovan_get_flag(head, RIKKOVAN_FLAG_HXT48) != RIKKOVAN_READY ||
        (rikkovan_get_plan(plan).core == RIKKOVAN_CORE_HRC48 &&
         rikkovan_get_flag(head, RIKKOVAN_FLAG_HRC48) != RIKKOVAN_READY))
        return RIKKOVAN_REFUSED_OSCILLATOR;
    return model_booked_load(head) > model_plan_hclk(plan) ? RIKKOVAN_REFUSED_LOAD : 0;
}

static uint32_t moment_refusal(const struct lent *given)
{
    const uint32_t *entries = given->at[ENTRIES];
    size_t k;

    for (k = 0; k < given->len[ENTRIES]; k++)
        if (!model_is_entry(entries[k]))
            return RIKKOVAN_REFUSED_CODE;
    return 0;
}

/* A call's own tests, on a head that is accepted. */
static uint32_t own_refusal(enum which which, const struct lent *given, const uint8_t *head)
{
    switch (which) {
    case MOMENT: return moment_refusal(given);
    case CONFIG_LPSYS:
        return given->number[0] == 0 || given->number[0] > RIKKOVAN_LPSYS_MOST_MHZ
                   ? RIKKOVAN_REFUSED_LPSYS_REQUEST
                   : 0;
    case ENSURE_SAFE:
        return model_lpsys_hclk(head) == 0 ? RIKKOVAN_REFUSED_LPSYS_HCLK_UNREADABLE : 0;
    case SET_DIV:
        return given->byte[1] > RIKKOVAN_MOST_PDIV || given->byte[2] > RIKKOVAN_MOST_PDIV
                   ? RIKKOVAN_REFUSED_CODE
                   : 0;
    case SELECT_SYSCLK:
    case SELECT_PERI: return given->byte[1] > RIKKOVAN_LPSYS_HXT48 ? RIKKOVAN_REFUSED_CODE : 0;
    case CALIBRATE:
        return rikkovan_get_flag(head, RIKKOVAN_FLAG_HXT48) == RIKKOVAN_READY
                   ? 0
                   : RIKKOVAN_REFUSED_HXT48_NOT_READY;
    case INIT:
    case RECONFIGURE: return plan_refusal(given);
    case BOOK: return book_refusal(given, head);
    case RELEASE: return has_task(head, given->byte[0]) ? 0 : RIKKOVAN_REFUSED_ID_UNKNOWN;
    case CHANGE: return change_refusal(given, head);
    default: return 0;
    }
}

static uint32_t load_check_refusal(const struct lent *given)
{
    size_t count = given->len[TASKS] / RIKKOVAN_TASK_BYTES;

    if (given->len[TASKS] % RIKKOVAN_TASK_BYTES != 0)
        return RIKKOVAN_REFUSED_LENGTH;
    if (count > RIKKOVAN_MOST_TASKS)
        return RIKKOVAN_REFUSED_TASKS;
    return model_tasks_refusal(given->at[TASKS], (unsigned)count);
}

uint32_t model_refusal(enum which which, const struct lent *given)
{
    unsigned lends = calls[which].lends;
    const uint8_t *head = given->at[HEAD];

    if (which == PLAN_CHECK)
        return plan_refusal(given);
    if (which == LOAD_CHECK)
        return load_check_refusal(given);
    if ((lends & LENDS(JOURNAL)) != 0 && given->len[JOURNAL] < RIKKOVAN_JOURNAL_WORDS)
        return RIKKOVAN_REFUSED_JOURNAL;
    if ((lends & LENDS(ANSWERS)) != 0 && given->len[ANSWERS] > RIKKOVAN_MOST_ANSWERS)
        return RIKKOVAN_REFUSED_ANSWERS;
    if (model_head_refusal(head, given->len[HEAD]) != 0)
        return model_head_refusal(head, given->len[HEAD]);
    return own_refusal(which, given, head);
}
