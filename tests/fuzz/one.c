#include "fuzz.h"

#include <string.h>

/* What a call is given, and what it leaves the first time and the second. */
struct storage {
    uint8_t head[MOST_LENT], plan[MOST_LENT], tasks[MOST_LENT];
    uint32_t clocks[RIKKOVAN_CLOCKS], journal[MOST_LENT];
    uint64_t fit[RIKKOVAN_FIT_NUMBERS];
    uint32_t entries[MOST_LENT];
    uint16_t answers[MOST_LENT];
};

static struct lent lent_from(struct storage *storage)
{
    struct lent lent = {{storage->head, storage->plan, storage->tasks, storage->clocks,
                         storage->fit, storage->entries, storage->journal, storage->answers},
                        {0}, {0}, {0}};

    return lent;
}

/* The bytes past a record whose buffer is too long. */
static void fill_past(uint8_t *bytes, size_t record, size_t len)
{
    if (len > record)
        memset(bytes + record, 0xEE, len - record);
}

static void draw_lent(struct input *input, struct storage *storage, enum buffer buffer,
                      const uint8_t *head, struct lent *lent)
{
    size_t *len = &lent->len[buffer], tasks, k;

    switch (buffer) {
    case HEAD:
        *len = draw_length(input, RIKKOVAN_HEAD_BYTES);
        memcpy(storage->head, head, RIKKOVAN_HEAD_BYTES);
        fill_past(storage->head, RIKKOVAN_HEAD_BYTES, *len);
        break;
    case PLAN:
        *len = draw_length(input, RIKKOVAN_PLAN_BYTES);
        draw_plan(input, storage->plan);
        fill_past(storage->plan, RIKKOVAN_PLAN_BYTES, *len);
        break;
    case TASKS:
        tasks = draw_below(input, RIKKOVAN_MOST_TASKS + 2u);
        *len = draw_length(input, tasks * RIKKOVAN_TASK_BYTES);
        draw_tasks(input, storage->tasks, (unsigned)tasks);
        fill_past(storage->tasks, tasks * RIKKOVAN_TASK_BYTES, *len);
        break;
    case FIT:
        *len = RIKKOVAN_FIT_NUMBERS;
        for (k = 0; k < *len; k++)
            storage->fit[k] = 1000 + k;
        break;
    case ENTRIES:
        *len = draw_length(input, draw_below(input, 8));
        draw_entries(input, storage->entries, *len);
        break;
    case JOURNAL:
        *len = draw_length(input, RIKKOVAN_JOURNAL_WORDS);
        for (k = 0; k < *len; k++)
            storage->journal[k] = 0xA5A50000u + (uint32_t)k;
        break;
    case ANSWERS:
        *len = draw_length(input, draw_one_in(input, 4) ? draw_below(input, 48) : 48);
        draw_answers(input, storage->answers, *len);
        break;
    default: break;
    }
}

static void draw_numbers(struct input *input, enum which which, struct lent *lent)
{
    lent->byte[0] = draw_below(input, draw_one_in(input, 4) ? 256 : RIKKOVAN_MOST_TASKS + 2);
    lent->byte[1] = draw_below(input, draw_one_in(input, 4) ? 256 : 2);
    lent->byte[2] = draw_below(input, draw_one_in(input, 4) ? 256 : RIKKOVAN_MOST_PDIV + 2);
    lent->number[0] = draw_number(input, draw_one_in(input, 8) ? 4 : 3);
    lent->number[1] = draw_number(input, 4);
    if (!draw_one_in(input, 16))
        lent->number[1] %= RIKKOVAN_MOST_PERIOD_US + 2;
    if (which == CONFIG_LPSYS && !draw_one_in(input, 16))
        lent->number[0] %= RIKKOVAN_LPSYS_MOST_MHZ + 2;
}

/* Makes a call twice, at both sides of its pages, and leaves the head as the call does. */
static void make_call(struct input *input, uint8_t *head)
{
    static struct storage before, after, again;
    enum which which = (enum which)draw_below(input, CALLS);
    const struct call *call = &calls[which];
    struct lent given = lent_from(&before), left = lent_from(&after), other = lent_from(&again);
    uint64_t answer;
    int k;

    draw_numbers(input, which, &given);
    for (k = 0; k < BUFFERS; k++)
        if ((call->lends & LENDS(k)) != 0)
            draw_lent(input, &before, (enum buffer)k, head, &given);
    if ((call->lends & LENDS(CLOCKS)) != 0) {
        given.len[CLOCKS] = which == READ_LPSYS ? RIKKOVAN_LPSYS_CLOCKS : RIKKOVAN_CLOCKS;
        for (k = 0; k < RIKKOVAN_CLOCKS; k++)
            before.clocks[k] = 1000 + (uint32_t)k;
    }
    answer = make_guarded(call, AT_END, &given, &left);
    check_same(which, &left, answer, &other, make_guarded(call, AT_START, &given, &other));
    check_call(which, &given, answer, &left);
    answered[which][refusal_of(which, answer)]++;
    if (given.len[HEAD] == RIKKOVAN_HEAD_BYTES)
        memcpy(head, left.at[HEAD], RIKKOVAN_HEAD_BYTES);
}

int fuzz_one(const uint8_t *data, size_t size)
{
    struct input input = {data, data + size};
    uint8_t head[RIKKOVAN_HEAD_BYTES];

    draw_head(&input, head);
    do
        make_call(&input, head);
    while (input.next < input.end);
    return 0;
}
