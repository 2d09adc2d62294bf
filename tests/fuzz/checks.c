#include "fuzz.h"

#include <stdio.h>
#include <stdlib.h>
#include <string.h>

/* A call that was made: what it was given, its answer taken apart, and what it left. */
struct made {
    enum which which;
    const struct call *call;
    const struct lent *given, *left;
    uint64_t answer;
    uint32_t refusal, entries;
    int is_kept; /* a refusal that keeps the stores made so far */
};

static void expect(const struct made *made, int holds, const char *what)
{
    if (holds)
        return;
    fprintf(stderr, "fuzz: %s, answer 0x%016lx: %s\n", made->call->name,
            (unsigned long)made->answer, what);
    abort();
}

static int lends(const struct made *made, enum buffer buffer)
{
    return (made->call->lends & LENDS(buffer)) != 0;
}

/* Whether a lent buffer is as it was, from an element on. */
static int is_same_from(const struct made *made, enum buffer buffer, size_t first)
{
    size_t size = element_size[buffer], len = made->given->len[buffer];
    const uint8_t *before = made->given->at[buffer], *after = made->left->at[buffer];

    return memcmp(before + first * size, after + first * size, (len - first) * size) == 0;
}

static void check_refusal(const struct made *made)
{
    uint32_t first = model_refusal(made->which, made->given);

    expect(made, made->refusal <= MOST_REFUSAL, "refusal number out of range");
    expect(made, made->refusal == 0 || (made->call->refusals >> made->refusal & 1) != 0,
           "a refusal that the call does not have");
    if (first != 0)
        expect(made, made->refusal == first, "not the first test that fails");
    else
        expect(made, made->refusal == 0 || made->is_kept, "refused, and no test fails");
}

/* The tasks up to the one with the id, or all; release and book find it where the look-up does. */
static void check_look_up(const struct made *made)
{
    rikkovan_answer answer = rikkovan_answer_of(made->answer), released, booked;
    uint8_t head[RIKKOVAN_HEAD_BYTES], id = made->given->byte[0];
    uint32_t place, tasks;
    int hit;

    memcpy(head, made->given->at[HEAD], sizeof head);
    tasks = rikkovan_get_task_count(head);
    place = model_place(head, id);
    hit = place < tasks;
    expect(made, rikkovan_hit(answer) == hit, "a hit or a miss, against the tasks");
    expect(made, rikkovan_tasks_read(answer) == (hit ? place + 1 : tasks), "not the tasks read");
    booked = rikkovan_book(head, sizeof head, id, 1, 1);
    expect(made, (rikkovan_refusal(booked) == RIKKOVAN_REFUSED_ID_IN_USE) == hit,
           "book finds the id otherwise");
    memcpy(head, made->given->at[HEAD], sizeof head);
    released = rikkovan_release(head, sizeof head, id);
    expect(made, rikkovan_done(released) == hit, "release finds the id otherwise");
}

static void check_value(const struct made *made)
{
    uint32_t value = rikkovan_value(rikkovan_answer_of(made->answer));

    if (made->refusal != 0)
        return;
    switch (made->which) {
    case ENSURE_SAFE:
        expect(made, value == model_lpsys_hclk(made->given->at[HEAD]), "not the LPSYS HCLK before");
        break;
    case INIT:
        expect(made, value == 0 || value == RIKKOVAN_REFUSED_HXT48_NOT_READY ||
                         value == RIKKOVAN_REFUSED_DIFFERENCE, "no value of init");
        break;
    case LOOK_UP: check_look_up(made); break;
    default: expect(made, value == 0, "a value");
    }
}

/* Entries and answers are counted within what is lent; waits take what is counted. */
static void check_journal(const struct made *made)
{
    const uint32_t *journal = made->left->at[JOURNAL];
    uint32_t k, taken = 0;

    expect(made, made->entries <= made->call->most_entries, "too many entries");
    expect(made, made->entries == 0 || made->refusal == 0 || made->is_kept,
           "entries of a refusal that keeps nothing");
    expect(made, is_same_from(made, JOURNAL, made->entries), "a word past the last entry");
    for (k = 0; k < made->entries; k++) {
        if (rikkovan_is_wait(journal[k])) {
            uint32_t kind = rikkovan_wait_kind(journal[k]);

            expect(made, kind >= RIKKOVAN_WAIT_HXT48 && kind <= RIKKOVAN_WAIT_LPSYS_ACTIVE,
                   "a wait of no kind");
            taken += rikkovan_wait_taken(journal[k]);
        } else
            expect(made, rikkovan_is_delay(journal[k]) || rikkovan_is_store(journal[k]),
                   "an entry of no number");
    }
    if (made->refusal == RIKKOVAN_REFUSED_ANSWERS_RAN_OUT) {
        expect(made, taken <= made->given->len[ANSWERS], "waits took more than is lent");
        taken = (uint32_t)made->given->len[ANSWERS];
    }
    expect(made, rikkovan_taken(rikkovan_answer_of(made->answer)) == taken,
           "not the answers that the waits took");
}

/* Whether a delay has the cycles of some microseconds at an HCLK, rounded up. */
static int is_never_short(uint32_t cycles, uint32_t hclk)
{
    static const uint32_t microseconds[] = {3, 10, 30, 230, 250};
    size_t k;

    for (k = 0; k < sizeof microseconds / sizeof microseconds[0]; k++)
        if (cycles == ((uint64_t)hclk * microseconds[k] + 999999) / 1000000)
            return 1;
    return 0;
}

/* What an entry does to a head: a store to its register, a wait for HXT48 to its ready flag. */
static void put_entry(uint8_t *head, uint32_t entry)
{
    rikkovan_put_entry(head, entry);
    if (!rikkovan_is_wait(entry))
        return;
    if (rikkovan_wait_kind(entry) == RIKKOVAN_WAIT_HXT48)
        rikkovan_put_flag(head, RIKKOVAN_FLAG_HXT48, RIKKOVAN_READY);
    if (rikkovan_wait_kind(entry) == RIKKOVAN_WAIT_LPSYS_HXT48)
        rikkovan_put_flag(head, RIKKOVAN_FLAG_LPSYS_HXT48, RIKKOVAN_READY);
}

static void put_released(uint8_t *head, uint8_t id)
{
    uint8_t count = rikkovan_get_task_count(head);
    uint32_t place = model_place(head, id);

    memmove(head + RIKKOVAN_HEAD_AT_TASK(place), head + RIKKOVAN_HEAD_AT_TASK(place + 1),
            (size_t)RIKKOVAN_TASK_BYTES * (count - place - 1));
    rikkovan_put_task_count(head, (uint8_t)(count - 1));
}

static void put_entries(uint8_t *head, const struct lent *given)
{
    const uint32_t *entries = given->at[ENTRIES];
    size_t k;

    for (k = 0; k < given->len[ENTRIES]; k++)
        rikkovan_put_entry(head, entries[k]);
}

/* What a call that is done does to a head beside its entries. */
static void put_done(const struct made *made, uint8_t *head)
{
    const struct lent *given = made->given;
    struct rikkovan_task task = {given->byte[0], given->number[0], given->number[1]};
    uint8_t wakes = rikkovan_get_wake_count(head);

    switch (made->which) {
    case MOMENT: put_entries(head, given); break;
    case WAKE: rikkovan_put_wake_count(head, (uint8_t)(wakes + 1)); break;
    case CANCEL: rikkovan_put_wake_count(head, (uint8_t)(wakes - 1)); break;
    case BOOK: rikkovan_add_head_task(head, task); break;
    case RELEASE: put_released(head, given->byte[0]); break;
    default: break;
    }
}

/* The head after the call is the one before it with the entries put in, and nothing else. */
static void check_head(const struct made *made)
{
    const uint32_t *journal = made->left->at[JOURNAL];
    uint8_t head[RIKKOVAN_HEAD_BYTES];
    uint32_t clocks[RIKKOVAN_CLOCKS], k;

    if (model_head_refusal(made->given->at[HEAD], made->given->len[HEAD]) != 0) {
        expect(made, is_same_from(made, HEAD, 0), "a refused head changed");
        return;
    }
    memcpy(head, made->given->at[HEAD], sizeof head);
    for (k = 0; k < made->entries; k++) {
        if (rikkovan_is_delay(journal[k]))
            expect(made, is_never_short(rikkovan_entry_value(journal[k]), model_hclk(head)),
                   "not the cycles of a delay");
        put_entry(head, journal[k]);
    }
    if (made->refusal == 0)
        put_done(made, head);
    expect(made, memcmp(head, made->left->at[HEAD], sizeof head) == 0,
           "not the head that the entries give");
    expect(made, rikkovan_done(rikkovan_read_clocks(head, sizeof head, clocks)),
           "the head is refused now");
}

static void check_clocks(const struct made *made)
{
    const uint32_t *before = made->given->at[CLOCKS], *after = made->left->at[CLOCKS];
    const uint8_t *head = made->left->at[HEAD];
    uint32_t wanted[RIKKOVAN_CLOCKS] = {0};

    if (made->refusal != 0 && made->which == INIT) {
        expect(made, memcmp(after, wanted, sizeof wanted) == 0, "clocks of a refused init");
    } else if (made->refusal != 0) {
        expect(made, is_same_from(made, CLOCKS, 0), "clocks of a refused call");
    } else if (made->which == READ_LPSYS) {
        expect(made, after[RIKKOVAN_LPSYS_HCLK] == model_lpsys_hclk(head), "LPSYS HCLK");
    } else {
        rikkovan_read_clocks(head, RIKKOVAN_HEAD_BYTES, wanted);
        if (made->which == RECONFIGURE)
            memcpy(wanted + RIKKOVAN_CLOCK_AUD_PLL, before + RIKKOVAN_CLOCK_AUD_PLL,
                   2 * sizeof wanted[0]);
        expect(made, memcmp(after, wanted, sizeof wanted) == 0, "not the clocks of the head");
        expect(made, after[RIKKOVAN_CLOCK_HCLK] == model_hclk(head), "HCLK");
    }
}

static void check_fit(const struct made *made)
{
    const uint64_t *fit = made->left->at[FIT];
    const uint8_t *head = made->given->at[HEAD];

    if (made->refusal != 0) {
        expect(made, is_same_from(made, FIT, 0), "fit of a refused call");
        return;
    }
    expect(made, fit[RIKKOVAN_FIT_RAIL_LIMIT] == model_rail_limit(head), "not the rail limit");
    expect(made, fit[RIKKOVAN_FIT_LOAD] == model_booked_load(head), "not the load");
    expect(made, rikkovan_unfit(fit) == model_unfit(head), "not what the head lacks");
}

/* Of a fit head: every moment of these calls is fit, and a change ends as the header says. */
static void check_moments(const struct made *made)
{
    const uint32_t *journal = made->left->at[JOURNAL];
    uint8_t head[RIKKOVAN_HEAD_BYTES];
    uint32_t k;

    memcpy(head, made->given->at[HEAD], sizeof head);
    for (k = 0; k < made->entries; k++) {
        rikkovan_put_entry(head, journal[k]);
        expect(made, model_is_fit(head), "a moment that is not fit");
    }
    expect(made, model_is_fit(made->left->at[HEAD]), "a head that is not fit now");
}

static int is_any_ready(const struct lent *given)
{
    const uint16_t *answers = given->at[ANSWERS];
    size_t k;

    for (k = 0; k < given->len[ANSWERS]; k++)
        if (answers[k] != RIKKOVAN_NOT_READY)
            return 1;
    return 0;
}

static void check_change(const struct made *made)
{
    const uint8_t *plan = made->given->at[PLAN], *head = made->left->at[HEAD];

    if (model_refusal(CHANGE, made->given) != 0)
        return;
    expect(made, (made->refusal == 0) ==
                     (rikkovan_get_plan(plan).dll1.present == 0 || is_any_ready(made->given)),
           "done or not, against its answers");
    if (made->refusal == 0)
        expect(made, model_hclk(head) == model_plan_hclk(plan), "HCLK is not the plan's");
}

static void check_guarded(const struct made *made)
{
    const uint8_t *head = made->given->at[HEAD], *left = made->left->at[HEAD];

    if (made->which != CHANGE && made->which != BOOK && made->which != RELEASE &&
        made->which != CONFIG_LPSYS)
        return;
    if (model_head_refusal(head, made->given->len[HEAD]) == 0 && model_is_fit(head))
        check_moments(made);
    if (made->which == CHANGE)
        check_change(made);
    if (made->refusal == 0 && (made->which == CHANGE || made->which == BOOK))
        expect(made, model_booked_load(left) <= model_hclk(left), "the load is above HCLK");
}

/* The plan check returns the refusal as it is, the load check with bit 63, or the load. */
static void check_number(const struct made *made)
{
    uint64_t wanted = made->refusal;

    if (made->which == LOAD_CHECK && made->refusal != 0)
        wanted |= UINT64_C(1) << 63;
    if (made->which == LOAD_CHECK && made->refusal == 0)
        wanted = model_load(made->given->at[TASKS],
                            (unsigned)(made->given->len[TASKS] / RIKKOVAN_TASK_BYTES));
    expect(made, made->answer == wanted, "not the number");
}

void check_call(enum which which, const struct lent *given, uint64_t answer,
                const struct lent *left)
{
    struct made made = {which, &calls[which], given, left, answer, 0, 0, 0};

    made.refusal = refusal_of(which, answer);
    made.is_kept = made.refusal >= 32 && made.refusal <= 36 && which != BOOK;
    check_refusal(&made);
    if (!lends(&made, HEAD)) {
        check_number(&made);
        return;
    }
    made.entries = rikkovan_entries(rikkovan_answer_of(answer));
    check_value(&made);
    check_journal(&made);
    check_head(&made);
    if (lends(&made, CLOCKS))
        check_clocks(&made);
    if (lends(&made, FIT))
        check_fit(&made);
    check_guarded(&made);
}

void check_same(enum which which, const struct lent *one, uint64_t answer, const struct lent *other,
                uint64_t other_answer)
{
    struct made made = {which, &calls[which], one, other, answer, 0, 0, 0};
    int k;

    expect(&made, answer == other_answer, "another answer the second time");
    for (k = 0; k < BUFFERS; k++)
        if (lends(&made, (enum buffer)k))
            expect(&made, is_same_from(&made, (enum buffer)k, 0), "left otherwise the second time");
}
