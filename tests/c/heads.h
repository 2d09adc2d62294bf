/* What tests of calls on a head share: a head, and what is lent to a call. */
#include <stdio.h>
#include <string.h>

#include "rikkovan.h"

#define WORDS RIKKOVAN_JOURNAL_WORDS
/* What the journal and the head past its record hold before a call. */
#define BEFORE 0xA5A5A5A5u
#define PAST 0xEE

/* Places in a head and in a plan. */
#define AT(part) RIKKOVAN_HEAD_AT_##part
#define PLAN(field) RIKKOVAN_PLAN_AT_##field
#define A(reg) RIKKOVAN_HEAD_AT_A(RIKKOVAN_REG_##reg)
#define B(reg) RIKKOVAN_HEAD_AT_B(RIKKOVAN_REG_##reg)
#define C(reg) RIKKOVAN_HEAD_AT_C(RIKKOVAN_REG_##reg)
#define ENTRY(reg, value) RIKKOVAN_STORE(RIKKOVAN_REG_##reg, value)
#define DELAY(cycles) RIKKOVAN_DELAY(cycles)
#define WAIT(kind, taken) RIKKOVAN_WAIT(RIKKOVAN_WAIT_##kind, taken)

static int failures = 0;

static void expect(const char *name, const char *what, uint64_t wanted, uint64_t got)
{
    if (wanted == got)
        return;
    printf("%s: %s: wanted %lu, got %lu\n", name, what, (unsigned long)wanted, (unsigned long)got);
    failures++;
}

/* The word of a call on a head; the value is 0 where there is a refusal. */
static inline uint64_t word_of(uint32_t refusal, uint32_t value, int entries, int taken)
{
    return (uint64_t)(refusal != 0) << 63 | (uint64_t)taken << 48 | (uint64_t)entries << 32 |
           refusal | value;
}

/* A byte of a head, set to a value. Offset 0 ends a list. */
struct edit {
    int offset;
    uint8_t value;
};

/* The core on HXT48, all oscillators ready, LPSYS at 48 MHz on supply S, one task, all else 0. */
static void make_head(uint8_t *head, size_t room)
{
    static const uint8_t empty[RIKKOVAN_HEAD_AT_TASK(0)] = RIKKOVAN_EMPTY_HEAD;
    const struct rikkovan_task task = {1, 2, 3};

    memset(head, PAST, room);
    memcpy(head, empty, sizeof empty);
    rikkovan_put_register(head, RIKKOVAN_REG_SYSCLK, RIKKOVAN_CORE_HXT48);
    rikkovan_put_register(head, RIKKOVAN_REG_LPSYS_SUPPLY, RIKKOVAN_LPSYS_SUPPLY_S);
    rikkovan_put_flag(head, RIKKOVAN_FLAG_HXT48, RIKKOVAN_READY);
    rikkovan_put_flag(head, RIKKOVAN_FLAG_HRC48, RIKKOVAN_READY);
    rikkovan_put_flag(head, RIKKOVAN_FLAG_LPSYS_HXT48, RIKKOVAN_READY);
    rikkovan_put_wake_count(head, 7);
    rikkovan_add_head_task(head, task);
}

static void put(uint8_t *head, const struct edit *edit, int most)
{
    int k;

    for (k = 0; k < most && edit[k].offset != 0; k++)
        head[edit[k].offset] = edit[k].value;
}

/* Head and journal are lent from their second element on, and end behind what is lent. */
struct lent {
    uint8_t head[300], wanted[300];
    uint32_t journal[WORDS + 80];
};

/* Makes a head with some bytes set, and the head that the call must leave. */
static inline void lend(struct lent *lent, const struct edit *edit, int edits,
                        const struct edit *after, int afters)
{
    size_t i;

    lent->head[0] = PAST;
    make_head(lent->head + 1, sizeof lent->head - 1);
    put(lent->head + 1, edit, edits);
    memcpy(lent->wanted, lent->head, sizeof lent->head);
    put(lent->wanted + 1, after, afters);
    for (i = 0; i < sizeof lent->journal / sizeof lent->journal[0]; i++)
        lent->journal[i] = BEFORE;
}

/* Puts the stores among the entries into the head that is wanted, and counts the entries. */
static inline int put_stores(uint8_t *wanted, const uint32_t *entry)
{
    int k;

    for (k = 0; entry[k] != 0; k++)
        rikkovan_put_entry(wanted, entry[k]);
    return k;
}

/* The head is the one that was wanted, and the journal has these entries and nothing else new. */
static inline void expect_left(const char *name, const struct lent *lent, int entries,
                               const uint32_t *entry)
{
    size_t i;

    for (i = 0; i < sizeof lent->head; i++)
        expect(name, "a byte of the head", lent->wanted[i], lent->head[i]);
    for (i = 0; i < sizeof lent->journal / sizeof lent->journal[0]; i++)
        expect(name, "a word of the journal",
               i >= 1 && i <= (size_t)entries ? entry[i - 1] : BEFORE, lent->journal[i]);
}
