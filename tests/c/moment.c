/* Tests what puts entries into a head. Prints a line for each failure. */
#include <stdio.h>
#include <string.h>

#include "rikkovan.h"

static int failures = 0;

static void expect(const char *what, uint64_t wanted, uint64_t got)
{
    if (wanted == got)
        return;
    printf("moment: %s: wanted %lu, got %lu\n", what, (unsigned long)wanted, (unsigned long)got);
    failures++;
}

/* On HXT48 at 48 MHz, supply D; LPSYS on S; bytes past the record that are not 0. */
static void make_head(uint8_t head[RIKKOVAN_HEAD_BYTES])
{
    static const uint8_t empty[RIKKOVAN_HEAD_BYTES] = RIKKOVAN_EMPTY_HEAD;

    memcpy(head, empty, sizeof empty);
    memset(head + RIKKOVAN_HEAD_AT_TASK(0), 0xEE, RIKKOVAN_MOST_TASKS * RIKKOVAN_TASK_BYTES);
    rikkovan_put_register(head, RIKKOVAN_REG_SYSCLK, RIKKOVAN_CORE_HXT48);
    rikkovan_put_register(head, RIKKOVAN_REG_HPSYS_SUPPLY, RIKKOVAN_HPSYS_SUPPLY_D);
    rikkovan_put_register(head, RIKKOVAN_REG_SET_VOUT_M, RIKKOVAN_D1_BUCK);
    rikkovan_put_register(head, RIKKOVAN_REG_HPSYS_LDO, RIKKOVAN_D1_LDO);
    rikkovan_put_register(head, RIKKOVAN_REG_LPSYS_SUPPLY, RIKKOVAN_LPSYS_SUPPLY_S);
    rikkovan_put_flag(head, RIKKOVAN_FLAG_HXT48, RIKKOVAN_READY);
    rikkovan_put_flag(head, RIKKOVAN_FLAG_HRC48, RIKKOVAN_READY);
}

/* The moments of a change: those that one entry after the other gives, the last the head it left. */
static void test_moments(void)
{
    static const uint8_t plan[RIKKOVAN_PLAN_BYTES] = RIKKOVAN_DEFAULT_PLAN;
    const uint16_t answers[] = {RIKKOVAN_NOT_READY, RIKKOVAN_READY};
    uint8_t before[RIKKOVAN_HEAD_BYTES], after[RIKKOVAN_HEAD_BYTES], moment[RIKKOVAN_HEAD_BYTES],
        wanted[RIKKOVAN_HEAD_BYTES];
    uint32_t journal[RIKKOVAN_JOURNAL_WORDS], k;
    rikkovan_answer answer;

    make_head(before);
    memcpy(after, before, sizeof before);
    memcpy(wanted, before, sizeof before);
    answer = rikkovan_change(RIKKOVAN_LEND(after), RIKKOVAN_LEND(plan), RIKKOVAN_LEND(journal),
                             RIKKOVAN_LEND(answers));
    expect("entries", 17, rikkovan_entries(answer));
    for (k = 0; k <= rikkovan_entries(answer); k++) {
        if (k > 0)
            rikkovan_put_entry(wanted, journal[k - 1]);
        memcpy(moment, before, sizeof before);
        expect("word", 0, rikkovan_moment(RIKKOVAN_LEND(moment), journal, k).word);
        expect("moment", 0, (uint64_t)(memcmp(wanted, moment, sizeof moment) != 0));
    }
    expect("the last moment", 0, (uint64_t)(memcmp(after, moment, sizeof moment) != 0));
}

/* A word behind a store refuses both, or neither. */
static void expect_refusal(const char *what, uint32_t word, enum rikkovan_refusal refusal)
{
    const uint32_t entries[] = {RIKKOVAN_STORE(RIKKOVAN_REG_PERI, 1), word};
    uint8_t before[RIKKOVAN_HEAD_BYTES], head[RIKKOVAN_HEAD_BYTES];

    make_head(before);
    memcpy(head, before, sizeof before);
    expect(what, refusal, rikkovan_refusal(rikkovan_moment(RIKKOVAN_LEND(head),
                                                           RIKKOVAN_LEND(entries))));
    expect(what, refusal == RIKKOVAN_NOT_REFUSED,
           (uint64_t)(memcmp(before, head, sizeof head) != 0));
}

static void test_refusals(void)
{
    uint8_t head[RIKKOVAN_HEAD_BYTES];
    const uint32_t no_entry = 0;

    expect_refusal("register 34", RIKKOVAN_STORE(34, 0xFFFF), RIKKOVAN_NOT_REFUSED);
    expect_refusal("register 34, byte a", RIKKOVAN_STORE(34, 0x10000), RIKKOVAN_REFUSED_CODE);
    expect_refusal("core select 4", RIKKOVAN_STORE(1, 4), RIKKOVAN_REFUSED_CODE);
    expect_refusal("trim 1,024", RIKKOVAN_STORE(19, 1024), RIKKOVAN_REFUSED_CODE);
    expect_refusal("number 0", RIKKOVAN_ENTRY(0, 0), RIKKOVAN_REFUSED_CODE);
    expect_refusal("number 35", RIKKOVAN_ENTRY(35, 0), RIKKOVAN_REFUSED_CODE);
    expect_refusal("number 47", RIKKOVAN_ENTRY(47, 0), RIKKOVAN_REFUSED_CODE);
    expect_refusal("a delay", RIKKOVAN_DELAY(0xFFFFFF), RIKKOVAN_NOT_REFUSED);
    expect_refusal("a wait", RIKKOVAN_WAIT(255, 0xFFFF), RIKKOVAN_NOT_REFUSED);
    expect_refusal("number 50", RIKKOVAN_ENTRY(50, 0), RIKKOVAN_REFUSED_CODE);
    make_head(head);
    head[RIKKOVAN_HEAD_AT_VERSION] = 2;
    expect("the head first", RIKKOVAN_REFUSED_VERSION,
           rikkovan_refusal(rikkovan_moment(RIKKOVAN_LEND(head), &no_entry, 1)));
    expect("length", RIKKOVAN_REFUSED_LENGTH,
           rikkovan_refusal(rikkovan_moment(head, sizeof head - 1, &no_entry, 1)));
}

int main(void)
{
    test_moments();
    test_refusals();
    return failures != 0;
}
