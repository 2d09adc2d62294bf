/* Tests the readings and what takes an answer word apart. Prints a line for each failure. */
#include <stdio.h>
#include <string.h>

#include "rikkovan.h"

#define MHZ 1000000u
/* What the lent arrays hold before a call. */
#define BEFORE 0xA5A5A5A5u

static int failures = 0;

static void expect(const char *what, uint64_t wanted, uint64_t got)
{
    if (wanted == got)
        return;
    printf("readings: %s: wanted %lu, got %lu\n", what, (unsigned long)wanted, (unsigned long)got);
    failures++;
}

/* The two arrays as they are lent, each with an element before and after it that is not. */
struct lent {
    uint32_t clocks[RIKKOVAN_CLOCKS + 2];
    uint32_t lpsys[RIKKOVAN_LPSYS_CLOCKS + 2];
};

static void fill(uint32_t *numbers, int count)
{
    int i;

    for (i = 0; i < count; i++)
        numbers[i] = BEFORE;
}

/* Reads a head, and expects both words and that nothing outside the lent memory is written. */
static void read_head(const char *name, const uint8_t *head, size_t len, uint64_t word,
                      struct lent *lent)
{
    char what[96];

    fill(lent->clocks, RIKKOVAN_CLOCKS + 2);
    fill(lent->lpsys, RIKKOVAN_LPSYS_CLOCKS + 2);
    sprintf(what, "%.60s: word of the 15", name);
    expect(what, word, rikkovan_read_clocks(head, len, lent->clocks + 1).word);
    sprintf(what, "%.60s: word of LPSYS", name);
    expect(what, word, rikkovan_read_lpsys(head, len, lent->lpsys + 1).word);
    sprintf(what, "%.60s: beside the lent arrays", name);
    expect(what, BEFORE, lent->clocks[0]);
    expect(what, BEFORE, lent->clocks[RIKKOVAN_CLOCKS + 1]);
    expect(what, BEFORE, lent->lpsys[0]);
    expect(what, BEFORE, lent->lpsys[RIKKOVAN_LPSYS_CLOCKS + 1]);
}

/* Expects the frequencies of a head. */
static void expect_read(const char *name, const uint8_t head[RIKKOVAN_HEAD_BYTES],
                        const uint32_t clocks[RIKKOVAN_CLOCKS],
                        const uint32_t lpsys[RIKKOVAN_LPSYS_CLOCKS])
{
    struct lent lent;
    char what[96];
    int i;

    read_head(name, head, RIKKOVAN_HEAD_BYTES, 0, &lent);
    for (i = 0; i < RIKKOVAN_CLOCKS; i++) {
        sprintf(what, "%.60s: frequency %d", name, i);
        expect(what, clocks[i], lent.clocks[1 + i]);
    }
    for (i = 0; i < RIKKOVAN_LPSYS_CLOCKS; i++) {
        sprintf(what, "%.60s: LPSYS frequency %d", name, i);
        expect(what, lpsys[i], lent.lpsys[1 + i]);
    }
}

/* Expects that both calls refuse a buffer with a number, and leave the lent arrays as they were. */
static void expect_refused(const char *name, const uint8_t *head, size_t len, uint64_t refusal)
{
    struct lent lent;
    char what[96];
    int i;

    read_head(name, head, len, (uint64_t)1 << 63 | refusal, &lent);
    sprintf(what, "%.60s: lent arrays after a refusal", name);
    for (i = 0; i < RIKKOVAN_CLOCKS; i++)
        expect(what, BEFORE, lent.clocks[1 + i]);
    for (i = 0; i < RIKKOVAN_LPSYS_CLOCKS; i++)
        expect(what, BEFORE, lent.lpsys[1 + i]);
}

/* A head with these tasks, ids from 1 on: the core on HXT48, all oscillators ready, all else 0. */
static void make_head(uint8_t head[RIKKOVAN_HEAD_BYTES], int tasks)
{
    static const uint8_t empty[RIKKOVAN_HEAD_BYTES] = RIKKOVAN_EMPTY_HEAD;
    int k;

    memcpy(head, empty, sizeof empty);
    rikkovan_put_register(head, RIKKOVAN_REG_SYSCLK, RIKKOVAN_CORE_HXT48);
    rikkovan_put_flag(head, RIKKOVAN_FLAG_HXT48, RIKKOVAN_READY);
    rikkovan_put_flag(head, RIKKOVAN_FLAG_HRC48, RIKKOVAN_READY);
    rikkovan_put_flag(head, RIKKOVAN_FLAG_LPSYS_HXT48, RIKKOVAN_READY);
    for (k = 0; k < tasks; k++) {
        const struct rikkovan_task task = {(uint8_t)(k + 1), 1, 1};

        rikkovan_add_head_task(head, task);
    }
}

/* The head that make_head makes with some bytes set: the first `edits` of the list. */
struct edit {
    int offset;
    uint8_t value;
};

static void make_edited(uint8_t head[RIKKOVAN_HEAD_BYTES], int tasks, const struct edit *edit,
                        int edits)
{
    int k;

    make_head(head, tasks);
    for (k = 0; k < edits; k++)
        head[edit[k].offset] = edit[k].value;
}

#define A(reg) RIKKOVAN_HEAD_AT_A(RIKKOVAN_REG_##reg)
#define B(reg) RIKKOVAN_HEAD_AT_B(RIKKOVAN_REG_##reg)
#define C(reg) RIKKOVAN_HEAD_AT_C(RIKKOVAN_REG_##reg)

struct read_case {
    const char *name;
    int edits;
    struct edit edit[16];
    uint32_t clocks[RIKKOVAN_CLOCKS];
    uint32_t lpsys[RIKKOVAN_LPSYS_CLOCKS];
};

static const struct read_case read_cases[] = {
    {"HXT48 at 48 MHz", 0, {{0, 0}},
     {48 * MHZ, 48 * MHZ, 48 * MHZ, 48 * MHZ, 0, 0, 48 * MHZ, 24 * MHZ, 48 * MHZ, 100000, 100000,
      48 * MHZ, 48 * MHZ, 0, 0},
     {48 * MHZ, 48 * MHZ, 48 * MHZ, 48 * MHZ, 48 * MHZ, 48 * MHZ}},
    {"DLL1 at 240 MHz, USB divider 4, flash 2 on DLL2 at 288 MHz, LPSYS at 24 MHz", 16,
     {{C(SYSCLK), RIKKOVAN_CORE_DLL1}, {A(HPSYS_CFGR), 1}, {B(HPSYS_CFGR), 1},
      {C(HPSYS_CFGR), 6}, {A(DLL1), 1}, {C(DLL1), 9}, {A(DLL2), 1}, {C(DLL2), 11},
      {C(USB_DIVIDER), 4}, {C(LOW_POWER), 1}, {C(FLASH), RIKKOVAN_MPI_DLL2},
      {C(LPSYS_SYSCLK), 1}, {A(LPSYS_CFGR), 2}, {B(LPSYS_CFGR), 1}, {C(LPSYS_CFGR), 3},
      {B(LPSYS_MAC), 6}},
     {240 * MHZ, 240 * MHZ, 120 * MHZ, 3750000, 240 * MHZ, 288 * MHZ, 48 * MHZ, 24 * MHZ, 60 * MHZ,
      32000, 100000, 48 * MHZ, 288 * MHZ, 0, 0},
     {48 * MHZ, 24 * MHZ, 12 * MHZ, 3 * MHZ, 48 * MHZ, 4 * MHZ}},
    {"DBL96 reads as none", 1, {{C(SYSCLK), RIKKOVAN_CORE_DBL96}},
     {0, 0, 0, 0, 0, 0, 48 * MHZ, 24 * MHZ, 0, 100000, 100000, 48 * MHZ, 48 * MHZ, 0, 0},
     {48 * MHZ, 48 * MHZ, 48 * MHZ, 48 * MHZ, 48 * MHZ, 48 * MHZ}},
    {"a reserved flash select reads as 48 MHz, one on a DLL that is off as none", 2,
     {{B(FLASH), RIKKOVAN_MPI_RESERVED}, {C(FLASH), RIKKOVAN_MPI_DLL1}},
     {48 * MHZ, 48 * MHZ, 48 * MHZ, 48 * MHZ, 0, 0, 48 * MHZ, 24 * MHZ, 48 * MHZ, 100000, 100000,
      48 * MHZ, 0, 0, 0},
     {48 * MHZ, 48 * MHZ, 48 * MHZ, 48 * MHZ, 48 * MHZ, 48 * MHZ}},
    {"HXT48 not ready, DLL2 at 180 MHz for USB, LPSYS peripherals on HXT48", 7,
     {{RIKKOVAN_HEAD_AT_HXT48_READY, 0}, {A(DLL2), 1}, {B(DLL2), 1}, {C(DLL2), 14},
      {C(USB_SOURCE), RIKKOVAN_USB_DLL2}, {C(USB_DIVIDER), 3}, {C(LPSYS_PERI), 1}},
     {0, 0, 0, 0, 0, 180 * MHZ, 48 * MHZ, 24 * MHZ, 60 * MHZ, 100000, 100000, 48 * MHZ, 48 * MHZ, 0,
      0},
     {48 * MHZ, 48 * MHZ, 48 * MHZ, 48 * MHZ, 0, 48 * MHZ}},
    {"DLL1 at 12 MHz, the largest dividers", 11,
     {{C(SYSCLK), RIKKOVAN_CORE_DLL1}, {A(DLL1), 1}, {B(DLL1), 1}, {A(HPSYS_CFGR), 255},
      {B(HPSYS_CFGR), 7}, {C(HPSYS_CFGR), 1}, {C(USB_DIVIDER), 7}, {A(LPSYS_CFGR), 255},
      {B(LPSYS_CFGR), 6}, {C(LPSYS_CFGR), 7}, {B(LPSYS_MAC), 255}},
     {12 * MHZ, 47058, 367, 23529, 12 * MHZ, 0, 48 * MHZ, 24 * MHZ, 1714285, 100000, 100000,
      48 * MHZ, 48 * MHZ, 0, 0},
     {48 * MHZ, 188235, 2941, 1470, 48 * MHZ, 738}},
};

/* Each case without tasks and with sixteen: the frequencies do not depend on them. */
static void test_frequencies(void)
{
    uint8_t head[RIKKOVAN_HEAD_BYTES];
    size_t i;
    int tasks;

    for (i = 0; i < sizeof read_cases / sizeof read_cases[0]; i++)
        for (tasks = 0; tasks <= 16; tasks += 16) {
            const struct read_case *one = &read_cases[i];

            make_edited(head, tasks, one->edit, one->edits);
            expect_read(one->name, head, one->clocks, one->lpsys);
        }
}

/* A head of two tasks with some bytes set, and its refusal, 0 for none. */
struct refusal_case {
    const char *name;
    uint64_t refusal;
    int edits;
    struct edit edit[4];
};

#define ID(k) (RIKKOVAN_HEAD_AT_TASK(k) + RIKKOVAN_TASK_AT_ID)
#define CYCLES(k) (RIKKOVAN_HEAD_AT_TASK(k) + RIKKOVAN_TASK_AT_CYCLES)
#define PERIOD(k) (RIKKOVAN_HEAD_AT_TASK(k) + RIKKOVAN_TASK_AT_PERIOD)

static const struct refusal_case refusal_cases[] = {
    {"two tasks", 0, 0, {{0, 0}}},
    {"length field 128", 1, 1, {{RIKKOVAN_HEAD_AT_LENGTH + 1, 128}}},
    {"length field 383", 1, 1, {{RIKKOVAN_HEAD_AT_LENGTH, 1}}},
    {"three tasks in the length of two", 1, 1, {{RIKKOVAN_HEAD_AT_TASK_COUNT, 3}}},
    {"seventeen tasks in their length", 1, 3,
     {{RIKKOVAN_HEAD_AT_LENGTH, 1},
      {RIKKOVAN_HEAD_AT_LENGTH + 1, 6},
      {RIKKOVAN_HEAD_AT_TASK_COUNT, 17}}},
    {"a length before a version", 1, 2,
     {{RIKKOVAN_HEAD_AT_LENGTH + 1, 128}, {RIKKOVAN_HEAD_AT_VERSION, 2}}},
    {"version 0", 2, 1, {{RIKKOVAN_HEAD_AT_VERSION, 0}}},
    {"version 2", 2, 1, {{RIKKOVAN_HEAD_AT_VERSION, 2}}},
    {"a version before a code", 2, 2, {{RIKKOVAN_HEAD_AT_VERSION, 2}, {C(SYSCLK), 4}}},
    {"core select 4", 3, 1, {{C(SYSCLK), 4}}},
    {"an unused byte of 1", 3, 1, {{A(SYSCLK), 1}}},
    {"pdiv2 8", 3, 1, {{C(HPSYS_CFGR), 8}}},
    {"stage 16", 3, 1, {{C(DLL1), 16}}},
    {"tick 1", 3, 1, {{C(TICK), 1}}},
    {"trim 1024", 3, 1, {{B(HRC_TRIM), 4}}},
    {"trim 1023", 0, 2, {{B(HRC_TRIM), 3}, {C(HRC_TRIM), 255}}},
    {"vref 16", 3, 1, {{C(LPSYS_LDO), 16}}},
    {"a ready flag of 2", 3, 1, {{RIKKOVAN_HEAD_AT_LPSYS_HXT48_READY, 2}}},
    {"boot mode and wake count 255", 0, 2,
     {{RIKKOVAN_HEAD_AT_BOOT_MODE, 255}, {RIKKOVAN_HEAD_AT_WAKE_COUNT, 255}}},
    {"id 0", 3, 1, {{ID(1), 0}}},
    {"equal ids", 3, 1, {{ID(1), 1}}},
    {"id 255", 0, 1, {{ID(1), 255}}},
    {"cycles 0", 3, 1, {{CYCLES(0) + 3, 0}}},
    {"cycles 4278190081", 0, 1, {{CYCLES(0), 255}}},
    {"period 0", 3, 1, {{PERIOD(1) + 3, 0}}},
    {"period 10,000,000", 0, 3,
     {{PERIOD(1) + 1, 0x98}, {PERIOD(1) + 2, 0x96}, {PERIOD(1) + 3, 0x80}}},
    {"period 10,000,001", 3, 3,
     {{PERIOD(1) + 1, 0x98}, {PERIOD(1) + 2, 0x96}, {PERIOD(1) + 3, 0x81}}},
    {"any bytes past the record", 0, 3, {{ID(2), 1}, {PERIOD(2), 255}, {PERIOD(15) + 3, 255}}},
};

static void test_refusals(void)
{
    uint8_t head[RIKKOVAN_HEAD_BYTES];
    size_t i;

    for (i = 0; i < sizeof refusal_cases / sizeof refusal_cases[0]; i++) {
        const struct refusal_case *one = &refusal_cases[i];

        make_edited(head, 2, one->edit, one->edits);
        if (one->refusal == 0)
            expect_read(one->name, head, read_cases[0].clocks, read_cases[0].lpsys);
        else
            expect_refused(one->name, head, sizeof head, one->refusal);
    }
}

/* A head cut off, or with zeros after it: only 255 bytes are a head. */
static void test_lengths(void)
{
    uint8_t bytes[300] = {0};
    char what[32];
    size_t len;

    make_head(bytes, 16);
    for (len = 0; len <= sizeof bytes; len++) {
        sprintf(what, "%u bytes", (unsigned)len);
        if (len == RIKKOVAN_HEAD_BYTES)
            expect_read(what, bytes, read_cases[0].clocks, read_cases[0].lpsys);
        else
            expect_refused(what, bytes, len, RIKKOVAN_REFUSED_LENGTH);
    }
}

/* Every value of every byte of a head: both words are 0 or refuse 1 to 3, and the head stays. */
static void test_bytes(void)
{
    uint8_t head[RIKKOVAN_HEAD_BYTES], before[RIKKOVAN_HEAD_BYTES];
    uint64_t fit[RIKKOVAN_FIT_NUMBERS];
    struct lent lent;
    char what[48];
    int at, value;

    for (at = 0; at < RIKKOVAN_HEAD_BYTES; at++)
        for (value = 0; value < 256; value++) {
            rikkovan_answer answer;
            uint64_t number;

            make_head(head, 7);
            head[at] = (uint8_t)value;
            memcpy(before, head, sizeof head);
            answer = rikkovan_read_clocks(head, sizeof head, lent.clocks);
            number = rikkovan_refusal(answer);
            sprintf(what, "byte %d is %d: refusal in range", at, value);
            expect(what, 1, number <= RIKKOVAN_REFUSED_CODE);
            sprintf(what, "byte %d is %d: word", at, value);
            expect(what, number == 0 ? 0 : (uint64_t)1 << 63 | number, answer.word);
            sprintf(what, "byte %d is %d: word of LPSYS", at, value);
            expect(what, answer.word, rikkovan_read_lpsys(head, sizeof head, lent.lpsys).word);
            sprintf(what, "byte %d is %d: word of fit", at, value);
            expect(what, answer.word, rikkovan_read_fit(head, sizeof head, fit).word);
            sprintf(what, "byte %d is %d: head unchanged", at, value);
            expect(what, 0, memcmp(head, before, sizeof head) != 0);
        }
}

static void test_words(void)
{
    const rikkovan_answer done =
        rikkovan_answer_of((uint64_t)0x7FFE << 48 | (uint64_t)0xFFFD << 32 | 0xFFFFFFFC);
    const rikkovan_answer refused =
        rikkovan_answer_of((uint64_t)1 << 63 | (uint64_t)4096 << 48 | (uint64_t)88 << 32 | 36);

    expect("done: done", 1, (uint64_t)rikkovan_done(done));
    expect("done: refusal", 0, rikkovan_refusal(done));
    expect("done: value", 0xFFFFFFFC, rikkovan_value(done));
    expect("done: entries", 0xFFFD, rikkovan_entries(done));
    expect("done: taken", 0x7FFE, rikkovan_taken(done));
    expect("refused: done", 0, (uint64_t)rikkovan_done(refused));
    expect("refused: refusal", 36, rikkovan_refusal(refused));
    expect("refused: value", 0, rikkovan_value(refused));
    expect("refused: entries", 88, rikkovan_entries(refused));
    expect("refused: taken", 4096, rikkovan_taken(refused));
}

/* A head that is fit, but for one register. */
static void make_fit(uint8_t head[RIKKOVAN_HEAD_BYTES], uint32_t reg, uint32_t value)
{
    make_head(head, 2);
    rikkovan_put_register(head, RIKKOVAN_REG_HPSYS_SUPPLY, RIKKOVAN_HPSYS_SUPPLY_D);
    rikkovan_put_register(head, RIKKOVAN_REG_SET_VOUT_M, RIKKOVAN_D1_BUCK);
    rikkovan_put_register(head, RIKKOVAN_REG_HPSYS_LDO, RIKKOVAN_D1_LDO);
    rikkovan_put_register(head, RIKKOVAN_REG_LPSYS_SUPPLY, RIKKOVAN_LPSYS_SUPPLY_S);
    rikkovan_put_register(head, reg, value);
}

/* Expects what is read of a head, and nothing beside the lent array. */
static void expect_fit(const char *name, const uint8_t *head, uint64_t rail_limit,
                       enum rikkovan_unfit unfit)
{
    uint64_t fit[RIKKOVAN_FIT_NUMBERS + 2] = {BEFORE, BEFORE, BEFORE, BEFORE, BEFORE};

    expect(name, 1, (uint64_t)rikkovan_done(rikkovan_read_fit(head, RIKKOVAN_HEAD_BYTES, fit + 1)));
    expect(name, rail_limit, fit[1 + RIKKOVAN_FIT_RAIL_LIMIT]);
    expect(name, 2 * MHZ, fit[1 + RIKKOVAN_FIT_LOAD]);
    expect(name, unfit, rikkovan_unfit(fit + 1));
    expect(name, BEFORE, fit[0]);
    expect(name, BEFORE, fit[RIKKOVAN_FIT_NUMBERS + 1]);
}

static void test_fit(void)
{
    static const struct {
        uint32_t reg, value;
        uint64_t rail_limit;
        enum rikkovan_unfit unfit;
    } cases[] = {
        {RIKKOVAN_REG_SYSCLK, RIKKOVAN_CORE_HXT48, 48 * MHZ, RIKKOVAN_FIT},
        {RIKKOVAN_REG_SYSCLK, RIKKOVAN_CORE_DBL96, 48 * MHZ, RIKKOVAN_UNFIT_HCLK_UNREADABLE},
        {RIKKOVAN_REG_HPSYS_LDO, RIKKOVAN_D0_LDO, 24 * MHZ, RIKKOVAN_UNFIT_HCLK},
        {RIKKOVAN_REG_HPSYS_SUPPLY, RIKKOVAN_HPSYS_SUPPLY_S, 0, RIKKOVAN_UNFIT_HCLK},
        {RIKKOVAN_REG_FLASH, RIKKOVAN_VALUE(0, 1, 2), 48 * MHZ, RIKKOVAN_UNFIT_MPI1},
        {RIKKOVAN_REG_FLASH, RIKKOVAN_VALUE(0, 0, 2), 48 * MHZ, RIKKOVAN_UNFIT_MPI2},
        {RIKKOVAN_REG_LPSYS_SUPPLY, RIKKOVAN_LPSYS_SUPPLY_D, 48 * MHZ, RIKKOVAN_UNFIT_LPSYS_HCLK},
    };
    uint8_t head[RIKKOVAN_HEAD_BYTES];
    uint64_t fit[RIKKOVAN_FIT_NUMBERS] = {BEFORE, BEFORE, BEFORE};
    size_t k;

    for (k = 0; k < sizeof cases / sizeof cases[0]; k++) {
        make_fit(head, cases[k].reg, cases[k].value);
        expect_fit(rikkovan_unfit_text(cases[k].unfit), head, cases[k].rail_limit, cases[k].unfit);
    }
    make_fit(head, RIKKOVAN_REG_LPSYS_SYSCLK, RIKKOVAN_LPSYS_HRC48);
    rikkovan_put_flag(head, RIKKOVAN_FLAG_HRC48, RIKKOVAN_NOT_READY);
    expect_fit("LPSYS source", head, 48 * MHZ, RIKKOVAN_UNFIT_LPSYS_SOURCE);
    head[RIKKOVAN_HEAD_AT_VERSION] = 2;
    expect("fit of a refused head", RIKKOVAN_REFUSED_VERSION,
           rikkovan_refusal(rikkovan_read_fit(RIKKOVAN_LEND(head), fit)));
    for (k = 0; k < RIKKOVAN_FIT_NUMBERS; k++)
        expect("left by a refusal", BEFORE, fit[k]);
}

/* The names of the frequencies stand for 0 to 14 and 0 to 5. */
static void test_names(void)
{
    expect("last of the 15", RIKKOVAN_CLOCKS - 1, RIKKOVAN_CLOCK_AUD_PLL_DIV16);
    expect("USB", 8, RIKKOVAN_CLOCK_USB);
    expect("flash 1", 11, RIKKOVAN_CLOCK_MPI1);
    expect("last of LPSYS", RIKKOVAN_LPSYS_CLOCKS - 1, RIKKOVAN_LPSYS_MAC);
}

int main(void)
{
    test_frequencies();
    test_refusals();
    test_lengths();
    test_bytes();
    test_words();
    test_fit();
    test_names();
    return failures != 0;
}
