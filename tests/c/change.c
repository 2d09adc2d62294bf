/* Tests the guarded change. Prints a line for each failure. */
#include "heads.h"

#define MOST_ANSWERS RIKKOVAN_MOST_ANSWERS
#define TASK(k) (RIKKOVAN_HEAD_AT_TASK(0) + (k))

/* What is lent beside head and journal; no call may change it. */
struct beside {
    uint8_t plan[PLAN(MPI2) + 2];
    uint16_t answers[MOST_ANSWERS + 1];
};

struct lengths {
    size_t head, plan, journal, answers;
};

static rikkovan_answer make(const struct lengths *len, struct lent *lent,
                            const struct beside *beside)
{
    static struct beside before;
    rikkovan_answer answer;

    memcpy(&before, beside, sizeof before);
    answer = rikkovan_change(lent->head + 1, len->head, beside->plan, len->plan, lent->journal + 1,
                             len->journal, beside->answers, len->answers);
    expect("change", "plan or answers changed", 0, memcmp(&before, beside, sizeof before) != 0);
    return answer;
}

/* The default plan with some bytes set, and answers that are all 0. */
static void lend_beside(struct beside *beside, const struct edit *edit, int edits)
{
    static const uint8_t plan[RIKKOVAN_PLAN_BYTES] = RIKKOVAN_DEFAULT_PLAN;

    memset(beside, 0, sizeof *beside);
    memcpy(beside->plan, plan, sizeof plan);
    put(beside->plan, edit, edits);
}

/*
 * A call on the head that make_head makes and the default plan, with some bytes set in both. Of the
 * answers the one at `ready` is ready, if it is lent. The entries end before the first 0, and after
 * the call the head has their stores and is else as it was.
 */
#define EDITS 12
struct call_case {
    const char *name;
    struct edit edit[EDITS], plan[EDITS];
    size_t answers_len, ready;
    uint32_t refusal;
    int taken;
    uint32_t entry[21];
};

/* The rails of supply D, and those of supply S. */
#define ON_D(buck, ldo) \
    {C(HPSYS_SUPPLY), RIKKOVAN_HPSYS_SUPPLY_D}, {C(SET_VOUT_M), buck}, {C(HPSYS_LDO), ldo}
#define ON_S(buck, ldo) {C(BUCK_VOUT), buck}, {C(HPSYS_VOUT), ldo}
#define HPBG_ON {B(HPBG), 1}, {C(HPBG), 1}

#define CORE(code) {C(SYSCLK), RIKKOVAN_CORE_##code}
#define CORE_DLL1(stage) CORE(DLL1), {A(DLL1), 1}, {C(DLL1), stage}
#define NO_HXT48 {AT(HXT48_READY), 0}
#define NO_HRC48 {AT(HRC48_READY), 0}
#define LPSYS_ON_HXT48 {C(LPSYS_SYSCLK), RIKKOVAN_LPSYS_HXT48}

/* A plan from an oscillator at 48 MHz, and one from DLL1; neither has USB or DLL2. */
#define NO_DLL1 {PLAN(DLL1_PRESENT), 0}, {PLAN(DLL1_STAGE), 0}
#define NO_USB {PLAN(USB), 0}
#define NO_DLL2 {PLAN(DLL2_PRESENT), 0}, {PLAN(DLL2_STAGE), 0}, {PLAN(MPI2), 0}
#define PLAN_48(code) {PLAN(CORE), RIKKOVAN_CORE_##code}, NO_DLL1, NO_USB
#define PLAN_DLL1(stage) {PLAN(DLL1_STAGE), stage}, NO_USB

/* The head's task with a period of a second, so that its share is its cycles. */
#define SECOND {TASK(6), 0x0F}, {TASK(7), 0x42}, {TASK(8), 0x40}
#define CYCLES(a, b, c, d) {TASK(1), a}, {TASK(2), b}, {TASK(3), c}, {TASK(4), d}
#define LOAD_240_MHZ CYCLES(0x0E, 0x4E, 0x1C, 0x00), SECOND
#define LOAD_ABOVE_240_MHZ CYCLES(0x0E, 0x4E, 0x1C, 0x01), SECOND
#define LOAD_ABOVE_48_MHZ CYCLES(0x02, 0xDC, 0x6C, 0x01), SECOND

#define RAILS_D(m) ENTRY(SET_VOUT_M, RIKKOVAN_##m##_BUCK), ENTRY(HPSYS_LDO, RIKKOVAN_##m##_LDO)
#define RAILS_S(m) ENTRY(BUCK_VOUT, RIKKOVAN_##m##_BUCK), ENTRY(HPSYS_VOUT, RIKKOVAN_##m##_LDO)
#define TIMING(m) ENTRY(HPSYS_TIMING, RIKKOVAN_##m##_TIMING)
#define SUPPLY(supply) ENTRY(HPSYS_SUPPLY, RIKKOVAN_HPSYS_SUPPLY_##supply)
#define END_D0 RAILS_D(D0), TIMING(D0), SUPPLY(D)
#define END_D1 RAILS_D(D1), TIMING(D1), SUPPLY(D)
#define END_S0 RAILS_S(S0), TIMING(S0), SUPPLY(S)
#define END_S1 RAILS_S(S1), TIMING(S1), SUPPLY(S)
#define RAISE_S1(cycles) RAILS_S(S1), SUPPLY(S), DELAY(cycles), TIMING(S1)
#define SET_HPBG ENTRY(HPBG, 0x0100), ENTRY(HPBG, 0x0101)
#define DIVIDERS ENTRY(HPSYS_CFGR, 0x010106)

static const struct call_case cases[] = {
    {"48 MHz on D to 240 MHz", {ON_D(10, 8)}, {{0, 0}}, 4, 2, 0, 3,
     {/* 1 */ RAISE_S1(12000), /* 4 */ SET_HPBG, ENTRY(DLL1, 0), ENTRY(DLL1, 0x010009), DELAY(480),
      WAIT(DLL1, 3), /* 5 */ DIVIDERS, /* 6 */ ENTRY(SYSCLK, 3), /* 8 */ END_S1}},
    {"188,235 Hz on D to 240 MHz", {ON_D(10, 8), {A(HPSYS_CFGR), 255}}, {{0, 0}}, 1, 0, 0, 1,
     {RAISE_S1(48), SET_HPBG, ENTRY(DLL1, 0), ENTRY(DLL1, 0x010009), DELAY(2), WAIT(DLL1, 1),
      DIVIDERS, ENTRY(SYSCLK, 3), END_S1}},
    {"HCLK is right already", {ON_D(10, 8)}, {PLAN_48(HXT48)}, 0, 0, 0, 0,
     {DIVIDERS, ENTRY(SYSCLK, 1), END_D1}},
    {"all is as planned already",
     {ON_D(10, 8), {A(HPSYS_CFGR), 1}, {B(HPSYS_CFGR), 1}, {C(HPSYS_CFGR), 6},
      {B(HPSYS_TIMING), 0x11}, {C(HPSYS_TIMING), 0x61}},
     {PLAN_48(HXT48)}, 1, 0, 0, 0, {DIVIDERS, ENTRY(SYSCLK, 1), END_D1}},
    {"all else stays",
     {ON_D(10, 8), {C(USB_SOURCE), 1}, {C(USB_DIVIDER), 4}, {C(LOW_POWER), 1}, {C(BUCK_VOUT), 3},
      {C(HRC_TRIM), 200}, {C(LPSYS_VOUT), 8}, {C(LPSYS_TIMING), 0x62}, {C(LPSYS_MAC), 9},
      {AT(BOOT_MODE), 77}},
     {PLAN_48(HXT48)}, 0, 0, 0, 0, {DIVIDERS, ENTRY(SYSCLK, 1), END_D1}},
    {"240 MHz is right already", {ON_S(15, 13), CORE_DLL1(9), HPBG_ON}, {{0, 0}}, 1, 0, 0, 1,
     {ENTRY(SYSCLK, 1), ENTRY(DLL1, 9), ENTRY(DLL1, 0x010009), DELAY(480), WAIT(DLL1, 1), DIVIDERS,
      ENTRY(SYSCLK, 3), END_S1}},
    {"most entries",
     {ON_S(14, 15), CORE_DLL1(4), {B(DLL1), 1}, {B(FLASH), 1}, {C(FLASH), 1}, {A(HPSYS_CFGR), 1}},
     {{0, 0}}, MOST_ANSWERS, MOST_ANSWERS - 1, 0, MOST_ANSWERS,
     {/* 1 */ RAISE_S1(15000), /* 2 */ ENTRY(FLASH, 0), /* 3 */ ENTRY(SYSCLK, 1), /* 4 */ SET_HPBG,
      ENTRY(DLL1, 0x0104), ENTRY(DLL1, 0x010009), DELAY(480), WAIT(DLL1, MOST_ANSWERS),
      /* 5 */ DIVIDERS, /* 6 */ ENTRY(SYSCLK, 3), /* 7 */ ENTRY(FLASH, 0x0101), /* 8 */ END_S1}},
    {"240 MHz to 48 MHz, flash 1 on DLL1, flash 2 on DLL2",
     {ON_S(15, 13), CORE_DLL1(9), {B(FLASH), 1}, {C(FLASH), 2}, {A(DLL2), 1}},
     {PLAN_48(HXT48)}, 1, 1, 0, 0,
     {ENTRY(FLASH, 2), ENTRY(SYSCLK, 1), DIVIDERS, ENTRY(SYSCLK, 1), ENTRY(FLASH, 0x0102),
      END_D1}},
    {"24 MHz to 24 MHz over 48 MHz", {ON_D(15, 7), CORE_DLL1(0), HPBG_ON}, {PLAN_DLL1(0), NO_DLL2},
     2, 1, 0, 2,
     {RAILS_D(D1), DELAY(6000), ENTRY(SYSCLK, 1), ENTRY(DLL1, 0), ENTRY(DLL1, 0x010000), DELAY(480),
      WAIT(DLL1, 2), DIVIDERS, ENTRY(SYSCLK, 3), END_D0}},
    {"240 MHz to 144 MHz", {ON_S(15, 13), CORE_DLL1(9), HPBG_ON, {A(HPSYS_CFGR), 0}},
     {PLAN_DLL1(5)}, 1, 0, 0, 1,
     {ENTRY(SYSCLK, 1), ENTRY(DLL1, 9), ENTRY(DLL1, 0x010005), DELAY(480), WAIT(DLL1, 1), DIVIDERS,
      ENTRY(SYSCLK, 3), END_S0}},
    {"HRC48 to HRC48, HCLK 48 / 7 MHz, DLL1 planned",
     {ON_D(10, 8), CORE(HRC48), {A(HPSYS_CFGR), 7}},
     {{PLAN(CORE), RIKKOVAN_CORE_HRC48}, {PLAN(DLL1_HALF), 1}, NO_USB}, 1, 0, 0, 1,
     {ENTRY(SYSCLK, 1), SET_HPBG, ENTRY(DLL1, 0), ENTRY(DLL1, 0x010109), DELAY(69), WAIT(DLL1, 1),
      DIVIDERS, ENTRY(SYSCLK, 0), END_D1}},
    {"load at the plan's HCLK", {ON_D(10, 8), LOAD_240_MHZ}, {{0, 0}}, 1, 0, 0, 1,
     {RAISE_S1(12000), SET_HPBG, ENTRY(DLL1, 0), ENTRY(DLL1, 0x010009), DELAY(480), WAIT(DLL1, 1),
      DIVIDERS, ENTRY(SYSCLK, 3), END_S1}},
    {"no answers", {ON_D(10, 8)}, {{0, 0}}, 0, 0, RIKKOVAN_REFUSED_ANSWERS_RAN_OUT, 0,
     {RAISE_S1(12000), SET_HPBG, ENTRY(DLL1, 0), ENTRY(DLL1, 0x010009), DELAY(480)}},
    {"DLL1 never comes, flash stays on the peripheral clock",
     {ON_S(15, 13), CORE_DLL1(9), HPBG_ON, {B(FLASH), 3}, {C(FLASH), 1}}, {{0, 0}}, MOST_ANSWERS,
     MOST_ANSWERS, RIKKOVAN_REFUSED_ANSWERS_RAN_OUT, MOST_ANSWERS,
     {ENTRY(FLASH, 0x0300), ENTRY(SYSCLK, 1), ENTRY(DLL1, 9), ENTRY(DLL1, 0x010009), DELAY(480)}},

    /* Each test of a fit head. */
    {"HCLK does not read", {ON_D(10, 8), CORE(DBL96)}, {{0, 0}}, 1, 0, RIKKOVAN_REFUSED_UNFIT, 0,
     {0}},
    {"48 MHz, buck one too low", {ON_D(9, 15)}, {{0, 0}}, 1, 0, RIKKOVAN_REFUSED_UNFIT, 0, {0}},
    {"48 MHz, ldo one too low", {ON_D(15, 7)}, {{0, 0}}, 1, 0, RIKKOVAN_REFUSED_UNFIT, 0, {0}},
    {"240 MHz, buck one too low", {ON_S(14, 15), CORE_DLL1(9)}, {{0, 0}}, 1, 0,
     RIKKOVAN_REFUSED_UNFIT, 0, {0}},
    {"240 MHz, ldo one too low", {ON_S(15, 12), CORE_DLL1(9)}, {{0, 0}}, 1, 0,
     RIKKOVAN_REFUSED_UNFIT, 0, {0}},
    {"264 MHz", {ON_S(15, 15), CORE_DLL1(10)}, {{0, 0}}, 1, 0, RIKKOVAN_REFUSED_UNFIT, 0, {0}},
    {"flash 1 on DLL1, which is off", {ON_D(10, 8), {B(FLASH), 1}}, {{0, 0}}, 1, 0,
     RIKKOVAN_REFUSED_UNFIT, 0, {0}},
    {"flash 2 on DLL2, which is off", {ON_D(10, 8), {C(FLASH), 2}, {A(DLL1), 1}}, {{0, 0}}, 1, 0,
     RIKKOVAN_REFUSED_UNFIT, 0, {0}},
    {"LPSYS source not ready", {ON_D(10, 8), NO_HRC48}, {{0, 0}}, 1, 0, RIKKOVAN_REFUSED_UNFIT, 0,
     {0}},
    {"LPSYS at 48 MHz on D", {ON_D(10, 8), {C(LPSYS_SUPPLY), RIKKOVAN_LPSYS_SUPPLY_D}}, {{0, 0}}, 1,
     0, RIKKOVAN_REFUSED_UNFIT, 0, {0}},

    {"HXT48 not ready", {ON_S(15, 13), CORE_DLL1(9), NO_HXT48}, {{0, 0}}, 1, 0,
     RIKKOVAN_REFUSED_OSCILLATOR, 0, {0}},
    {"HRC48 planned and not ready", {ON_D(10, 8), NO_HRC48, LPSYS_ON_HXT48}, {PLAN_48(HRC48)}, 1, 0,
     RIKKOVAN_REFUSED_OSCILLATOR, 0, {0}},
    {"load above the plan's HCLK", {ON_D(10, 8), LOAD_ABOVE_240_MHZ}, {{0, 0}}, 1, 0,
     RIKKOVAN_REFUSED_LOAD, 0, {0}},
    {"load below the present HCLK, above the plan's",
     {ON_S(15, 13), CORE_DLL1(9), LOAD_ABOVE_48_MHZ}, {PLAN_48(HXT48)}, 1, 0, RIKKOVAN_REFUSED_LOAD,
     0, {0}},
};

static void test_case(const struct call_case *one)
{
    static struct beside beside;
    const struct lengths len = {RIKKOVAN_HEAD_BYTES, RIKKOVAN_PLAN_BYTES, WORDS, one->answers_len};
    struct lent lent;
    int entries;

    lend(&lent, one->edit, EDITS, NULL, 0);
    lend_beside(&beside, one->plan, EDITS);
    beside.answers[one->ready] = 0x0100;
    entries = put_stores(lent.wanted + 1, one->entry);
    expect(one->name, "word", word_of(one->refusal, 0, entries, one->taken),
           make(&len, &lent, &beside).word);
    expect_left(one->name, &lent, entries, one->entry);
}

/* Refusals before the first store, each with what the tests below it refuse. */
struct refusal_case {
    enum rikkovan_refusal refusal;
    struct lengths len;
    struct edit edit[EDITS], plan[EDITS];
};

#define HEAD RIKKOVAN_HEAD_BYTES
#define PLANNED RIKKOVAN_PLAN_BYTES
/* A head that is not fit, without HXT48, with a load that is too high; and all but the first. */
#define UNFIT ON_D(10, 7), CORE(HRC48), NO_HXT48, LOAD_ABOVE_240_MHZ
#define FIT ON_D(10, 8), CORE(HRC48), NO_HXT48, LOAD_ABOVE_240_MHZ

static const struct refusal_case refusals[] = {
    {RIKKOVAN_REFUSED_JOURNAL, {HEAD - 1, PLANNED - 1, WORDS - 1, MOST_ANSWERS + 1}, {UNFIT},
     {{0, 0}}},
    {RIKKOVAN_REFUSED_JOURNAL, {HEAD, PLANNED, 0, 0}, {ON_D(10, 8)}, {{0, 0}}},
    {RIKKOVAN_REFUSED_ANSWERS, {HEAD - 1, PLANNED - 1, WORDS, MOST_ANSWERS + 1}, {UNFIT}, {{0, 0}}},
    {RIKKOVAN_REFUSED_LENGTH, {HEAD - 1, PLANNED, WORDS, 0}, {{AT(VERSION), 2}},
     {{PLAN(VERSION), 2}}},
    {RIKKOVAN_REFUSED_LENGTH, {HEAD + 1, PLANNED, WORDS, 0}, {{AT(VERSION), 2}},
     {{PLAN(VERSION), 2}}},
    {RIKKOVAN_REFUSED_VERSION, {HEAD, PLANNED - 1, WORDS, 0},
     {{AT(VERSION), 2}, {C(SYSCLK), 4}}, {{0, 0}}},
    {RIKKOVAN_REFUSED_CODE, {HEAD, PLANNED - 1, WORDS, 0}, {{C(SYSCLK), 4}}, {{0, 0}}},
    /* the plan's */
    {RIKKOVAN_REFUSED_LENGTH, {HEAD, PLANNED - 1, WORDS, 0}, {UNFIT}, {{PLAN(VERSION), 2}}},
    {RIKKOVAN_REFUSED_LENGTH, {HEAD, PLANNED + 1, WORDS, 0}, {UNFIT}, {{PLAN(VERSION), 2}}},
    {RIKKOVAN_REFUSED_VERSION, {HEAD, PLANNED, WORDS, 0}, {UNFIT},
     {{PLAN(VERSION), 2}, {PLAN(CORE), 4}}},
    {RIKKOVAN_REFUSED_CODE, {HEAD, PLANNED, WORDS, 0}, {UNFIT}, {{PLAN(CORE), 4}}},
    {RIKKOVAN_REFUSED_CORE_DLL1, {HEAD, PLANNED, WORDS, 0}, {UNFIT}, {NO_DLL1}},
    {RIKKOVAN_REFUSED_CORE_DBL96, {HEAD, PLANNED, WORDS, 0}, {UNFIT}, {{PLAN(CORE), 2}}},
    {RIKKOVAN_REFUSED_MPI1, {HEAD, PLANNED, WORDS, 0}, {UNFIT}, {NO_DLL2, {PLAN(MPI1), 2}}},
    {RIKKOVAN_REFUSED_MPI2, {HEAD, PLANNED, WORDS, 0}, {UNFIT}, {NO_DLL2, {PLAN(MPI2), 2}}},
    {RIKKOVAN_REFUSED_USB_DLL2, {HEAD, PLANNED, WORDS, 0}, {UNFIT},
     {NO_DLL2, {PLAN(USB_SOURCE), 1}}},
    {RIKKOVAN_REFUSED_USB_CLOCK, {HEAD, PLANNED, WORDS, 0}, {UNFIT}, {{PLAN(DLL1_STAGE), 10}}},
    {RIKKOVAN_REFUSED_CORE_CLOCK, {HEAD, PLANNED, WORDS, 0}, {UNFIT},
     {PLAN_DLL1(0), {PLAN(DLL1_HALF), 1}}},
    {RIKKOVAN_REFUSED_HCLK, {HEAD, PLANNED, WORDS, 0}, {UNFIT}, {PLAN_DLL1(10)}},
    {RIKKOVAN_REFUSED_PCLK1, {HEAD, PLANNED, WORDS, 0}, {UNFIT}, {{PLAN(PDIV1), 0}}},
    {RIKKOVAN_REFUSED_PCLK2, {HEAD, PLANNED, WORDS, 0}, {UNFIT}, {{PLAN(PDIV2), 4}}},
    {RIKKOVAN_REFUSED_DLL2, {HEAD, PLANNED, WORDS, 0}, {UNFIT}, {{PLAN(DLL2_STAGE), 12}}},
    /* the head's state, the load */
    {RIKKOVAN_REFUSED_UNFIT, {HEAD, PLANNED, WORDS, 0}, {UNFIT}, {{0, 0}}},
    {RIKKOVAN_REFUSED_OSCILLATOR, {HEAD, PLANNED, WORDS, 0}, {FIT}, {{0, 0}}},
    {RIKKOVAN_REFUSED_LOAD, {HEAD, PLANNED, WORDS, 0}, {ON_D(10, 8), LOAD_ABOVE_240_MHZ}, {{0, 0}}},
};

static void test_refusal(const struct refusal_case *one)
{
    static struct beside beside;
    struct lent lent;

    lend(&lent, one->edit, EDITS, NULL, 0);
    lend_beside(&beside, one->plan, EDITS);
    expect(rikkovan_refusal_text(one->refusal), "word", word_of(one->refusal, 0, 0, 0),
           make(&one->len, &lent, &beside).word);
    expect_left(rikkovan_refusal_text(one->refusal), &lent, 0, NULL);
}

/* A booking that needs the change before it, and a change that the booking then forbids. */
static void test_booking_between(void)
{
    static struct beside beside;
    const struct lengths len = {HEAD, PLANNED, WORDS, 1};
    const struct edit on_d[] = {ON_D(10, 8)}, hxt48[] = {PLAN_48(HXT48)};
    struct lent lent;
    uint8_t *head = lent.head + 1;

    lend(&lent, on_d, 3, NULL, 0);
    lend_beside(&beside, NULL, 0);
    beside.answers[0] = 1;
    expect("booking", "at 48 MHz", RIKKOVAN_REFUSED_LOAD,
           rikkovan_refusal(rikkovan_book(head, HEAD, 9, 120000, 1000)));
    expect("booking", "change", word_of(0, 0, 17, 1), make(&len, &lent, &beside).word);
    expect("booking", "at 240 MHz", 0, rikkovan_book(head, HEAD, 9, 120000, 1000).word);
    put(beside.plan, hxt48, (int)(sizeof hxt48 / sizeof hxt48[0]));
    expect("booking", "change back", word_of(RIKKOVAN_REFUSED_LOAD, 0, 0, 0),
           make(&len, &lent, &beside).word);
    expect("booking", "release", 0, rikkovan_release(head, HEAD, 9).word);
    expect("booking", "change back after the release", word_of(0, 0, 7, 0),
           make(&len, &lent, &beside).word);
}

int main(void)
{
    size_t i;

    for (i = 0; i < sizeof cases / sizeof cases[0]; i++)
        test_case(&cases[i]);
    for (i = 0; i < sizeof refusals / sizeof refusals[0]; i++)
        test_refusal(&refusals[i]);
    test_booking_between();
    return failures != 0;
}
