/* Tests calibration, init and reconfigure. Prints a line for each failure. */
#include "heads.h"

#define MOST_ANSWERS RIKKOVAN_MOST_ANSWERS
/* What the words beside the clocks hold. */
#define BESIDE 0x5A5A5A5Au

enum which { CALIBRATE, INIT, RECONFIGURE, CALLS };

static const char *const call_name[CALLS] = {"calibrate_hrc48", "init", "reconfigure_sysclk"};

/* What is lent besides head and journal. The clocks are lent from their second word on. */
struct beside {
    uint8_t plan[RIKKOVAN_PLAN_BYTES];
    uint32_t clocks[RIKKOVAN_CLOCKS + 2];
    uint16_t answers[MOST_ANSWERS + 1];
};

struct lengths {
    size_t head, plan, journal, answers;
};

static rikkovan_answer make(enum which which, const struct lengths *len, struct lent *lent,
                            struct beside *beside)
{
    uint8_t *head = lent->head + 1;
    uint32_t *journal = lent->journal + 1, *clocks = beside->clocks + 1;

    switch (which) {
    case CALIBRATE:
        return rikkovan_calibrate_hrc48(head, len->head, journal, len->journal, beside->answers,
                                        len->answers);
    case INIT:
        return rikkovan_init(head, len->head, beside->plan, len->plan, clocks, journal,
                             len->journal, beside->answers, len->answers);
    case RECONFIGURE:
        return rikkovan_reconfigure_sysclk(head, len->head, beside->plan, len->plan, clocks,
                                           journal, len->journal, beside->answers, len->answers);
    default: return rikkovan_answer_of(0);
    }
}

/* The frequencies before each call. */
static uint32_t former(int k)
{
    return 1000u + (uint32_t)k;
}

/* The default plan with some bytes set, the former clocks, and answers that are all 0. */
static void lend_beside(struct beside *beside, const struct edit *edit, int edits)
{
    static const uint8_t plan[RIKKOVAN_PLAN_BYTES] = RIKKOVAN_DEFAULT_PLAN;
    int k;

    memset(beside->answers, 0, sizeof beside->answers);
    memcpy(beside->plan, plan, sizeof plan);
    put(beside->plan, edit, edits);
    beside->clocks[0] = beside->clocks[RIKKOVAN_CLOCKS + 1] = BESIDE;
    for (k = 0; k < RIKKOVAN_CLOCKS; k++)
        beside->clocks[k + 1] = former(k);
}

/* `done` is the first 13 clocks after a call that is done, else NULL. Two more are audio PLLs. */
static void expect_clocks(const char *name, enum which which, const struct beside *beside,
                          const uint32_t *done)
{
    uint32_t wanted;
    int k;

    expect(name, "the word before the clocks", BESIDE, beside->clocks[0]);
    expect(name, "the word after the clocks", BESIDE, beside->clocks[RIKKOVAN_CLOCKS + 1]);
    for (k = 0; k < RIKKOVAN_CLOCKS; k++) {
        wanted = which == INIT ? 0 : former(k);
        if (done != NULL && k < RIKKOVAN_CLOCK_AUD_PLL)
            wanted = done[k];
        expect(name, "a clock", wanted, beside->clocks[k + 1]);
    }
}

/*
 * A call on the head that make_head makes and the default plan, with some bytes set in both. The
 * first answers are those listed; those past them are 0. It answers the refusal, or the value where
 * the refusal is 0, and its entries end before the first 0. After it, the head has their stores and
 * the HXT48 ready flag `ready`. `clocks` are for expect_clocks.
 */
struct call_case {
    const char *name;
    enum which which;
    struct edit edit[6], plan[13];
    size_t answers_len;
    uint16_t answer[40];
    uint32_t refusal, value;
    int taken;
    uint32_t entry[89];
    uint8_t ready;
    const uint32_t *clocks;
};

/* The answers of a measurement, of ten like it, and the entries of one turn of a calibration. */
#define COUNTS(hxt, hrc) 1, hxt, hrc
#define TEN(x) x, x, x, x, x, x, x, x, x, x
#define TURN(trim) \
    ENTRY(HRC_TRIM, trim), DELAY(144), ENTRY(HRC_CALIBRATION_ON, 1), WAIT(CALIBRATION, 3), \
        ENTRY(HRC_CALIBRATION_ON, 0)
#define BEGIN ENTRY(HRC_CALIBRATION_LENGTH, 0x3FFF), ENTRY(HRC_CLOCK_SELECT, 0x0303)
#define UPWARDS \
    BEGIN, TURN(512), TURN(768), TURN(896), TURN(960), TURN(992), TURN(1008), TURN(1016), \
        TURN(1020), TURN(1022), TURN(1023), TURN(1023)
#define DOWNWARDS \
    BEGIN, TURN(512), TURN(256), TURN(128), TURN(64), TURN(32), TURN(16), TURN(8), TURN(4), \
        TURN(2), TURN(1), TURN(1)

/* The entries of an init up to its calibration, and of one from HXT48 that is ready. */
#define BOOT \
    ENTRY(PERI, 1), ENTRY(LRC32_ON, 1), ENTRY(LOW_POWER, 1), ENTRY(DLL_BUFFER_ON, 1)
#define BOOT_HXT48 ENTRY(HXT48_REQUEST, 1), WAIT(HXT48, 0), BOOT
/* To the default plan from HXT48: the supply, then the clock up to the wait for DLL1 and after. */
#define D1_TO_S1 \
    ENTRY(BUCK_VOUT, 15), ENTRY(HPSYS_VOUT, 13), ENTRY(HPSYS_SUPPLY, 0), DELAY(12000), \
        ENTRY(HPSYS_TIMING, 0x3043)
#define SET_DLL1 \
    ENTRY(HPBG, 0x0100), ENTRY(HPBG, 0x0101), ENTRY(DLL1, 0), ENTRY(DLL1, 0x010009), DELAY(480)
#define DIVIDERS ENTRY(HPSYS_CFGR, 0x010106)
#define TO_DLL1 DIVIDERS, ENTRY(SYSCLK, RIKKOVAN_CORE_DLL1)
/* The rest of an init with the default plan: DLL2, up to its wait and after, and the selects. */
#define SET_DLL2 ENTRY(FLASH, 0), ENTRY(DLL2, 0x000003), ENTRY(DLL2, 0x01000B), DELAY(2400)
#define SELECTS \
    ENTRY(USB_DIVIDER, 4), ENTRY(USB_SOURCE, 0), ENTRY(PERI, 1), ENTRY(LOW_POWER, 1), ENTRY(TICK, 0)

/* A plan at 48 MHz without DLLs and USB: the bytes in which it is not the default plan. */
#define ON_HRC48 \
    {PLAN(CORE), RIKKOVAN_CORE_HRC48}, {PLAN(HDIV), 0}, {PLAN(PDIV1), 0}, \
        {PLAN(PDIV2), 3}, {PLAN(DLL1_PRESENT), 0}, {PLAN(DLL1_STAGE), 0}, \
        {PLAN(DLL2_PRESENT), 0}, {PLAN(DLL2_STAGE), 0}, {PLAN(USB), 0}, \
        {PLAN(WDT), 0}, {PLAN(PERIPHERAL), 0}, {PLAN(MPI2), 0}
#define TO_HRC48 ENTRY(HPSYS_CFGR, 0x000003), ENTRY(SYSCLK, RIKKOVAN_CORE_HRC48)
#define SELECTS_HRC48 ENTRY(PERI, 0), ENTRY(LOW_POWER, 0), ENTRY(TICK, 0)

/* Bytes of a head. */
#define NO_HXT48 {AT(HXT48_READY), 0}
#define CORE(code) {C(SYSCLK), RIKKOVAN_CORE_##code}
#define CORE_DLL1(stage) CORE(DLL1), {A(DLL1), 1}, {C(DLL1), stage}

#define MHZ 1000000u
static const uint32_t default_clocks[] = {240 * MHZ, 240 * MHZ, 120 * MHZ, 3750000, 240 * MHZ,
                                          288 * MHZ, 48 * MHZ, 24 * MHZ, 60 * MHZ, 32000, 100000,
                                          48 * MHZ, 288 * MHZ};
static const uint32_t hrc48_clocks[] = {48 * MHZ, 48 * MHZ, 48 * MHZ, 6 * MHZ, 48 * MHZ, 0,
                                        48 * MHZ, 24 * MHZ, 48 * MHZ, 100000, 100000, 48 * MHZ,
                                        48 * MHZ};
static const uint32_t standby_clocks[] = {48 * MHZ, 48 * MHZ, 48 * MHZ, 48 * MHZ, 0, 0, 48 * MHZ,
                                          24 * MHZ, 48 * MHZ, 100000, 100000, 48 * MHZ, 48 * MHZ};
/* After a reconfigure: DLL2, the USB divider and the low-power select are not set. */
static const uint32_t up_clocks[] = {240 * MHZ, 240 * MHZ, 120 * MHZ, 3750000, 240 * MHZ, 0,
                                     48 * MHZ, 24 * MHZ, 240 * MHZ, 100000, 100000, 48 * MHZ,
                                     48 * MHZ};
static const uint32_t down_clocks[] = {48 * MHZ, 48 * MHZ, 48 * MHZ, 6 * MHZ, 240 * MHZ, 0,
                                       48 * MHZ, 24 * MHZ, 48 * MHZ, 100000, 100000, 48 * MHZ,
                                       48 * MHZ};

static const struct call_case cases[] = {
    {"difference 63", CALIBRATE, {{0, 0}}, {{0, 0}}, MOST_ANSWERS, {COUNTS(1063, 1000)}, 0, 0, 3,
     {BEGIN, TURN(512)}, 1, NULL},
    {"not ready twice, HCLK 48 / 7 MHz", CALIBRATE, {{A(HPSYS_CFGR), 7}}, {{0, 0}}, 5,
     {0, 0, COUNTS(1000, 1063)}, 0, 0, 5,
     {BEGIN, ENTRY(HRC_TRIM, 512), DELAY(21), ENTRY(HRC_CALIBRATION_ON, 1), WAIT(CALIBRATION, 5),
      ENTRY(HRC_CALIBRATION_ON, 0)},
     1, NULL},
    {"HCLK 188,235 Hz", CALIBRATE, {{A(HPSYS_CFGR), 255}}, {{0, 0}}, 3, {COUNTS(0, 0)}, 0, 0, 3,
     {BEGIN, ENTRY(HRC_TRIM, 512), DELAY(1), ENTRY(HRC_CALIBRATION_ON, 1), WAIT(CALIBRATION, 3),
      ENTRY(HRC_CALIBRATION_ON, 0)},
     1, NULL},
    {"always 64, hxt_cnt larger", CALIBRATE, {{0, 0}}, {{0, 0}}, 33,
     {TEN(COUNTS(64, 0)), COUNTS(64, 0)}, 0, 0, 33, {UPWARDS}, 1, NULL},
    {"always 64, hrc_cnt larger", CALIBRATE, {{0, 0}}, {{0, 0}}, 33,
     {TEN(COUNTS(1, 65)), COUNTS(1, 65)}, 0, 0, 33, {DOWNWARDS}, 1, NULL},
    {"up, down, up", CALIBRATE, {{0, 0}}, {{0, 0}}, 12,
     {COUNTS(65535, 0), COUNTS(0, 65535), COUNTS(64, 0), COUNTS(63, 0)}, 0, 0, 12,
     {BEGIN, TURN(512), TURN(768), TURN(640), TURN(704)}, 1, NULL},
    {"160 in the end", CALIBRATE, {{0, 0}}, {{0, 0}}, 33, {TEN(COUNTS(65535, 0)), COUNTS(160, 0)},
     0, 0, 33, {UPWARDS}, 1, NULL},
    {"161 in the end", CALIBRATE, {{0, 0}}, {{0, 0}}, 33, {TEN(COUNTS(64, 0)), COUNTS(161, 0)},
     RIKKOVAN_REFUSED_DIFFERENCE, 0, 33, {UPWARDS}, 1, NULL},
    {"161 in the end, hrc_cnt larger", CALIBRATE, {{0, 0}}, {{0, 0}}, 33,
     {TEN(COUNTS(0, 64)), COUNTS(0, 161)}, RIKKOVAN_REFUSED_DIFFERENCE, 0, 33, {DOWNWARDS}, 1,
     NULL},
    {"calibrate without HXT48", CALIBRATE, {NO_HXT48}, {{0, 0}}, 3, {COUNTS(0, 0)},
     RIKKOVAN_REFUSED_HXT48_NOT_READY, 0, 0, {0}, 0, NULL},
    {"calibrate on DBL96", CALIBRATE, {CORE(DBL96)}, {{0, 0}}, 3, {COUNTS(0, 0)},
     RIKKOVAN_REFUSED_HCLK_UNREADABLE, 0, 0, {BEGIN, ENTRY(HRC_TRIM, 512)}, 1, NULL},
    {"no answers", CALIBRATE, {{0, 0}}, {{0, 0}}, 0, {COUNTS(0, 0)},
     RIKKOVAN_REFUSED_ANSWERS_RAN_OUT, 0, 0,
     {BEGIN, ENTRY(HRC_TRIM, 512), DELAY(144), ENTRY(HRC_CALIBRATION_ON, 1)}, 1, NULL},
    {"one count", CALIBRATE, {{0, 0}}, {{0, 0}}, 2, {COUNTS(0, 0)},
     RIKKOVAN_REFUSED_ANSWERS_RAN_OUT, 0, 2,
     {BEGIN, ENTRY(HRC_TRIM, 512), DELAY(144), ENTRY(HRC_CALIBRATION_ON, 1)}, 1, NULL},

    {"init from HXT48", INIT, {{B(FLASH), 1}, {C(FLASH), 2}, {A(DLL2), 1}, {C(DLL2), 3}}, {{0, 0}},
     MOST_ANSWERS, {COUNTS(1063, 1000), 1, 0, 5}, 0, 0, 6,
     {BOOT_HXT48, BEGIN, TURN(512), DIVIDERS, D1_TO_S1, SET_DLL1, WAIT(DLL1, 1), TO_DLL1, SET_DLL2,
      WAIT(DLL2, 2), ENTRY(FLASH, 2), SELECTS},
     1, default_clocks},
    {"init swallows 33, most entries", INIT, {{C(FLASH), 2}, {C(DLL2), 3}}, {{0, 0}}, 35,
     {TEN(COUNTS(161, 0)), COUNTS(161, 0), 1, 1}, 0, RIKKOVAN_REFUSED_DIFFERENCE, 35,
     {BOOT_HXT48, UPWARDS, DIVIDERS, D1_TO_S1, SET_DLL1, WAIT(DLL1, 1), TO_DLL1, SET_DLL2,
      WAIT(DLL2, 1), ENTRY(FLASH, 2), SELECTS},
     1, default_clocks},
    {"init swallows 31", INIT, {CORE_DLL1(1), NO_HXT48}, {ON_HRC48}, 0, {0}, 0,
     RIKKOVAN_REFUSED_HXT48_NOT_READY, 0,
     {BOOT, ENTRY(HPSYS_CFGR, 3), ENTRY(SYSCLK, 0), TO_HRC48, SELECTS_HRC48}, 0, hrc48_clocks},
    {"init from HRC48", INIT, {CORE_DLL1(1), CORE(HRC48)}, {ON_HRC48}, 3, {COUNTS(9, 9)}, 0, 0, 3,
     {BOOT, ENTRY(SYSCLK, 1), BEGIN, TURN(512), ENTRY(HPSYS_CFGR, 3), TO_HRC48, SELECTS_HRC48}, 1,
     hrc48_clocks},
    {"standby boot, HXT48 comes", INIT, {{AT(BOOT_MODE), 3}, NO_HXT48}, {{0, 0}}, 2,
     {0, 1}, 0, 0, 2, {ENTRY(HXT48_REQUEST, 1), WAIT(HXT48, 2), ENTRY(PERI, 1)}, 1,
     standby_clocks},
    {"init on HRC48 without HXT48", INIT, {CORE(HRC48), NO_HXT48}, {{0, 0}}, 5,
     {COUNTS(0, 0), 1, 1}, RIKKOVAN_REFUSED_ON_HRC48, 0, 0, {BOOT}, 0, NULL},
    {"init calibrates on DBL96", INIT, {CORE(DBL96)}, {{0, 0}}, 5, {COUNTS(0, 0), 1, 1},
     RIKKOVAN_REFUSED_HCLK_UNREADABLE, 0, 0, {BOOT, BEGIN, ENTRY(HRC_TRIM, 512)}, 1, NULL},
    {"init leaves DBL96", INIT, {CORE(DBL96)}, {{PLAN(CALIBRATE), 0}}, 2, {1, 1},
     RIKKOVAN_REFUSED_HCLK_UNREADABLE, 0, 0,
     {BOOT, DIVIDERS, ENTRY(BUCK_VOUT, 15), ENTRY(HPSYS_VOUT, 13), ENTRY(HPSYS_SUPPLY, 0)}, 1,
     NULL},
    {"init at 384 MHz", INIT, {CORE_DLL1(15)}, {{PLAN(CALIBRATE), 0}}, 2, {1, 1},
     RIKKOVAN_REFUSED_PRESENT_HCLK, 0, 0, {BOOT, DIVIDERS}, 1, NULL},
    {"HXT48 never comes", INIT, {NO_HXT48}, {{0, 0}}, MOST_ANSWERS, {0},
     RIKKOVAN_REFUSED_ANSWERS_RAN_OUT, 0, MOST_ANSWERS, {ENTRY(HXT48_REQUEST, 1)}, 0, NULL},
    {"HXT48 comes, then one count", INIT, {NO_HXT48}, {{0, 0}}, 3, {1, COUNTS(0, 0)},
     RIKKOVAN_REFUSED_ANSWERS_RAN_OUT, 0, 3,
     {ENTRY(HXT48_REQUEST, 1), WAIT(HXT48, 1), BOOT, BEGIN, ENTRY(HRC_TRIM, 512), DELAY(144),
      ENTRY(HRC_CALIBRATION_ON, 1)},
     1, NULL},
    {"DLL2 never comes", INIT, {{C(DLL2), 3}}, {{0, 0}}, 6, {COUNTS(0, 0), 1, 0, 0},
     RIKKOVAN_REFUSED_ANSWERS_RAN_OUT, 0, 6,
     {BOOT_HXT48, BEGIN, TURN(512), DIVIDERS, D1_TO_S1, SET_DLL1, WAIT(DLL1, 1), TO_DLL1, SET_DLL2},
     1, NULL},

    {"HXT48 to 240 MHz", RECONFIGURE, {{0, 0}}, {{0, 0}}, 3, {0, 0, 9}, 0, 0, 3,
     {D1_TO_S1, SET_DLL1, WAIT(DLL1, 3), TO_DLL1}, 1, up_clocks},
    {"188,235 Hz to 240 MHz", RECONFIGURE, {{A(HPSYS_CFGR), 255}}, {{0, 0}}, 1, {1}, 0, 0, 1,
     {ENTRY(BUCK_VOUT, 15), ENTRY(HPSYS_VOUT, 13), ENTRY(HPSYS_SUPPLY, 0), DELAY(48),
      ENTRY(HPSYS_TIMING, 0x3043), ENTRY(HPBG, 0x0100), ENTRY(HPBG, 0x0101), ENTRY(DLL1, 0),
      ENTRY(DLL1, 0x010009), DELAY(2), WAIT(DLL1, 1), TO_DLL1},
     1, up_clocks},
    {"24 MHz to 240 MHz, most entries", RECONFIGURE, {CORE_DLL1(0)}, {{0, 0}}, MOST_ANSWERS, {1}, 0,
     0, 1,
     {ENTRY(BUCK_VOUT, 15), ENTRY(HPSYS_VOUT, 13), ENTRY(HPSYS_SUPPLY, 0), DELAY(6000),
      ENTRY(HPSYS_TIMING, 0x3043), ENTRY(SYSCLK, 1), SET_DLL1, WAIT(DLL1, 1), TO_DLL1},
     1, up_clocks},
    {"144 MHz to 240 MHz", RECONFIGURE, {CORE_DLL1(5), {B(HPBG), 1}, {C(HPBG), 1}, NO_HXT48},
     {{0, 0}}, 1, {1}, 0, 0, 1,
     {ENTRY(BUCK_VOUT, 15), ENTRY(HPSYS_VOUT, 13), DELAY(36000), ENTRY(SYSCLK, 0), ENTRY(DLL1, 5),
      ENTRY(DLL1, 0x010009), DELAY(480), WAIT(DLL1, 1), TO_DLL1},
     0, up_clocks},
    {"240 MHz to 48 MHz", RECONFIGURE, {CORE_DLL1(9)}, {ON_HRC48}, 0, {0}, 0, 0, 0,
     {ENTRY(SET_VOUT_M, 10), ENTRY(HPSYS_LDO, 8), ENTRY(SYSCLK, 1), TO_HRC48,
      ENTRY(HPSYS_TIMING, 0x1161), ENTRY(HPSYS_SUPPLY, 1)},
     1, down_clocks},
    {"reconfigure on DBL96", RECONFIGURE, {CORE(DBL96)}, {{0, 0}}, 1, {1},
     RIKKOVAN_REFUSED_HCLK_UNREADABLE, 0, 0,
     {ENTRY(BUCK_VOUT, 15), ENTRY(HPSYS_VOUT, 13), ENTRY(HPSYS_SUPPLY, 0)}, 1, NULL},
    {"reconfigure at 384 MHz", RECONFIGURE, {CORE_DLL1(15)}, {{0, 0}}, 1, {1},
     RIKKOVAN_REFUSED_PRESENT_HCLK, 0, 0, {0}, 1, NULL},
    {"DLL1 never comes", RECONFIGURE, {{0, 0}}, {{0, 0}}, 2, {0, 0},
     RIKKOVAN_REFUSED_ANSWERS_RAN_OUT, 0, 2, {D1_TO_S1, SET_DLL1}, 1, NULL},
};

static void test_case(const struct call_case *one)
{
    static struct beside beside;
    const struct lengths len = {RIKKOVAN_HEAD_BYTES, RIKKOVAN_PLAN_BYTES, WORDS, one->answers_len};
    const struct edit after = {AT(HXT48_READY), one->ready};
    rikkovan_answer answer;
    struct lent lent;
    int entries;

    lend(&lent, one->edit, 6, &after, 1);
    lend_beside(&beside, one->plan, 13);
    memcpy(beside.answers, one->answer, sizeof one->answer);
    entries = put_stores(lent.wanted + 1, one->entry);
    answer = make(one->which, &len, &lent, &beside);
    expect(one->name, "word", word_of(one->refusal, one->value, entries, one->taken), answer.word);
    expect(one->name, "uncalibrated", one->value, rikkovan_uncalibrated(answer));
    expect_left(one->name, &lent, entries, one->entry);
    expect_clocks(one->name, one->which, &beside, one->clocks);
}

/* The refusals that the calls share, each before those below it; they change nothing. */
struct refusal_case {
    uint32_t refusal;
    struct lengths len;
    struct edit edit[3], plan[3];
};

#define SHORT_PLAN (RIKKOVAN_PLAN_BYTES - 1)
#define NO_DLL1 {PLAN(DLL1_PRESENT), 0}, {PLAN(DLL1_STAGE), 0}

static const struct refusal_case refusals[] = {
    {RIKKOVAN_REFUSED_JOURNAL, {254, SHORT_PLAN, WORDS - 1, MOST_ANSWERS + 1},
     {{AT(VERSION), 2}}, {{0, 0}}},
    {RIKKOVAN_REFUSED_ANSWERS, {254, SHORT_PLAN, WORDS, MOST_ANSWERS + 1},
     {{AT(VERSION), 2}}, {{0, 0}}},
    {RIKKOVAN_REFUSED_LENGTH, {254, RIKKOVAN_PLAN_BYTES, WORDS, 0}, {{AT(VERSION), 2}},
     {{PLAN(VERSION), 2}}},
    {RIKKOVAN_REFUSED_VERSION, {RIKKOVAN_HEAD_BYTES, SHORT_PLAN, WORDS, 0},
     {{AT(VERSION), 2}, {C(SYSCLK), 4}}, {{0, 0}}},
    {RIKKOVAN_REFUSED_CODE, {RIKKOVAN_HEAD_BYTES, SHORT_PLAN, WORDS, 0},
     {{C(SYSCLK), 4}, NO_HXT48}, {{0, 0}}},
    /* the plan's */
    {RIKKOVAN_REFUSED_LENGTH, {RIKKOVAN_HEAD_BYTES, SHORT_PLAN, WORDS, 0}, {CORE_DLL1(15)},
     {NO_DLL1, {PLAN(PDIV1), 0}}},
    {RIKKOVAN_REFUSED_CORE_DLL1, {RIKKOVAN_HEAD_BYTES, RIKKOVAN_PLAN_BYTES, WORDS, 0},
     {CORE_DLL1(15)}, {NO_DLL1, {PLAN(PDIV1), 0}}},
    {RIKKOVAN_REFUSED_PCLK1, {RIKKOVAN_HEAD_BYTES, RIKKOVAN_PLAN_BYTES, WORDS, 0},
     {CORE_DLL1(15)}, {{PLAN(PDIV1), 0}}},
};
#define REFUSALS (int)(sizeof refusals / sizeof refusals[0])
#define REFUSALS_WITHOUT_PLAN 5

static void test_refusal(enum which which, const struct refusal_case *one)
{
    static struct beside beside;
    struct lent lent;

    lend(&lent, one->edit, 3, NULL, 0);
    lend_beside(&beside, one->plan, 3);
    expect(call_name[which], "word", word_of(one->refusal, 0, 0, 0),
           make(which, &one->len, &lent, &beside).word);
    expect_left(call_name[which], &lent, 0, NULL);
    expect_clocks(call_name[which], which, &beside, NULL);
}

int main(void)
{
    size_t i;
    int which, k;

    for (i = 0; i < sizeof cases / sizeof cases[0]; i++)
        test_case(&cases[i]);
    for (which = 0; which < CALLS; which++)
        for (k = 0; k < (which == CALIBRATE ? REFUSALS_WITHOUT_PLAN : REFUSALS); k++)
            test_refusal((enum which)which, &refusals[k]);
    return failures != 0;
}
