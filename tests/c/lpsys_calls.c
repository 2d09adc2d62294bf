/* Tests the LPSYS calls beside the request. Prints a line for each failure. */
#include "heads.h"

#define MOST_ANSWERS RIKKOVAN_MOST_ANSWERS

enum which { SAFE, WAKE, CANCEL, HXT48, HDIV, DIV, MAC, SYSCLK, PERI, CALLS };

static const char *const call_name[CALLS] = {"ensure_safe_lcpu_frequency",
                                             "wake_lcpu",
                                             "cancel_lcpu_active_request",
                                             "ensure_hxt48_ready",
                                             "set_lpsys_hdiv",
                                             "set_lpsys_div",
                                             "config_lpsys_mac_clock",
                                             "select_lpsys_sysclk",
                                             "select_lpsys_peri"};

/* A call with the bytes that it gets besides the head, and with the lengths of what is lent. */
struct made {
    enum which which;
    uint8_t byte[3];
    size_t head_len, journal_len, answers_len;
};

static rikkovan_answer make(const struct made *made, struct lent *lent, const uint16_t *answers)
{
    uint8_t *head = lent->head + 1;
    uint32_t *journal = lent->journal + 1;
    const uint8_t *byte = made->byte;
    size_t h = made->head_len, j = made->journal_len, a = made->answers_len;

    switch (made->which) {
    case SAFE: return rikkovan_ensure_safe_lcpu_frequency(head, h, journal, j);
    case WAKE: return rikkovan_wake_lcpu(head, h, journal, j, answers, a);
    case CANCEL: return rikkovan_cancel_lcpu_active_request(head, h, journal, j);
    case HXT48: return rikkovan_ensure_hxt48_ready(head, h, journal, j, answers, a);
    case HDIV: return rikkovan_set_lpsys_hdiv(head, h, byte[0], journal, j);
    case DIV: return rikkovan_set_lpsys_div(head, h, byte[0], byte[1], byte[2], journal, j);
    case MAC: return rikkovan_config_lpsys_mac_clock(head, h, byte[0], byte[1], journal, j);
    case SYSCLK: return rikkovan_select_lpsys_sysclk(head, h, byte[0], journal, j);
    case PERI: return rikkovan_select_lpsys_peri(head, h, byte[0], journal, j);
    default: return rikkovan_answer_of(0);
    }
}

/*
 * A call on the head that make_head makes with some bytes set, what it answers, what it writes into
 * the journal, and the bytes of the head that are set after it.
 */
struct call_case {
    const char *name;
    enum which which;
    uint8_t byte[3];
    struct edit edit[4];
    size_t answers_len;
    uint16_t answer[4];
    uint32_t refusal, value;
    int taken, entries;
    uint32_t entry[5];
    struct edit after[6];
};

static const struct call_case cases[] = {
    {"slow down from 48 MHz", SAFE, {0}, {{0, 0}}, 0, {0}, 0, 48000000, 0, 4,
     {ENTRY(LPSYS_LDO, 6), ENTRY(LPSYS_CFGR, 0x020000), ENTRY(LPSYS_TIMING, 0x162),
      ENTRY(LPSYS_SUPPLY, 0)},
     {{C(LPSYS_LDO), 6}, {A(LPSYS_CFGR), 2}, {B(LPSYS_TIMING), 1}, {C(LPSYS_TIMING), 0x62},
      {C(LPSYS_SUPPLY), 0}}},
    {"24 MHz is slow enough", SAFE, {0}, {{A(LPSYS_CFGR), 2}}, 0, {0}, 0, 24000000, 0, 0, {0},
     {{0, 0}}},
    {"LPSYS HCLK unreadable", SAFE, {0}, {{AT(HRC48_READY), 0}}, 0, {0},
     RIKKOVAN_REFUSED_LPSYS_HCLK_UNREADABLE, 0, 0, 0, {0}, {{0, 0}}},

    {"wake", WAKE, {0}, {{0, 0}}, 4, {0, 0, 5, 1}, 0, 0, 4, 5,
     {ENTRY(HP2LP_REQUEST, 1), DELAY(11040), WAIT(LPSYS_ACTIVE, 3), DELAY(1440),
      WAIT(LPSYS_ACTIVE, 1)},
     {{C(HP2LP_REQUEST), 1}, {AT(WAKE_COUNT), 8}}},
    {"wake, core at 188,235 Hz", WAKE, {0}, {{A(HPSYS_CFGR), 255}}, 2, {1, 1}, 0, 0, 2, 5,
     {ENTRY(HP2LP_REQUEST, 1), DELAY(44), WAIT(LPSYS_ACTIVE, 1), DELAY(6), WAIT(LPSYS_ACTIVE, 1)},
     {{C(HP2LP_REQUEST), 1}, {AT(WAKE_COUNT), 8}}},
    {"a wake count of 255 wraps", WAKE, {0}, {{AT(WAKE_COUNT), 255}}, MOST_ANSWERS,
     {1, 1}, 0, 0, 2, 5,
     {ENTRY(HP2LP_REQUEST, 1), DELAY(11040), WAIT(LPSYS_ACTIVE, 1), DELAY(1440),
      WAIT(LPSYS_ACTIVE, 1)},
     {{C(HP2LP_REQUEST), 1}, {AT(WAKE_COUNT), 0}}},
    {"answers run out in the second wait", WAKE, {0}, {{0, 0}}, 2, {1, 0},
     RIKKOVAN_REFUSED_ANSWERS_RAN_OUT, 0, 2, 4,
     {ENTRY(HP2LP_REQUEST, 1), DELAY(11040), WAIT(LPSYS_ACTIVE, 1), DELAY(1440)},
     {{C(HP2LP_REQUEST), 1}}},
    {"wake with the core on DBL96", WAKE, {0}, {{C(SYSCLK), RIKKOVAN_CORE_DBL96}}, 2, {1, 1},
     RIKKOVAN_REFUSED_HCLK_UNREADABLE, 0, 0, 1, {ENTRY(HP2LP_REQUEST, 1)},
     {{C(HP2LP_REQUEST), 1}}},

    {"cancel at 7", CANCEL, {0}, {{C(HP2LP_REQUEST), 1}}, 0, {0}, 0, 0, 0, 0, {0},
     {{AT(WAKE_COUNT), 6}}},
    {"cancel at 1", CANCEL, {0}, {{C(HP2LP_REQUEST), 1}, {AT(WAKE_COUNT), 1}}, 0, {0}, 0,
     0, 0, 1, {ENTRY(HP2LP_REQUEST, 0)},
     {{C(HP2LP_REQUEST), 0}, {AT(WAKE_COUNT), 0}}},
    {"cancel at 0", CANCEL, {0}, {{C(HP2LP_REQUEST), 1}, {AT(WAKE_COUNT), 0}}, 0, {0}, 0,
     0, 0, 0, {0}, {{AT(WAKE_COUNT), 255}}},

    {"HXT48 is ready", HXT48, {0}, {{0, 0}}, 0, {0}, 0, 0, 0, 0, {0}, {{0, 0}}},
    {"both domains get HXT48", HXT48, {0},
     {{AT(HXT48_READY), 0}, {AT(LPSYS_HXT48_READY), 0}}, 3, {1, 0, 1}, 0, 0, 3,
     4,
     {ENTRY(HXT48_REQUEST, 1), WAIT(HXT48, 1), ENTRY(LPSYS_HXT48_REQUEST, 1), WAIT(LPSYS_HXT48, 2)},
     {{C(HXT48_REQUEST), 1}, {C(LPSYS_HXT48_REQUEST), 1}, {AT(HXT48_READY), 1},
      {AT(LPSYS_HXT48_READY), 1}}},
    {"LPSYS alone gets HXT48", HXT48, {0}, {{AT(LPSYS_HXT48_READY), 0}}, 1, {2}, 0, 0, 1,
     2, {ENTRY(LPSYS_HXT48_REQUEST, 1), WAIT(LPSYS_HXT48, 1)},
     {{C(LPSYS_HXT48_REQUEST), 1}, {AT(LPSYS_HXT48_READY), 1}}},
    {"answers run out for LPSYS", HXT48, {0},
     {{AT(HXT48_READY), 0}, {AT(LPSYS_HXT48_READY), 0}}, 2, {0, 1},
     RIKKOVAN_REFUSED_ANSWERS_RAN_OUT, 0, 2, 3,
     {ENTRY(HXT48_REQUEST, 1), WAIT(HXT48, 2), ENTRY(LPSYS_HXT48_REQUEST, 1)},
     {{C(HXT48_REQUEST), 1}, {C(LPSYS_HXT48_REQUEST), 1}, {AT(HXT48_READY), 1}}},

    {"hdiv 255", HDIV, {255}, {{B(LPSYS_CFGR), 3}, {C(LPSYS_CFGR), 7}}, 0, {0}, 0, 0, 0, 1,
     {ENTRY(LPSYS_CFGR, 0xFF0307)}, {{A(LPSYS_CFGR), 255}}},
    {"div 9, 7, 0", DIV, {9, 7, 0}, {{C(LPSYS_CFGR), 7}}, 0, {0}, 0, 0, 0, 1,
     {ENTRY(LPSYS_CFGR, 0x090700)}, {{A(LPSYS_CFGR), 9}, {B(LPSYS_CFGR), 7}, {C(LPSYS_CFGR), 0}}},
    {"pdiv1 8", DIV, {1, 8, 0}, {{0, 0}}, 0, {0}, RIKKOVAN_REFUSED_CODE, 0, 0, 0, {0}, {{0, 0}}},
    {"pdiv2 8", DIV, {1, 0, 8}, {{0, 0}}, 0, {0}, RIKKOVAN_REFUSED_CODE, 0, 0, 0, {0}, {{0, 0}}},
    {"MAC clock", MAC, {255, 254}, {{0, 0}}, 0, {0}, 0, 0, 0, 1, {ENTRY(LPSYS_MAC, 0x00FFFE)},
     {{B(LPSYS_MAC), 255}, {C(LPSYS_MAC), 254}}},
    {"sysclk HXT48", SYSCLK, {RIKKOVAN_LPSYS_HXT48}, {{0, 0}}, 0, {0}, 0, 0, 0, 1,
     {ENTRY(LPSYS_SYSCLK, 1)}, {{C(LPSYS_SYSCLK), 1}}},
    {"sysclk 2", SYSCLK, {2}, {{0, 0}}, 0, {0}, RIKKOVAN_REFUSED_CODE, 0, 0, 0, {0}, {{0, 0}}},
    {"peri HRC48", PERI, {RIKKOVAN_LPSYS_HRC48}, {{C(LPSYS_PERI), 1}}, 0, {0}, 0, 0, 0, 1,
     {ENTRY(LPSYS_PERI, 0)}, {{C(LPSYS_PERI), 0}}},
    {"peri 2", PERI, {2}, {{0, 0}}, 0, {0}, RIKKOVAN_REFUSED_CODE, 0, 0, 0, {0}, {{0, 0}}},
};

static void test_case(const struct call_case *one)
{
    static uint16_t answers[MOST_ANSWERS];
    struct made made = {one->which, {one->byte[0], one->byte[1], one->byte[2]},
                        RIKKOVAN_HEAD_BYTES, WORDS, one->answers_len};
    struct lent lent;

    memcpy(answers, one->answer, sizeof one->answer);
    lend(&lent, one->edit, 4, one->after, 6);
    expect(one->name, "word", word_of(one->refusal, one->value, one->entries, one->taken),
           make(&made, &lent, answers).word);
    expect_left(one->name, &lent, one->entries, one->entry);
}

/* The refusals that every call has, each before those below it; they change nothing. */
struct refusal_case {
    uint32_t refusal;
    size_t head_len, journal_len, answers_len;
    struct edit edit[2];
};

static const struct refusal_case refusals[] = {
    {RIKKOVAN_REFUSED_JOURNAL, 254, WORDS - 1, MOST_ANSWERS + 1, {{AT(VERSION), 2}}},
    {RIKKOVAN_REFUSED_ANSWERS, 254, WORDS, MOST_ANSWERS + 1, {{AT(VERSION), 2}}},
    {RIKKOVAN_REFUSED_LENGTH, 254, WORDS, 0, {{AT(VERSION), 2}}},
    {RIKKOVAN_REFUSED_VERSION, RIKKOVAN_HEAD_BYTES, WORDS, 0,
     {{AT(VERSION), 2}, {C(SYSCLK), 4}}},
    {RIKKOVAN_REFUSED_CODE, RIKKOVAN_HEAD_BYTES, WORDS, 0, {{C(SYSCLK), 4}}},
};

static void test_refusal(enum which which, const struct refusal_case *one)
{
    static const uint16_t answers[MOST_ANSWERS + 1] = {0};
    struct made made = {which, {9, 9, 9}, one->head_len, one->journal_len, one->answers_len};
    struct lent lent;

    if (one->refusal == RIKKOVAN_REFUSED_ANSWERS && which != WAKE && which != HXT48)
        return;
    lend(&lent, one->edit, 2, NULL, 0);
    expect(call_name[which], "word", word_of(one->refusal, 0, 0, 0),
           make(&made, &lent, answers).word);
    expect_left(call_name[which], &lent, 0, NULL);
}

int main(void)
{
    size_t i;
    int which;

    for (i = 0; i < sizeof cases / sizeof cases[0]; i++)
        test_case(&cases[i]);
    for (which = 0; which < CALLS; which++)
        for (i = 0; i < sizeof refusals / sizeof refusals[0]; i++)
            test_refusal((enum which)which, &refusals[i]);
    return failures != 0;
}
