/* Tests the LPSYS request. Prints a line for each failure. */
#include "heads.h"

/*
 * A call on the head that make_head makes with some bytes set, what it answers, what it writes into
 * the journal, and the bytes of the head that are set after it.
 */
struct request_case {
    const char *name;
    size_t head_len, journal_len;
    uint32_t freq_mhz;
    struct edit edit[6];
    uint32_t refusal;
    int entries;
    uint32_t entry[4];
    struct edit after[8];
};

static const struct request_case cases[] = {
    {"request 20 at 48 MHz", RIKKOVAN_HEAD_BYTES, WORDS, 20, {{0, 0}}, 0, 4,
     {ENTRY(LPSYS_LDO, 0x000006), ENTRY(LPSYS_CFGR, 0x020000), ENTRY(LPSYS_TIMING, 0x000162),
      ENTRY(LPSYS_SUPPLY, 0x000000)},
     {{C(LPSYS_LDO), 6}, {A(LPSYS_CFGR), 2}, {B(LPSYS_TIMING), 1}, {C(LPSYS_TIMING), 0x62},
      {C(LPSYS_SUPPLY), 0}}},
    {"request 48 at 24 MHz, core at 48 MHz", RIKKOVAN_HEAD_BYTES, WORDS, 48,
     {{A(LPSYS_CFGR), 2}, {B(LPSYS_CFGR), 3}, {C(LPSYS_CFGR), 7}, {C(LPSYS_SUPPLY), 0}}, 0, 4,
     {ENTRY(LPSYS_VOUT, 8), ENTRY(LPSYS_SUPPLY, 1), DELAY(12000), ENTRY(LPSYS_CFGR, 0x000307)},
     {{C(LPSYS_VOUT), 8}, {C(LPSYS_SUPPLY), 1}, {A(LPSYS_CFGR), 0}}},
    {"request 48 at 24 MHz, core at 188,235 Hz", RIKKOVAN_HEAD_BYTES, WORDS, 48,
     {{A(LPSYS_CFGR), 2}, {C(LPSYS_SUPPLY), 0}, {A(HPSYS_CFGR), 255}}, 0, 4,
     {ENTRY(LPSYS_VOUT, 8), ENTRY(LPSYS_SUPPLY, 1), DELAY(48), ENTRY(LPSYS_CFGR, 0)},
     {{C(LPSYS_VOUT), 8}, {C(LPSYS_SUPPLY), 1}, {A(LPSYS_CFGR), 0}}},
    {"request 25 at 48 MHz", RIKKOVAN_HEAD_BYTES, WORDS + 72, 25, {{0, 0}}, 0, 1,
     {ENTRY(LPSYS_CFGR, 0x010000)}, {{A(LPSYS_CFGR), 1}}},
    {"request 1 at 24 MHz", RIKKOVAN_HEAD_BYTES, WORDS, 1, {{A(LPSYS_CFGR), 2}}, 0, 1,
     {ENTRY(LPSYS_CFGR, 0x300000)}, {{A(LPSYS_CFGR), 48}}},
    {"request 48 at 24 MHz, core on DBL96", RIKKOVAN_HEAD_BYTES, WORDS, 48,
     {{A(LPSYS_CFGR), 2}, {C(LPSYS_SUPPLY), 0}, {C(SYSCLK), RIKKOVAN_CORE_DBL96}},
     RIKKOVAN_REFUSED_HCLK_UNREADABLE, 2, {ENTRY(LPSYS_VOUT, 8), ENTRY(LPSYS_SUPPLY, 1)},
     {{C(LPSYS_VOUT), 8}, {C(LPSYS_SUPPLY), 1}}},
    {"request 0", RIKKOVAN_HEAD_BYTES, WORDS, 0, {{0, 0}}, RIKKOVAN_REFUSED_LPSYS_REQUEST, 0, {0},
     {{0, 0}}},
    {"request 49", RIKKOVAN_HEAD_BYTES, WORDS, 49, {{0, 0}}, RIKKOVAN_REFUSED_LPSYS_REQUEST, 0, {0},
     {{0, 0}}},
    {"request 65,556", RIKKOVAN_HEAD_BYTES, WORDS, 65556, {{0, 0}},
     RIKKOVAN_REFUSED_LPSYS_REQUEST, 0, {0}, {{0, 0}}},
    {"journal of 127 words", RIKKOVAN_HEAD_BYTES, WORDS - 1, 20, {{0, 0}}, RIKKOVAN_REFUSED_JOURNAL,
     0, {0}, {{0, 0}}},
    {"journal of 0 words", RIKKOVAN_HEAD_BYTES, 0, 20, {{0, 0}}, RIKKOVAN_REFUSED_JOURNAL, 0, {0},
     {{0, 0}}},
    {"a journal before a length", 254, WORDS - 1, 0, {{AT(VERSION), 2}},
     RIKKOVAN_REFUSED_JOURNAL, 0, {0}, {{0, 0}}},
    {"254 bytes", 254, WORDS, 20, {{0, 0}}, RIKKOVAN_REFUSED_LENGTH, 0, {0}, {{0, 0}}},
    {"256 bytes", 256, WORDS, 20, {{0, 0}}, RIKKOVAN_REFUSED_LENGTH, 0, {0}, {{0, 0}}},
    {"0 bytes", 0, WORDS, 20, {{0, 0}}, RIKKOVAN_REFUSED_LENGTH, 0, {0}, {{0, 0}}},
    {"two tasks in the length of one", RIKKOVAN_HEAD_BYTES, WORDS, 20, {{AT(TASK_COUNT), 2}},
     RIKKOVAN_REFUSED_LENGTH, 0, {0}, {{0, 0}}},
    {"version 2", RIKKOVAN_HEAD_BYTES, WORDS, 20, {{AT(VERSION), 2}},
     RIKKOVAN_REFUSED_VERSION, 0, {0}, {{0, 0}}},
    {"a version before a code", RIKKOVAN_HEAD_BYTES, WORDS, 0,
     {{AT(VERSION), 2}, {C(SYSCLK), 4}}, RIKKOVAN_REFUSED_VERSION, 0, {0}, {{0, 0}}},
    {"a code before a request", RIKKOVAN_HEAD_BYTES, WORDS, 0, {{C(SYSCLK), 4}},
     RIKKOVAN_REFUSED_CODE, 0, {0}, {{0, 0}}},
    {"task id 0", RIKKOVAN_HEAD_BYTES, WORDS, 20, {{RIKKOVAN_HEAD_AT_TASK(0), 0}},
     RIKKOVAN_REFUSED_CODE, 0, {0}, {{0, 0}}},
};

static void test_case(const struct request_case *one)
{
    struct lent lent;

    lend(&lent, one->edit, 6, one->after, 8);
    expect(one->name, "word", word_of(one->refusal, 0, one->entries, 0),
           rikkovan_config_lpsys_hclk_mhz(lent.head + 1, one->head_len, one->freq_mhz,
                                          lent.journal + 1, one->journal_len)
               .word);
    expect_left(one->name, &lent, one->entries, one->entry);
}

/* Every request from 24 MHz on D: the LPSYS HCLK is 48 MHz / (48 / request) after it. */
static void test_every_request(void)
{
    uint8_t head[RIKKOVAN_HEAD_BYTES];
    uint32_t journal[WORDS], lpsys[RIKKOVAN_LPSYS_CLOCKS], request;
    char name[32];

    for (request = 1; request <= 48; request++) {
        make_head(head, sizeof head);
        head[A(LPSYS_CFGR)] = 2;
        head[C(LPSYS_SUPPLY)] = RIKKOVAN_LPSYS_SUPPLY_D;
        sprintf(name, "request %u", (unsigned)request);
        expect(name, "word", (uint64_t)(request <= 24 ? 1 : 4) << 32,
               rikkovan_config_lpsys_hclk_mhz(head, sizeof head, request, journal, WORDS).word);
        expect(name, "reading", 0, rikkovan_read_lpsys(head, sizeof head, lpsys).word);
        expect(name, "LPSYS HCLK", 48000000 / (48 / request), lpsys[RIKKOVAN_LPSYS_HCLK]);
        expect(name, "supply", request > 24, head[C(LPSYS_SUPPLY)]);
    }
}

static void test_entries(void)
{
    expect("entry", "number", RIKKOVAN_ENTRY_DELAY, rikkovan_entry_number(0x30FFFFFE));
    expect("entry", "value", 0xFFFFFE, rikkovan_entry_value(0x30FFFFFE));
}

int main(void)
{
    size_t i;

    for (i = 0; i < sizeof cases / sizeof cases[0]; i++)
        test_case(&cases[i]);
    test_every_request();
    test_entries();
    return failures != 0;
}
