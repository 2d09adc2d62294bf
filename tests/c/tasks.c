/* Tests load check, booking, release and look-up. Prints a line for each failure. */
#include "heads.h"

#define MOST RIKKOVAN_MOST_TASKS
#define NINE RIKKOVAN_TASK_BYTES
#define LONGEST ((uint32_t)RIKKOVAN_MOST_PERIOD_US)
#define LARGEST 0xFFFFFFFFu

static void put_count(uint8_t *head, int count)
{
    rikkovan_put_task_count(head, (uint8_t)count);
}

/* A light task, which differs from that of every other place. */
static struct rikkovan_task light(int place)
{
    struct rikkovan_task task;

    task.id = (uint8_t)(place + 1);
    task.cycles = 0x01010101u + 0x00010203u * (uint32_t)place;
    task.period_us = LONGEST - (uint32_t)place;
    return task;
}

/* The load check */

#define MOST_LISTED 3

struct load_case {
    const char *name;
    int tasks;
    struct rikkovan_task task[MOST_LISTED];
    uint32_t refusal;
    uint64_t load;
};

static const struct load_case loads[] = {
    {"no task", 0, {{0, 0, 0}}, 0, 0},
    {"120,000 and 80,000", 2, {{1, 120000, 1000}, {2, 80000, 1000}}, 0, 200000000},
    {"and 40,000", 3, {{1, 120000, 1000}, {2, 80000, 1000}, {3, 40000, 1000}}, 0, 240000000},
    {"and 64,000", 3, {{1, 120000, 1000}, {2, 80000, 1000}, {3, 64000, 1000}}, 0, 264000000},
    {"a third, rounded up", 1, {{255, 1, 3}}, 0, 333334},
    {"two thirds, each rounded up", 2, {{255, 1, 3}, {1, 1, 3}}, 0, 666668},
    {"a tenth is one", 1, {{7, 1, LONGEST}}, 0, 1},
    {"ten tenths are one", 1, {{7, 10, LONGEST}}, 0, 1},
    {"eleven tenths are two", 1, {{7, 11, LONGEST}}, 0, 2},
    {"the largest share", 1, {{7, LARGEST, 1}}, 0, 4294967295000000},
    {"id 0", 2, {{1, 1, 1}, {0, 1, 1}}, RIKKOVAN_REFUSED_TASK, 0},
    {"cycles 0", 2, {{1, 0, 1}, {2, 1, 1}}, RIKKOVAN_REFUSED_TASK, 0},
    {"period 0", 2, {{1, 1, 1}, {2, 1, 0}}, RIKKOVAN_REFUSED_TASK, 0},
    {"period 10,000,001", 1, {{1, 1, LONGEST + 1}}, RIKKOVAN_REFUSED_TASK, 0},
    {"the largest period", 1, {{1, 1, LARGEST}}, RIKKOVAN_REFUSED_TASK, 0},
    {"one id twice", 3, {{9, 1, 1}, {8, 1, 1}, {9, 2, 2}}, RIKKOVAN_REFUSED_ID_IN_USE, 0},
    {"one id twice before a cycles 0", 3, {{9, 1, 1}, {9, 1, 1}, {8, 0, 1}},
     RIKKOVAN_REFUSED_TASK, 0},
};

static uint64_t answer_of(uint32_t refusal, uint64_t load)
{
    return refusal == 0 ? load : (uint64_t)1 << 63 | refusal;
}

/* Checks a list that stands between bytes that are not lent; all stay as they were. */
static void expect_load(const char *name, const uint8_t *list, size_t len, uint32_t refusal,
                        uint64_t load)
{
    uint8_t bytes[300], before[300];
    uint64_t answer;

    memset(bytes, PAST, sizeof bytes);
    memcpy(bytes + 1, list, len);
    memcpy(before, bytes, sizeof bytes);
    answer = rikkovan_load_check(bytes + 1, len);
    expect(name, "answer", answer_of(refusal, load), answer);
    expect(name, "refusal", refusal, rikkovan_load_refusal(answer));
    expect(name, "load", load, rikkovan_load(answer));
    expect(name, "a byte changed", 0, memcmp(bytes, before, sizeof bytes) != 0);
}

static void test_loads(void)
{
    uint8_t list[MOST_LISTED * NINE];
    size_t i;
    int k;

    for (i = 0; i < sizeof loads / sizeof loads[0]; i++) {
        for (k = 0; k < loads[i].tasks; k++)
            rikkovan_put_task(list, (uint32_t)k, loads[i].task[k]);
        expect_load(loads[i].name, list, (size_t)(NINE * loads[i].tasks), loads[i].refusal,
                    loads[i].load);
    }
}

/* Every length: good tasks as far as they go, and zeros. */
static void test_list_lengths(void)
{
    uint8_t list[298], zeros[298] = {0};
    size_t len, tasks;
    uint64_t load = 0;
    char name[24];

    for (len = 0; len + NINE <= sizeof list; len += NINE)
        rikkovan_put_task(list, (uint32_t)(len / NINE), light((int)(len / NINE)));
    memset(list + len, 1, sizeof list - len);
    for (len = 0; len < sizeof list; len++) {
        uint32_t refusal = len % NINE != 0 ? RIKKOVAN_REFUSED_LENGTH
                           : len > MOST * NINE ? RIKKOVAN_REFUSED_TASKS
                                               : 0;

        tasks = len / NINE;
        if (len % NINE == 0 && tasks > 0) {
            struct rikkovan_task task = light((int)tasks - 1);

            load += ((uint64_t)task.cycles * 1000000 + task.period_us - 1) / task.period_us;
        }
        sprintf(name, "%d bytes", (int)len);
        expect_load(name, list, len, refusal, refusal == 0 ? load : 0);
        sprintf(name, "%d zeros", (int)len);
        if (refusal == 0 && len > 0)
            refusal = RIKKOVAN_REFUSED_TASK;
        expect_load(name, zeros, len, refusal, 0);
    }
}

static void test_largest_load(void)
{
    uint8_t list[MOST * NINE];
    int k;

    for (k = 0; k < MOST; k++) {
        struct rikkovan_task task = {(uint8_t)(k + 1), LARGEST, 1};

        rikkovan_put_task(list, (uint32_t)k, task);
    }
    expect_load("sixteen of the largest", list, sizeof list, 0, 68719476720000000);
    list[NINE * (MOST - 1)] = 1;
    expect_load("the last id is the first", list, sizeof list, RIKKOVAN_REFUSED_ID_IN_USE, 0);
}

/* Bookings, releases and look-ups */

/* The head of make_head with other tasks and some bytes set, as lent and as wanted. */
static void lend_tasks(struct lent *lent, const struct edit *edit, int edits,
                       const struct rikkovan_task *task, int tasks)
{
    int k;

    lend(lent, NULL, 0, NULL, 0);
    put_count(lent->head + 1, tasks);
    memset(lent->head + 1 + RIKKOVAN_HEAD_AT_TASK(0), PAST, NINE);
    for (k = 0; k < tasks; k++)
        rikkovan_put_task(lent->head + 1 + RIKKOVAN_HEAD_AT_TASK(0), (uint32_t)k, task[k]);
    put(lent->head + 1, edit, edits);
    memcpy(lent->wanted, lent->head, sizeof lent->head);
}

/* The wanted head gets a task behind its last one. */
static void want_booked(struct lent *lent, const struct rikkovan_task *task)
{
    rikkovan_add_head_task(lent->wanted + 1, *task);
}

/* The wanted head loses the task of a place; the last place keeps what it held. */
static void want_released(struct lent *lent, int place)
{
    int k, count = rikkovan_get_task_count(lent->wanted + 1);

    for (k = place; k + 1 < count; k++)
        memcpy(lent->wanted + 1 + RIKKOVAN_HEAD_AT_TASK(k),
               lent->head + 1 + RIKKOVAN_HEAD_AT_TASK(k + 1), NINE);
    put_count(lent->wanted + 1, count - 1);
}

static void expect_book(const char *name, struct lent *lent, size_t head_len,
                        const struct rikkovan_task *task, uint32_t refusal)
{
    if (refusal == 0)
        want_booked(lent, task);
    expect(name, "word", word_of(refusal, 0, 0, 0),
           rikkovan_book(lent->head + 1, head_len, task->id, task->cycles, task->period_us).word);
    expect_left(name, lent, 0, NULL);
}

static void expect_release(const char *name, struct lent *lent, size_t head_len, uint8_t id,
                           int place, uint32_t refusal)
{
    if (refusal == 0)
        want_released(lent, place);
    expect(name, "word", word_of(refusal, 0, 0, 0),
           rikkovan_release(lent->head + 1, head_len, id).word);
    expect_left(name, lent, 0, NULL);
}

/* A look-up reads so many tasks, and leaves the head; where it is refused, none. */
static void expect_look_up(const char *name, const struct lent *lent, size_t head_len, uint8_t id,
                           int hit, int read, uint32_t refusal)
{
    rikkovan_answer answer = rikkovan_look_up(lent->head + 1, head_len, id);

    expect(name, "word", word_of(refusal, (uint32_t)(2 * read + hit), 0, 0), answer.word);
    expect(name, "hit", (uint64_t)hit, (uint64_t)rikkovan_hit(answer));
    expect(name, "tasks read", (uint64_t)read, rikkovan_tasks_read(answer));
    expect_left(name, lent, 0, NULL);
}

/* A booking on a head with some bytes set and these tasks. */
struct book_case {
    const char *name;
    struct edit edit[4];
    int tasks;
    struct rikkovan_task task[MOST_LISTED], booked;
    uint32_t refusal;
};

#define AT_240 {C(SYSCLK), RIKKOVAN_CORE_DLL1}, {A(DLL1), 1}, {C(DLL1), 9}
#define AT_48 {0, 0}

static const struct book_case bookings[] = {
    {"120,000 at 240 MHz", {AT_240}, 0, {{0, 0, 0}}, {1, 120000, 1000}, 0},
    {"80,000 beside it", {AT_240}, 1, {{1, 120000, 1000}}, {2, 80000, 1000}, 0},
    {"40,000 beside both", {AT_240}, 2, {{1, 120000, 1000}, {2, 80000, 1000}}, {3, 40000, 1000}, 0},
    {"64,000 beside both", {AT_240}, 2, {{1, 120000, 1000}, {2, 80000, 1000}}, {3, 64000, 1000},
     RIKKOVAN_REFUSED_LOAD},
    {"40,001 beside both", {AT_240}, 2, {{1, 120000, 1000}, {2, 80000, 1000}}, {3, 40001, 1000},
     RIKKOVAN_REFUSED_LOAD},
    {"120,000 at 48 MHz", {AT_48}, 0, {{0, 0, 0}}, {1, 120000, 1000}, RIKKOVAN_REFUSED_LOAD},
    {"48,000 at 48 MHz", {AT_48}, 0, {{0, 0, 0}}, {1, 48000, 1000}, 0},
    {"rounded up to 48 MHz", {AT_48}, 0, {{0, 0, 0}}, {1, 479999991, LONGEST}, 0},
    {"just 48 MHz in ten seconds", {AT_48}, 0, {{0, 0, 0}}, {1, 480000000, LONGEST}, 0},
    {"rounded up past 48 MHz", {AT_48}, 0, {{0, 0, 0}}, {1, 480000001, LONGEST},
     RIKKOVAN_REFUSED_LOAD},
    {"48 MHz with a third", {AT_48}, 1, {{9, 1, 3}}, {1, 47666666, 1000000}, 0},
    {"one more than 48 MHz with a third", {AT_48}, 1, {{9, 1, 3}}, {1, 47666667, 1000000},
     RIKKOVAN_REFUSED_LOAD},
    {"HCLK 6,857,142", {{A(HPSYS_CFGR), 7}}, 0, {{0, 0, 0}}, {1, 6857142, 1000000}, 0},
    {"one more", {{A(HPSYS_CFGR), 7}}, 0, {{0, 0, 0}}, {1, 6857143, 1000000},
     RIKKOVAN_REFUSED_LOAD},
    {"a load above HCLK before", {AT_48}, 1, {{9, LARGEST, 1}}, {1, 1, LONGEST},
     RIKKOVAN_REFUSED_LOAD},
    {"the low-power select is not looked at", {{C(LOW_POWER), 1}}, 0, {{0, 0, 0}},
     {255, 48000, 1000}, 0},
    {"id 0", {AT_48}, 0, {{0, 0, 0}}, {0, 1, 1000}, RIKKOVAN_REFUSED_TASK},
    {"cycles 0", {AT_48}, 0, {{0, 0, 0}}, {1, 0, 1000}, RIKKOVAN_REFUSED_TASK},
    {"period 0", {AT_48}, 0, {{0, 0, 0}}, {1, 1, 0}, RIKKOVAN_REFUSED_TASK},
    {"period 10,000,001", {AT_48}, 0, {{0, 0, 0}}, {1, 1, LONGEST + 1}, RIKKOVAN_REFUSED_TASK},
    {"a cycles 0 before an id in use", {AT_48}, 1, {{1, 1, 1000}}, {1, 0, 1000},
     RIKKOVAN_REFUSED_TASK},
    {"id in use", {AT_48}, 3, {{1, 1, 1000}, {2, 1, 1000}, {3, 1, 1000}}, {3, 1, 1000},
     RIKKOVAN_REFUSED_ID_IN_USE},
    {"an id in use before an HCLK", {{C(SYSCLK), RIKKOVAN_CORE_DBL96}}, 1, {{1, 1, 1000}},
     {1, LARGEST, 1}, RIKKOVAN_REFUSED_ID_IN_USE},
    {"core on DBL96", {{C(SYSCLK), RIKKOVAN_CORE_DBL96}}, 0, {{0, 0, 0}}, {1, LARGEST, 1},
     RIKKOVAN_REFUSED_HCLK_UNREADABLE},
    {"core on a DLL1 that is off", {{C(SYSCLK), RIKKOVAN_CORE_DLL1}, {C(DLL1), 9}}, 0, {{0, 0, 0}},
     {1, 1, 1000}, RIKKOVAN_REFUSED_HCLK_UNREADABLE},
    {"HXT48 not ready", {{AT(HXT48_READY), 0}}, 0, {{0, 0, 0}}, {1, 1, 1000},
     RIKKOVAN_REFUSED_HCLK_UNREADABLE},
    {"HRC48 not ready", {{C(SYSCLK), RIKKOVAN_CORE_HRC48}, {AT(HRC48_READY), 0}}, 0,
     {{0, 0, 0}}, {1, 1, 1000}, RIKKOVAN_REFUSED_HCLK_UNREADABLE},
};

static void test_bookings(void)
{
    struct lent lent;
    size_t i;

    for (i = 0; i < sizeof bookings / sizeof bookings[0]; i++) {
        const struct book_case *one = &bookings[i];

        lend_tasks(&lent, one->edit, 4, one->task, one->tasks);
        expect_book(one->name, &lent, RIKKOVAN_HEAD_BYTES, &one->booked, one->refusal);
    }
}

/* Books sixteen tasks one after the other, then one more, and releases them at all places. */
static void test_sixteen(void)
{
    static const int place[MOST] = {0, 14, 6, 6, 0, 10, 1, 8, 3, 2, 5, 4, 0, 1, 1, 0};
    struct rikkovan_task task, seventeenth = light(MOST), heavy = {0, LARGEST, 1};
    struct lent lent;
    int k;

    lend_tasks(&lent, NULL, 0, NULL, 0);
    for (k = 0; k < MOST; k++) {
        task = light(k);
        expect_book("booked in turn", &lent, RIKKOVAN_HEAD_BYTES, &task, 0);
    }
    expect_book("a seventeenth", &lent, RIKKOVAN_HEAD_BYTES, &seventeenth, RIKKOVAN_REFUSED_TASKS);
    for (k = 1; k <= MOST + 1; k++) {
        heavy.id = (uint8_t)k;
        expect_book("an id in use before a seventeenth", &lent, RIKKOVAN_HEAD_BYTES, &heavy,
                    k <= MOST ? RIKKOVAN_REFUSED_ID_IN_USE : RIKKOVAN_REFUSED_TASKS);
    }
    lent.head[1 + C(SYSCLK)] = lent.wanted[1 + C(SYSCLK)] = RIKKOVAN_CORE_DBL96;
    expect_book("a seventeenth before an HCLK", &lent, RIKKOVAN_HEAD_BYTES, &heavy,
                RIKKOVAN_REFUSED_TASKS);
    for (k = 0; k < MOST; k++)
        expect_release("released in turn", &lent, RIKKOVAN_HEAD_BYTES,
                       lent.head[1 + RIKKOVAN_HEAD_AT_TASK(place[k])], place[k], 0);
    for (k = 0; k < 256; k++)
        expect_release("no task", &lent, RIKKOVAN_HEAD_BYTES, (uint8_t)k, 0,
                       RIKKOVAN_REFUSED_ID_UNKNOWN);
}

/* The first of sixteen tasks are the head's; the others stand past the record. */
static void lend_first(struct lent *lent, const struct rikkovan_task *task, int count)
{
    lend_tasks(lent, NULL, 0, task, MOST);
    put_count(lent->head + 1, count);
    put_count(lent->wanted + 1, count);
}

/* Every place of every count, and ids that no task has; one of them stands just past the record. */
static void test_releases(void)
{
    struct rikkovan_task task[MOST];
    struct lent lent;
    int count, id;

    for (id = 0; id < MOST; id++)
        task[id] = light(id);
    for (count = 0; count <= MOST; count++)
        for (id = 0; id < 256; id++) {
            int known = id >= 1 && id <= count;

            lend_first(&lent, task, count);
            expect_release("every id", &lent, RIKKOVAN_HEAD_BYTES, (uint8_t)id, id - 1,
                           known ? 0 : RIKKOVAN_REFUSED_ID_UNKNOWN);
        }
}

/* The same of look-ups, with ids from 255 down. A release finds what the look-up found. */
static void test_look_ups(void)
{
    struct rikkovan_task task[MOST];
    struct lent lent;
    int count, id, place;

    for (place = 0; place < MOST; place++) {
        task[place] = light(place);
        task[place].id = (uint8_t)(255 - place);
    }
    for (count = 0; count <= MOST; count++)
        for (id = 0; id < 256; id++) {
            int hit;

            place = 255 - id;
            hit = place < count;
            lend_first(&lent, task, count);
            expect_look_up("every id", &lent, RIKKOVAN_HEAD_BYTES, (uint8_t)id, hit,
                           hit ? place + 1 : count, 0);
            expect_release("looked up", &lent, RIKKOVAN_HEAD_BYTES, (uint8_t)id, place,
                           hit ? 0 : RIKKOVAN_REFUSED_ID_UNKNOWN);
            expect_look_up("released", &lent, RIKKOVAN_HEAD_BYTES, (uint8_t)id, 0, count - hit, 0);
        }
}

/* The head's refusals, each before those below it, and before the call's own. */
struct refusal_case {
    uint32_t refusal;
    size_t head_len;
    struct edit edit[2];
};

static const struct refusal_case refusals[] = {
    {RIKKOVAN_REFUSED_LENGTH, 0, {{AT(VERSION), 2}}},
    {RIKKOVAN_REFUSED_LENGTH, 254, {{AT(VERSION), 2}}},
    {RIKKOVAN_REFUSED_LENGTH, 256, {{AT(VERSION), 2}}},
    {RIKKOVAN_REFUSED_LENGTH, RIKKOVAN_HEAD_BYTES,
     {{AT(TASK_COUNT), 3}, {AT(VERSION), 2}}},
    {RIKKOVAN_REFUSED_LENGTH, RIKKOVAN_HEAD_BYTES,
     {{AT(LENGTH) + 1, 109}, {AT(VERSION), 2}}},
    {RIKKOVAN_REFUSED_VERSION, RIKKOVAN_HEAD_BYTES,
     {{AT(VERSION), 2}, {C(SYSCLK), 4}}},
    {RIKKOVAN_REFUSED_CODE, RIKKOVAN_HEAD_BYTES, {{C(SYSCLK), 4}}},
    {RIKKOVAN_REFUSED_CODE, RIKKOVAN_HEAD_BYTES, {{RIKKOVAN_HEAD_AT_TASK(1), 1}}},
    {RIKKOVAN_REFUSED_CODE, RIKKOVAN_HEAD_BYTES, {{RIKKOVAN_HEAD_AT_TASK(0), 0}}},
    {RIKKOVAN_REFUSED_CODE, RIKKOVAN_HEAD_BYTES, {{RIKKOVAN_HEAD_AT_TASK(1) + 5, 1}}},
};

static void test_refusals(void)
{
    static const struct rikkovan_task two[] = {{1, 1, 1000}, {2, 1, 1000}};
    static const struct rikkovan_task booked[] = {
        {3, 1, 1000}, {0, 1, 1000}, {1, 1, 1000}, {3, LARGEST, 1}};
    struct lent lent;
    size_t i, k;

    for (i = 0; i < sizeof refusals / sizeof refusals[0]; i++) {
        const struct refusal_case *one = &refusals[i];

        for (k = 0; k < sizeof booked / sizeof booked[0]; k++) {
            lend_tasks(&lent, one->edit, 2, two, 2);
            expect_book("refused head", &lent, one->head_len, &booked[k], one->refusal);
            lend_tasks(&lent, one->edit, 2, two, 2);
            expect_release("refused head", &lent, one->head_len, booked[k].id, 0, one->refusal);
            expect_look_up("refused head", &lent, one->head_len, booked[k].id, 0, 0, one->refusal);
        }
    }
}

/* What refuses a booking of id 3 with a share of 3,000 on a head with two tasks. */
static enum rikkovan_refusal refusal_of(const uint8_t *head)
{
    const uint8_t *tasks = head + RIKKOVAN_HEAD_AT_TASK(0);
    uint32_t clocks[RIKKOVAN_CLOCKS], hclk;
    rikkovan_answer answer = rikkovan_read_clocks(head, RIKKOVAN_HEAD_BYTES, clocks);
    uint64_t load;

    if (!rikkovan_done(answer))
        return rikkovan_refusal(answer);
    if (tasks[0] == 3 || tasks[NINE] == 3)
        return RIKKOVAN_REFUSED_ID_IN_USE;
    hclk = clocks[RIKKOVAN_CLOCK_HCLK];
    if (hclk == 0)
        return RIKKOVAN_REFUSED_HCLK_UNREADABLE;
    load = rikkovan_load(rikkovan_load_check(tasks, 2 * NINE)) + 3000;
    return load > hclk ? RIKKOVAN_REFUSED_LOAD : RIKKOVAN_NOT_REFUSED;
}

/* What a look-up of the second task gives on a head with two, held to a reading. */
static void expect_second(const struct lent *lent)
{
    const uint8_t *head = lent->head + 1;
    uint32_t clocks[RIKKOVAN_CLOCKS];
    rikkovan_answer answer = rikkovan_read_clocks(head, RIKKOVAN_HEAD_BYTES, clocks);
    int done = rikkovan_done(answer);

    expect_look_up("a byte at every value", lent, RIKKOVAN_HEAD_BYTES, 2,
                   done && head[RIKKOVAN_HEAD_AT_TASK(1)] == 2, done ? 2 : 0,
                   rikkovan_refusal(answer));
}

/* Every byte of a head at every value, held to a reading and to the load check. */
static void test_bytes(void)
{
    static const struct rikkovan_task two[] = {{1, 1, 1000}, {2, 2, 1000}}, three = {3, 3, 1000};
    struct lent lent;
    int at, value;

    for (at = 0; at < RIKKOVAN_HEAD_BYTES; at++)
        for (value = 0; value < 256; value++) {
            lend_tasks(&lent, NULL, 0, two, 2);
            lent.head[1 + at] = lent.wanted[1 + at] = (uint8_t)value;
            expect_second(&lent);
            expect_book("a byte at every value", &lent, RIKKOVAN_HEAD_BYTES, &three,
                        refusal_of(lent.head + 1));
        }
}

int main(void)
{
    test_loads();
    test_list_lengths();
    test_largest_load();
    test_bookings();
    test_sixteen();
    test_releases();
    test_look_ups();
    test_refusals();
    test_bytes();
    return failures != 0;
}
