/* Tests the names and small functions of rikkovan.h. Prints a line for each failure. */
#include <stdio.h>
#include <string.h>

#include "rikkovan.h"

static int failures = 0;

static void expect(const char *what, uint64_t wanted, uint64_t got)
{
    if (wanted == got)
        return;
    printf("helpers: %s: wanted %lu, got %lu\n", what, (unsigned long)wanted, (unsigned long)got);
    failures++;
}

static void test_numbers(void)
{
    uint8_t bytes[6] = {0xEE, 0, 0, 0, 0, 0xEE};
    const uint8_t wanted[6] = {0xEE, 0xFE, 0xDC, 0xBA, 0x98, 0xEE};

    rikkovan_put_32(bytes + 1, 0xFEDCBA98);
    expect("four bytes", 0, memcmp(bytes, wanted, 6) != 0);
    expect("four bytes read", 0xFEDCBA98, rikkovan_get_32(bytes + 1));
    expect("two bytes read", 0xDCBA, rikkovan_get_16(bytes + 2));
    rikkovan_put_16(bytes + 3, 0x0180);
    expect("two bytes", 0xFEDC0180, rikkovan_get_32(bytes + 1));
}

static void test_dll(void)
{
    expect("lowest DLL", 12000000, rikkovan_dll_hz(0, 1));
    expect("highest DLL", 384000000, rikkovan_dll_hz(RIKKOVAN_MOST_STAGE, 0));
    expect("stage of 24 MHz", 0, RIKKOVAN_STAGE_OF(24));
    expect("stage of 384 MHz", RIKKOVAN_MOST_STAGE, RIKKOVAN_STAGE_OF(384));
}

/* A plan at 144 MHz by name; USB must leave the core clock then. */
static void test_plan(void)
{
    uint8_t record[RIKKOVAN_PLAN_BYTES] = RIKKOVAN_DEFAULT_PLAN;
    struct rikkovan_plan plan = rikkovan_get_plan(record);

    plan.dll1.stage = RIKKOVAN_STAGE_OF(144);
    rikkovan_put_plan(record, plan);
    expect("USB on 144 MHz", RIKKOVAN_REFUSED_USB_CLOCK,
           rikkovan_plan_refusal(rikkovan_plan_check(record, sizeof record)));
    plan.dll2.stage = RIKKOVAN_STAGE_OF(240);
    plan.usb_source = RIKKOVAN_USB_DLL2;
    rikkovan_put_plan(record, plan);
    expect("USB on 240 MHz", RIKKOVAN_NOT_REFUSED,
           rikkovan_plan_refusal(rikkovan_plan_check(record, sizeof record)));
}

/* The fields of a plan, read and written again, are the same bytes; each has a byte of its own. */
static void test_plan_fields(void)
{
    const uint8_t defaults[RIKKOVAN_PLAN_BYTES] = RIKKOVAN_DEFAULT_PLAN;
    uint8_t record[RIKKOVAN_PLAN_BYTES], written[RIKKOVAN_PLAN_BYTES];
    unsigned at;

    memset(written, 0xEE, sizeof written);
    rikkovan_put_plan(written, rikkovan_get_plan(defaults));
    expect("the default plan written", 0, memcmp(written, defaults, sizeof written) != 0);
    memcpy(record, defaults, sizeof record);
    for (at = RIKKOVAN_PLAN_AT_CORE; at < RIKKOVAN_PLAN_BYTES; at++)
        record[at] = (uint8_t)(100 + at);
    rikkovan_put_plan(written, rikkovan_get_plan(record));
    expect("every field written", 0, memcmp(written, record, sizeof written) != 0);
    expect("a field in the middle", 100 + RIKKOVAN_PLAN_AT_USB, rikkovan_get_plan(record).usb);
    expect("the last field", 100 + RIKKOVAN_PLAN_AT_MPI2, rikkovan_get_plan(record).mpi2);
}

/* An empty head is accepted with any register at its largest value. */
static void test_registers(void)
{
    static const struct {
        uint32_t reg, most;
    } limits[] = {
        {RIKKOVAN_REG_HPSYS_CFGR, RIKKOVAN_VALUE(255, RIKKOVAN_MOST_PDIV, RIKKOVAN_MOST_PDIV)},
        {RIKKOVAN_REG_DLL2, RIKKOVAN_VALUE(1, 1, RIKKOVAN_MOST_STAGE)},
        {RIKKOVAN_REG_FLASH, RIKKOVAN_VALUE(0, RIKKOVAN_MPI_RESERVED, RIKKOVAN_MPI_RESERVED)},
        {RIKKOVAN_REG_USB_DIVIDER, RIKKOVAN_MOST_USB_DIVIDER},
        {RIKKOVAN_REG_HPSYS_SUPPLY, RIKKOVAN_HPSYS_SUPPLY_D},
        {RIKKOVAN_REG_HPSYS_VOUT, RIKKOVAN_MOST_VOLTAGE},
        {RIKKOVAN_REG_HRC_TRIM, RIKKOVAN_MOST_TRIM},
        {RIKKOVAN_REG_LPSYS_SUPPLY, RIKKOVAN_LPSYS_SUPPLY_S},
    };
    uint32_t clocks[RIKKOVAN_CLOCKS];
    size_t i;

    for (i = 0; i < sizeof limits / sizeof limits[0]; i++) {
        uint8_t head[RIKKOVAN_HEAD_BYTES] = RIKKOVAN_EMPTY_HEAD;

        rikkovan_put_register(head, limits[i].reg, limits[i].most);
        expect("register", limits[i].most, rikkovan_get_register(head, limits[i].reg));
        expect("largest value", RIKKOVAN_NOT_REFUSED,
               rikkovan_refusal(rikkovan_read_clocks(head, sizeof head, clocks)));
        rikkovan_put_register(head, limits[i].reg, limits[i].most + 1);
        expect("one more", RIKKOVAN_REFUSED_CODE,
               rikkovan_refusal(rikkovan_read_clocks(head, sizeof head, clocks)));
    }
}

/* Sixteen tasks, put into a head one by one, are those that bookings leave. */
static void test_tasks(void)
{
    uint8_t made[RIKKOVAN_HEAD_BYTES] = RIKKOVAN_EMPTY_HEAD, booked[RIKKOVAN_HEAD_BYTES], k;

    rikkovan_put_flag(made, RIKKOVAN_FLAG_HRC48, RIKKOVAN_READY);
    memcpy(booked, made, sizeof made);
    for (k = 0; k < RIKKOVAN_MOST_TASKS; k++) {
        const struct rikkovan_task task = {(uint8_t)(255 - k), 0x01020304, RIKKOVAN_MOST_PERIOD_US};
        struct rikkovan_task read;

        rikkovan_add_head_task(made, task);
        expect("number of tasks", k + 1u, rikkovan_get_task_count(made));
        read = rikkovan_get_head_task(made, k);
        expect("id", task.id, read.id);
        expect("cycles", task.cycles, read.cycles);
        expect("period", task.period_us, read.period_us);
        expect("booking", RIKKOVAN_NOT_REFUSED,
               rikkovan_refusal(
                   rikkovan_book(booked, sizeof booked, read.id, read.cycles, read.period_us)));
        expect("the tasks booked", 0, memcmp(made, booked, sizeof made) != 0);
    }
}

/* Flags, boot mode and wake count are those that the calls go by. */
static void test_flags(void)
{
    uint8_t head[RIKKOVAN_HEAD_BYTES] = RIKKOVAN_EMPTY_HEAD;
    uint32_t journal[RIKKOVAN_JOURNAL_WORDS];

    rikkovan_put_flag(head, RIKKOVAN_FLAG_HXT48, RIKKOVAN_READY);
    expect("HXT48 set", RIKKOVAN_READY, rikkovan_get_flag(head, RIKKOVAN_FLAG_HXT48));
    expect("HRC48 not set", RIKKOVAN_NOT_READY, rikkovan_get_flag(head, RIKKOVAN_FLAG_HRC48));
    expect("HXT48 of LPSYS runs out of answers", RIKKOVAN_REFUSED_ANSWERS_RAN_OUT,
           rikkovan_refusal(rikkovan_ensure_hxt48_ready(head, sizeof head, journal,
                                                        RIKKOVAN_JOURNAL_WORDS,
                                                        RIKKOVAN_NO_ANSWERS)));
    rikkovan_put_flag(head, RIKKOVAN_FLAG_LPSYS_HXT48, RIKKOVAN_READY);
    expect("both are ready", 1,
           (uint64_t)rikkovan_done(rikkovan_ensure_hxt48_ready(head, sizeof head, journal,
                                                               RIKKOVAN_JOURNAL_WORDS,
                                                               RIKKOVAN_NO_ANSWERS)));
    rikkovan_put_wake_count(head, 9);
    expect("cancelled", 1,
           (uint64_t)rikkovan_done(rikkovan_cancel_lcpu_active_request(head, sizeof head, journal,
                                                                       RIKKOVAN_JOURNAL_WORDS)));
    expect("wake count", 8, rikkovan_get_wake_count(head));
    rikkovan_put_boot_mode(head, RIKKOVAN_BOOT_STANDBY);
    expect("boot mode", RIKKOVAN_BOOT_STANDBY, rikkovan_get_boot_mode(head));
    expect("boot mode beside the wake count", 8, rikkovan_get_wake_count(head));
}

/* A list for the load check, made and read. */
static void test_list(void)
{
    const struct rikkovan_task two[] = {{1, 120000, 1000}, {200, 80000, 1000}};
    uint8_t list[2 * RIKKOVAN_TASK_BYTES];
    uint64_t checked;

    rikkovan_put_task(list, 0, two[0]);
    rikkovan_put_task(list, 1, two[1]);
    expect("the second id", 200, rikkovan_get_task(list, 1).id);
    checked = rikkovan_load_check(list, sizeof list);
    expect("a list", RIKKOVAN_NOT_REFUSED, rikkovan_load_refusal(checked));
    expect("its load", 200000000, rikkovan_load(checked));
    rikkovan_put_task(list, 1, two[0]);
    checked = rikkovan_load_check(list, sizeof list);
    expect("one id twice", RIKKOVAN_REFUSED_ID_IN_USE, rikkovan_load_refusal(checked));
    expect("no load", 0, rikkovan_load(checked));
    expect("no tasks", 0, rikkovan_load_check(RIKKOVAN_NO_TASKS));
}

static void test_entries(void)
{
    const uint32_t wait = RIKKOVAN_WAIT(RIKKOVAN_WAIT_DLL2, 4096), delay = RIKKOVAN_DELAY(60000);
    const uint32_t store = RIKKOVAN_STORE(RIKKOVAN_REG_LPSYS_MAC, RIKKOVAN_VALUE(1, 2, 255));
    uint8_t head[RIKKOVAN_HEAD_BYTES] = RIKKOVAN_EMPTY_HEAD, before[RIKKOVAN_HEAD_BYTES];

    expect("number", RIKKOVAN_ENTRY_WAIT, rikkovan_entry_number(wait));
    expect("kind", RIKKOVAN_WAIT_DLL2, rikkovan_wait_kind(wait));
    expect("taken", 4096, rikkovan_wait_taken(wait));
    expect("cycles of a delay", 60000, rikkovan_entry_value(delay));
    expect("a delay is a delay", 1, (uint64_t)rikkovan_is_delay(delay));
    expect("a delay is a wait", 0, (uint64_t)rikkovan_is_wait(delay));
    expect("a wait is a wait", 1, (uint64_t)rikkovan_is_wait(wait));
    expect("a wait is a delay", 0, (uint64_t)rikkovan_is_delay(wait));
    expect("a wait is a store", 0, (uint64_t)rikkovan_is_store(wait));
    expect("byte a", 1, rikkovan_value_a(rikkovan_entry_value(store)));
    expect("byte b", 2, rikkovan_value_b(rikkovan_entry_value(store)));
    expect("byte c", 255, rikkovan_value_c(rikkovan_entry_value(store)));
    expect("0 is a store", 0, (uint64_t)rikkovan_is_store(0));
    expect("register 34 is a store", 1, (uint64_t)rikkovan_is_store(store));
    memcpy(before, head, sizeof head);
    rikkovan_put_entry(head, wait);
    rikkovan_put_entry(head, 0);
    expect("what is no store", 0, memcmp(head, before, sizeof head) != 0);
    rikkovan_put_entry(head, store);
    expect("a store", RIKKOVAN_VALUE(1, 2, 255),
           rikkovan_get_register(head, RIKKOVAN_REG_LPSYS_MAC));
}

/* Each mode's values are just what a fit head needs at the mode's highest HCLK. */
struct mode {
    uint32_t hz, supply, buck_reg, buck, ldo_reg, ldo;
};

static uint32_t refusal_at(const struct mode *mode, uint32_t buck, uint32_t ldo)
{
    const uint8_t plan[RIKKOVAN_PLAN_BYTES] = RIKKOVAN_DEFAULT_PLAN;
    const uint16_t ready = RIKKOVAN_READY;
    uint8_t head[RIKKOVAN_HEAD_BYTES] = RIKKOVAN_EMPTY_HEAD;
    uint32_t journal[RIKKOVAN_JOURNAL_WORDS], stage = mode->hz / RIKKOVAN_DLL_STEP_HZ - 1;

    rikkovan_put_flag(head, RIKKOVAN_FLAG_HXT48, RIKKOVAN_READY);
    rikkovan_put_flag(head, RIKKOVAN_FLAG_HRC48, RIKKOVAN_READY);
    rikkovan_put_register(head, RIKKOVAN_REG_LPSYS_SUPPLY, RIKKOVAN_LPSYS_SUPPLY_S);
    rikkovan_put_register(head, RIKKOVAN_REG_SYSCLK, RIKKOVAN_CORE_DLL1);
    rikkovan_put_register(head, RIKKOVAN_REG_DLL1, RIKKOVAN_VALUE(1, 0, stage));
    rikkovan_put_register(head, RIKKOVAN_REG_HPSYS_SUPPLY, mode->supply);
    rikkovan_put_register(head, mode->buck_reg, buck);
    rikkovan_put_register(head, mode->ldo_reg, ldo);
    return rikkovan_refusal(rikkovan_change(head, sizeof head, plan, sizeof plan, journal,
                                            RIKKOVAN_JOURNAL_WORDS, &ready, 1));
}

#define MODE(mode, supply, buck, ldo) \
    {RIKKOVAN_##mode##_MOST_HZ, RIKKOVAN_HPSYS_SUPPLY_##supply, RIKKOVAN_REG_##buck, \
     RIKKOVAN_##mode##_BUCK, RIKKOVAN_REG_##ldo, RIKKOVAN_##mode##_LDO}

static void test_modes(void)
{
    static const struct mode modes[] = {
        MODE(D0, D, SET_VOUT_M, HPSYS_LDO),
        MODE(D1, D, SET_VOUT_M, HPSYS_LDO),
        MODE(S0, S, BUCK_VOUT, HPSYS_VOUT),
        MODE(S1, S, BUCK_VOUT, HPSYS_VOUT),
    };
    size_t i;

    for (i = 0; i < sizeof modes / sizeof modes[0]; i++) {
        const struct mode *mode = &modes[i];

        expect("rails of a mode", 0, refusal_at(mode, mode->buck, mode->ldo));
        expect("buck one too low", RIKKOVAN_REFUSED_UNFIT,
               refusal_at(mode, mode->buck - 1, mode->ldo));
        expect("ldo one too low", RIKKOVAN_REFUSED_UNFIT,
               refusal_at(mode, mode->buck, mode->ldo - 1));
    }
}

int main(void)
{
    test_numbers();
    test_dll();
    test_plan();
    test_plan_fields();
    test_registers();
    test_tasks();
    test_flags();
    test_list();
    test_entries();
    test_modes();
    return failures != 0;
}
