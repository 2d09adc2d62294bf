#include "fuzz.h"

static uint32_t byte_c(const uint8_t *head, uint32_t reg)
{
    return head[RIKKOVAN_HEAD_AT_C(reg)];
}

uint8_t largest_in_register(unsigned reg, unsigned byte)
{
    static const uint8_t largest[RIKKOVAN_REGISTERS][3] = {
        {0, 0, 3},     {255, 7, 7},   {1, 1, 15}, {1, 1, 15},    {0, 3, 3},     {0, 0, 1},
        {0, 0, 1},     {0, 0, 7},     {0, 0, 0},  {0, 0, 1},     {0, 1, 1},     {0, 0, 1},
        {0, 0, 15},    {0, 0, 15},    {0, 0, 15}, {0, 0, 15},    {0, 255, 255}, {0, 255, 255},
        {0, 3, 255},   {0, 255, 255}, {0, 0, 1},  {0, 0, 1},     {0, 0, 1},     {0, 0, 1},
        {0, 0, 1},     {255, 7, 7},   {0, 0, 1},  {0, 0, 1},     {0, 0, 15},    {0, 0, 15},
        {0, 255, 255}, {0, 0, 1},     {0, 0, 1},  {0, 255, 255},
    };

    return largest[reg - 1][byte];
}

/* Whether a word is a store of what its register may hold, a delay or a wait. */
int model_is_entry(uint32_t word)
{
    uint32_t number = rikkovan_entry_number(word), value = rikkovan_entry_value(word);

    if (!rikkovan_is_store(word))
        return rikkovan_is_delay(word) || rikkovan_is_wait(word);
    return rikkovan_value_a(value) <= largest_in_register(number, 0) &&
           rikkovan_value_b(value) <= largest_in_register(number, 1) &&
           rikkovan_value_c(value) <= largest_in_register(number, 2);
}

int model_task_is_good(uint8_t id, uint32_t cycles, uint32_t period_us)
{
    return id >= 1 && cycles >= 1 && period_us >= 1 && period_us <= RIKKOVAN_MOST_PERIOD_US;
}

/* 0, or what refuses tasks in a list: one that is not good, then two of one id. */
uint32_t model_tasks_refusal(const uint8_t *tasks, unsigned count)
{
    unsigned k, other;

    for (k = 0; k < count; k++) {
        struct rikkovan_task task = rikkovan_get_task(tasks, k);

        if (!model_task_is_good(task.id, task.cycles, task.period_us))
            return RIKKOVAN_REFUSED_TASK;
    }
    for (k = 0; k < count; k++)
        for (other = 0; other < k; other++)
            if (rikkovan_get_task(tasks, k).id == rikkovan_get_task(tasks, other).id)
                return RIKKOVAN_REFUSED_ID_IN_USE;
    return 0;
}

uint64_t model_share(uint32_t cycles, uint32_t period_us)
{
    return ((uint64_t)cycles * 1000000 + period_us - 1) / period_us;
}

uint64_t model_load(const uint8_t *tasks, unsigned count)
{
    uint64_t load = 0;
    unsigned k;

    for (k = 0; k < count; k++) {
        struct rikkovan_task task = rikkovan_get_task(tasks, k);

        load += model_share(task.cycles, task.period_us);
    }
    return load;
}

uint64_t model_booked_load(const uint8_t *head)
{
    return model_load(head + RIKKOVAN_HEAD_AT_TASK(0), head[RIKKOVAN_HEAD_AT_TASK_COUNT]);
}

/* The place of the task with an id, and the number of tasks where none has it. */
uint32_t model_place(const uint8_t *head, uint8_t id)
{
    uint32_t place = 0;

    while (place < rikkovan_get_task_count(head) && rikkovan_get_head_task(head, place).id != id)
        place++;
    return place;
}

uint32_t model_head_refusal(const uint8_t *head, size_t len)
{
    unsigned tasks, reg, byte, flag;

    if (len != RIKKOVAN_HEAD_BYTES)
        return RIKKOVAN_REFUSED_LENGTH;
    tasks = head[RIKKOVAN_HEAD_AT_TASK_COUNT];
    if (tasks > RIKKOVAN_MOST_TASKS || rikkovan_get_16(head) != RIKKOVAN_HEAD_FOLLOWING(tasks))
        return RIKKOVAN_REFUSED_LENGTH;
    if (head[RIKKOVAN_HEAD_AT_VERSION] != 1)
        return RIKKOVAN_REFUSED_VERSION;
    for (reg = 1; reg <= RIKKOVAN_REGISTERS; reg++)
        for (byte = 0; byte < 3; byte++)
            if (head[RIKKOVAN_HEAD_AT_A(reg) + byte] > largest_in_register(reg, byte))
                return RIKKOVAN_REFUSED_CODE;
    for (flag = RIKKOVAN_HEAD_AT_HXT48_READY; flag <= RIKKOVAN_HEAD_AT_LPSYS_HXT48_READY; flag++)
        if (head[flag] > 1)
            return RIKKOVAN_REFUSED_CODE;
    if (model_tasks_refusal(head + RIKKOVAN_HEAD_AT_TASK(0), tasks) != 0)
        return RIKKOVAN_REFUSED_CODE;
    return 0;
}

static uint32_t divided(uint32_t hz, uint8_t divider)
{
    return divider == 0 ? hz : hz / divider;
}

static uint32_t oscillator(const uint8_t *head, int hxt48)
{
    int flag = hxt48 ? RIKKOVAN_HEAD_AT_HXT48_READY : RIKKOVAN_HEAD_AT_HRC48_READY;

    return head[flag] == RIKKOVAN_READY ? RIKKOVAN_OSCILLATOR_HZ : 0;
}

uint32_t model_hclk(const uint8_t *head)
{
    const uint8_t *dll1 = head + RIKKOVAN_HEAD_AT_A(RIKKOVAN_REG_DLL1);
    uint32_t core = byte_c(head, RIKKOVAN_REG_SYSCLK), hz = 0;

    if (core == RIKKOVAN_CORE_HRC48 || core == RIKKOVAN_CORE_HXT48)
        hz = oscillator(head, core == RIKKOVAN_CORE_HXT48);
    if (core == RIKKOVAN_CORE_DLL1 && dll1[0] == 1)
        hz = rikkovan_dll_hz(dll1[2], dll1[1]);
    return divided(hz, head[RIKKOVAN_HEAD_AT_A(RIKKOVAN_REG_HPSYS_CFGR)]);
}

uint32_t model_lpsys_hclk(const uint8_t *head)
{
    uint32_t source = byte_c(head, RIKKOVAN_REG_LPSYS_SYSCLK);

    return divided(oscillator(head, source == RIKKOVAN_LPSYS_HXT48),
                   head[RIKKOVAN_HEAD_AT_A(RIKKOVAN_REG_LPSYS_CFGR)]);
}

/* The HCLK of a plan that is accepted. */
uint32_t model_plan_hclk(const uint8_t *plan)
{
    uint32_t hz = RIKKOVAN_OSCILLATOR_HZ;

    if (plan[RIKKOVAN_PLAN_AT_CORE] == RIKKOVAN_CORE_DLL1)
        hz = rikkovan_dll_hz(plan[RIKKOVAN_PLAN_AT_DLL1_STAGE], plan[RIKKOVAN_PLAN_AT_DLL1_HALF]);
    return divided(hz, plan[RIKKOVAN_PLAN_AT_HDIV]);
}

uint32_t model_rail_limit(const uint8_t *head)
{
    uint32_t buck = byte_c(head, RIKKOVAN_REG_BUCK_VOUT);
    uint32_t ldo = byte_c(head, RIKKOVAN_REG_HPSYS_VOUT);

    if (byte_c(head, RIKKOVAN_REG_HPSYS_SUPPLY) == RIKKOVAN_HPSYS_SUPPLY_S) {
        if (buck >= RIKKOVAN_S1_BUCK && ldo >= RIKKOVAN_S1_LDO)
            return RIKKOVAN_S1_MOST_HZ;
        return buck >= RIKKOVAN_S0_BUCK && ldo >= RIKKOVAN_S0_LDO ? RIKKOVAN_S0_MOST_HZ : 0;
    }
    buck = byte_c(head, RIKKOVAN_REG_SET_VOUT_M);
    ldo = byte_c(head, RIKKOVAN_REG_HPSYS_LDO);
    if (buck >= RIKKOVAN_D1_BUCK && ldo >= RIKKOVAN_D1_LDO)
        return RIKKOVAN_D1_MOST_HZ;
    return buck >= RIKKOVAN_D0_BUCK && ldo >= RIKKOVAN_D0_LDO ? RIKKOVAN_D0_MOST_HZ : 0;
}

static int flash_is_off(const uint8_t *head, uint8_t select)
{
    return (select == RIKKOVAN_MPI_DLL1 && head[RIKKOVAN_HEAD_AT_A(RIKKOVAN_REG_DLL1)] == 0) ||
           (select == RIKKOVAN_MPI_DLL2 && head[RIKKOVAN_HEAD_AT_A(RIKKOVAN_REG_DLL2)] == 0);
}

enum rikkovan_unfit model_unfit(const uint8_t *head)
{
    const uint8_t *flash = head + RIKKOVAN_HEAD_AT_A(RIKKOVAN_REG_FLASH);
    uint32_t hclk = model_hclk(head), lpsys = model_lpsys_hclk(head);

    if (hclk == 0)
        return RIKKOVAN_UNFIT_HCLK_UNREADABLE;
    if (hclk > model_rail_limit(head))
        return RIKKOVAN_UNFIT_HCLK;
    if (flash_is_off(head, flash[1]))
        return RIKKOVAN_UNFIT_MPI1;
    if (flash_is_off(head, flash[2]))
        return RIKKOVAN_UNFIT_MPI2;
    if (lpsys == 0)
        return RIKKOVAN_UNFIT_LPSYS_SOURCE;
    if (lpsys > RIKKOVAN_LPSYS_D_MOST_HZ &&
        byte_c(head, RIKKOVAN_REG_LPSYS_SUPPLY) != RIKKOVAN_LPSYS_SUPPLY_S)
        return RIKKOVAN_UNFIT_LPSYS_HCLK;
    return RIKKOVAN_FIT;
}

int model_is_fit(const uint8_t *head)
{
    return model_unfit(head) == RIKKOVAN_FIT;
}
