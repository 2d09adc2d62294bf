/*
 * rikkovan.h: the clock control of an SF32LB52x detector head, for C and C++.
 *
 * Link with librikkovan.a (pkg-config name: rikkovan), which is for Linux on x86-64; `make chip`
 * builds one for a Cortex-M33, tested and not proved. The library needs nothing but the C library,
 * keeps no state between calls, allocates nothing and does no input or output. Calls may run at the
 * same time in several threads, as long as nothing else writes what is lent to a call, or reads
 * what the call writes, before it returns.
 *
 * A lent buffer is a pointer and a number of elements. The pointer must not be NULL, not even where
 * the number is 0, and that many elements must be readable there. An array of a fixed size is lent
 * by its pointer alone. What a call writes must be writable, and must not overlap with anything
 * else that is lent to the call. Nothing else is asked of the caller: every content and every
 * length gets one result, and every call returns.
 *
 * A number of elements is a uint64_t and not a size_t: the library has lengths of 64 bits on every
 * chip. Where size_t has 32, a call declared with it links, and takes its arguments for others.
 *
 * The parts of this header are refusals; plans; heads, with their tasks and registers; what a call
 * on a head returns; readings; journals; answers; LPSYS; calibration, init and reconfigure; tasks;
 * the guarded change; the stack that calls need. The library has the calls alone. The small
 * functions are compiled into the caller: they make and read records, journal entries and what
 * calls return, so that no caller needs the place of a byte. They test nothing: what is put in must
 * be in its range.
 *
 * An answer is what the chip says when it is polled. A call returns: a number, or a rikkovan_answer
 * that says how it went.
 */
#ifndef RIKKOVAN_H
#define RIKKOVAN_H

#include <stdint.h>

#ifdef __cplusplus
extern "C" {
#endif

/* The version of the library. Records have versions of their own. */
#define RIKKOVAN_LIBRARY_VERSION "0.1.0"
#define RIKKOVAN_LIBRARY_MAJOR 0
#define RIKKOVAN_LIBRARY_MINOR 1
#define RIKKOVAN_LIBRARY_PATCH 0

/* Of a pointer to what a call writes: nothing else that is lent overlaps with it. */
#ifdef __cplusplus
#define RIKKOVAN_RESTRICT
#else
#define RIKKOVAN_RESTRICT restrict
#endif

/* An array, not a pointer to one, as the two arguments that lend all of it. */
#define RIKKOVAN_LEND(array) (array), sizeof(array) / sizeof((array)[0])

/* Frequencies in Hz. */
#define RIKKOVAN_MHZ 1000000
#define RIKKOVAN_OSCILLATOR_HZ (48 * RIKKOVAN_MHZ) /* HRC48 and HXT48 */
#define RIKKOVAN_DLL_STEP_HZ (24 * RIKKOVAN_MHZ)   /* DLL1 and DLL2, for each stage */
#define RIKKOVAN_LRC10_HZ 100000
#define RIKKOVAN_LRC32_HZ 32000

/*
 * Refusals
 * ========
 *
 * The number of each refusal, its name and its words, and above it the calls that give it. Numbers
 * 1 to 18 refuse what a call was given, and 31 to 43 the state of the head. A call makes its tests
 * in the order that its comment says, and the first that fails is its refusal.
 */
#define RIKKOVAN_REFUSALS(ROW) \
    /* every call */ \
    ROW(1, RIKKOVAN_REFUSED_LENGTH, "a record or buffer has the wrong length") \
    /* every call but rikkovan_load_check */ \
    ROW(2, RIKKOVAN_REFUSED_VERSION, "the version is unknown") \
    ROW(3, RIKKOVAN_REFUSED_CODE, "a byte holds what its field may not hold") \
    /* calls that are lent a plan */ \
    ROW(4, RIKKOVAN_REFUSED_CORE_DLL1, "the core is on DLL1, and DLL1 is absent") \
    ROW(5, RIKKOVAN_REFUSED_CORE_DBL96, "the core is on DBL96, which is not supported") \
    ROW(6, RIKKOVAN_REFUSED_MPI1, "flash 1 is on a DLL that is absent") \
    ROW(7, RIKKOVAN_REFUSED_MPI2, "flash 2 is on a DLL that is absent") \
    ROW(8, RIKKOVAN_REFUSED_USB_DLL2, "the USB source is DLL2, and DLL2 is absent") \
    ROW(9, RIKKOVAN_REFUSED_USB_CLOCK, "the USB source is not a multiple of 60 MHz") \
    ROW(10, RIKKOVAN_REFUSED_CORE_CLOCK, "the core is on DLL1, and DLL1 is below 24 MHz") \
    ROW(11, RIKKOVAN_REFUSED_HCLK, "HCLK is above 240 MHz") \
    ROW(12, RIKKOVAN_REFUSED_PCLK1, "PCLK1 is above 120 MHz, or above 48 MHz with HCLK at most 48 MHz") \
    ROW(13, RIKKOVAN_REFUSED_PCLK2, "PCLK2 is above 7.5 MHz, or above 6 MHz with HCLK at most 48 MHz") \
    ROW(14, RIKKOVAN_REFUSED_DLL2, "DLL2 before halving is above 288 MHz with HCLK above 48 MHz") \
    /* rikkovan_config_lpsys_hclk_mhz */ \
    ROW(15, RIKKOVAN_REFUSED_LPSYS_REQUEST, "the LPSYS request is 0 or above 48 MHz") \
    /* rikkovan_load_check, rikkovan_book */ \
    ROW(16, RIKKOVAN_REFUSED_TASK, "a task's id or cycles are 0, or its period is outside 1 to 10,000,000 us") \
    /* calls that are lent a journal */ \
    ROW(17, RIKKOVAN_REFUSED_JOURNAL, "the journal is shorter than 128 words") \
    /* calls that are lent answers */ \
    ROW(18, RIKKOVAN_REFUSED_ANSWERS, "there are more than 4,096 answers") \
    /* rikkovan_calibrate_hrc48; of rikkovan_init it is a value */ \
    ROW(31, RIKKOVAN_REFUSED_HXT48_NOT_READY, "HRC48 cannot be calibrated, since HXT48 is not ready") \
    /* rikkovan_init */ \
    ROW(32, RIKKOVAN_REFUSED_ON_HRC48, "init must calibrate HRC48, the core is on it, and HXT48 is not ready") \
    /* rikkovan_calibrate_hrc48; of rikkovan_init it is a value */ \
    ROW(33, RIKKOVAN_REFUSED_DIFFERENCE, "the calibration of HRC48 ended with a difference above 160") \
    /* rikkovan_config_lpsys_hclk_mhz, rikkovan_wake_lcpu, rikkovan_calibrate_hrc48, */ \
    /* rikkovan_init, rikkovan_reconfigure_sysclk, rikkovan_book */ \
    ROW(34, RIKKOVAN_REFUSED_HCLK_UNREADABLE, "HCLK cannot be read") \
    /* rikkovan_init, rikkovan_reconfigure_sysclk */ \
    ROW(35, RIKKOVAN_REFUSED_PRESENT_HCLK, "the present HCLK is above 240 MHz at a supply transition") \
    /* calls that are lent answers */ \
    ROW(36, RIKKOVAN_REFUSED_ANSWERS_RAN_OUT, "the answers ran out in a wait or a measurement") \
    /* rikkovan_change */ \
    ROW(37, RIKKOVAN_REFUSED_UNFIT, "the head is not fit for a guarded change") \
    ROW(38, RIKKOVAN_REFUSED_OSCILLATOR, "HXT48 is not ready, or HRC48 is planned and not ready") \
    /* rikkovan_change, rikkovan_book */ \
    ROW(39, RIKKOVAN_REFUSED_LOAD, "the load is above HCLK") \
    /* rikkovan_load_check, rikkovan_book */ \
    ROW(40, RIKKOVAN_REFUSED_ID_IN_USE, "a task's id is in use already") \
    ROW(41, RIKKOVAN_REFUSED_TASKS, "there are more than sixteen tasks") \
    /* rikkovan_release */ \
    ROW(42, RIKKOVAN_REFUSED_ID_UNKNOWN, "no task has the id") \
    /* rikkovan_ensure_safe_lcpu_frequency */ \
    ROW(43, RIKKOVAN_REFUSED_LPSYS_HCLK_UNREADABLE, "the LPSYS HCLK cannot be read")

#define RIKKOVAN_ENUMERATOR_(number, name, words) name = number,
#define RIKKOVAN_TEXT_(number, name, words) case name: return words;

enum rikkovan_refusal { RIKKOVAN_NOT_REFUSED = 0, RIKKOVAN_REFUSALS(RIKKOVAN_ENUMERATOR_) };

/* A refusal in words: one line of text in static storage, never NULL. */
static inline const char *rikkovan_refusal_text(enum rikkovan_refusal refusal)
{
    switch (refusal) {
    case RIKKOVAN_NOT_REFUSED: return "not refused";
    RIKKOVAN_REFUSALS(RIKKOVAN_TEXT_)
    }
    return "unknown number";
}

/* In records, numbers of two and four bytes stand with their high byte first. */
static inline uint16_t rikkovan_get_16(const uint8_t *bytes)
{
    return (uint16_t)(bytes[0] << 8 | bytes[1]);
}

static inline uint32_t rikkovan_get_32(const uint8_t *bytes)
{
    return (uint32_t)rikkovan_get_16(bytes) << 16 | rikkovan_get_16(bytes + 2);
}

static inline void rikkovan_put_16(uint8_t *bytes, uint16_t number)
{
    bytes[0] = (uint8_t)(number >> 8);
    bytes[1] = (uint8_t)(number & 0xFF);
}

static inline void rikkovan_put_32(uint8_t *bytes, uint32_t number)
{
    rikkovan_put_16(bytes, (uint16_t)(number >> 16));
    rikkovan_put_16(bytes + 2, (uint16_t)(number & 0xFFFF));
}

/*
 * Plans
 * =====
 *
 * A plan says which clocks a head is to run on. Its record is 20 bytes. The clocks of a plan are:
 *
 *   HRC48, HXT48   48 MHz
 *   DLL1, DLL2     24 MHz * (stage + 1), divided by 2 where half is 1
 *   core clock     the clock that the core select names
 *   HCLK           core clock / hdiv in Hz, rounded down; hdiv 0 divides by 1
 *   PCLK1          HCLK / 2^pdiv1 in Hz, rounded down
 *   PCLK2          HCLK / 2^pdiv2 in Hz, rounded down
 */
#define RIKKOVAN_PLAN_BYTES 20
#define RIKKOVAN_PLAN_FOLLOWING 18 /* the length field: the bytes that follow it */
#define RIKKOVAN_PLAN_VERSION_1 1  /* the version field */

/* The codes of fields by name. */
#define RIKKOVAN_CORE_HRC48 0
#define RIKKOVAN_CORE_HXT48 1
#define RIKKOVAN_CORE_DBL96 2 /* has a code, and every plan with it is refused */
#define RIKKOVAN_CORE_DLL1 3
#define RIKKOVAN_WDT_LRC10 0
#define RIKKOVAN_WDT_LRC32 1
#define RIKKOVAN_USB_CORE 0
#define RIKKOVAN_USB_DLL2 1
#define RIKKOVAN_PERIPHERAL_HRC48 0
#define RIKKOVAN_PERIPHERAL_HXT48 1
#define RIKKOVAN_MPI_PERIPHERAL 0
#define RIKKOVAN_MPI_DLL1 1
#define RIKKOVAN_MPI_DLL2 2

/* The largest values of fields that are not codes. */
#define RIKKOVAN_MOST_PDIV 7
#define RIKKOVAN_MOST_STAGE 15

/* The fields of a plan. */
struct rikkovan_dll {
    uint8_t present; /* 0 or 1; where it is 0, so are the others */
    uint8_t stage;   /* 0 to 15 */
    uint8_t half;    /* 0 or 1 */
};

struct rikkovan_plan {
    uint8_t core;  /* core select: RIKKOVAN_CORE_HRC48, _HXT48, _DBL96 or _DLL1 */
    uint8_t hdiv;  /* 0 to 255 */
    uint8_t pdiv1; /* 0 to 7 */
    uint8_t pdiv2; /* 0 to 7 */
    struct rikkovan_dll dll1, dll2;
    uint8_t calibrate;  /* 0 or 1: whether HRC48 is to be calibrated */
    uint8_t usb;        /* 0 or 1: whether USB is to get its 60 MHz */
    uint8_t wdt;        /* watchdog clock: RIKKOVAN_WDT_LRC10 or _LRC32 */
    uint8_t usb_source; /* RIKKOVAN_USB_CORE, the core clock, or _DLL2 */
    uint8_t peripheral; /* peripheral clock: RIKKOVAN_PERIPHERAL_HRC48 or _HXT48 */
    uint8_t mpi1;       /* clock of flash 1: RIKKOVAN_MPI_PERIPHERAL, _DLL1 or _DLL2 */
    uint8_t mpi2;       /* clock of flash 2: the same */
};

/* Where each field is in the record. */
#define RIKKOVAN_PLAN_AT_LENGTH 0 /* 2 bytes */
#define RIKKOVAN_PLAN_AT_VERSION 2
#define RIKKOVAN_PLAN_AT_CORE 3
#define RIKKOVAN_PLAN_AT_HDIV 4
#define RIKKOVAN_PLAN_AT_PDIV1 5
#define RIKKOVAN_PLAN_AT_PDIV2 6
#define RIKKOVAN_PLAN_AT_DLL1_PRESENT 7
#define RIKKOVAN_PLAN_AT_DLL1_STAGE 8
#define RIKKOVAN_PLAN_AT_DLL1_HALF 9
#define RIKKOVAN_PLAN_AT_DLL2_PRESENT 10
#define RIKKOVAN_PLAN_AT_DLL2_STAGE 11
#define RIKKOVAN_PLAN_AT_DLL2_HALF 12
#define RIKKOVAN_PLAN_AT_CALIBRATE 13
#define RIKKOVAN_PLAN_AT_USB 14
#define RIKKOVAN_PLAN_AT_WDT 15
#define RIKKOVAN_PLAN_AT_USB_SOURCE 16
#define RIKKOVAN_PLAN_AT_PERIPHERAL 17
#define RIKKOVAN_PLAN_AT_MPI1 18
#define RIKKOVAN_PLAN_AT_MPI2 19

/* Writes a plan's record. */
static inline void rikkovan_put_plan(uint8_t record[RIKKOVAN_PLAN_BYTES], struct rikkovan_plan plan)
{
    rikkovan_put_16(record + RIKKOVAN_PLAN_AT_LENGTH, RIKKOVAN_PLAN_FOLLOWING);
    record[RIKKOVAN_PLAN_AT_VERSION] = RIKKOVAN_PLAN_VERSION_1;
    record[RIKKOVAN_PLAN_AT_CORE] = plan.core;
    record[RIKKOVAN_PLAN_AT_HDIV] = plan.hdiv;
    record[RIKKOVAN_PLAN_AT_PDIV1] = plan.pdiv1;
    record[RIKKOVAN_PLAN_AT_PDIV2] = plan.pdiv2;
    record[RIKKOVAN_PLAN_AT_DLL1_PRESENT] = plan.dll1.present;
    record[RIKKOVAN_PLAN_AT_DLL1_STAGE] = plan.dll1.stage;
    record[RIKKOVAN_PLAN_AT_DLL1_HALF] = plan.dll1.half;
    record[RIKKOVAN_PLAN_AT_DLL2_PRESENT] = plan.dll2.present;
    record[RIKKOVAN_PLAN_AT_DLL2_STAGE] = plan.dll2.stage;
    record[RIKKOVAN_PLAN_AT_DLL2_HALF] = plan.dll2.half;
    record[RIKKOVAN_PLAN_AT_CALIBRATE] = plan.calibrate;
    record[RIKKOVAN_PLAN_AT_USB] = plan.usb;
    record[RIKKOVAN_PLAN_AT_WDT] = plan.wdt;
    record[RIKKOVAN_PLAN_AT_USB_SOURCE] = plan.usb_source;
    record[RIKKOVAN_PLAN_AT_PERIPHERAL] = plan.peripheral;
    record[RIKKOVAN_PLAN_AT_MPI1] = plan.mpi1;
    record[RIKKOVAN_PLAN_AT_MPI2] = plan.mpi2;
}

/* The fields of a plan's record. */
static inline struct rikkovan_plan rikkovan_get_plan(const uint8_t record[RIKKOVAN_PLAN_BYTES])
{
    struct rikkovan_plan plan;

    plan.core = record[RIKKOVAN_PLAN_AT_CORE];
    plan.hdiv = record[RIKKOVAN_PLAN_AT_HDIV];
    plan.pdiv1 = record[RIKKOVAN_PLAN_AT_PDIV1];
    plan.pdiv2 = record[RIKKOVAN_PLAN_AT_PDIV2];
    plan.dll1.present = record[RIKKOVAN_PLAN_AT_DLL1_PRESENT];
    plan.dll1.stage = record[RIKKOVAN_PLAN_AT_DLL1_STAGE];
    plan.dll1.half = record[RIKKOVAN_PLAN_AT_DLL1_HALF];
    plan.dll2.present = record[RIKKOVAN_PLAN_AT_DLL2_PRESENT];
    plan.dll2.stage = record[RIKKOVAN_PLAN_AT_DLL2_STAGE];
    plan.dll2.half = record[RIKKOVAN_PLAN_AT_DLL2_HALF];
    plan.calibrate = record[RIKKOVAN_PLAN_AT_CALIBRATE];
    plan.usb = record[RIKKOVAN_PLAN_AT_USB];
    plan.wdt = record[RIKKOVAN_PLAN_AT_WDT];
    plan.usb_source = record[RIKKOVAN_PLAN_AT_USB_SOURCE];
    plan.peripheral = record[RIKKOVAN_PLAN_AT_PERIPHERAL];
    plan.mpi1 = record[RIKKOVAN_PLAN_AT_MPI1];
    plan.mpi2 = record[RIKKOVAN_PLAN_AT_MPI2];
    return plan;
}

/* The stage of a DLL at a frequency in MHz, before halving: a multiple of 24, 24 to 384. */
#define RIKKOVAN_STAGE_OF(mhz) ((mhz) * RIKKOVAN_MHZ / RIKKOVAN_DLL_STEP_HZ - 1)

/* The frequency of a DLL in Hz. */
static inline uint32_t rikkovan_dll_hz(uint8_t stage, uint8_t half)
{
    return RIKKOVAN_DLL_STEP_HZ * ((uint32_t)stage + 1) >> (half != 0);
}

/*
 * The record of the default plan, as an initialiser:
 *
 *   uint8_t plan[RIKKOVAN_PLAN_BYTES] = RIKKOVAN_DEFAULT_PLAN;
 *
 * Core on DLL1 at 240 MHz, HCLK 240 MHz, PCLK1 120 MHz, PCLK2 3.75 MHz, DLL2 at 288 MHz, flash 1 on
 * the peripheral clock, flash 2 on DLL2, USB from the core clock. The plan check accepts it.
 */
#define RIKKOVAN_DEFAULT_PLAN \
    { 0x00, 0x12, 0x01, 0x03, 0x01, 0x01, 0x06, 0x01, 0x09, 0x00, \
      0x01, 0x0B, 0x00, 0x01, 0x01, 0x01, 0x00, 0x01, 0x00, 0x02 }

/*
 * Checks a plan record.
 *
 *   plan      the record; it is only read
 *   plan_len  the number of bytes at plan
 *
 * Returns 0 where the plan is accepted, else the number of its refusal, 1 to 14: the first of the
 * tests that fails, in the order of their numbers. RIKKOVAN_REFUSED_LENGTH means that plan_len is
 * not 20 or the length field is not 18, RIKKOVAN_REFUSED_VERSION that the version is not 1.
 * RIKKOVAN_REFUSED_USB_DLL2 and RIKKOVAN_REFUSED_USB_CLOCK are tested only where usb is 1. What it
 * returns depends on these bytes and on nothing else.
 */
uint64_t rikkovan_plan_check(const uint8_t *plan, uint64_t plan_len);

/* The refusal in what rikkovan_plan_check returns, RIKKOVAN_NOT_REFUSED for an accepted plan. */
static inline enum rikkovan_refusal rikkovan_plan_refusal(uint64_t checked)
{
    return (enum rikkovan_refusal)checked;
}

/*
 * Heads
 * =====
 *
 * A head record is the state of a detector head: its registers, its ready flags and its booked
 * tasks. It is lent as a buffer of 255 bytes. The record stands at the front; the bytes past it may
 * hold anything, and no call looks at them.
 */
#define RIKKOVAN_HEAD_BYTES 255
#define RIKKOVAN_HEAD_VERSION_1 1 /* the version field */
#define RIKKOVAN_TASK_BYTES 9
#define RIKKOVAN_MOST_TASKS 16

/* The length field of a head with so many tasks: the bytes that follow it. */
#define RIKKOVAN_HEAD_FOLLOWING(tasks) (109 + RIKKOVAN_TASK_BYTES * (tasks))

/*
 * A head with all registers and flags 0 and no task, as an initialiser:
 *
 *   uint8_t head[RIKKOVAN_HEAD_BYTES] = RIKKOVAN_EMPTY_HEAD;
 */
#define RIKKOVAN_EMPTY_HEAD { 0, RIKKOVAN_HEAD_FOLLOWING(0), RIKKOVAN_HEAD_VERSION_1 }

/* Where each part is in the buffer, and what it may hold. */
#define RIKKOVAN_HEAD_AT_LENGTH 0               /* 2 bytes: RIKKOVAN_HEAD_FOLLOWING(tasks) */
#define RIKKOVAN_HEAD_AT_VERSION 2              /* RIKKOVAN_HEAD_VERSION_1 */
#define RIKKOVAN_HEAD_AT_A(reg) (3 * (reg))     /* byte a of the register of a number, 1 to 34 */
#define RIKKOVAN_HEAD_AT_B(reg) (3 * (reg) + 1) /* byte b */
#define RIKKOVAN_HEAD_AT_C(reg) (3 * (reg) + 2) /* byte c */
#define RIKKOVAN_HEAD_AT_HXT48_READY 105        /* RIKKOVAN_READY or RIKKOVAN_NOT_READY */
#define RIKKOVAN_HEAD_AT_HRC48_READY 106        /* the same */
#define RIKKOVAN_HEAD_AT_LPSYS_HXT48_READY 107  /* the same; no frequency depends on it */
#define RIKKOVAN_HEAD_AT_BOOT_MODE 108          /* 0 to 255; RIKKOVAN_BOOT_STANDBY has a meaning */
#define RIKKOVAN_HEAD_AT_WAKE_COUNT 109         /* 0 to 255 */
#define RIKKOVAN_HEAD_AT_TASK_COUNT 110         /* 0 to 16 */
#define RIKKOVAN_HEAD_AT_TASK(k) (111 + RIKKOVAN_TASK_BYTES * (k)) /* the task at place k */

#define RIKKOVAN_NOT_READY 0
#define RIKKOVAN_READY 1
#define RIKKOVAN_BOOT_STANDBY 3

/* The ready flags of a head. */
enum rikkovan_flag { RIKKOVAN_FLAG_HXT48, RIKKOVAN_FLAG_HRC48, RIKKOVAN_FLAG_LPSYS_HXT48 };

static inline uint8_t rikkovan_get_flag(const uint8_t *head, enum rikkovan_flag flag)
{
    return head[RIKKOVAN_HEAD_AT_HXT48_READY + flag];
}

static inline void rikkovan_put_flag(uint8_t *head, enum rikkovan_flag flag, uint8_t ready)
{
    head[RIKKOVAN_HEAD_AT_HXT48_READY + flag] = ready;
}

static inline uint8_t rikkovan_get_boot_mode(const uint8_t *head)
{
    return head[RIKKOVAN_HEAD_AT_BOOT_MODE];
}

static inline void rikkovan_put_boot_mode(uint8_t *head, uint8_t mode)
{
    head[RIKKOVAN_HEAD_AT_BOOT_MODE] = mode;
}

static inline uint8_t rikkovan_get_wake_count(const uint8_t *head)
{
    return head[RIKKOVAN_HEAD_AT_WAKE_COUNT];
}

static inline void rikkovan_put_wake_count(uint8_t *head, uint8_t count)
{
    head[RIKKOVAN_HEAD_AT_WAKE_COUNT] = count;
}

/*
 * A task needs so many core cycles in each period. Tasks stand in a head, and in the list that
 * rikkovan_load_check is lent, nine bytes each, one behind the other.
 */
struct rikkovan_task {
    uint8_t id;         /* 1 to 255, no two tasks alike */
    uint32_t cycles;    /* core cycles in each period, 1 or more */
    uint32_t period_us; /* microseconds, 1 to RIKKOVAN_MOST_PERIOD_US */
};

#define RIKKOVAN_MOST_PERIOD_US 10000000

/* Where each field is in a task's bytes. */
#define RIKKOVAN_TASK_AT_ID 0
#define RIKKOVAN_TASK_AT_CYCLES 1 /* 4 bytes */
#define RIKKOVAN_TASK_AT_PERIOD 5 /* 4 bytes */

/* The task at a place of a list, 0 for the first; and the same written. */
static inline struct rikkovan_task rikkovan_get_task(const uint8_t *tasks, uint32_t place)
{
    const uint8_t *bytes = tasks + RIKKOVAN_TASK_BYTES * place;
    struct rikkovan_task task;

    task.id = bytes[RIKKOVAN_TASK_AT_ID];
    task.cycles = rikkovan_get_32(bytes + RIKKOVAN_TASK_AT_CYCLES);
    task.period_us = rikkovan_get_32(bytes + RIKKOVAN_TASK_AT_PERIOD);
    return task;
}

static inline void rikkovan_put_task(uint8_t *tasks, uint32_t place, struct rikkovan_task task)
{
    uint8_t *bytes = tasks + RIKKOVAN_TASK_BYTES * place;

    bytes[RIKKOVAN_TASK_AT_ID] = task.id;
    rikkovan_put_32(bytes + RIKKOVAN_TASK_AT_CYCLES, task.cycles);
    rikkovan_put_32(bytes + RIKKOVAN_TASK_AT_PERIOD, task.period_us);
}

/* The number of a head's tasks; and it written, with the length field that fits it. */
static inline uint8_t rikkovan_get_task_count(const uint8_t *head)
{
    return head[RIKKOVAN_HEAD_AT_TASK_COUNT];
}

static inline void rikkovan_put_task_count(uint8_t *head, uint8_t tasks)
{
    head[RIKKOVAN_HEAD_AT_TASK_COUNT] = tasks;
    rikkovan_put_16(head + RIKKOVAN_HEAD_AT_LENGTH, (uint16_t)RIKKOVAN_HEAD_FOLLOWING(tasks));
}

/* The task at a place of a head, below the number of its tasks. */
static inline struct rikkovan_task rikkovan_get_head_task(const uint8_t *head, uint32_t place)
{
    return rikkovan_get_task(head + RIKKOVAN_HEAD_AT_TASK(0), place);
}

/* Puts a task behind the last one of a head. rikkovan_book does the same where HCLK carries it. */
static inline void rikkovan_add_head_task(uint8_t *head, struct rikkovan_task task)
{
    uint8_t count = rikkovan_get_task_count(head);

    rikkovan_put_task(head + RIKKOVAN_HEAD_AT_TASK(0), count, task);
    rikkovan_put_task_count(head, (uint8_t)(count + 1));
}

/*
 * The registers by number. Each has the three bytes a, b, c; a byte that is not named is 0. A byte
 * that says on or request is 0 or 1. Of two fields in one byte the first is its high half. The
 * codes of core select, flash, peripheral clock, USB source and low-power select (the watchdog
 * clock) are those of a plan; flash has one more.
 */
#define RIKKOVAN_REG_SYSCLK 1                  /* c: core select */
#define RIKKOVAN_REG_HPSYS_CFGR 2              /* a: hdiv 0 to 255; b: pdiv1, c: pdiv2, 0 to 7 */
#define RIKKOVAN_REG_DLL1 3                    /* a: on; b: half, 0 or 1; c: stage, 0 to 15 */
#define RIKKOVAN_REG_DLL2 4                    /* as DLL1 */
#define RIKKOVAN_REG_FLASH 5                   /* b: clock of flash 1; c: clock of flash 2 */
#define RIKKOVAN_REG_PERI 6                    /* c: peripheral clock */
#define RIKKOVAN_REG_USB_SOURCE 7              /* c: USB source */
#define RIKKOVAN_REG_USB_DIVIDER 8             /* c: 0 to 7 */
#define RIKKOVAN_REG_TICK 9                    /* 0 */
#define RIKKOVAN_REG_LOW_POWER 10              /* c: low-power select */
#define RIKKOVAN_REG_HPBG 11                   /* b: hpbg_en on; c: hpbg_vddpsw_en on */
#define RIKKOVAN_REG_HPSYS_SUPPLY 12           /* c: RIKKOVAN_HPSYS_SUPPLY_S or _D */
#define RIKKOVAN_REG_BUCK_VOUT 13              /* c: 0 to 15 */
#define RIKKOVAN_REG_HPSYS_VOUT 14             /* c: 0 to 15 */
#define RIKKOVAN_REG_SET_VOUT_M 15             /* c: 0 to 15 */
#define RIKKOVAN_REG_HPSYS_LDO 16              /* c: vref, 0 to 15 */
#define RIKKOVAN_REG_HPSYS_TIMING 17           /* b: ram_rm and ram_ra; c: ram_wa and rom_rm */
#define RIKKOVAN_REG_HRC_CLOCK_SELECT 18       /* b: clkhp_sel, c: clklp_sel, 0 to 255 */
#define RIKKOVAN_REG_HRC_TRIM 19               /* b, c: a number of two bytes, 0 to 1023 */
#define RIKKOVAN_REG_HRC_CALIBRATION_LENGTH 20 /* b, c: a number of two bytes, 0 to 65,535 */
#define RIKKOVAN_REG_HRC_CALIBRATION_ON 21     /* c: on */
#define RIKKOVAN_REG_HXT48_REQUEST 22          /* c: request */
#define RIKKOVAN_REG_LRC32_ON 23               /* c: on */
#define RIKKOVAN_REG_DLL_BUFFER_ON 24          /* c: on */
#define RIKKOVAN_REG_LPSYS_SYSCLK 25           /* c: RIKKOVAN_LPSYS_HRC48 or _HXT48 */
#define RIKKOVAN_REG_LPSYS_CFGR 26             /* a: hdiv1 0 to 255; b: pdiv1, c: pdiv2, 0 to 7 */
#define RIKKOVAN_REG_LPSYS_PERI 27             /* c: the same, for LPSYS peripherals */
#define RIKKOVAN_REG_LPSYS_SUPPLY 28           /* c: RIKKOVAN_LPSYS_SUPPLY_D or _S */
#define RIKKOVAN_REG_LPSYS_VOUT 29             /* c: 0 to 15 */
#define RIKKOVAN_REG_LPSYS_LDO 30              /* c: vref, 0 to 15 */
#define RIKKOVAN_REG_LPSYS_TIMING 31           /* as the HPSYS timing */
#define RIKKOVAN_REG_LPSYS_HXT48_REQUEST 32    /* c: request */
#define RIKKOVAN_REG_HP2LP_REQUEST 33          /* c: request */
#define RIKKOVAN_REG_LPSYS_MAC 34              /* b: macdiv, c: macfreq, 0 to 255 */
#define RIKKOVAN_REGISTERS 34

/* The flash code that no plan has. */
#define RIKKOVAN_MPI_RESERVED 3

/* The supplies. The codes of the two systems are the reverse of each other. */
#define RIKKOVAN_HPSYS_SUPPLY_S 0
#define RIKKOVAN_HPSYS_SUPPLY_D 1
#define RIKKOVAN_LPSYS_SUPPLY_D 0
#define RIKKOVAN_LPSYS_SUPPLY_S 1

/* The clocks of LPSYS and its peripherals. */
#define RIKKOVAN_LPSYS_HRC48 0
#define RIKKOVAN_LPSYS_HXT48 1

/* The largest values of fields that no plan has. */
#define RIKKOVAN_MOST_USB_DIVIDER 7
#define RIKKOVAN_MOST_VOLTAGE 15 /* of registers 13 to 16, 29 and 30 */
#define RIKKOVAN_MOST_TRIM 1023

/* What a register holds, as one number; and its bytes taken out of it. */
#define RIKKOVAN_VALUE(a, b, c) ((uint32_t)(a) << 16 | (uint32_t)(b) << 8 | (uint32_t)(c))

static inline uint8_t rikkovan_value_a(uint32_t value)
{
    return (uint8_t)(value >> 16 & 0xFF);
}

static inline uint8_t rikkovan_value_b(uint32_t value)
{
    return (uint8_t)(value >> 8 & 0xFF);
}

static inline uint8_t rikkovan_value_c(uint32_t value)
{
    return (uint8_t)(value & 0xFF);
}

/* What a register of a head holds, such a number; and the same written. */
static inline uint32_t rikkovan_get_register(const uint8_t *head, uint32_t reg)
{
    return RIKKOVAN_VALUE(head[RIKKOVAN_HEAD_AT_A(reg)], head[RIKKOVAN_HEAD_AT_B(reg)],
                          head[RIKKOVAN_HEAD_AT_C(reg)]);
}

static inline void rikkovan_put_register(uint8_t *head, uint32_t reg, uint32_t value)
{
    head[RIKKOVAN_HEAD_AT_A(reg)] = rikkovan_value_a(value);
    head[RIKKOVAN_HEAD_AT_B(reg)] = rikkovan_value_b(value);
    head[RIKKOVAN_HEAD_AT_C(reg)] = rikkovan_value_c(value);
}

/*
 * What a call on a head returns
 * =============================
 *
 * A rikkovan_answer, which the functions below take apart. Its word of 64 bits has
 *
 *   bits 0 to 31   the refusal number where the call is refused, else the call's value
 *   bits 32 to 47  the number of journal entries written
 *   bits 48 to 62  the number of answers taken
 *   bit 63         1 where the call is refused
 *
 * The value is 0 where nothing else is said of the call. Readings, bookings, releases and
 * rikkovan_moment write no entry and take no answer, so their word is 0 where they are done; that
 * of a look-up is its value.
 *
 * A head is refused, by the first of these tests that fails, with
 *
 *   RIKKOVAN_REFUSED_LENGTH   head_len is not 255, there are more than 16 tasks, or the length
 *                             field is not that of so many
 *   RIKKOVAN_REFUSED_VERSION  the version is not 1
 *   RIKKOVAN_REFUSED_CODE     a register, ready flag or task holds what it may not hold, or two
 *                             tasks have one id
 *
 * The library returns the word, and so the calls are declared with uint64_t. At the end of this
 * header a macro for each, of the same name, makes the word an answer, so that it is not taken for
 * what rikkovan_plan_check or rikkovan_load_check returns. The calls cannot be declared to return
 * the struct: 32-bit ARM returns a word in registers, and a struct of 8 bytes in memory. A pointer
 * to a call, which no macro replaces, gives the word.
 */
typedef struct rikkovan_answer {
    uint64_t word;
} rikkovan_answer;

static inline rikkovan_answer rikkovan_answer_of(uint64_t word)
{
    rikkovan_answer answer;

    answer.word = word;
    return answer;
}

/* Whether the call is done, and not refused: 0 or 1. */
static inline int rikkovan_done(rikkovan_answer answer)
{
    return answer.word >> 63 == 0;
}

/* The refusal, RIKKOVAN_NOT_REFUSED where the call is done. */
static inline enum rikkovan_refusal rikkovan_refusal(rikkovan_answer answer)
{
    return rikkovan_done(answer) ? RIKKOVAN_NOT_REFUSED
                                 : (enum rikkovan_refusal)(answer.word & 0xFFFFFFFF);
}

/* The call's value, 0 where the call is refused. */
static inline uint32_t rikkovan_value(rikkovan_answer answer)
{
    return rikkovan_done(answer) ? (uint32_t)(answer.word & 0xFFFFFFFF) : 0;
}

/* The number of journal entries written. */
static inline uint32_t rikkovan_entries(rikkovan_answer answer)
{
    return (uint32_t)(answer.word >> 32 & 0xFFFF);
}

/* The number of answers taken. */
static inline uint32_t rikkovan_taken(rikkovan_answer answer)
{
    return (uint32_t)(answer.word >> 48 & 0x7FFF);
}

/*
 * Readings
 * ========
 *
 * A reading gives frequencies in Hz, 0 for none. The clocks of a head are:
 *
 *   HXT48, HRC48   48 MHz where their ready flag is 1, else none
 *   DLL1, DLL2     24 MHz * (stage + 1), divided by 2 where half is 1; none where on is 0
 *   LRC10, LRC32   100,000 Hz, 32,000 Hz
 *
 * A divider of 0 divides by 1, and every quotient is rounded down. What is worked out from none is
 * none. The core reads as on the clock of its core select, whatever the low-power select holds.
 */
enum rikkovan_clock {
    RIKKOVAN_CLOCK_SYSCLK,       /* the clock of the core select; none for DBL96 */
    RIKKOVAN_CLOCK_HCLK,         /* SYSCLK / hdiv */
    RIKKOVAN_CLOCK_PCLK1,        /* HCLK / 2^pdiv1 */
    RIKKOVAN_CLOCK_PCLK2,        /* HCLK / 2^pdiv2 */
    RIKKOVAN_CLOCK_DLL1,
    RIKKOVAN_CLOCK_DLL2,
    RIKKOVAN_CLOCK_PERI,         /* 48 MHz, ready or not */
    RIKKOVAN_CLOCK_PERI_DIV2,    /* 24 MHz */
    RIKKOVAN_CLOCK_USB,          /* the USB source, SYSCLK or DLL2, / USB divider */
    RIKKOVAN_CLOCK_WDT,          /* LRC10 or LRC32, by the low-power select */
    RIKKOVAN_CLOCK_RTC,          /* LRC10 */
    RIKKOVAN_CLOCK_MPI1,         /* flash 1: PERI, DLL1 or DLL2; 48 MHz for the reserved code */
    RIKKOVAN_CLOCK_MPI2,         /* flash 2, as flash 1 */
    RIKKOVAN_CLOCK_AUD_PLL,      /* none: no register has the audio PLL */
    RIKKOVAN_CLOCK_AUD_PLL_DIV16 /* none */
};
#define RIKKOVAN_CLOCKS 15

enum rikkovan_lpsys_clock {
    RIKKOVAN_LPSYS_SYSCLK, /* the clock of the LPSYS select */
    RIKKOVAN_LPSYS_HCLK,   /* LPSYS SYSCLK / hdiv1 */
    RIKKOVAN_LPSYS_PCLK1,  /* LPSYS HCLK / 2^pdiv1 */
    RIKKOVAN_LPSYS_PCLK2,  /* LPSYS HCLK / 2^pdiv2 */
    RIKKOVAN_LPSYS_PERI,   /* the clock of the LPSYS peripheral select */
    RIKKOVAN_LPSYS_MAC     /* LPSYS HCLK / macdiv */
};
#define RIKKOVAN_LPSYS_CLOCKS 6

/*
 * Reads the 15 frequencies of a head.
 *
 *   head      the buffer with the record; it is only read
 *   head_len  the number of bytes at head
 *   clocks    gets the frequencies, by the index of enum rikkovan_clock; left as it was where the
 *             call is refused
 *
 * Refusals: the head's. Answer and frequencies depend on these bytes and on nothing else.
 */
uint64_t rikkovan_read_clocks(const uint8_t *head, uint64_t head_len,
                              uint32_t clocks[RIKKOVAN_RESTRICT RIKKOVAN_CLOCKS]);

/*
 * Reads the six frequencies of a head's low-power system, LPSYS.
 *
 *   head      the buffer with the record; it is only read
 *   head_len  the number of bytes at head
 *   lpsys     gets the frequencies, by the index of enum rikkovan_lpsys_clock; left as it was where
 *             the call is refused
 *
 * Refusals: the head's.
 */
uint64_t rikkovan_read_lpsys(const uint8_t *head, uint64_t head_len,
                             uint32_t lpsys[RIKKOVAN_RESTRICT RIKKOVAN_LPSYS_CLOCKS]);

/*
 * What rikkovan_read_fit reads, by its index: the highest HCLK that the active supply carries, in
 * Hz; the load of the booked tasks, in cycles per second; an enum rikkovan_unfit.
 */
enum rikkovan_fit { RIKKOVAN_FIT_RAIL_LIMIT, RIKKOVAN_FIT_LOAD, RIKKOVAN_FIT_UNFIT };
#define RIKKOVAN_FIT_NUMBERS 3

/* Why a head is not fit for a guarded change, which is described below: the first that holds. */
#define RIKKOVAN_UNFITS(ROW) \
    ROW(1, RIKKOVAN_UNFIT_HCLK_UNREADABLE, "HCLK cannot be read") \
    ROW(2, RIKKOVAN_UNFIT_HCLK, "HCLK is above the rail limit") \
    ROW(3, RIKKOVAN_UNFIT_MPI1, "flash 1 is on a DLL that is off") \
    ROW(4, RIKKOVAN_UNFIT_MPI2, "flash 2 is on a DLL that is off") \
    ROW(5, RIKKOVAN_UNFIT_LPSYS_SOURCE, "the clock of the LPSYS select is not ready") \
    ROW(6, RIKKOVAN_UNFIT_LPSYS_HCLK, "the LPSYS HCLK is above 24 MHz on supply D")

enum rikkovan_unfit { RIKKOVAN_FIT = 0, RIKKOVAN_UNFITS(RIKKOVAN_ENUMERATOR_) };

/* The same in words: one line of text in static storage, never NULL. */
static inline const char *rikkovan_unfit_text(enum rikkovan_unfit unfit)
{
    switch (unfit) {
    case RIKKOVAN_FIT: return "the head is fit";
    RIKKOVAN_UNFITS(RIKKOVAN_TEXT_)
    }
    return "unknown number";
}

/*
 * Reads what decides whether a guarded change or a booking is made.
 *
 *   head      the buffer with the record; it is only read
 *   head_len  the number of bytes at head
 *   fit       gets the numbers, by the index of enum rikkovan_fit; left as it was where the call is
 *             refused
 *
 * Refusals: the head's.
 */
uint64_t rikkovan_read_fit(const uint8_t *head, uint64_t head_len,
                           uint64_t fit[RIKKOVAN_RESTRICT RIKKOVAN_FIT_NUMBERS]);

/* Why the head is not fit, in what rikkovan_read_fit reads; RIKKOVAN_FIT where it is. */
static inline enum rikkovan_unfit rikkovan_unfit(const uint64_t fit[RIKKOVAN_FIT_NUMBERS])
{
    return (enum rikkovan_unfit)fit[RIKKOVAN_FIT_UNFIT];
}

/*
 * Journals
 * ========
 *
 * A call that changes a head makes its stores in the lent buffer, and writes each store, each delay
 * and each wait that ended into a lent journal, as entries in the order in which they come. They go
 * to the front of the journal; the words past the last one keep what they held. An entry is
 *
 *   number * 2^24 + value
 *
 * where number and value are
 *
 *   1 to 34   a register, and what it holds after the store, as RIKKOVAN_VALUE has it
 *   48        a delay, and its length in core cycles: microseconds times the HCLK of that moment
 *             in Hz, divided by 1,000,000, rounded up, so that it is never short
 *   49        a wait that ended, and its kind * 65,536 + the number of answers that it took
 *
 * A store that does not change the register has its entry all the same.
 *
 * Such a call makes its tests in this order, and the first that fails refuses it: the length of the
 * journal, the number of answers, the head (1, 2, 3), then the call's own. Refusals 32 to 36 come
 * up on the way, as RIKKOVAN_REFUSED_HCLK_UNREADABLE at a delay: the stores before them stay in head
 * and journal, and the answer counts their entries. Every other refusal leaves head and journal as
 * they were, and counts no entries.
 *
 * Of a head, a call changes just what its comment says, and no byte past the record, but for a
 * booking, which puts its task there.
 *
 * No call can do without a journal: a shorter one than this is refused RIKKOVAN_REFUSED_JOURNAL.
 */
#define RIKKOVAN_JOURNAL_WORDS 128 /* the fewest words of a journal */

#define RIKKOVAN_ENTRY_DELAY 48 /* the number of a delay */
#define RIKKOVAN_ENTRY_WAIT 49  /* the number of a wait that ended */

/* Entries, made: of a number and a value; a store, a delay, a wait. */
#define RIKKOVAN_ENTRY(number, value) ((uint32_t)(number) << 24 | (uint32_t)(value))
#define RIKKOVAN_STORE(reg, value) RIKKOVAN_ENTRY(reg, value)
#define RIKKOVAN_DELAY(cycles) RIKKOVAN_ENTRY(RIKKOVAN_ENTRY_DELAY, cycles)
#define RIKKOVAN_WAIT(kind, taken) \
    RIKKOVAN_ENTRY(RIKKOVAN_ENTRY_WAIT, (uint32_t)(kind) << 16 | (uint32_t)(taken))

/* The number of an entry: a register, RIKKOVAN_ENTRY_DELAY or RIKKOVAN_ENTRY_WAIT. */
static inline uint32_t rikkovan_entry_number(uint32_t entry)
{
    return entry >> 24;
}

/* The value of an entry: what the register holds, or the cycles of a delay. */
static inline uint32_t rikkovan_entry_value(uint32_t entry)
{
    return entry & 0xFFFFFF;
}

/* Whether an entry is a store, a delay, a wait: 0 or 1. */
static inline int rikkovan_is_store(uint32_t entry)
{
    uint32_t number = rikkovan_entry_number(entry);

    return number >= 1 && number <= RIKKOVAN_REGISTERS;
}

static inline int rikkovan_is_delay(uint32_t entry)
{
    return rikkovan_entry_number(entry) == RIKKOVAN_ENTRY_DELAY;
}

static inline int rikkovan_is_wait(uint32_t entry)
{
    return rikkovan_entry_number(entry) == RIKKOVAN_ENTRY_WAIT;
}

/* Of a wait: its kind, and the number of answers that it took. */
static inline uint32_t rikkovan_wait_kind(uint32_t entry)
{
    return rikkovan_entry_value(entry) >> 16;
}

static inline uint32_t rikkovan_wait_taken(uint32_t entry)
{
    return entry & 0xFFFF;
}

/*
 * Puts an entry into the registers of a head; only a store changes them. The head that a call got,
 * with its first entries put in one after the other, has the registers of that moment.
 */
static inline void rikkovan_put_entry(uint8_t *head, uint32_t entry)
{
    if (rikkovan_is_store(entry))
        rikkovan_put_register(head, rikkovan_entry_number(entry), rikkovan_entry_value(entry));
}

/*
 * Puts entries into the registers of a head, one after the other, as rikkovan_put_entry does. So
 * the head that a call got, with the first entries of its journal, has the registers of that
 * moment.
 *
 *   head, head_len        the buffer with the record, and the number of bytes at head
 *   entries, entries_len  the entries, and their number, any; they are only read
 *
 * Refusals, in this order: the head's, and RIKKOVAN_REFUSED_CODE for a word that is no store, delay
 * or wait, and for a store of what its register may not hold. A refusal changes nothing.
 */
uint64_t rikkovan_moment(uint8_t *RIKKOVAN_RESTRICT head, uint64_t head_len,
                         const uint32_t *entries, uint64_t entries_len);

/*
 * Answers
 * =======
 *
 * A call that waits for the chip is lent answers, each the reading of one poll: RIKKOVAN_NOT_READY,
 * which is 0, or any other for ready. A wait takes them in turn, up to the first that is ready, and
 * the next wait goes on behind it. A wait of kind RIKKOVAN_WAIT_CALIBRATION is a measurement: it
 * takes two more answers behind the one that is ready, hxt_cnt and hrc_cnt, and its number counts
 * them too.
 *
 * If the answers run out in a wait or a measurement, RIKKOVAN_REFUSED_ANSWERS_RAN_OUT keeps what
 * was done so far, as RIKKOVAN_REFUSED_HCLK_UNREADABLE does. The wait has no entry then, and all
 * answers count as taken.
 */
#define RIKKOVAN_MOST_ANSWERS 4096 /* the most answers that may be lent */

/* The kinds of waits. */
#define RIKKOVAN_WAIT_HXT48 1
#define RIKKOVAN_WAIT_LPSYS_HXT48 2
#define RIKKOVAN_WAIT_DLL1 3
#define RIKKOVAN_WAIT_DLL2 4
#define RIKKOVAN_WAIT_CALIBRATION 5
#define RIKKOVAN_WAIT_LPSYS_ACTIVE 6

/* No answers, in place of the two arguments answers and answers_len. */
#define RIKKOVAN_NO_ANSWERS rikkovan_no_answers(), 0

static inline const uint16_t *rikkovan_no_answers(void)
{
    static const uint16_t never_read = RIKKOVAN_NOT_READY;

    return &never_read;
}

/*
 * LPSYS
 * =====
 *
 * The low-power system runs on 48 MHz, divided by its hdiv1, where 0 divides by 1. Above 24 MHz it
 * needs supply S.
 */
#define RIKKOVAN_LPSYS_MOST_MHZ 48                   /* the highest request */
#define RIKKOVAN_LPSYS_D_MOST_HZ (24 * RIKKOVAN_MHZ) /* the highest LPSYS HCLK on supply D */

/*
 * Sets the LPSYS HCLK to a frequency, and its supply with it.
 *
 *   head         the buffer with the record
 *   head_len     the number of bytes at head
 *   freq_mhz     the frequency in MHz, 1 to RIKKOVAN_LPSYS_MOST_MHZ
 *   journal      gets the entries, at most 4
 *   journal_len  the number of words at journal, 128 or more
 *
 * hdiv1 becomes 48 / freq_mhz rounded down, and 0 for 48 MHz. So HCLK can be above the request: 25
 * to 47 MHz give 48. The stores depend on the LPSYS HCLK before the call, and not on the supply. An
 * LPSYS HCLK that reads as none counts as 48 MHz: a request above 24 MHz then leaves the supply as
 * it is.
 *
 *   before and request both above, or both at most 24 MHz
 *             LPSYS_CFGR
 *   upwards   LPSYS_VOUT 8, LPSYS_SUPPLY S, a delay of 250 us, LPSYS_CFGR
 *   downwards LPSYS_LDO 6, LPSYS_CFGR, LPSYS_TIMING 0x000162, LPSYS_SUPPLY D
 *
 * LPSYS_CFGR keeps its pdiv1 and pdiv2.
 *
 * Refusals, in this order: RIKKOVAN_REFUSED_JOURNAL, the head's, RIKKOVAN_REFUSED_LPSYS_REQUEST;
 * they change nothing. Upwards RIKKOVAN_REFUSED_HCLK_UNREADABLE, which keeps the two stores before
 * the delay.
 */
uint64_t rikkovan_config_lpsys_hclk_mhz(uint8_t *RIKKOVAN_RESTRICT head, uint64_t head_len,
                                        uint32_t freq_mhz, uint32_t *RIKKOVAN_RESTRICT journal,
                                        uint64_t journal_len);

/*
 * Brings the LPSYS HCLK down to 24 MHz where it is above, as a request of 24 MHz does. Else it
 * changes nothing.
 *
 *   head, head_len, journal, journal_len  as above; at most 4 entries
 *
 * The value is the LPSYS HCLK before the call, in Hz.
 *
 * Refusals, in this order: RIKKOVAN_REFUSED_JOURNAL, the head's,
 * RIKKOVAN_REFUSED_LPSYS_HCLK_UNREADABLE; they change nothing.
 */
uint64_t rikkovan_ensure_safe_lcpu_frequency(uint8_t *RIKKOVAN_RESTRICT head, uint64_t head_len,
                                             uint32_t *RIKKOVAN_RESTRICT journal,
                                             uint64_t journal_len);

/*
 * Sets fields of LPSYS, with one store each.
 *
 *   set_lpsys_hdiv          LPSYS_CFGR: hdiv1, any; pdiv1 and pdiv2 stay
 *   set_lpsys_div           LPSYS_CFGR: hdiv1, any; pdiv1 and pdiv2, 0 to 7
 *   config_lpsys_mac_clock  LPSYS_MAC: macdiv and macfreq, any
 *   select_lpsys_sysclk     LPSYS_SYSCLK: RIKKOVAN_LPSYS_HRC48 or RIKKOVAN_LPSYS_HXT48
 *   select_lpsys_peri       LPSYS_PERI: the same
 *
 *   head, head_len, journal, journal_len  as above; 1 entry
 *
 * Refusals, in this order: RIKKOVAN_REFUSED_JOURNAL, the head's, and RIKKOVAN_REFUSED_CODE for a
 * pdiv1 or pdiv2 above 7 or a source above 1; they change nothing.
 */
uint64_t rikkovan_set_lpsys_hdiv(uint8_t *RIKKOVAN_RESTRICT head, uint64_t head_len, uint8_t hdiv,
                                 uint32_t *RIKKOVAN_RESTRICT journal, uint64_t journal_len);
uint64_t rikkovan_set_lpsys_div(uint8_t *RIKKOVAN_RESTRICT head, uint64_t head_len, uint8_t hdiv,
                                uint8_t pdiv1, uint8_t pdiv2, uint32_t *RIKKOVAN_RESTRICT journal,
                                uint64_t journal_len);
uint64_t rikkovan_config_lpsys_mac_clock(uint8_t *RIKKOVAN_RESTRICT head, uint64_t head_len,
                                         uint8_t macdiv, uint8_t macfreq,
                                         uint32_t *RIKKOVAN_RESTRICT journal, uint64_t journal_len);
uint64_t rikkovan_select_lpsys_sysclk(uint8_t *RIKKOVAN_RESTRICT head, uint64_t head_len,
                                      uint8_t source, uint32_t *RIKKOVAN_RESTRICT journal,
                                      uint64_t journal_len);
uint64_t rikkovan_select_lpsys_peri(uint8_t *RIKKOVAN_RESTRICT head, uint64_t head_len,
                                    uint8_t source, uint32_t *RIKKOVAN_RESTRICT journal,
                                    uint64_t journal_len);

/*
 * Cancels one wake: the wake count goes down by 1, from 0 to 255. Where it was 1, HP2LP_REQUEST is
 * stored as 0; else nothing is stored.
 *
 *   head, head_len, journal, journal_len  as above; at most 1 entry
 *
 * Refusals, in this order: RIKKOVAN_REFUSED_JOURNAL, the head's; they change nothing.
 */
uint64_t rikkovan_cancel_lcpu_active_request(uint8_t *RIKKOVAN_RESTRICT head, uint64_t head_len,
                                             uint32_t *RIKKOVAN_RESTRICT journal,
                                             uint64_t journal_len);

/*
 * Wakes the core of LPSYS: stores HP2LP_REQUEST as 1; a delay of 230 us and a wait of kind
 * RIKKOVAN_WAIT_LPSYS_ACTIVE; a delay of 30 us and another such wait; then the wake count goes up
 * by 1, from 255 to 0.
 *
 *   head, head_len, journal, journal_len  as above; at most 5 entries
 *   answers                               the answers; they are only read
 *   answers_len                           their number, at most 4,096
 *
 * Refusals, in this order: RIKKOVAN_REFUSED_JOURNAL, RIKKOVAN_REFUSED_ANSWERS, the head's; they
 * change nothing. With the stores made so far kept, RIKKOVAN_REFUSED_HCLK_UNREADABLE and
 * RIKKOVAN_REFUSED_ANSWERS_RAN_OUT. A refusal leaves the wake count as it was.
 */
uint64_t rikkovan_wake_lcpu(uint8_t *RIKKOVAN_RESTRICT head, uint64_t head_len,
                            uint32_t *RIKKOVAN_RESTRICT journal, uint64_t journal_len,
                            const uint16_t *answers, uint64_t answers_len);

/*
 * Makes HXT48 ready for both systems: where its ready flag is 0, stores HXT48_REQUEST as 1, and
 * after a wait of kind RIKKOVAN_WAIT_HXT48 the flag is 1. Then the same with the flag of LPSYS,
 * LPSYS_HXT48_REQUEST and RIKKOVAN_WAIT_LPSYS_HXT48. A flag that is 1 takes no store and no answer.
 *
 *   head, head_len, journal, journal_len  as above; at most 4 entries
 *   answers                               the answers; they are only read
 *   answers_len                           their number, at most 4,096
 *
 * Refusals, in this order: RIKKOVAN_REFUSED_JOURNAL, RIKKOVAN_REFUSED_ANSWERS, the head's; they
 * change nothing. RIKKOVAN_REFUSED_ANSWERS_RAN_OUT keeps the stores made so far, and a flag that
 * was set before it.
 */
uint64_t rikkovan_ensure_hxt48_ready(uint8_t *RIKKOVAN_RESTRICT head, uint64_t head_len,
                                     uint32_t *RIKKOVAN_RESTRICT journal, uint64_t journal_len,
                                     const uint16_t *answers, uint64_t answers_len);

/*
 * Calibration, init and reconfigure
 * =================================
 *
 * HRC48 is calibrated against HXT48. A plan is put on a head by rikkovan_init when it boots, and by
 * rikkovan_reconfigure_sysclk when it runs. The plan's tests come after those of the head, and give
 * the refusal that rikkovan_plan_check answers.
 */
/*
 * An HCLK has a mode: the first of these whose highest HCLK it does not exceed. A mode has three
 * values for its supply, D or S: buck, in SET_VOUT_M of D or BUCK_VOUT of S; ldo, in HPSYS_LDO of D
 * or HPSYS_VOUT of S; and HPSYS_TIMING.
 */
#define RIKKOVAN_D0_MOST_HZ (24 * RIKKOVAN_MHZ)
#define RIKKOVAN_D0_BUCK 9
#define RIKKOVAN_D0_LDO 6
#define RIKKOVAN_D0_TIMING 0x000160
#define RIKKOVAN_D1_MOST_HZ (48 * RIKKOVAN_MHZ)
#define RIKKOVAN_D1_BUCK 10
#define RIKKOVAN_D1_LDO 8
#define RIKKOVAN_D1_TIMING 0x001161
#define RIKKOVAN_S0_MOST_HZ (144 * RIKKOVAN_MHZ)
#define RIKKOVAN_S0_BUCK 13
#define RIKKOVAN_S0_LDO 11
#define RIKKOVAN_S0_TIMING 0x003043
#define RIKKOVAN_S1_MOST_HZ (240 * RIKKOVAN_MHZ)
#define RIKKOVAN_S1_BUCK 15
#define RIKKOVAN_S1_LDO 13
#define RIKKOVAN_S1_TIMING 0x003043

/*
 * Calibrates HRC48 against HXT48.
 *
 *   head, head_len, journal, journal_len  as above; at most 57 entries
 *   answers                               the answers; they are only read
 *   answers_len                           their number, at most 4,096
 *
 * Stores HRC_CALIBRATION_LENGTH 0x003FFF and HRC_CLOCK_SELECT 0x000303. Then come up to 11 turns of
 *
 *   HRC_TRIM, a delay of 3 us, HRC_CALIBRATION_ON 1, a measurement, HRC_CALIBRATION_ON 0
 *
 * The first trim is 512 and the first step 256. After a turn the trim goes up by the step where
 * hxt_cnt is above hrc_cnt, else down by it, and the step is halved, rounded down. A turn whose
 * counts differ by less than 64 is the last one, and its trim stays.
 *
 * Refusals, in this order: RIKKOVAN_REFUSED_JOURNAL, RIKKOVAN_REFUSED_ANSWERS, the head's,
 * RIKKOVAN_REFUSED_HXT48_NOT_READY; they change nothing. With what was done so far kept,
 * RIKKOVAN_REFUSED_HCLK_UNREADABLE, RIKKOVAN_REFUSED_ANSWERS_RAN_OUT, and at the end
 * RIKKOVAN_REFUSED_DIFFERENCE, where the counts of the last turn differ by more than 160.
 */
uint64_t rikkovan_calibrate_hrc48(uint8_t *RIKKOVAN_RESTRICT head, uint64_t head_len,
                                  uint32_t *RIKKOVAN_RESTRICT journal, uint64_t journal_len,
                                  const uint16_t *answers, uint64_t answers_len);

/*
 * Brings up the clocks of a head that boots, as a plan has them.
 *
 *   head, head_len        as above
 *   plan, plan_len        the plan's record, and the number of bytes at plan; it is only read
 *   clocks                gets the frequencies of the head after the call, by the index of enum
 *                         rikkovan_clock; all 0 where the call is refused
 *   journal, journal_len  as above; at most 88 entries
 *   answers, answers_len  as above
 *
 * It does, in this order:
 *
 *   1. where the core is on HXT48, HXT48_REQUEST 1 and a wait of kind RIKKOVAN_WAIT_HXT48, which
 *      takes no answer where the ready flag is 1, and after which it is; then PERI 1. A head with
 *      boot mode RIKKOVAN_BOOT_STANDBY is done here.
 *   2. LRC32_ON 1, LOW_POWER 1, DLL_BUFFER_ON 1
 *   3. where the plan says calibrate: SYSCLK HXT48 if the core is on HRC48, and what
 *      rikkovan_calibrate_hrc48 does. Its 31 and 33 do not refuse init, but are its value.
 *   4. HPSYS_CFGR as the plan has it, then what rikkovan_reconfigure_sysclk does
 *   5. where the plan has DLL2, and DLL2 is not on with that stage and half: FLASH 0; HPBG and DLL2
 *      as with DLL1 below, and a wait of kind RIKKOVAN_WAIT_DLL2; then FLASH again, where a flash
 *      that was on DLL2 is back on it, and any other is on the peripheral clock
 *   6. where the plan says usb: USB_DIVIDER, for 60 MHz, and USB_SOURCE
 *   7. PERI and LOW_POWER (the watchdog clock) as the plan has them, TICK 0
 *
 * The flash clocks of the plan are not stored.
 *
 * The value is 0, or RIKKOVAN_REFUSED_HXT48_NOT_READY or RIKKOVAN_REFUSED_DIFFERENCE of step 3.
 *
 * Refusals, in this order: RIKKOVAN_REFUSED_JOURNAL, RIKKOVAN_REFUSED_ANSWERS, the head's, the
 * plan's (1 to 14); they change neither head nor journal. With what was done so far kept,
 * RIKKOVAN_REFUSED_ON_HRC48 at step 3, where the core is on HRC48 and HXT48 is not ready,
 * RIKKOVAN_REFUSED_PRESENT_HCLK at step 4, RIKKOVAN_REFUSED_HCLK_UNREADABLE and
 * RIKKOVAN_REFUSED_ANSWERS_RAN_OUT.
 */
uint64_t rikkovan_init(uint8_t *RIKKOVAN_RESTRICT head, uint64_t head_len, const uint8_t *plan,
                       uint64_t plan_len, uint32_t clocks[RIKKOVAN_RESTRICT RIKKOVAN_CLOCKS],
                       uint32_t *RIKKOVAN_RESTRICT journal, uint64_t journal_len,
                       const uint16_t *answers, uint64_t answers_len);

/* Why a done init left HRC48 uncalibrated, RIKKOVAN_NOT_REFUSED where it did not. */
static inline enum rikkovan_refusal rikkovan_uncalibrated(rikkovan_answer answer)
{
    return (enum rikkovan_refusal)rikkovan_value(answer);
}

/*
 * Sets the core clock of a running head as a plan has it, and its supply with it. Of the plan, core
 * select, dividers and DLL1 are stored.
 *
 *   head, head_len        as above
 *   plan, plan_len        as above
 *   clocks                holds the frequencies before the call, and gets those of the head after
 *                         it; RIKKOVAN_CLOCK_AUD_PLL and RIKKOVAN_CLOCK_AUD_PLL_DIV16 keep what
 *                         they hold, and where the call is refused all do
 *   journal, journal_len  as above; at most 14 entries
 *   answers, answers_len  as above
 *
 * The stores depend on the mode of the HCLK before the call and on that of the plan's, and not on
 * the supply. An HCLK that reads as none counts as 48 MHz.
 *
 *   same mode   the clock
 *   D to S      BUCK_VOUT, HPSYS_VOUT, HPSYS_SUPPLY S, a delay of 250 us, HPSYS_TIMING, the clock
 *   S to S      BUCK_VOUT, HPSYS_VOUT, a delay of 250 us, the clock
 *   to D        SET_VOUT_M, HPSYS_LDO, the clock, HPSYS_TIMING, HPSYS_SUPPLY D
 *
 * The values are those of the plan's mode. The clock is: where the core is on DLL1, SYSCLK HXT48,
 * or HRC48 if HXT48 is not ready; where the plan has DLL1, HPBG with hpbg_en on and HPBG with
 * hpbg_vddpsw_en on, each if it is off, DLL1 off, DLL1 on with the plan's stage and half, a delay
 * of 10 us and a wait of kind RIKKOVAN_WAIT_DLL1; then HPSYS_CFGR and SYSCLK as the plan has them.
 *
 * Refusals, in this order: RIKKOVAN_REFUSED_JOURNAL, RIKKOVAN_REFUSED_ANSWERS, the head's, the
 * plan's (1 to 14), RIKKOVAN_REFUSED_PRESENT_HCLK, which comes before any store; they change
 * nothing. With what was done so far kept in head and journal, RIKKOVAN_REFUSED_HCLK_UNREADABLE and
 * RIKKOVAN_REFUSED_ANSWERS_RAN_OUT.
 */
uint64_t rikkovan_reconfigure_sysclk(uint8_t *RIKKOVAN_RESTRICT head, uint64_t head_len,
                                     const uint8_t *plan, uint64_t plan_len,
                                     uint32_t clocks[RIKKOVAN_RESTRICT RIKKOVAN_CLOCKS],
                                     uint32_t *RIKKOVAN_RESTRICT journal, uint64_t journal_len,
                                     const uint16_t *answers, uint64_t answers_len);

/*
 * Tasks
 * =====
 *
 * The share of a task is what it needs in a second,
 *
 *   cycles * 1,000,000 / period, rounded up
 *
 * and the load of several tasks is the sum of their shares, in cycles per second. It can be carried
 * by an HCLK of that many Hz or more.
 */

/*
 * Checks a list of tasks, and gives its load.
 *
 *   tasks      the tasks, as rikkovan_put_task writes them; they are only read
 *   tasks_len  the number of bytes at tasks, nine for each task; 0 for no task, whose load is 0
 *
 * Returns the load, or the refusal number with bit 63 set. No load has bit 63; the largest is
 * 68,719,476,720,000,000. What it returns depends on these bytes and on nothing else.
 *
 * Refusals, each tested of the whole list before the next: RIKKOVAN_REFUSED_LENGTH where the bytes
 * are not nine each, RIKKOVAN_REFUSED_TASKS, RIKKOVAN_REFUSED_TASK, RIKKOVAN_REFUSED_ID_IN_USE.
 */
uint64_t rikkovan_load_check(const uint8_t *tasks, uint64_t tasks_len);

/* No tasks, in place of the two arguments. */
#define RIKKOVAN_NO_TASKS rikkovan_no_tasks(), 0

static inline const uint8_t *rikkovan_no_tasks(void)
{
    static const uint8_t never_read = 0;

    return &never_read;
}

/* The refusal in what rikkovan_load_check returns, RIKKOVAN_NOT_REFUSED for an accepted list. */
static inline enum rikkovan_refusal rikkovan_load_refusal(uint64_t checked)
{
    return checked >> 63 == 0 ? RIKKOVAN_NOT_REFUSED
                              : (enum rikkovan_refusal)(checked & 0xFFFFFFFF);
}

/* The load in what rikkovan_load_check returns, 0 where the list is refused. */
static inline uint64_t rikkovan_load(uint64_t checked)
{
    return checked >> 63 == 0 ? checked : 0;
}

/*
 * Books a task on a head, where the present HCLK carries it beside the tasks that are booked.
 *
 *   head       the buffer with the record
 *   head_len   the number of bytes at head
 *   id         1 to 255, that of no booked task
 *   cycles     core cycles in each period, 1 or more
 *   period_us  the period in microseconds, 1 to RIKKOVAN_MOST_PERIOD_US
 *
 * The task goes behind the last one, into bytes that were past the record: 9 bytes there, the
 * number of tasks and the length field change, and nothing else. HCLK is what rikkovan_read_clocks
 * gives, whatever the low-power select holds. rikkovan_init and rikkovan_reconfigure_sysclk do not
 * look at the load: after them it may be above HCLK.
 *
 * Refusals, in this order: the head's, RIKKOVAN_REFUSED_TASK, RIKKOVAN_REFUSED_ID_IN_USE,
 * RIKKOVAN_REFUSED_TASKS where sixteen are booked, RIKKOVAN_REFUSED_HCLK_UNREADABLE,
 * RIKKOVAN_REFUSED_LOAD where the load with the new task is above HCLK. A refusal changes nothing.
 */
uint64_t rikkovan_book(uint8_t *head, uint64_t head_len, uint8_t id, uint32_t cycles,
                       uint32_t period_us);

/*
 * Releases a task of a head.
 *
 *   head      the buffer with the record
 *   head_len  the number of bytes at head
 *   id        the id of a booked task
 *
 * The tasks behind it move up by one place, and the number of tasks and the length field follow.
 * The bytes past the shorter record stay: the place that was the last one keeps what it held.
 * HCLK need not read.
 *
 * Refusals, in this order: the head's, RIKKOVAN_REFUSED_ID_UNKNOWN. A refusal changes nothing.
 */
uint64_t rikkovan_release(uint8_t *head, uint64_t head_len, uint8_t id);

/*
 * Looks up the task with an id on a head.
 *
 *   head      the buffer with the record; it is only read
 *   head_len  the number of bytes at head
 *   id        any; no task has 0
 *
 * Tasks are read from the first one on: up to the one with the id, a hit, and with it, or all of
 * them where none has it. The value is the number of tasks read * 2, plus 1 for a hit.
 *
 * Refusals: the head's.
 */
uint64_t rikkovan_look_up(const uint8_t *head, uint64_t head_len, uint8_t id);

/* Whether a look-up is a hit: 0 or 1, 0 where it is refused. */
static inline int rikkovan_hit(rikkovan_answer answer)
{
    return (int)(rikkovan_value(answer) & 1);
}

/* The number of tasks that a look-up read; the place of a hit is one less. */
static inline uint32_t rikkovan_tasks_read(rikkovan_answer answer)
{
    return rikkovan_value(answer) >> 1;
}

/*
 * The guarded change
 * ==================
 *
 * rikkovan_change sets the core clock of a running head as a plan has it, and its supply with it,
 * as rikkovan_reconfigure_sysclk does, but only on a head that is fit and for a load that the
 * plan's HCLK carries, and in an order in which the clock is at no moment too fast for the supply.
 *
 * The rail limit of a head is the highest HCLK that its active supply carries:
 *
 *   supply D   the highest HCLK of D1 where SET_VOUT_M and HPSYS_LDO are each at least D1's value,
 *              that of D0 where they are at least D0's
 *   supply S   that of S1 where BUCK_VOUT and HPSYS_VOUT are each at least S1's value,
 *              that of S0 where they are at least S0's
 *   else       0
 *
 * A head is fit where
 *
 *   - HCLK reads, and is at most the rail limit,
 *   - no flash is on a DLL that is off,
 *   - the clock of the LPSYS select reads: HXT48_READY is 1, or HRC48_READY,
 *   - the LPSYS HCLK is at most RIKKOVAN_LPSYS_D_MOST_HZ, or the LPSYS supply is S.
 *
 * HCLK is what rikkovan_read_clocks gives, whatever the low-power select holds.
 */
/*
 * Changes the core clock of a fit head. Of the plan, core select, dividers and DLL1 are stored.
 *
 *   head, head_len        the buffer with the record, and the number of bytes at head
 *   plan, plan_len        the plan's record, and the number of bytes at plan; it is only read
 *   journal, journal_len  gets the entries, at most 20; and its number of words, 128 or more
 *   answers, answers_len  the answers, and their number, at most 4,096; they are only read
 *
 * The peak is the highest mode among D1, that of the HCLK before the call and that of the plan's.
 * The stores are, in this order:
 *
 *   1. where the rail limit is below the peak's, the peak's rails: for D1 SET_VOUT_M,
 *      HPSYS_LDO and a delay of 250 us; for S0 and S1 BUCK_VOUT, HPSYS_VOUT, HPSYS_SUPPLY S, a
 *      delay of 250 us, HPSYS_TIMING
 *   2. where a flash is on DLL1, FLASH with that flash on the peripheral clock
 *   3. where the core is not on HXT48, SYSCLK HXT48
 *   4. where the plan has DLL1, HPBG with hpbg_en on and HPBG with hpbg_vddpsw_en on, each if it is
 *      off, DLL1 off, DLL1 on with the plan's stage and half, a delay of 10 us and a wait of kind
 *      RIKKOVAN_WAIT_DLL1
 *   5. HPSYS_CFGR as the plan has it
 *   6. SYSCLK as the plan has it
 *   7. where step 2 stored, FLASH as it was before
 *   8. the rails of the plan's mode: SET_VOUT_M and HPSYS_LDO, or BUCK_VOUT and HPSYS_VOUT, then
 *      HPSYS_TIMING and HPSYS_SUPPLY
 *
 * Steps 5, 6 and 8 are made whether the registers hold these values or not. Only registers change.
 *
 * A call that is done leaves HCLK at the plan's, and the load of the head's tasks at most HCLK.
 * One that no test refuses before its first store is done where the plan has no DLL1 or one of the
 * answers is ready, and refused with RIKKOVAN_REFUSED_ANSWERS_RAN_OUT otherwise. Before the first
 * entry and after each one HCLK reads and is at most the rail limit, and no flash is on a DLL that
 * is off. So a head that was fit is fit again, done or refused, and stays fit as long as nothing
 * but rikkovan_change, rikkovan_book, rikkovan_release and rikkovan_config_lpsys_hclk_mhz changes
 * it; one that was not is refused, and stays as it was.
 *
 * Refusals, in this order: RIKKOVAN_REFUSED_JOURNAL, RIKKOVAN_REFUSED_ANSWERS, the head's, the
 * plan's (1 to 14), RIKKOVAN_REFUSED_UNFIT, RIKKOVAN_REFUSED_OSCILLATOR, and RIKKOVAN_REFUSED_LOAD
 * where the load is above the plan's HCLK; they change nothing. RIKKOVAN_REFUSED_ANSWERS_RAN_OUT
 * comes at step 4 and keeps what was done so far: the core is on HXT48, divided as before the call,
 * flash that was on DLL1 is on the peripheral clock, and the load may be above HCLK.
 */
uint64_t rikkovan_change(uint8_t *RIKKOVAN_RESTRICT head, uint64_t head_len, const uint8_t *plan,
                         uint64_t plan_len, uint32_t *RIKKOVAN_RESTRICT journal,
                         uint64_t journal_len, const uint16_t *answers, uint64_t answers_len);

/*
 * The stack
 * =========
 *
 * The bytes of stack that a call needs at most, from its return address down, as the library is
 * compiled for x86-64: the deepest way through its machine code, rounded up to 256. The build for a
 * Cortex-M33 needs less for every call. No call recurses. What memcpy and memset of the C library
 * need comes on top, and where a program is linked so that it looks them up at the first call, what
 * the dynamic linker needs then.
 */
#define RIKKOVAN_STACK_PLAN_CHECK 256
#define RIKKOVAN_STACK_READ_CLOCKS 1280
#define RIKKOVAN_STACK_READ_LPSYS 1280
#define RIKKOVAN_STACK_READ_FIT 1792
#define RIKKOVAN_STACK_MOMENT 2304
#define RIKKOVAN_STACK_CONFIG_LPSYS_HCLK_MHZ 2048
#define RIKKOVAN_STACK_ENSURE_SAFE_LCPU_FREQUENCY 2048
#define RIKKOVAN_STACK_SET_LPSYS_HDIV 2048
#define RIKKOVAN_STACK_SET_LPSYS_DIV 2304
#define RIKKOVAN_STACK_CONFIG_LPSYS_MAC_CLOCK 2304
#define RIKKOVAN_STACK_SELECT_LPSYS_SYSCLK 2304
#define RIKKOVAN_STACK_SELECT_LPSYS_PERI 2304
#define RIKKOVAN_STACK_CANCEL_LCPU_ACTIVE_REQUEST 2048
#define RIKKOVAN_STACK_WAKE_LCPU 2048
#define RIKKOVAN_STACK_ENSURE_HXT48_READY 2048
#define RIKKOVAN_STACK_CALIBRATE_HRC48 2048
#define RIKKOVAN_STACK_INIT 2304
#define RIKKOVAN_STACK_RECONFIGURE_SYSCLK 2304
#define RIKKOVAN_STACK_LOAD_CHECK 256
#define RIKKOVAN_STACK_BOOK 2048
#define RIKKOVAN_STACK_RELEASE 1792
#define RIKKOVAN_STACK_LOOK_UP 1792
#define RIKKOVAN_STACK_CHANGE 2304

/*
 * Each call on a head as a macro, which makes the word that it returns a rikkovan_answer.
 */
#define rikkovan_read_clocks(...) rikkovan_answer_of(rikkovan_read_clocks(__VA_ARGS__))
#define rikkovan_read_lpsys(...) rikkovan_answer_of(rikkovan_read_lpsys(__VA_ARGS__))
#define rikkovan_read_fit(...) rikkovan_answer_of(rikkovan_read_fit(__VA_ARGS__))
#define rikkovan_moment(...) rikkovan_answer_of(rikkovan_moment(__VA_ARGS__))
#define rikkovan_config_lpsys_hclk_mhz(...) rikkovan_answer_of(rikkovan_config_lpsys_hclk_mhz(__VA_ARGS__))
#define rikkovan_ensure_safe_lcpu_frequency(...) rikkovan_answer_of(rikkovan_ensure_safe_lcpu_frequency(__VA_ARGS__))
#define rikkovan_set_lpsys_hdiv(...) rikkovan_answer_of(rikkovan_set_lpsys_hdiv(__VA_ARGS__))
#define rikkovan_set_lpsys_div(...) rikkovan_answer_of(rikkovan_set_lpsys_div(__VA_ARGS__))
#define rikkovan_config_lpsys_mac_clock(...) rikkovan_answer_of(rikkovan_config_lpsys_mac_clock(__VA_ARGS__))
#define rikkovan_select_lpsys_sysclk(...) rikkovan_answer_of(rikkovan_select_lpsys_sysclk(__VA_ARGS__))
#define rikkovan_select_lpsys_peri(...) rikkovan_answer_of(rikkovan_select_lpsys_peri(__VA_ARGS__))
#define rikkovan_cancel_lcpu_active_request(...) rikkovan_answer_of(rikkovan_cancel_lcpu_active_request(__VA_ARGS__))
#define rikkovan_wake_lcpu(...) rikkovan_answer_of(rikkovan_wake_lcpu(__VA_ARGS__))
#define rikkovan_ensure_hxt48_ready(...) rikkovan_answer_of(rikkovan_ensure_hxt48_ready(__VA_ARGS__))
#define rikkovan_calibrate_hrc48(...) rikkovan_answer_of(rikkovan_calibrate_hrc48(__VA_ARGS__))
#define rikkovan_init(...) rikkovan_answer_of(rikkovan_init(__VA_ARGS__))
#define rikkovan_reconfigure_sysclk(...) rikkovan_answer_of(rikkovan_reconfigure_sysclk(__VA_ARGS__))
#define rikkovan_book(...) rikkovan_answer_of(rikkovan_book(__VA_ARGS__))
#define rikkovan_release(...) rikkovan_answer_of(rikkovan_release(__VA_ARGS__))
#define rikkovan_look_up(...) rikkovan_answer_of(rikkovan_look_up(__VA_ARGS__))
#define rikkovan_change(...) rikkovan_answer_of(rikkovan_change(__VA_ARGS__))

#ifdef __cplusplus
}
#endif

#endif
