/* Tests rikkovan_plan_check and rikkovan_refusal_text. Prints a line for each failure. */
#include <stdio.h>
#include <string.h>

#include "rikkovan.h"

static const uint8_t default_plan[RIKKOVAN_PLAN_BYTES] = RIKKOVAN_DEFAULT_PLAN;
static int failures = 0;

static void expect(const char *what, uint64_t wanted, uint64_t got)
{
    if (wanted == got)
        return;
    printf("plan_check: %s: wanted %lu, got %lu\n", what, (unsigned long)wanted,
           (unsigned long)got);
    failures++;
}

/* The default plan with some bytes set: the first `edits` of the list. */
struct edit {
    int offset;
    uint8_t value;
};

struct plan_case {
    const char *name;
    uint64_t answer;
    int edits;
    struct edit edit[4];
};

static const struct plan_case cases[] = {
    {"default", RIKKOVAN_NOT_REFUSED, 0, {{0, 0}}},
    {"pdiv1 0", RIKKOVAN_REFUSED_PCLK1, 1, {{RIKKOVAN_PLAN_AT_PDIV1, 0}}},
    {"pdiv2 4", RIKKOVAN_REFUSED_PCLK2, 1, {{RIKKOVAN_PLAN_AT_PDIV2, 4}}},
    {"pdiv2 5", RIKKOVAN_NOT_REFUSED, 1, {{RIKKOVAN_PLAN_AT_PDIV2, 5}}},
    {"DLL1 stage 10", RIKKOVAN_REFUSED_USB_CLOCK, 1, {{RIKKOVAN_PLAN_AT_DLL1_STAGE, 10}}},
    {"DLL1 stage 10, no usb", RIKKOVAN_REFUSED_HCLK, 2,
     {{RIKKOVAN_PLAN_AT_DLL1_STAGE, 10}, {RIKKOVAN_PLAN_AT_USB, 0}}},
    {"DLL1 stage 0 halved, no usb", RIKKOVAN_REFUSED_CORE_CLOCK, 3,
     {{RIKKOVAN_PLAN_AT_DLL1_STAGE, 0},
      {RIKKOVAN_PLAN_AT_DLL1_HALF, 1},
      {RIKKOVAN_PLAN_AT_USB, 0}}},
    {"DLL2 stage 12", RIKKOVAN_REFUSED_DLL2, 1, {{RIKKOVAN_PLAN_AT_DLL2_STAGE, 12}}},
    {"DLL2 stage 12 halved", RIKKOVAN_REFUSED_DLL2, 2,
     {{RIKKOVAN_PLAN_AT_DLL2_STAGE, 12}, {RIKKOVAN_PLAN_AT_DLL2_HALF, 1}}},
    {"length field 17", RIKKOVAN_REFUSED_LENGTH, 1, {{RIKKOVAN_PLAN_AT_LENGTH + 1, 17}}},
    {"length field 274", RIKKOVAN_REFUSED_LENGTH, 1, {{RIKKOVAN_PLAN_AT_LENGTH, 1}}},
    {"version 0", RIKKOVAN_REFUSED_VERSION, 1, {{RIKKOVAN_PLAN_AT_VERSION, 0}}},
    {"mpi1 3", RIKKOVAN_REFUSED_CODE, 1, {{RIKKOVAN_PLAN_AT_MPI1, 3}}},
    {"DLL2 absent with a stage", RIKKOVAN_REFUSED_CODE, 1, {{RIKKOVAN_PLAN_AT_DLL2_PRESENT, 0}}},
    {"core on absent DLL1", RIKKOVAN_REFUSED_CORE_DLL1, 2,
     {{RIKKOVAN_PLAN_AT_DLL1_PRESENT, 0}, {RIKKOVAN_PLAN_AT_DLL1_STAGE, 0}}},
    {"core on DBL96", RIKKOVAN_REFUSED_CORE_DBL96, 1,
     {{RIKKOVAN_PLAN_AT_CORE, RIKKOVAN_CORE_DBL96}}},
    {"mpi1 on absent DLL2", RIKKOVAN_REFUSED_MPI1, 3,
     {{RIKKOVAN_PLAN_AT_DLL2_PRESENT, 0},
      {RIKKOVAN_PLAN_AT_DLL2_STAGE, 0},
      {RIKKOVAN_PLAN_AT_MPI1, RIKKOVAN_MPI_DLL2}}},
    {"mpi2 on absent DLL2", RIKKOVAN_REFUSED_MPI2, 2,
     {{RIKKOVAN_PLAN_AT_DLL2_PRESENT, 0}, {RIKKOVAN_PLAN_AT_DLL2_STAGE, 0}}},
    {"USB from absent DLL2", RIKKOVAN_REFUSED_USB_DLL2, 4,
     {{RIKKOVAN_PLAN_AT_DLL2_PRESENT, 0},
      {RIKKOVAN_PLAN_AT_DLL2_STAGE, 0},
      {RIKKOVAN_PLAN_AT_USB_SOURCE, RIKKOVAN_USB_DLL2},
      {RIKKOVAN_PLAN_AT_MPI2, RIKKOVAN_MPI_PERIPHERAL}}},
};

static void test_cases(void)
{
    size_t i;
    int k;

    for (i = 0; i < sizeof cases / sizeof cases[0]; i++) {
        uint8_t plan[RIKKOVAN_PLAN_BYTES];

        memcpy(plan, default_plan, sizeof plan);
        for (k = 0; k < cases[i].edits; k++)
            plan[cases[i].edit[k].offset] = cases[i].edit[k].value;
        expect(cases[i].name, cases[i].answer, rikkovan_plan_check(plan, sizeof plan));
    }
}

/* The default plan cut off, or with zeros after it: only 20 bytes are a plan. */
static void test_lengths(void)
{
    uint8_t bytes[64] = {0};
    char what[32];
    size_t len;

    memcpy(bytes, default_plan, sizeof default_plan);
    for (len = 0; len <= sizeof bytes; len++) {
        sprintf(what, "%u bytes", (unsigned)len);
        expect(what, len == RIKKOVAN_PLAN_BYTES ? RIKKOVAN_NOT_REFUSED : RIKKOVAN_REFUSED_LENGTH,
               rikkovan_plan_check(bytes, len));
    }
}

/* Every value of every byte of the default plan: 0 to 14 is returned, and the plan is as it was. */
static void test_bytes(void)
{
    uint8_t plan[RIKKOVAN_PLAN_BYTES], before[RIKKOVAN_PLAN_BYTES];
    char what[48];
    int at, value;

    for (at = 0; at < RIKKOVAN_PLAN_BYTES; at++)
        for (value = 0; value < 256; value++) {
            memcpy(plan, default_plan, sizeof plan);
            plan[at] = (uint8_t)value;
            memcpy(before, plan, sizeof plan);
            sprintf(what, "byte %d is %d: number in range", at, value);
            expect(what, 1, rikkovan_plan_check(plan, sizeof plan) <= RIKKOVAN_REFUSED_DLL2);
            sprintf(what, "byte %d is %d: plan unchanged", at, value);
            expect(what, 0, memcmp(plan, before, sizeof plan) != 0);
        }
}

static const char *text_of(unsigned number)
{
    return rikkovan_refusal_text((enum rikkovan_refusal)number);
}

/* Numbers 1 to 18 and 31 to 43 have a text of their own, and no other number has one. */
static void test_texts(void)
{
    const char *unknown = text_of(19);
    char what[48];
    unsigned a, b;

    for (a = 1; a <= 63; a++) {
        int known = a <= 18 || (31 <= a && a <= 43);

        sprintf(what, "text of %u is known", a);
        expect(what, (uint64_t)known, strcmp(text_of(a), unknown) != 0);
        for (b = 0; known && b < a; b++) {
            sprintf(what, "texts of %u and %u are equal", b, a);
            expect(what, 0, strcmp(text_of(a), text_of(b)) == 0);
        }
    }
}

int main(void)
{
    test_cases();
    test_lengths();
    test_bytes();
    test_texts();
    return failures != 0;
}
