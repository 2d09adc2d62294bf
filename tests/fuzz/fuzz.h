/*
 * The fuzz target: calls of rikkovan.h with hostile lengths and contents, held to what the header
 * says of them.
 *
 *   input.c     an input's bytes, drawn one after the other as choices, heads, plans and answers
 *   calls.c     every call, with what is lent to it and how it may be refused
 *   pages.c     what is lent, flush against pages that no one may touch
 *   model.c     clocks, rails, load and fitness of a head, worked out from the header's words
 *   refusals.c  the first test of a call that fails, worked out in the same way
 *   checks.c    the checks after each call
 *   one.c       fuzz_one: one input, from its bytes to the last check
 *   main.c      inputs from a seed, counts of the answers, and a failing input made small
 *
 * For libFuzzer, all but main.c with -Dfuzz_one=LLVMFuzzerTestOneInput.
 */
#ifndef FUZZ_H
#define FUZZ_H

#include "rikkovan.h"

#include <stddef.h>

/* Takes an input's bytes as calls, makes and checks them. Returns 0; a failed check aborts. */
int fuzz_one(const uint8_t *data, size_t size);

/* input.c: bytes past the end of an input are 0, which is always the plainest choice. */
struct input {
    const uint8_t *next, *end;
};

uint8_t draw(struct input *input);
uint8_t draw_below(struct input *input, unsigned n);
uint32_t draw_number(struct input *input, int bytes);
int draw_one_in(struct input *input, unsigned n);
size_t draw_length(struct input *input, size_t usual);
void draw_head(struct input *input, uint8_t head[RIKKOVAN_HEAD_BYTES]);
void draw_plan(struct input *input, uint8_t plan[RIKKOVAN_PLAN_BYTES]);
void draw_tasks(struct input *input, uint8_t *tasks, unsigned count);
void draw_entries(struct input *input, uint32_t *entries, size_t len);
void draw_answers(struct input *input, uint16_t *answers, size_t len);

/* What may be lent to a call. No length drawn is above MOST_LENT. */
enum buffer { HEAD, PLAN, TASKS, CLOCKS, FIT, ENTRIES, JOURNAL, ANSWERS, BUFFERS };
#define LENDS(buffer) (1u << (buffer))
#define MOST_LENT 65537u

extern const size_t element_size[BUFFERS];

/* What a call gets: buffers, and the numbers beside them. */
struct lent {
    void *at[BUFFERS];
    size_t len[BUFFERS];
    uint8_t byte[3];
    uint32_t number[2];
};

/* calls.c. Places in the table that checks.c asks for. */
enum which {
    PLAN_CHECK,
    READ_CLOCKS,
    READ_LPSYS,
    READ_FIT,
    MOMENT,
    CONFIG_LPSYS,
    ENSURE_SAFE,
    SET_HDIV,
    SET_DIV,
    CONFIG_MAC,
    SELECT_SYSCLK,
    SELECT_PERI,
    CANCEL,
    WAKE,
    ENSURE_HXT48,
    CALIBRATE,
    INIT,
    RECONFIGURE,
    LOAD_CHECK,
    BOOK,
    RELEASE,
    LOOK_UP,
    CHANGE,
    CALLS
};
#define MOST_REFUSAL 43

struct call {
    const char *name;
    uint64_t (*make)(const struct lent *lent); /* gives the number or word that it returns */
    unsigned lends, reads; /* LENDS of what it is lent, and of that which it must not write */
    uint32_t most_entries;
    uint64_t refusals; /* bit n: it may be refused n */
};

extern const struct call calls[CALLS];

/* How often a call was made, by its refusal, 0 for done. */
extern uint64_t answered[CALLS][MOST_REFUSAL + 1];

/* The refusal in what a call returned, 0 for none. */
uint32_t refusal_of(enum which which, uint64_t answer);

/* pages.c */
enum side { AT_END, AT_START };
uint64_t make_guarded(const struct call *call, enum side side, const struct lent *given,
                      struct lent *left);

/* model.c: of a head that is accepted, frequencies in Hz, 0 for none. */
uint32_t model_head_refusal(const uint8_t *head, size_t len);
uint32_t model_hclk(const uint8_t *head);
uint32_t model_lpsys_hclk(const uint8_t *head);
uint32_t model_plan_hclk(const uint8_t *plan);
int model_task_is_good(uint8_t id, uint32_t cycles, uint32_t period_us);
uint32_t model_tasks_refusal(const uint8_t *tasks, unsigned count);
uint64_t model_share(uint32_t cycles, uint32_t period_us);
uint64_t model_load(const uint8_t *tasks, unsigned count);
uint64_t model_booked_load(const uint8_t *head);
uint32_t model_place(const uint8_t *head, uint8_t id);
uint32_t model_rail_limit(const uint8_t *head);
enum rikkovan_unfit model_unfit(const uint8_t *head);
int model_is_fit(const uint8_t *head);
int model_is_entry(uint32_t word);
uint8_t largest_in_register(unsigned reg, unsigned byte);

/* refusals.c: 0 where no test fails before the first store. */
uint32_t model_refusal(enum which which, const struct lent *given);

/* checks.c: what the call was given, its answer, and what it left. */
void check_call(enum which which, const struct lent *given, uint64_t answer,
                const struct lent *left);
void check_same(enum which which, const struct lent *one, uint64_t answer, const struct lent *other,
                uint64_t other_answer);

#endif
