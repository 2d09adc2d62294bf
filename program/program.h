/*
 * What the parts of the program rikkovan share. Each subcommand has a file of its own, its
 * prototype here and its row in main.c.
 */
#ifndef PROGRAM_H
#define PROGRAM_H

#include <stddef.h>

#include "rikkovan.h"

/* The exit status of the program; of several files the highest. */
enum status {
    STATUS_DONE = 0,    /* done or accepted */
    STATUS_REFUSED = 1, /* the library refuses it, or no task has the id */
    STATUS_FAILED = 2   /* misuse, or a file that cannot be read or written */
};

/* What a subcommand is asked: as many operands as it takes, and whether to write the head. */
struct request {
    char **operands;
    int count;
    int write;
};

enum status run_check(const struct request *request);
enum status run_load(const struct request *request);
enum status run_read(const struct request *request);
enum status run_change(const struct request *request);
enum status run_book(const struct request *request);
enum status run_release(const struct request *request);
enum status run_look_up(const struct request *request);
enum status run_lpsys(const struct request *request);

/* input.c: files and numbers. What fails is said on standard error. */

enum kind { KIND_PLAN, KIND_HEAD, KIND_TASKS, KIND_ANSWERS };

#define FILE_BYTES 16384 /* more than any kind has; a longer file cannot be read */

struct file {
    const char *name;
    enum kind kind;
    size_t len;
    uint8_t bytes[FILE_BYTES];
};

enum status read_file(const char *name, enum kind kind, struct file *file);
int has_length_of_its_kind(const struct file *file);
void explain_length(const struct file *file);
enum status read_number(const char *what, const char *digits, uint32_t most, uint32_t *number);

/* replace.c: puts what a file holds back into it, whole or not at all. */
enum status replace_file(const struct file *file);

/* reading.c: what the library reads from a head; on a refusal nothing is read. */
struct reading {
    uint32_t clocks[RIKKOVAN_CLOCKS];
    uint32_t lpsys[RIKKOVAN_LPSYS_CLOCKS];
    uint64_t fit[RIKKOVAN_FIT_NUMBERS];
};

enum rikkovan_refusal read_head(const struct file *head, struct reading *reading);

/* say.c: lines and numbers that subcommands have in common. */

/* A short text; what is longer is cut off. */
struct text {
    char line[64];
};

struct text text_of(const char *format, ...) __attribute__((format(printf, 1, 2)));
struct text grouped(uint64_t number);
struct text megahertz(uint32_t hz);
int width_of_names(const struct request *request);
void say_verdict(const struct file *file, int width, enum rikkovan_refusal refusal);
void say_failure(const char *name, const char *cause);
enum status flush_output(void);
enum status say_refused(const struct file *file, enum rikkovan_refusal refusal);

/* call.c: the head before a call and after it, and what the call returned. */
struct call {
    struct file before, head;
    const struct file *about; /* the file that a refusal is about */
    uint32_t journal[RIKKOVAN_JOURNAL_WORDS];
    rikkovan_answer answer;
};

enum status begin_call(struct call *call, const char *head);
enum status end_call(const struct call *call, const struct request *request);

/* tasks.c: some booked tasks of a head; all of them, their load and what carries it. */
void show_places(const uint8_t *head, uint32_t first, uint32_t count);
void show_tasks(const struct file *head);

/* words.c: what a journal entry does, a delay also in time, at the HCLK of its moment. */
struct text entry_words(uint32_t entry, uint32_t hclk);
uint64_t nanoseconds(uint32_t cycles, uint32_t hclk);
struct text microseconds(uint64_t nanoseconds);
const char *flash_source(unsigned select);
const char *supply(uint32_t value);
const char *lpsys_supply(uint32_t value);

/* moments.c: the head before a call and after each entry of its journal. */
void show_moments(const struct call *call);

#endif
