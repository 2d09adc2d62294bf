/*
 * fuzz [--runs N] [--seed S]: makes and checks N inputs that follow from the seed, and counts the
 * answers. fuzz --input HEX: one input, in this process, which it ends where it fails.
 *
 * The inputs run in a process of their own. One that ends it is made small, by processes too, and
 * printed. Exit status: 0 all passed; 1 an input failed; 2 the arguments are wrong.
 */
#define _DEFAULT_SOURCE
#include "fuzz.h"

#include <fcntl.h>
#include <signal.h>
#include <stdio.h>
#include <stdlib.h>
#include <string.h>
#include <sys/mman.h>
#include <sys/time.h>
#include <sys/wait.h>
#include <time.h>
#include <unistd.h>

#define MOST_BYTES 256u
#define SECONDS_TO_RETURN 20

struct bytes {
    size_t size;
    uint8_t at[MOST_BYTES];
};

/* splitmix64 */
static uint64_t next_random(uint64_t *state)
{
    uint64_t z = *state += UINT64_C(0x9E3779B97F4A7C15);

    z = (z ^ z >> 30) * UINT64_C(0xBF58476D1CE4E5B9);
    z = (z ^ z >> 27) * UINT64_C(0x94D049BB133111EB);
    return z ^ z >> 31;
}

/* The input of a run, which no other run has a part in. */
static void generate(uint64_t seed, uint64_t run, struct bytes *bytes)
{
    uint64_t state = seed ^ run * UINT64_C(0xD1342543DE82EF95);
    size_t k;

    bytes->size = 1 + next_random(&state) % MOST_BYTES;
    for (k = 0; k < bytes->size; k++)
        bytes->at[k] = (uint8_t)next_random(&state);
}

static void print_answers(const struct call *call, const uint64_t *count)
{
    uint64_t made = 0;
    uint32_t n;

    for (n = 0; n <= MOST_REFUSAL; n++)
        made += count[n];
    printf("%-36s %9lu calls, %9lu done, refused", call->name, (unsigned long)made,
           (unsigned long)count[0]);
    for (n = 1; n <= MOST_REFUSAL; n++)
        if (count[n] != 0)
            printf(" %u:%lu", (unsigned)n, (unsigned long)count[n]);
    for (n = 1; n <= MOST_REFUSAL; n++)
        if ((call->refusals >> n & 1) != 0 && count[n] == 0)
            printf(", never %u", (unsigned)n);
    printf("\n");
}

/*
 * Ends the process by SIGPROF once it has used that much processor time from here on: a call does
 * not return. The time of a busy machine's other processes does not count.
 */
static void limit_time(void)
{
    struct itimerval limit = {{0, 0}, {SECONDS_TO_RETURN, 0}};

    setitimer(ITIMER_PROF, &limit, NULL);
}

/* Whether standard error is a terminal on which a line can be written over. */
static int is_moving(void)
{
    const char *term = getenv("TERM");

    return isatty(STDERR_FILENO) && term != NULL && strcmp(term, "dumb") != 0;
}

static void clear_line(void)
{
    if (is_moving())
        fprintf(stderr, "\r\033[K");
}

/* Says how far the runs are, with the time so far and the time that the rest takes at that rate. */
static void show(uint64_t present, uint64_t runs, uint64_t seconds)
{
    uint64_t left = present == 0 ? 0 : seconds * (runs - present) / present;

    clear_line();
    fprintf(stderr, "fuzz: %lu of %lu runs (%lu:%02lu, about %lu:%02lu left)%s",
            (unsigned long)present, (unsigned long)runs, (unsigned long)seconds / 60,
            (unsigned long)seconds % 60, (unsigned long)left / 60, (unsigned long)left % 60,
            is_moving() ? "" : "\n");
}

/* Waits for the process that makes the runs, and says each second or each ten how far it is. */
static pid_t await(pid_t child, int *status, const volatile uint64_t *present, uint64_t runs)
{
    const struct timespec nap = {0, 50000000};
    const time_t began = time(NULL), every = is_moving() ? 1 : 10;
    time_t shown = began, now;
    pid_t ended;

    while ((ended = waitpid(child, status, WNOHANG)) == 0) {
        nanosleep(&nap, NULL);
        now = time(NULL);
        if (now - shown < every || *present >= runs)
            continue;
        shown = now;
        show(*present, runs, (uint64_t)(now - began));
    }
    return ended;
}

/* Makes the runs, with the number of the present one where the parent sees it. */
static void make_runs(uint64_t runs, uint64_t seed, volatile uint64_t *present)
{
    struct bytes bytes;
    int k;

    for (*present = 0; *present < runs; ++*present) {
        if (*present % 4096 == 0)
            limit_time();
        generate(seed, *present, &bytes);
        fuzz_one(bytes.at, bytes.size);
    }
    clear_line();
    for (k = 0; k < CALLS; k++)
        print_answers(&calls[k], answered[k]);
}

/*
 * Whether a process that makes one input fails. What it says is left out, as is the sanitizer's
 * report of a fault, which takes long.
 */
static int fails(const struct bytes *bytes)
{
    int status = 0;
    pid_t child = fork();

    if (child == 0) {
        int null = open("/dev/null", O_WRONLY);

        dup2(null, STDOUT_FILENO);
        dup2(null, STDERR_FILENO);
        signal(SIGSEGV, SIG_DFL);
        limit_time();
        fuzz_one(bytes->at, bytes->size);
        _exit(0);
    }
    return child > 0 && waitpid(child, &status, 0) == child && status != 0;
}

/* Takes over a smaller input where it fails too. */
static int shrinks_to(struct bytes *bytes, const struct bytes *smaller)
{
    if (!fails(smaller))
        return 0;
    *bytes = *smaller;
    return 1;
}

/* Shorter, by halves and by bytes, then byte by byte 0, as long as one of them still fails. */
static void shrink(struct bytes *bytes)
{
    int is_smaller = 1;

    while (is_smaller) {
        struct bytes smaller = *bytes;
        size_t k, cut;

        is_smaller = 0;
        for (cut = bytes->size / 2; cut > 0; cut /= 2) {
            smaller = *bytes;
            smaller.size -= cut;
            is_smaller |= shrinks_to(bytes, &smaller);
        }
        for (k = 0; k < bytes->size; k++) {
            smaller = *bytes;
            smaller.at[k] = 0;
            if (bytes->at[k] != 0)
                is_smaller |= shrinks_to(bytes, &smaller);
        }
    }
}

/* Shows how a failing input is made again. */
static void print_input(const char *program, const struct bytes *bytes)
{
    size_t k;

    printf("fuzz: run it again: %s --input ", program);
    for (k = 0; k < bytes->size; k++)
        printf("%02x", bytes->at[k]);
    printf("\n");
}

static int run_all(const char *program, uint64_t runs, uint64_t seed)
{
    uint64_t *present = mmap(NULL, sizeof *present, PROT_READ | PROT_WRITE,
                             MAP_SHARED | MAP_ANONYMOUS, -1, 0);
    struct bytes bytes;
    int status = 0;
    pid_t child;

    printf("fuzz: %lu runs, seed %lu\n", (unsigned long)runs, (unsigned long)seed);
    fflush(stdout);
    child = present == MAP_FAILED ? -1 : fork();
    if (child == 0) {
        make_runs(runs, seed, present);
        fflush(stdout);
        _exit(0);
    }
    if (child < 0 || await(child, &status, present, runs) != child) {
        perror("fuzz");
        return 2;
    }
    clear_line();
    if (status == 0) {
        printf("fuzz: all passed\n");
        return 0;
    }
    printf("fuzz: run %lu failed%s\n", (unsigned long)*present,
           WIFSIGNALED(status) && WTERMSIG(status) == SIGPROF ? ": it does not return" : "");
    fflush(stdout);
    generate(seed, *present, &bytes);
    shrink(&bytes);
    print_input(program, &bytes);
    return 1;
}

/* An input from its hex digits. Returns 0, or 2 where they are none. */
static int run_input(const char *hex)
{
    struct bytes bytes;
    size_t digits = strlen(hex), k;
    unsigned value;

    if (digits % 2 != 0 || digits / 2 > MOST_BYTES)
        return 2;
    bytes.size = digits / 2;
    for (k = 0; k < bytes.size; k++) {
        if (sscanf(hex + 2 * k, "%2x", &value) != 1)
            return 2;
        bytes.at[k] = (uint8_t)value;
    }
    return fuzz_one(bytes.at, bytes.size);
}

static int reads_number(const char *text, uint64_t *number)
{
    char *end;

    *number = strtoull(text, &end, 10);
    return *text >= '0' && *text <= '9' && *end == '\0';
}

int main(int argc, char **argv)
{
    uint64_t runs = 1000000, seed = 1;
    int i, is_good = argc % 2 == 1;

    if (argc == 3 && strcmp(argv[1], "--input") == 0)
        return run_input(argv[2]);
    for (i = 1; i + 1 < argc; i += 2) {
        if (strcmp(argv[i], "--runs") == 0)
            is_good &= reads_number(argv[i + 1], &runs) && runs > 0;
        else
            is_good &= strcmp(argv[i], "--seed") == 0 && reads_number(argv[i + 1], &seed);
    }
    if (!is_good) {
        fprintf(stderr, "usage: fuzz [--runs N] [--seed S] | --input HEX\n");
        return 2;
    }
    return run_all(argv[0], runs, seed);
}
