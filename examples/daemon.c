/*
 * daemon [PLAN].. [--tasks FILE]..: checks plans and lists of tasks, as a detector daemon does
 * before it hands a plan to a head and books tasks on it.
 *
 * Prints a line for each file: its name, the verdict, and for a refused file the refusal number and
 * the reason, for an accepted list of tasks its load. Exit status: 0 all are accepted; 1 one is
 * refused or cannot be read; 2 no file is named.
 */
#include <errno.h>
#include <stdio.h>
#include <string.h>

#include "rikkovan.h"

/*
 * What follows in a longer file is not read: such a file is refused for its length, as a list of
 * tasks too, since 4,096 is not a multiple of 9.
 */
#define READ_MAX 4096

/* Reads a file, up to READ_MAX bytes. Returns 0, or -1 with errno set. */
static int read_file(const char *name, uint8_t bytes[READ_MAX], size_t *len)
{
    FILE *file = fopen(name, "rb");
    int failed, error;

    if (file == NULL)
        return -1;
    *len = fread(bytes, 1, READ_MAX, file);
    failed = ferror(file);
    error = errno;
    fclose(file);
    errno = error;
    return failed ? -1 : 0;
}

static void print_refusal(const char *name, int width, enum rikkovan_refusal refusal)
{
    printf("%-*s  refused %2d  %s\n", width, name, (int)refusal, rikkovan_refusal_text(refusal));
}

/* Prints the verdict on a plan. Returns 0 if it is accepted, else 1. */
static int check_plan(const char *name, int width, const uint8_t *bytes, size_t len)
{
    enum rikkovan_refusal refusal = rikkovan_plan_refusal(rikkovan_plan_check(bytes, len));

    if (refusal != RIKKOVAN_NOT_REFUSED) {
        print_refusal(name, width, refusal);
        return 1;
    }
    printf("%-*s  accepted\n", width, name);
    return 0;
}

/* Prints the verdict on a list of tasks. Returns 0 if it is accepted, else 1. */
static int check_tasks(const char *name, int width, const uint8_t *bytes, size_t len)
{
    uint64_t checked = rikkovan_load_check(bytes, len);

    if (rikkovan_load_refusal(checked) != RIKKOVAN_NOT_REFUSED) {
        print_refusal(name, width, rikkovan_load_refusal(checked));
        return 1;
    }
    printf("%-*s  accepted    load %lu cycles per second\n", width, name,
           (unsigned long)rikkovan_load(checked));
    return 0;
}

typedef int check(const char *name, int width, const uint8_t *bytes, size_t len);

/* Reads a file and prints the verdict on it. Returns 0 if it is accepted, else 1. */
static int check_file(check *verdict, const char *name, int width)
{
    uint8_t bytes[READ_MAX];
    size_t len;

    if (read_file(name, bytes, &len) != 0) {
        fprintf(stderr, "daemon: %s: %s\n", name, strerror(errno));
        return 1;
    }
    return verdict(name, width, bytes, len);
}

static int is_option(const char *argument)
{
    return strcmp(argument, "--tasks") == 0;
}

/* The width of the longest name of a file, or 0 where none is named or --tasks has none. */
static int width_of_names(int argc, char **argv)
{
    int i, width = 0;

    for (i = 1; i < argc; i++) {
        if (is_option(argv[i]) && ++i == argc)
            return 0;
        if ((int)strlen(argv[i]) > width)
            width = (int)strlen(argv[i]);
    }
    return width;
}

int main(int argc, char **argv)
{
    int i, width = width_of_names(argc, argv), status = 0;

    if (width == 0) {
        fprintf(stderr, "usage: daemon [PLAN].. [--tasks FILE]..\n");
        return 2;
    }
    for (i = 1; i < argc; i++) {
        if (is_option(argv[i]))
            status |= check_file(check_tasks, argv[++i], width);
        else
            status |= check_file(check_plan, argv[i], width);
    }
    if (fflush(stdout) != 0) {
        perror("daemon: standard output");
        return 1;
    }
    return status;
}
