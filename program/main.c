/* rikkovan: the clock control of a detector head, on the command line. rikkovan(1) describes it. */
#define _XOPEN_SOURCE 700

#include "program.h"

#include <limits.h>
#include <signal.h>
#include <stdio.h>
#include <string.h>

struct command {
    const char *name, *operands, *what;
    int fewest, most; /* operands */
    int writes;       /* whether it takes --write */
    enum status (*run)(const struct request *request);
};

static const struct command commands[] = {
    {"check", "PLAN..", "the verdict on each plan", 1, INT_MAX, 0, run_check},
    {"load", "TASKS..", "the load of each list of tasks", 1, INT_MAX, 0, run_load},
    {"read", "HEAD", "the clocks, supplies and tasks of a head", 1, 1, 0, run_read},
    {"change", "HEAD PLAN [ANSWERS]", "the guarded change of a head to a plan, by moments", 2, 3, 1,
     run_change},
    {"book", "HEAD ID CYCLES PERIOD", "book a task: core cycles in each period, in us", 4, 4, 1,
     run_book},
    {"release", "HEAD ID", "release a task", 2, 2, 1, run_release},
    {"look-up", "HEAD ID", "look for the task with an id", 2, 2, 0, run_look_up},
    {"lpsys", "HEAD MHZ", "request an HCLK of the low-power system, by moments", 2, 2, 1,
     run_lpsys},
};

#define COMMANDS (sizeof commands / sizeof commands[0])

static void print_help(void)
{
    size_t k;

    printf("usage: rikkovan COMMAND [--write] OPERAND..\n"
           "       rikkovan --help | --version\n\n");
    for (k = 0; k < COMMANDS; k++)
        printf("  %-8s%-24s%s\n", commands[k].name, commands[k].operands, commands[k].what);
    printf("\n"
           "  --write puts a head that changed back into its file. It goes with");
    for (k = 0; k < COMMANDS; k++)
        if (commands[k].writes)
            printf(" %s", commands[k].name);
    printf(".\n\n"
           "Exit status: 0 done or accepted, 1 refused, or no task has the id, 2 misuse or a file\n"
           "that cannot be read or written. rikkovan(1) says more.\n");
}

static void print_usage(FILE *stream, const struct command *command)
{
    fprintf(stream, "usage: rikkovan %s %s%s\n", command->name, command->writes ? "[--write] " : "",
            command->operands);
}

static const struct command *find_command(const char *name)
{
    size_t k;

    for (k = 0; k < COMMANDS; k++)
        if (strcmp(name, commands[k].name) == 0)
            return &commands[k];
    return NULL;
}

/*
 * Takes the options out of the arguments, so that the operands are left; behind -- all are
 * operands. Returns an option that the command does not take, or NULL.
 */
static const char *take_options(const struct command *command, char **arguments,
                                struct request *request)
{
    int ended = 0;

    request->operands = arguments;
    request->count = 0;
    request->write = 0;
    for (; *arguments != NULL; arguments++) {
        if (ended || (*arguments)[0] != '-')
            request->operands[request->count++] = *arguments;
        else if (strcmp(*arguments, "--") == 0)
            ended = 1;
        else if (command->writes && strcmp(*arguments, "--write") == 0)
            request->write = 1;
        else
            return *arguments;
    }
    return NULL;
}

static enum status run_command(const struct command *command, char **arguments)
{
    struct request request;
    const char *unknown;

    if (arguments[0] != NULL && strcmp(arguments[0], "--help") == 0) {
        print_usage(stdout, command);
        return STATUS_DONE;
    }
    unknown = take_options(command, arguments, &request);
    if (unknown != NULL)
        fprintf(stderr, "rikkovan: %s has no option %s\n", command->name, unknown);
    if (unknown != NULL || request.count < command->fewest || request.count > command->most) {
        print_usage(stderr, command);
        return STATUS_FAILED;
    }
    return command->run(&request);
}

static enum status run(const char *name, char **arguments)
{
    const struct command *command = find_command(name);

    if (command != NULL)
        return run_command(command, arguments);
    if (strcmp(name, "--help") == 0) {
        print_help();
        return STATUS_DONE;
    }
    if (strcmp(name, "--version") == 0) {
        printf("rikkovan " RIKKOVAN_LIBRARY_VERSION "\n");
        return STATUS_DONE;
    }
    fprintf(stderr, "rikkovan: no command %s; rikkovan --help lists them\n", name);
    return STATUS_FAILED;
}

int main(int argc, char **argv)
{
    enum status status;

    /* A file that may not grow is then a failure with a message, as a full disk is. */
    signal(SIGXFSZ, SIG_IGN);
    if (argc < 2) {
        fprintf(stderr, "usage: rikkovan COMMAND OPERAND..; rikkovan --help lists the commands\n");
        return STATUS_FAILED;
    }
    status = run(argv[1], argv + 2);
    if (flush_output() != STATUS_DONE)
        return STATUS_FAILED;
    return (int)status;
}
