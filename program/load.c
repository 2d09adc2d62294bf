/* rikkovan load TASKS..: the load of each list of tasks. */
#include "program.h"

#include <stdio.h>

static enum status check_tasks(const char *name, int width)
{
    struct file tasks;
    uint64_t checked;

    if (read_file(name, KIND_TASKS, &tasks) != STATUS_DONE)
        return STATUS_FAILED;
    checked = rikkovan_load_check(tasks.bytes, tasks.len);
    say_verdict(&tasks, width, rikkovan_load_refusal(checked));
    if (rikkovan_load_refusal(checked) != RIKKOVAN_NOT_REFUSED)
        return STATUS_REFUSED;
    printf("    load %s cycles/s\n", grouped(rikkovan_load(checked)).line);
    return STATUS_DONE;
}

enum status run_load(const struct request *request)
{
    int k, width = width_of_names(request);
    enum status status, worst = STATUS_DONE;

    for (k = 0; k < request->count; k++) {
        status = check_tasks(request->operands[k], width);
        worst = status > worst ? status : worst;
    }
    return worst;
}
