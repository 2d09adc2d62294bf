/* rikkovan check PLAN..: the verdict on each plan. */
#include "program.h"

#include <stdio.h>

static enum status check_plan(const char *name, int width)
{
    struct file plan;
    enum rikkovan_refusal refusal;

    if (read_file(name, KIND_PLAN, &plan) != STATUS_DONE)
        return STATUS_FAILED;
    refusal = rikkovan_plan_refusal(rikkovan_plan_check(plan.bytes, plan.len));
    say_verdict(&plan, width, refusal);
    if (refusal != RIKKOVAN_NOT_REFUSED)
        return STATUS_REFUSED;
    printf("\n");
    return STATUS_DONE;
}

enum status run_check(const struct request *request)
{
    int k, width = width_of_names(request);
    enum status status, worst = STATUS_DONE;

    for (k = 0; k < request->count; k++) {
        status = check_plan(request->operands[k], width);
        worst = status > worst ? status : worst;
    }
    return worst;
}
