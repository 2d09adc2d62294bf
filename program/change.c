/* rikkovan change HEAD PLAN [ANSWERS]: the guarded change of a head to a plan. */
#include "program.h"

#define ANSWERS (FILE_BYTES / 2)

/* The words of a file, which have their high byte first. Returns their number. */
static size_t words_of(const struct file *file, uint16_t words[ANSWERS])
{
    size_t k;

    for (k = 0; k < file->len / 2; k++)
        words[k] = rikkovan_get_16(file->bytes + 2 * k);
    return file->len / 2;
}

/* Without a file there are no answers. The library has no refusal for half of one. */
static enum status read_answers(const char *name, struct file *file)
{
    file->len = 0;
    if (name == NULL)
        return STATUS_DONE;
    if (read_file(name, KIND_ANSWERS, file) != STATUS_DONE)
        return STATUS_FAILED;
    explain_length(file);
    return has_length_of_its_kind(file) ? STATUS_DONE : STATUS_FAILED;
}

/* The answers are tested first, then the head, then the plan, whose refusals end with 14. */
static const struct file *about(const struct call *call, const struct file *plan,
                                const struct file *answers)
{
    enum rikkovan_refusal refusal = rikkovan_refusal(call->answer);
    struct reading reading;

    if (refusal == RIKKOVAN_REFUSED_ANSWERS)
        return answers;
    if (refusal > RIKKOVAN_REFUSED_DLL2)
        return &call->before;
    return read_head(&call->before, &reading) == RIKKOVAN_NOT_REFUSED ? plan : &call->before;
}

enum status run_change(const struct request *request)
{
    struct call call;
    struct file plan, answers;
    uint16_t words[ANSWERS];
    size_t count;

    if (begin_call(&call, request->operands[0]) != STATUS_DONE ||
        read_file(request->operands[1], KIND_PLAN, &plan) != STATUS_DONE ||
        read_answers(request->count > 2 ? request->operands[2] : NULL, &answers) != STATUS_DONE)
        return STATUS_FAILED;
    count = words_of(&answers, words);
    call.answer = rikkovan_change(call.head.bytes, call.head.len, plan.bytes, plan.len,
                                  RIKKOVAN_LEND(call.journal), words, count);
    call.about = about(&call, &plan, &answers);
    show_moments(&call);
    return end_call(&call, request);
}
