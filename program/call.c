/* A call on a head in a file: how it begins and how it ends. */
#include "program.h"

#include <stdio.h>
#include <string.h>

enum status begin_call(struct call *call, const char *head)
{
    enum status status = read_file(head, KIND_HEAD, &call->before);

    if (status != STATUS_DONE)
        return status;
    call->head = call->before;
    call->about = &call->before;
    return STATUS_DONE;
}

/*
 * Prints the last line. With --write a head that changed is put back, of a refused call too, since
 * some refusals keep what was done before them. What is printed is out before the file is touched.
 */
enum status end_call(const struct call *call, const struct request *request)
{
    enum status status = STATUS_DONE;

    if (rikkovan_done(call->answer))
        printf("%s: done\n", call->head.name);
    else
        status = say_refused(call->about, rikkovan_refusal(call->answer));
    if (!request->write || memcmp(call->before.bytes, call->head.bytes, call->head.len) == 0)
        return status;
    if (flush_output() != STATUS_DONE || replace_file(&call->head) != STATUS_DONE)
        return STATUS_FAILED;
    return status;
}
