/* rikkovan release HEAD ID: releases a task. */
#include "program.h"

enum status run_release(const struct request *request)
{
    struct call call;
    uint32_t id;

    if (read_number("ID", request->operands[1], UINT8_MAX, &id) != STATUS_DONE ||
        begin_call(&call, request->operands[0]) != STATUS_DONE)
        return STATUS_FAILED;
    call.answer = rikkovan_release(call.head.bytes, call.head.len, (uint8_t)id);
    show_tasks(&call.head);
    return end_call(&call, request);
}
