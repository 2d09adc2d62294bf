/* rikkovan book HEAD ID CYCLES PERIOD: books a task where HCLK carries it. */
#include "program.h"

enum status run_book(const struct request *request)
{
    struct call call;
    uint32_t id, cycles, period_us;

    if (read_number("ID", request->operands[1], UINT8_MAX, &id) != STATUS_DONE ||
        read_number("CYCLES", request->operands[2], UINT32_MAX, &cycles) != STATUS_DONE ||
        read_number("PERIOD", request->operands[3], UINT32_MAX, &period_us) != STATUS_DONE ||
        begin_call(&call, request->operands[0]) != STATUS_DONE)
        return STATUS_FAILED;
    call.answer = rikkovan_book(call.head.bytes, call.head.len, (uint8_t)id, cycles, period_us);
    show_tasks(&call.head);
    return end_call(&call, request);
}
