/* rikkovan lpsys HEAD MHZ: requests an HCLK of the low-power system. */
#include "program.h"

enum status run_lpsys(const struct request *request)
{
    struct call call;
    uint32_t mhz;

    if (read_number("MHZ", request->operands[1], UINT32_MAX, &mhz) != STATUS_DONE ||
        begin_call(&call, request->operands[0]) != STATUS_DONE)
        return STATUS_FAILED;
    call.answer = rikkovan_config_lpsys_hclk_mhz(call.head.bytes, call.head.len, mhz,
                                                 RIKKOVAN_LEND(call.journal));
    show_moments(&call);
    return end_call(&call, request);
}
