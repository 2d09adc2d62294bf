/* What the library reads from a head. */
#include "program.h"

enum rikkovan_refusal read_head(const struct file *head, struct reading *reading)
{
    rikkovan_answer answer = rikkovan_read_clocks(head->bytes, head->len, reading->clocks);

    rikkovan_read_lpsys(head->bytes, head->len, reading->lpsys);
    rikkovan_read_fit(head->bytes, head->len, reading->fit);
    return rikkovan_refusal(answer);
}
