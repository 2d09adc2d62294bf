/* Includes rikkovan.h and nothing else, twice. Valid as C99 and as C++. Ends with 0 if it works. */
#include "rikkovan.h"
#include "rikkovan.h"

int main(void)
{
    const uint8_t plan[RIKKOVAN_PLAN_BYTES] = RIKKOVAN_DEFAULT_PLAN;
    const uint8_t head[RIKKOVAN_HEAD_BYTES] = RIKKOVAN_EMPTY_HEAD;
    uint32_t clocks[RIKKOVAN_CLOCKS], lpsys[RIKKOVAN_LPSYS_CLOCKS];
    rikkovan_answer answer;

    if (rikkovan_plan_refusal(rikkovan_plan_check(RIKKOVAN_LEND(plan))) != RIKKOVAN_NOT_REFUSED)
        return 1;
    if (!rikkovan_done(rikkovan_read_clocks(RIKKOVAN_LEND(head), clocks)))
        return 1;
    if (clocks[RIKKOVAN_CLOCK_PERI] != RIKKOVAN_OSCILLATOR_HZ || clocks[RIKKOVAN_CLOCK_HCLK] != 0)
        return 1;
    answer = rikkovan_read_lpsys(head, 0, lpsys);
    if (rikkovan_done(answer) || rikkovan_refusal(answer) != RIKKOVAN_REFUSED_LENGTH)
        return 1;
    if (rikkovan_value(answer) != 0 || rikkovan_entries(answer) != 0 || rikkovan_taken(answer) != 0)
        return 1;
    if (rikkovan_load(rikkovan_load_check(RIKKOVAN_NO_TASKS)) != 0)
        return 1;
    return rikkovan_refusal_text(rikkovan_refusal(answer)) == 0;
}
