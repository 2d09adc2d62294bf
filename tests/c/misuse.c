/*
 * What must not compile: MISUSE is the number of a line below, 0 for none. Valid as C99 and as C++
 * where it is 0.
 */
#include "rikkovan.h"

int main(void)
{
    const uint8_t plan[RIKKOVAN_PLAN_BYTES] = RIKKOVAN_DEFAULT_PLAN;
    uint8_t head[RIKKOVAN_HEAD_BYTES] = RIKKOVAN_EMPTY_HEAD;
    rikkovan_answer answer = rikkovan_release(head, sizeof head, 1);
    const char *text = rikkovan_refusal_text(rikkovan_refusal(answer));
    uint64_t number = rikkovan_plan_check(plan, sizeof plan);

#if MISUSE == 1 /* a refused plan would read as accepted */
    number = rikkovan_refusal(rikkovan_plan_check(plan, sizeof plan));
#elif MISUSE == 2 /* no refusal, but a word */
    text = rikkovan_refusal_text(rikkovan_release(head, sizeof head, 1));
#elif MISUSE == 3 /* the load check's number is no answer */
    number = rikkovan_refusal(rikkovan_load_check(RIKKOVAN_NO_TASKS));
#elif MISUSE == 4 /* an answer is no number of the plan check */
    number = rikkovan_plan_refusal(rikkovan_release(head, sizeof head, 1));
#elif MISUSE == 5 /* and none of the load check */
    number = rikkovan_load(rikkovan_release(head, sizeof head, 1));
#elif MISUSE == 6 /* nor any other number */
    number = rikkovan_release(head, sizeof head, 1);
#elif MISUSE == 7 /* an answer is neither true nor false */
    if (rikkovan_release(head, sizeof head, 1))
        number = 1;
#elif MISUSE == 8 /* entries are those of an answer */
    number = rikkovan_entries(rikkovan_load_check(RIKKOVAN_NO_TASKS));
#endif
    return text == 0 || number != 0;
}
