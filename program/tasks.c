/* The booked tasks of a head, their load and what carries it. */
#include "program.h"

#include <stdio.h>

/* The share of a task is the load of a list that has it alone. */
static void show_task(const uint8_t *head, uint32_t place)
{
    struct rikkovan_task task = rikkovan_get_head_task(head, place);
    uint8_t alone[RIKKOVAN_TASK_BYTES];
    uint64_t share;

    rikkovan_put_task(alone, 0, task);
    share = rikkovan_load(rikkovan_load_check(RIKKOVAN_LEND(alone)));
    printf("%4d%16s%14s%24s\n", task.id, grouped(task.cycles).line, grouped(task.period_us).line,
           grouped(share).line);
}

/* So many tasks from a place on, in columns. */
void show_places(const uint8_t *head, uint32_t first, uint32_t count)
{
    uint32_t place;

    printf("task          cycles     period us                cycles/s\n");
    for (place = first; place < first + count; place++)
        show_task(head, place);
}

/* Nothing of a head that is refused. */
void show_tasks(const struct file *head)
{
    struct reading reading;
    uint32_t hclk;

    if (read_head(head, &reading) != RIKKOVAN_NOT_REFUSED)
        return;
    hclk = reading.clocks[RIKKOVAN_CLOCK_HCLK];
    show_places(head->bytes, 0, rikkovan_get_task_count(head->bytes));
    printf("load%54s\n", grouped(reading.fit[RIKKOVAN_FIT_LOAD]).line);
    printf("HCLK%54s\n", hclk == 0 ? "-" : grouped(hclk).line);
}
