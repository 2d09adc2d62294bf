/* rikkovan look-up HEAD ID: the task with an id, and how many tasks were read for it. */
#include "program.h"

#include <stdio.h>

/* The status is what a release of the id would have, so that a script can ask first. */
enum status run_look_up(const struct request *request)
{
    struct file head;
    rikkovan_answer answer;
    uint32_t id, read;

    if (read_number("ID", request->operands[1], UINT8_MAX, &id) != STATUS_DONE ||
        read_file(request->operands[0], KIND_HEAD, &head) != STATUS_DONE)
        return STATUS_FAILED;
    answer = rikkovan_look_up(head.bytes, head.len, (uint8_t)id);
    if (!rikkovan_done(answer))
        return say_refused(&head, rikkovan_refusal(answer));
    read = rikkovan_tasks_read(answer);
    if (rikkovan_hit(answer))
        show_places(head.bytes, read - 1, 1);
    printf("%s: %s, tasks read: %u of %u\n", head.name, rikkovan_hit(answer) ? "booked" : "not booked",
           (unsigned)read, rikkovan_get_task_count(head.bytes));
    return rikkovan_hit(answer) ? STATUS_DONE : STATUS_REFUSED;
}
