/* The head before a call and after each entry of its journal: a line for each moment. */
#include "program.h"

#include <stdio.h>

static void show_heading(void)
{
    printf("    entry                                       HCLK   rail limit  supply  flash 1     "
           "flash 2       LPSYS HCLK  supply  load\n");
}

static void show_moment(uint32_t number, const char *words, const uint8_t *head,
                        const struct reading *reading)
{
    uint32_t flash = rikkovan_get_register(head, RIKKOVAN_REG_FLASH);

    printf("%-4u%-36s%12s", (unsigned)number, words,
           megahertz(reading->clocks[RIKKOVAN_CLOCK_HCLK]).line);
    printf(" %12s  %-8s", megahertz((uint32_t)reading->fit[RIKKOVAN_FIT_RAIL_LIMIT]).line,
           supply(rikkovan_get_register(head, RIKKOVAN_REG_HPSYS_SUPPLY)));
    printf("%-12s%-12s", flash_source(rikkovan_value_b(flash)),
           flash_source(rikkovan_value_c(flash)));
    printf("%12s  %-8s%s cycles/s\n", megahertz(reading->lpsys[RIKKOVAN_LPSYS_HCLK]).line,
           lpsys_supply(rikkovan_get_register(head, RIKKOVAN_REG_LPSYS_SUPPLY)),
           grouped(reading->fit[RIKKOVAN_FIT_LOAD]).line);
}

static void show_sum(const struct call *call, uint64_t delays)
{
    printf("entries: %u, answers taken: %u, delays: %s\n",
           (unsigned)rikkovan_entries(call->answer), (unsigned)rikkovan_taken(call->answer),
           microseconds(delays).line);
}

/* Nothing of a head that is refused. */
void show_moments(const struct call *call)
{
    struct file moment = call->before;
    struct reading reading;
    uint64_t delays = 0;
    uint32_t k, entry;

    if (read_head(&moment, &reading) != RIKKOVAN_NOT_REFUSED)
        return;
    show_heading();
    show_moment(0, "the head as it was", moment.bytes, &reading);
    for (k = 0; k < rikkovan_entries(call->answer); k++) {
        entry = call->journal[k];
        rikkovan_moment(moment.bytes, moment.len, &entry, 1);
        read_head(&moment, &reading);
        show_moment(k + 1, entry_words(entry, reading.clocks[RIKKOVAN_CLOCK_HCLK]).line,
                    moment.bytes, &reading);
        if (rikkovan_is_delay(entry))
            delays += nanoseconds(rikkovan_entry_value(entry),
                                  reading.clocks[RIKKOVAN_CLOCK_HCLK]);
    }
    if (k > 0)
        show_sum(call, delays);
}
