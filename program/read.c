/* rikkovan read HEAD: the clocks, supplies and tasks of a head. */
#include "program.h"

#include <stdio.h>

static const char *const clock_names[RIKKOVAN_CLOCKS] = {
    [RIKKOVAN_CLOCK_SYSCLK] = "SYSCLK",
    [RIKKOVAN_CLOCK_HCLK] = "HCLK",
    [RIKKOVAN_CLOCK_PCLK1] = "PCLK1",
    [RIKKOVAN_CLOCK_PCLK2] = "PCLK2",
    [RIKKOVAN_CLOCK_DLL1] = "DLL1",
    [RIKKOVAN_CLOCK_DLL2] = "DLL2",
    [RIKKOVAN_CLOCK_PERI] = "peripheral",
    [RIKKOVAN_CLOCK_PERI_DIV2] = "peripheral / 2",
    [RIKKOVAN_CLOCK_USB] = "USB",
    [RIKKOVAN_CLOCK_WDT] = "watchdog",
    [RIKKOVAN_CLOCK_RTC] = "RTC",
    [RIKKOVAN_CLOCK_MPI1] = "flash 1",
    [RIKKOVAN_CLOCK_MPI2] = "flash 2",
    [RIKKOVAN_CLOCK_AUD_PLL] = "audio PLL",
    [RIKKOVAN_CLOCK_AUD_PLL_DIV16] = "audio PLL / 16",
};

static const char *const lpsys_names[RIKKOVAN_LPSYS_CLOCKS] = {
    [RIKKOVAN_LPSYS_SYSCLK] = "LPSYS SYSCLK",
    [RIKKOVAN_LPSYS_HCLK] = "LPSYS HCLK",
    [RIKKOVAN_LPSYS_PCLK1] = "LPSYS PCLK1",
    [RIKKOVAN_LPSYS_PCLK2] = "LPSYS PCLK2",
    [RIKKOVAN_LPSYS_PERI] = "LPSYS peripheral",
    [RIKKOVAN_LPSYS_MAC] = "LPSYS MAC",
};

/* A frequency in its column; a dash for none. */
static void show_clock(const char *name, uint64_t hz)
{
    printf("%-18s%15s\n", name, hz == 0 ? "-" : grouped(hz).line);
}

static void show_clocks(const struct reading *reading)
{
    int k;

    printf("clock                          Hz\n");
    for (k = 0; k < RIKKOVAN_CLOCKS; k++)
        show_clock(clock_names[k], reading->clocks[k]);
    for (k = 0; k < RIKKOVAN_LPSYS_CLOCKS; k++)
        show_clock(lpsys_names[k], reading->lpsys[k]);
    show_clock("rail limit", reading->fit[RIKKOVAN_FIT_RAIL_LIMIT]);
}

static void show_flag(const char *name, const uint8_t *head, enum rikkovan_flag flag)
{
    printf("%-18s%15s\n", name,
           rikkovan_get_flag(head, flag) == RIKKOVAN_READY ? "ready" : "not ready");
}

static void show_state(const uint8_t *head)
{
    uint32_t flash = rikkovan_get_register(head, RIKKOVAN_REG_FLASH);

    printf("state\n");
    printf("%-18s%15s\n", "supply",
           supply(rikkovan_get_register(head, RIKKOVAN_REG_HPSYS_SUPPLY)));
    printf("%-18s%15s\n", "LPSYS supply",
           lpsys_supply(rikkovan_get_register(head, RIKKOVAN_REG_LPSYS_SUPPLY)));
    printf("%-18s%15s\n", "flash 1 on", flash_source(rikkovan_value_b(flash)));
    printf("%-18s%15s\n", "flash 2 on", flash_source(rikkovan_value_c(flash)));
    show_flag("HXT48", head, RIKKOVAN_FLAG_HXT48);
    show_flag("HRC48", head, RIKKOVAN_FLAG_HRC48);
    show_flag("LPSYS HXT48", head, RIKKOVAN_FLAG_LPSYS_HXT48);
    printf("%-18s%15d\n", "boot mode", rikkovan_get_boot_mode(head));
    printf("%-18s%15d\n", "wake count", rikkovan_get_wake_count(head));
}

/* Whether a guarded change can begin. */
static void show_fit(const struct file *head, const struct reading *reading)
{
    enum rikkovan_unfit unfit = rikkovan_unfit(reading->fit);

    if (unfit == RIKKOVAN_FIT)
        printf("%s: fit\n", head->name);
    else
        printf("%s: not fit: %s\n", head->name, rikkovan_unfit_text(unfit));
}

enum status run_read(const struct request *request)
{
    struct file head;
    struct reading reading;
    enum rikkovan_refusal refusal;

    if (read_file(request->operands[0], KIND_HEAD, &head) != STATUS_DONE)
        return STATUS_FAILED;
    refusal = read_head(&head, &reading);
    if (refusal != RIKKOVAN_NOT_REFUSED)
        return say_refused(&head, refusal);
    show_clocks(&reading);
    printf("\n");
    show_state(head.bytes);
    printf("\n");
    show_tasks(&head);
    printf("\n");
    show_fit(&head, &reading);
    return STATUS_DONE;
}
