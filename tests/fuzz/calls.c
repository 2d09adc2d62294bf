#include "fuzz.h"

const size_t element_size[BUFFERS] = {
    [HEAD] = 1,
    [PLAN] = 1,
    [TASKS] = 1,
    [CLOCKS] = sizeof(uint32_t),
    [FIT] = sizeof(uint64_t),
    [ENTRIES] = sizeof(uint32_t),
    [JOURNAL] = sizeof(uint32_t),
    [ANSWERS] = sizeof(uint16_t),
};

uint64_t answered[CALLS][MOST_REFUSAL + 1];

#define LENT(buffer) lent->at[buffer], lent->len[buffer]

static uint64_t plan_check(const struct lent *lent)
{
    return rikkovan_plan_check(LENT(PLAN));
}

static uint64_t read_clocks(const struct lent *lent)
{
    return rikkovan_read_clocks(LENT(HEAD), lent->at[CLOCKS]).word;
}

static uint64_t read_lpsys(const struct lent *lent)
{
    return rikkovan_read_lpsys(LENT(HEAD), lent->at[CLOCKS]).word;
}

static uint64_t read_fit(const struct lent *lent)
{
    return rikkovan_read_fit(LENT(HEAD), lent->at[FIT]).word;
}

static uint64_t moment(const struct lent *lent)
{
    return rikkovan_moment(LENT(HEAD), LENT(ENTRIES)).word;
}

static uint64_t config_lpsys(const struct lent *lent)
{
    return rikkovan_config_lpsys_hclk_mhz(LENT(HEAD), lent->number[0], LENT(JOURNAL)).word;
}

static uint64_t ensure_safe(const struct lent *lent)
{
    return rikkovan_ensure_safe_lcpu_frequency(LENT(HEAD), LENT(JOURNAL)).word;
}

static uint64_t set_hdiv(const struct lent *lent)
{
    return rikkovan_set_lpsys_hdiv(LENT(HEAD), lent->byte[0], LENT(JOURNAL)).word;
}

static uint64_t set_div(const struct lent *lent)
{
    return rikkovan_set_lpsys_div(LENT(HEAD), lent->byte[0], lent->byte[1], lent->byte[2],
                                  LENT(JOURNAL))
        .word;
}

static uint64_t config_mac(const struct lent *lent)
{
    return rikkovan_config_lpsys_mac_clock(LENT(HEAD), lent->byte[0], lent->byte[1], LENT(JOURNAL))
        .word;
}

static uint64_t select_sysclk(const struct lent *lent)
{
    return rikkovan_select_lpsys_sysclk(LENT(HEAD), lent->byte[1], LENT(JOURNAL)).word;
}

static uint64_t select_peri(const struct lent *lent)
{
    return rikkovan_select_lpsys_peri(LENT(HEAD), lent->byte[1], LENT(JOURNAL)).word;
}

static uint64_t cancel(const struct lent *lent)
{
    return rikkovan_cancel_lcpu_active_request(LENT(HEAD), LENT(JOURNAL)).word;
}

static uint64_t wake(const struct lent *lent)
{
    return rikkovan_wake_lcpu(LENT(HEAD), LENT(JOURNAL), LENT(ANSWERS)).word;
}

static uint64_t ensure_hxt48(const struct lent *lent)
{
    return rikkovan_ensure_hxt48_ready(LENT(HEAD), LENT(JOURNAL), LENT(ANSWERS)).word;
}

static uint64_t calibrate(const struct lent *lent)
{
    return rikkovan_calibrate_hrc48(LENT(HEAD), LENT(JOURNAL), LENT(ANSWERS)).word;
}

static uint64_t init(const struct lent *lent)
{
    return rikkovan_init(LENT(HEAD), LENT(PLAN), lent->at[CLOCKS], LENT(JOURNAL), LENT(ANSWERS))
        .word;
}

static uint64_t reconfigure(const struct lent *lent)
{
    return rikkovan_reconfigure_sysclk(LENT(HEAD), LENT(PLAN), lent->at[CLOCKS], LENT(JOURNAL),
                                       LENT(ANSWERS))
        .word;
}

static uint64_t load_check(const struct lent *lent)
{
    return rikkovan_load_check(LENT(TASKS));
}

static uint64_t book(const struct lent *lent)
{
    return rikkovan_book(LENT(HEAD), lent->byte[0], lent->number[0], lent->number[1]).word;
}

static uint64_t release(const struct lent *lent)
{
    return rikkovan_release(LENT(HEAD), lent->byte[0]).word;
}

static uint64_t look_up(const struct lent *lent)
{
    return rikkovan_look_up(LENT(HEAD), lent->byte[0]).word;
}

static uint64_t change(const struct lent *lent)
{
    return rikkovan_change(LENT(HEAD), LENT(PLAN), LENT(JOURNAL), LENT(ANSWERS)).word;
}

#define H LENDS(HEAD)
#define P LENDS(PLAN)
#define T LENDS(TASKS)
#define C LENDS(CLOCKS)
#define F LENDS(FIT)
#define E LENDS(ENTRIES)
#define J LENDS(JOURNAL)
#define A LENDS(ANSWERS)

#define R(n) (UINT64_C(1) << (n))
#define HEADS (R(1) | R(2) | R(3))
#define PLANS (R(15) - R(1))
#define JOURNALS (HEADS | R(17))
#define WAITS (JOURNALS | R(18) | R(36))

const struct call calls[CALLS] = {
    {"rikkovan_plan_check", plan_check, P, P, 0, PLANS},
    {"rikkovan_read_clocks", read_clocks, H | C, H, 0, HEADS},
    {"rikkovan_read_lpsys", read_lpsys, H | C, H, 0, HEADS},
    {"rikkovan_read_fit", read_fit, H | F, H, 0, HEADS},
    {"rikkovan_moment", moment, H | E, E, 0, HEADS},
    {"rikkovan_config_lpsys_hclk_mhz", config_lpsys, H | J, 0, 4, JOURNALS | R(15) | R(34)},
    {"rikkovan_ensure_safe_lcpu_frequency", ensure_safe, H | J, 0, 4, JOURNALS | R(43)},
    {"rikkovan_set_lpsys_hdiv", set_hdiv, H | J, 0, 1, JOURNALS},
    {"rikkovan_set_lpsys_div", set_div, H | J, 0, 1, JOURNALS},
    {"rikkovan_config_lpsys_mac_clock", config_mac, H | J, 0, 1, JOURNALS},
    {"rikkovan_select_lpsys_sysclk", select_sysclk, H | J, 0, 1, JOURNALS},
    {"rikkovan_select_lpsys_peri", select_peri, H | J, 0, 1, JOURNALS},
    {"rikkovan_cancel_lcpu_active_request", cancel, H | J, 0, 1, JOURNALS},
    {"rikkovan_wake_lcpu", wake, H | J | A, A, 5, WAITS | R(34)},
    {"rikkovan_ensure_hxt48_ready", ensure_hxt48, H | J | A, A, 4, WAITS},
    {"rikkovan_calibrate_hrc48", calibrate, H | J | A, A, 57, WAITS | R(31) | R(33) | R(34)},
    {"rikkovan_init", init, H | P | C | J | A, P | A, 88,
     WAITS | PLANS | R(32) | R(34) | R(35)},
    {"rikkovan_reconfigure_sysclk", reconfigure, H | P | C | J | A, P | A, 14,
     WAITS | PLANS | R(34) | R(35)},
    {"rikkovan_load_check", load_check, T, T, 0, R(1) | R(16) | R(40) | R(41)},
    {"rikkovan_book", book, H, 0, 0, HEADS | R(16) | R(34) | R(39) | R(40) | R(41)},
    {"rikkovan_release", release, H, 0, 0, HEADS | R(42)},
    {"rikkovan_look_up", look_up, H, H, 0, HEADS},
    {"rikkovan_change", change, H | P | J | A, P | A, 20,
     WAITS | PLANS | R(37) | R(38) | R(39)},
};

uint32_t refusal_of(enum which which, uint64_t answer)
{
    switch (which) {
    case PLAN_CHECK: return rikkovan_plan_refusal(answer);
    case LOAD_CHECK: return rikkovan_load_refusal(answer);
    default: return rikkovan_refusal(rikkovan_answer_of(answer));
    }
}
