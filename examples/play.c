/* A player of journals: see play.h. */
#include <string.h>

#include "play.h"

/* The answers of a wait that is over at once; a measurement takes all three. */
#define SOONEST 3

/* A call with what it is given and what it gives, so that a copy of it can be made. */
struct call {
    rikkovan_answer (*make)(struct call *call, struct player *player, uint64_t answers);
    const uint8_t *plan;
    uint8_t head[RIKKOVAN_HEAD_BYTES];
    uint32_t clocks[RIKKOVAN_CLOCKS];
};

static rikkovan_answer make_change(struct call *call, struct player *player, uint64_t answers)
{
    return rikkovan_change(RIKKOVAN_LEND(call->head), call->plan, RIKKOVAN_PLAN_BYTES,
                           RIKKOVAN_LEND(player->journal), player->answers, answers);
}

static rikkovan_answer make_init(struct call *call, struct player *player, uint64_t answers)
{
    return rikkovan_init(RIKKOVAN_LEND(call->head), call->plan, RIKKOVAN_PLAN_BYTES, call->clocks,
                         RIKKOVAN_LEND(player->journal), player->answers, answers);
}

static rikkovan_answer make_reconfigure(struct call *call, struct player *player, uint64_t answers)
{
    return rikkovan_reconfigure_sysclk(RIKKOVAN_LEND(call->head), call->plan, RIKKOVAN_PLAN_BYTES,
                                       call->clocks, RIKKOVAN_LEND(player->journal),
                                       player->answers, answers);
}

static rikkovan_answer make_calibrate(struct call *call, struct player *player, uint64_t answers)
{
    return rikkovan_calibrate_hrc48(RIKKOVAN_LEND(call->head), RIKKOVAN_LEND(player->journal),
                                    player->answers, answers);
}

static rikkovan_answer make_wake(struct call *call, struct player *player, uint64_t answers)
{
    return rikkovan_wake_lcpu(RIKKOVAN_LEND(call->head), RIKKOVAN_LEND(player->journal),
                              player->answers, answers);
}

static rikkovan_answer make_hxt48(struct call *call, struct player *player, uint64_t answers)
{
    return rikkovan_ensure_hxt48_ready(RIKKOVAN_LEND(call->head), RIKKOVAN_LEND(player->journal),
                                       player->answers, answers);
}

static void play_entry(const struct play_chip *chip, uint32_t entry)
{
    if (rikkovan_is_store(entry))
        chip->store(chip->self, rikkovan_entry_number(entry), rikkovan_entry_value(entry));
    else if (rikkovan_is_delay(entry))
        chip->delay(chip->self, rikkovan_entry_value(entry));
}

void play_entries(const struct play_chip *chip, const uint32_t *entries, uint32_t count)
{
    uint32_t k;

    for (k = 0; k < count; k++)
        play_entry(chip, entries[k]);
}

/*
 * The kind of the wait in which a call ran out of answers: it has no entry there, and is the next
 * entry of the same call with answers that end it.
 */
static uint32_t kind_of_wait(struct player *player, const struct call *asked, uint64_t got,
                             uint32_t played)
{
    struct call ahead = *asked;

    memset(player->answers + got, 0, SOONEST * sizeof player->answers[0]);
    player->answers[got] = RIKKOVAN_READY;
    ahead.make(&ahead, player, got + SOONEST);
    return rikkovan_wait_kind(player->journal[played]);
}

static int may_poll(const struct player *player, uint64_t got)
{
    return got + SOONEST <= player->room && got + SOONEST <= RIKKOVAN_MOST_ANSWERS;
}

/* Polls the chip until it is ready or the limit is reached; returns the answers got with these. */
static uint64_t poll_chip(struct player *player, uint32_t kind, uint64_t got)
{
    const struct play_chip *chip = &player->chip;
    uint16_t answer = RIKKOVAN_NOT_READY;

    while (answer == RIKKOVAN_NOT_READY && may_poll(player, got))
        answer = player->answers[got++] = chip->poll(chip->self, kind);
    if (answer == RIKKOVAN_NOT_READY || kind != RIKKOVAN_WAIT_CALIBRATION)
        return got;
    player->answers[got++] = chip->poll(chip->self, PLAY_HXT_COUNT);
    player->answers[got++] = chip->poll(chip->self, PLAY_HRC_COUNT);
    return got;
}

/*
 * Makes a call with the answers got so far, none at first, and plays the entries that are new. In a
 * wait it polls, and makes the call again from the head as it was.
 */
static rikkovan_answer play(struct player *player, struct call *asked)
{
    struct call made;
    rikkovan_answer answer;
    uint64_t got = 0;
    uint32_t played = 0;

    for (;;) {
        made = *asked;
        answer = made.make(&made, player, got);
        play_entries(&player->chip, player->journal + played, rikkovan_entries(answer) - played);
        played = rikkovan_entries(answer);
        if (rikkovan_refusal(answer) != RIKKOVAN_REFUSED_ANSWERS_RAN_OUT ||
            !may_poll(player, got))
            break;
        got = poll_chip(player, kind_of_wait(player, asked, got, played), got);
    }
    *asked = made;
    return answer;
}

/* Plays a call on a head, which then is as the call left it. */
static rikkovan_answer play_on(struct player *player, uint8_t *head, struct call *call)
{
    rikkovan_answer answer;

    memcpy(call->head, head, sizeof call->head);
    answer = play(player, call);
    memcpy(head, call->head, sizeof call->head);
    return answer;
}

/* The same with the 15 frequencies. */
static rikkovan_answer play_with_clocks(struct player *player, uint8_t *head, uint32_t *clocks,
                                        struct call *call)
{
    rikkovan_answer answer;

    memcpy(call->clocks, clocks, sizeof call->clocks);
    answer = play_on(player, head, call);
    memcpy(clocks, call->clocks, sizeof call->clocks);
    return answer;
}

rikkovan_answer play_change(struct player *player, uint8_t *head, const uint8_t *plan)
{
    struct call call = {make_change, plan, {0}, {0}};

    return play_on(player, head, &call);
}

rikkovan_answer play_init(struct player *player, uint8_t *head, const uint8_t *plan,
                          uint32_t *clocks)
{
    struct call call = {make_init, plan, {0}, {0}};

    return play_with_clocks(player, head, clocks, &call);
}

rikkovan_answer play_reconfigure_sysclk(struct player *player, uint8_t *head, const uint8_t *plan,
                                        uint32_t *clocks)
{
    struct call call = {make_reconfigure, plan, {0}, {0}};

    return play_with_clocks(player, head, clocks, &call);
}

rikkovan_answer play_calibrate_hrc48(struct player *player, uint8_t *head)
{
    struct call call = {make_calibrate, 0, {0}, {0}};

    return play_on(player, head, &call);
}

rikkovan_answer play_wake_lcpu(struct player *player, uint8_t *head)
{
    struct call call = {make_wake, 0, {0}, {0}};

    return play_on(player, head, &call);
}

rikkovan_answer play_ensure_hxt48_ready(struct player *player, uint8_t *head)
{
    struct call call = {make_hxt48, 0, {0}, {0}};

    return play_on(player, head, &call);
}
