/*
 * play: plays the journal of a call to a chip.
 *
 * A library call works on a head in memory, and says in its journal what is to be done on the chip.
 * The player does it there, entry by entry. At a wait it polls the chip, and makes the call again
 * with what the chip answered, from the head as it was: that journal begins with the entries that
 * are played already, and goes on with those that follow from the answers.
 *
 * A player may be stopped for good between any two entries. The chip then holds a moment of the
 * call: the registers of the head as it was, with the first entries put in.
 */
#ifndef PLAY_H
#define PLAY_H

#include "rikkovan.h"

#ifdef __cplusplus
extern "C" {
#endif

/* What a poll asks for: the kind of a wait (RIKKOVAN_WAIT_..), or a count of a measurement. */
#define PLAY_HXT_COUNT 7
#define PLAY_HRC_COUNT 8

/* What a chip does for the player. */
struct play_chip {
    /* Stores a value in a register: an entry's number and value. */
    void (*store)(void *self, uint32_t reg, uint32_t value);
    /* Lets so many core cycles pass, or more. */
    void (*delay)(void *self, uint32_t cycles);
    /* Polls: for a wait RIKKOVAN_NOT_READY or any other number for ready, else the count. */
    uint16_t (*poll)(void *self, uint32_t asked);
    /* Given to all three. */
    void *self;
};

struct player {
    struct play_chip chip;
    /*
     * Room for what the chip answers in one call, and the number of its words, of which at most
     * RIKKOVAN_MOST_ANSWERS are used. It is the limit of polls: the player polls as long as there
     * is room for three answers, which a measurement takes.
     */
    uint16_t *answers;
    uint64_t room;
    /* The journal of the last call, as many entries as its answer counts. */
    uint32_t journal[RIKKOVAN_JOURNAL_WORDS];
};

/*
 * The calls that wait, made on a head and on the chip. The head must hold what the chip's registers
 * hold; afterwards it does so again. Each returns what the call of the library returns that is lent
 * all that the chip answered; RIKKOVAN_REFUSED_ANSWERS_RAN_OUT means that the chip was not ready
 * within the limit. Head, plan and clocks have the sizes that rikkovan.h gives them, and all else
 * is as it says of the call.
 */
rikkovan_answer play_change(struct player *player, uint8_t *head, const uint8_t *plan);
rikkovan_answer play_init(struct player *player, uint8_t *head, const uint8_t *plan,
                          uint32_t *clocks);
rikkovan_answer play_reconfigure_sysclk(struct player *player, uint8_t *head, const uint8_t *plan,
                                        uint32_t *clocks);
rikkovan_answer play_calibrate_hrc48(struct player *player, uint8_t *head);
rikkovan_answer play_wake_lcpu(struct player *player, uint8_t *head);
rikkovan_answer play_ensure_hxt48_ready(struct player *player, uint8_t *head);

/* Plays entries, such as those of a call that does not wait. A wait has ended: it plays nothing. */
void play_entries(const struct play_chip *chip, const uint32_t *entries, uint32_t count);

#ifdef __cplusplus
}
#endif

#endif
