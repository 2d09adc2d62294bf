/*
 * Tests the player of examples/play.c on a board that stands in for a chip: ready at once, late or
 * never, and with the player stopped for good after each entry. Prints a line for each failure.
 */
#include "heads.h"
#include "play.h"

#define ALWAYS 0xFFFFFFFF
#define RIGHT_TRIM 333
#define NO_TRIM 2000
#define MOST_LOGGED 100
#define POLLS 80

/* A chip that logs what it is told, and each wait that ended, as entries of a journal. */
struct board {
    uint32_t reg[RIKKOVAN_REGISTERS + 1];
    uint32_t late;  /* the polls of a wait that are not ready, before one that is */
    uint32_t waits; /* the waits that end; in all further ones it is never ready */
    uint32_t left;  /* the entries that reach it yet, after which the player is stopped */
    uint32_t polls; /* the polls of the present wait */
    uint32_t trim;  /* that at which HRC48 is right; each step off it is eight counts */
    uint32_t logged, log[MOST_LOGGED];
};

static void log_entry(struct board *board, uint32_t entry)
{
    if (board->left == 0)
        return;
    board->left--;
    if (rikkovan_is_store(entry))
        board->reg[rikkovan_entry_number(entry)] = rikkovan_entry_value(entry);
    if (board->logged < MOST_LOGGED)
        board->log[board->logged++] = entry;
}

static void store(void *self, uint32_t reg, uint32_t value)
{
    log_entry((struct board *)self, RIKKOVAN_STORE(reg, value));
}

static void delay(void *self, uint32_t cycles)
{
    log_entry((struct board *)self, RIKKOVAN_DELAY(cycles));
}

static uint16_t end_wait(struct board *board, uint32_t kind, uint32_t counts)
{
    log_entry(board, RIKKOVAN_WAIT(kind, board->polls + counts));
    board->polls = 0;
    board->waits--;
    return 0x0100;
}

static uint16_t hrc_count(struct board *board)
{
    end_wait(board, RIKKOVAN_WAIT_CALIBRATION, 2);
    return (uint16_t)(20000 + 8 * board->reg[RIKKOVAN_REG_HRC_TRIM] - 8 * board->trim);
}

static uint16_t answer_poll(void *self, uint32_t asked)
{
    struct board *board = (struct board *)self;

    if (asked == PLAY_HXT_COUNT)
        return 20000;
    if (asked == PLAY_HRC_COUNT)
        return hrc_count(board);
    board->polls++;
    if (board->left == 0 || board->waits == 0 || board->polls <= board->late)
        return RIKKOVAN_NOT_READY;
    return asked == RIKKOVAN_WAIT_CALIBRATION ? RIKKOVAN_READY : end_wait(board, asked, 0);
}

/* What a call is given and what it leaves. */
struct state {
    uint8_t head[RIKKOVAN_HEAD_BYTES], plan[RIKKOVAN_PLAN_BYTES];
    uint32_t clocks[RIKKOVAN_CLOCKS];
};

/* A board with the registers of a head. */
static struct board board_of(const uint8_t *head, uint32_t late, uint32_t waits, uint32_t left)
{
    struct board board;
    uint32_t reg;

    memset(&board, 0, sizeof board);
    board.late = late;
    board.waits = waits;
    board.left = left;
    board.trim = RIGHT_TRIM;
    for (reg = 1; reg <= RIKKOVAN_REGISTERS; reg++)
        board.reg[reg] = rikkovan_get_register(head, reg);
    return board;
}

/* A head with the registers of a board. */
static void read_board(const struct board *board, uint8_t *head)
{
    uint32_t reg;

    for (reg = 1; reg <= RIKKOVAN_REGISTERS; reg++)
        rikkovan_put_register(head, reg, board->reg[reg]);
}

enum call { CHANGE, INIT, RECONFIGURE, CALIBRATE, WAKE, HXT48 };

static rikkovan_answer play(enum call call, struct player *player, struct state *state)
{
    switch (call) {
    case CHANGE: return play_change(player, state->head, state->plan);
    case INIT: return play_init(player, state->head, state->plan, state->clocks);
    case RECONFIGURE:
        return play_reconfigure_sysclk(player, state->head, state->plan, state->clocks);
    case CALIBRATE: return play_calibrate_hrc48(player, state->head);
    case WAKE: return play_wake_lcpu(player, state->head);
    case HXT48: break;
    }
    return play_ensure_hxt48_ready(player, state->head);
}

/* The same call of the library alone, lent all answers at once. */
static rikkovan_answer make(enum call call, struct state *state, uint32_t *journal,
                            const uint16_t *answers, uint64_t len)
{
    uint8_t *head = state->head;
    const uint64_t head_len = sizeof state->head, words = WORDS;

    switch (call) {
    case CHANGE:
        return rikkovan_change(head, head_len, RIKKOVAN_LEND(state->plan), journal, words, answers,
                               len);
    case INIT:
        return rikkovan_init(head, head_len, RIKKOVAN_LEND(state->plan), state->clocks, journal,
                             words, answers, len);
    case RECONFIGURE:
        return rikkovan_reconfigure_sysclk(head, head_len, RIKKOVAN_LEND(state->plan),
                                           state->clocks, journal, words, answers, len);
    case CALIBRATE: return rikkovan_calibrate_hrc48(head, head_len, journal, words, answers, len);
    case WAKE: return rikkovan_wake_lcpu(head, head_len, journal, words, answers, len);
    case HXT48: break;
    }
    return rikkovan_ensure_hxt48_ready(head, head_len, journal, words, answers, len);
}

/* A call of a name, on the head that make_head makes and the default plan with bytes set. */
#define EDITS 8
struct play_case {
    const char *name;
    enum call call;
    struct edit edit[EDITS], plan[EDITS];
    uint32_t waits; /* for which it polls */
};

static struct state begin(const struct play_case *one)
{
    static const uint8_t plan[RIKKOVAN_PLAN_BYTES] = RIKKOVAN_DEFAULT_PLAN;
    struct state state;
    uint32_t k;

    make_head(state.head, sizeof state.head);
    put(state.head, one->edit, EDITS);
    memcpy(state.plan, plan, sizeof plan);
    put(state.plan, one->plan, EDITS);
    for (k = 0; k < RIKKOVAN_CLOCKS; k++)
        state.clocks[k] = 100 + k;
    return state;
}

/* Plays a case to a board, with room for POLLS answers. */
static rikkovan_answer play_case(const struct play_case *one, struct board *board,
                                 struct player *player, struct state *state)
{
    static uint16_t answers[POLLS];
    const struct play_chip chip = {store, delay, answer_poll, board};

    player->chip = chip;
    player->answers = answers;
    player->room = POLLS;
    return play(one->call, player, state);
}

/* The board was told what the journal has; of a wait that takes no answer it knows nothing. */
static void expect_logged(const char *name, const struct board *board, const uint32_t *journal,
                          uint32_t entries)
{
    uint32_t k, at = 0;

    for (k = 0; k < entries; k++)
        if (!rikkovan_is_wait(journal[k]) || rikkovan_wait_taken(journal[k]) > 0)
            expect(name, "an entry", journal[k], board->log[at++]);
    expect(name, "entries", at, board->logged);
}

/* What is played is what the library leaves that is lent the same answers at once. */
static rikkovan_answer test_played(const struct play_case *one, struct board *board)
{
    struct state played = begin(one), made = begin(one), read;
    uint32_t journal[WORDS];
    struct player player;
    const rikkovan_answer answer = play_case(one, board, &player, &played);

    expect(one->name, "word", answer.word,
           make(one->call, &made, journal, player.answers, rikkovan_taken(answer)).word);
    expect(one->name, "head", 0, memcmp(made.head, played.head, sizeof made.head) != 0);
    expect(one->name, "clocks", 0, memcmp(made.clocks, played.clocks, sizeof made.clocks) != 0);
    expect(one->name, "journal", 0,
           memcmp(journal, player.journal, rikkovan_entries(answer) * sizeof journal[0]) != 0);
    read = played;
    read_board(board, read.head);
    expect(one->name, "registers", 0, memcmp(read.head, played.head, sizeof read.head) != 0);
    expect_logged(one->name, board, player.journal, rikkovan_entries(answer));
    return answer;
}

/* The chip is ready at once or late in its first waits, and never in the others. */
static void test_ready(const struct play_case *one, uint32_t late, uint32_t waits)
{
    const struct state before = begin(one);
    struct board board = board_of(before.head, late, waits, ALWAYS);
    const rikkovan_answer answer = test_played(one, &board);
    const int done = waits >= one->waits;

    expect(one->name, "refusal", done ? RIKKOVAN_NOT_REFUSED : RIKKOVAN_REFUSED_ANSWERS_RAN_OUT,
           rikkovan_refusal(answer));
    expect(one->name, "waits", done ? one->waits : waits, waits - board.waits);
    /* Of one that times out two words are left, for the counts of a measurement. */
    if (!done)
        expect(one->name, "taken", POLLS - 2, rikkovan_taken(answer));
}

/* By the library's own readings HCLK reads and is within the rails, and the head is fit. */
static void expect_within_limits(const char *name, const uint8_t *head)
{
    uint32_t clocks[RIKKOVAN_CLOCKS];
    uint64_t fit[RIKKOVAN_FIT_NUMBERS];

    expect(name, "clocks", 0, rikkovan_read_clocks(head, RIKKOVAN_HEAD_BYTES, clocks).word);
    expect(name, "fit", 0, rikkovan_read_fit(head, RIKKOVAN_HEAD_BYTES, fit).word);
    expect(name, "HCLK reads", 1, clocks[RIKKOVAN_CLOCK_HCLK] > 0);
    expect(name, "HCLK within the rails", 1,
           clocks[RIKKOVAN_CLOCK_HCLK] <= fit[RIKKOVAN_FIT_RAIL_LIMIT]);
    expect(name, rikkovan_unfit_text(rikkovan_unfit(fit)), RIKKOVAN_FIT, rikkovan_unfit(fit));
}

/* A head read from a board on which a change was cut off is within its limits, and changes. */
static void test_changed_again(const struct play_case *one, const struct state *cut)
{
    struct state again = *cut;
    struct board board = board_of(cut->head, 0, ALWAYS, ALWAYS);
    struct player player;

    expect_within_limits(one->name, cut->head);
    expect(one->name, "the change again", 0, play_case(one, &board, &player, &again).word >> 63);
}

/* After so many entries the player is stopped: the board has the registers of that moment. */
static void test_cut(const struct play_case *one, const struct board *whole, uint32_t left)
{
    struct state before = begin(one), played = before, cut = before;
    struct board board = board_of(before.head, whole->late, ALWAYS, left);
    struct player player;
    uint32_t k;

    play_case(one, &board, &player, &played);
    expect(one->name, "entries before the cut", left, board.logged);
    for (k = 0; k < left; k++)
        rikkovan_put_entry(before.head, whole->log[k]);
    read_board(&board, cut.head);
    expect(one->name, "moment", 0, memcmp(before.head, cut.head, sizeof cut.head) != 0);
    if (one->call == CHANGE)
        test_changed_again(one, &cut);
}

static void test_cuts(const struct play_case *one, uint32_t late)
{
    const struct state before = begin(one);
    struct board whole = board_of(before.head, late, ALWAYS, ALWAYS);
    uint32_t left;

    test_played(one, &whole);
    for (left = 0; left <= whole.logged; left++)
        test_cut(one, &whole, left);
}

#define ON_D(buck, ldo) \
    {C(HPSYS_SUPPLY), RIKKOVAN_HPSYS_SUPPLY_D}, {C(SET_VOUT_M), buck}, {C(HPSYS_LDO), ldo}
#define ON_S(buck, ldo) {C(BUCK_VOUT), buck}, {C(HPSYS_VOUT), ldo}
#define CORE_DLL1(stage) {C(SYSCLK), RIKKOVAN_CORE_DLL1}, {A(DLL1), 1}, {C(DLL1), stage}
#define FLASH_ON_DLL1 {B(FLASH), RIKKOVAN_MPI_DLL1}
#define PLAN_DLL1(stage) {PLAN(DLL1_STAGE), stage}, {PLAN(USB), 0}
#define PLAN_48 \
    {PLAN(CORE), RIKKOVAN_CORE_HXT48}, {PLAN(DLL1_PRESENT), 0}, {PLAN(DLL1_STAGE), 0}, \
        {PLAN(USB), 0}
#define PLAN_24 PLAN_48, {PLAN(HDIV), 2}
#define NOT_READY {AT(HXT48_READY), 0}, {AT(LPSYS_HXT48_READY), 0}

static const struct play_case cases[] = {
    {"change, 48 to 240 MHz", CHANGE, {ON_D(10, 8)}, {{0, 0}}, 1},
    {"change, 48 to 144 MHz", CHANGE, {ON_D(10, 8)}, {PLAN_DLL1(5)}, 1},
    {"change, 240 to 144 MHz", CHANGE, {ON_S(15, 13), CORE_DLL1(9), FLASH_ON_DLL1},
     {PLAN_DLL1(5)}, 1},
    {"change, 144 to 240 MHz", CHANGE, {ON_S(13, 11), CORE_DLL1(5), FLASH_ON_DLL1}, {{0, 0}}, 1},
    {"change, 240 to 24 MHz", CHANGE, {ON_S(15, 13), CORE_DLL1(9)}, {PLAN_24}, 0},
    {"change, 24 to 48 MHz", CHANGE, {ON_D(9, 6), {A(HPSYS_CFGR), 2}}, {PLAN_48}, 0},
    {"change, 24 to 240 MHz", CHANGE, {ON_D(9, 6), {A(HPSYS_CFGR), 2}}, {{0, 0}}, 1},
    /* HXT48, six measurements, DLL1, DLL2 */
    {"init", INIT, {ON_D(10, 8), NOT_READY}, {{0, 0}}, 9},
    {"init, HXT48 is ready", INIT, {ON_D(10, 8)}, {{PLAN(CALIBRATE), 0}}, 2},
    {"init, standby", INIT, {NOT_READY, {AT(BOOT_MODE), RIKKOVAN_BOOT_STANDBY}}, {{0, 0}}, 1},
    {"reconfigure, 48 to 240 MHz", RECONFIGURE, {ON_D(10, 8)}, {{0, 0}}, 1},
    {"reconfigure, 240 to 24 MHz", RECONFIGURE, {ON_S(15, 13), CORE_DLL1(9)}, {PLAN_24}, 0},
    {"calibrate", CALIBRATE, {{0, 0}}, {{0, 0}}, 6},
    {"wake", WAKE, {{0, 0}}, {{0, 0}}, 2},
    {"HXT48", HXT48, {NOT_READY}, {{0, 0}}, 2},
    {"HXT48, ready for LPSYS", HXT48, {{AT(HXT48_READY), 0}}, {{0, 0}}, 1},
};

static void test_case(const struct play_case *one)
{
    uint32_t late, waits;

    for (late = 0; late <= 4; late++) {
        for (waits = 0; waits <= one->waits; waits++)
            test_ready(one, late, waits);
        test_cuts(one, late);
    }
}

/* The counts of the board steer the stores: the trim ends next to the right one. */
static void test_trim(void)
{
    static const struct play_case one = {"trim", CALIBRATE, {{0, 0}}, {{0, 0}}, 6};
    const struct state before = begin(&one);
    struct board board = board_of(before.head, 0, ALWAYS, ALWAYS);

    test_played(&one, &board);
    expect("trim", "trim", RIGHT_TRIM + 3, board.reg[RIKKOVAN_REG_HRC_TRIM]);
}

/* Refused before the first store, on the way, and at the end, since no trim makes HRC48 right. */
static void test_refused(void)
{
    static const struct {
        struct play_case one;
        uint32_t refusal, entries;
    } refused[] = {
        {{"not fit", CHANGE, {ON_D(9, 6)}, {{0, 0}}, 0}, RIKKOVAN_REFUSED_UNFIT, 0},
        {{"HCLK does not read", WAKE, {{C(SYSCLK), RIKKOVAN_CORE_DBL96}}, {{0, 0}}, 0},
         RIKKOVAN_REFUSED_HCLK_UNREADABLE, 1},
        {{"no trim", CALIBRATE, {{0, 0}}, {{0, 0}}, 11}, RIKKOVAN_REFUSED_DIFFERENCE, 57},
    };
    size_t k;

    for (k = 0; k < sizeof refused / sizeof refused[0]; k++) {
        const struct play_case *one = &refused[k].one;
        const struct state before = begin(one);
        struct board board = board_of(before.head, 1, ALWAYS, ALWAYS);

        board.trim = NO_TRIM;
        expect(one->name, "refusal", refused[k].refusal,
               rikkovan_refusal(test_played(one, &board)));
        expect(one->name, "entries", refused[k].entries, board.logged);
        expect(one->name, "waits", one->waits, ALWAYS - board.waits);
    }
}

/* Of a list of answers that is longer, as many are used as may be lent. */
static void test_limits(void)
{
    static const struct play_case one = {"limits", CHANGE, {ON_D(10, 8)}, {{0, 0}}, 1};
    static uint16_t answers[2 * RIKKOVAN_MOST_ANSWERS];
    const uint64_t rooms[] = {0, 1, 2, 3, 4, RIKKOVAN_MOST_ANSWERS, 2 * RIKKOVAN_MOST_ANSWERS};
    const uint32_t polls[] = {0, 0, 0, 1, 2, RIKKOVAN_MOST_ANSWERS - 2, RIKKOVAN_MOST_ANSWERS - 2};
    uint32_t k;

    for (k = 0; k < sizeof rooms / sizeof rooms[0]; k++) {
        struct state state = begin(&one);
        struct board board = board_of(state.head, 0, 0, ALWAYS);
        struct player player = {{store, delay, answer_poll, &board}, answers, rooms[k], {0}};
        const rikkovan_answer answer = play_change(&player, state.head, state.plan);

        expect("limits", "refusal", RIKKOVAN_REFUSED_ANSWERS_RAN_OUT, rikkovan_refusal(answer));
        expect("limits", "taken", polls[k], rikkovan_taken(answer));
        expect("limits", "polls", polls[k], board.polls);
    }
}

int main(void)
{
    size_t k;

    for (k = 0; k < sizeof cases / sizeof cases[0]; k++)
        test_case(&cases[k]);
    test_trim();
    test_refused();
    test_limits();
    return failures != 0;
}
