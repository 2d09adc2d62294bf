/*
 * Replays the recorded answers of crates/replay/data (their format: oracle/README.md) through the
 * library, as C firmware calls it, and compares every answer word, head byte, journal word and
 * clock, what is past them, what is only lent, and 16 bytes on each side. Of each file it writes
 * the line that the program replay writes, so the whole is held to crates/replay/stdout.
 */
#include <string.h>
#include "rikkovan.h"
#include "platform.h"

#define SIDE 16
#define ROOM 2048 /* bytes, the most that is lent at one place */
#define MARK 0xA5
#define UNUSED 0xFF /* each byte of a journal word that no entry has */
#define MOST_LINES 4096
#define DRAWN 20        /* calls on drawn inputs for each line */
#define DRAWN_WORDS 200 /* the longest journal of such a call */
#define REFUSED ((uint64_t)1 << 63)

/* Lent memory stands at the front of a room, with the mark behind it and on both sides. */
struct lent {
    uint32_t count; /* bytes */
    union {
        uint8_t bytes[SIDE + ROOM + SIDE];
        uint64_t align;
    } at;
};

enum place { PLACE_ARGUMENT, PLACE_HEAD, PLACE_ANSWERS, PLACE_CLOCKS, PLACE_JOURNAL, PLACES };

/* What a call is lent, before it and after, and what the record wants after it. */
static struct lent before[PLACES], after[PLACES], wanted[PLACES];
static uint64_t wanted_word;
static int malformed; /* the line that is read */
static char text[1 << 21];

static uint8_t *bytes(struct lent *lent)
{
    return lent->at.bytes + SIDE;
}

static void clear(struct lent *lent)
{
    lent->count = 0;
    memset(&lent->at, MARK, sizeof lent->at);
}

static int digit(char c)
{
    return c >= '0' && c <= '9' ? c - '0' : c >= 'A' && c <= 'F' ? c - 'A' + 10 : -1;
}

/* Goes past the blank behind a field; the end of the line stays. */
static void end_field(const char **at)
{
    if (**at == ' ')
        ++*at;
    else if (**at != '\n')
        malformed = 1;
}

/*
 * A field of hex digits, or - for none. Numbers of so many bytes are recorded with their high byte
 * first, and stand in memory with it last.
 */
static void hex(const char **at, uint32_t size, struct lent *to)
{
    clear(to);
    if (**at == '-')
        ++*at;
    else
        for (; digit((*at)[0]) >= 0 && digit((*at)[1]) >= 0 && to->count < ROOM; *at += 2) {
            uint32_t in = to->count % size;

            bytes(to)[to->count++ - in + size - 1 - in] =
                (uint8_t)(digit((*at)[0]) << 4 | digit((*at)[1]));
        }
    end_field(at);
}

static uint64_t decimal(const char **at)
{
    uint64_t number = 0;

    if (digit(**at) < 0)
        malformed = 1;
    for (; **at >= '0' && **at <= '9'; ++*at)
        number = number * 10 + (uint64_t)(**at - '0');
    end_field(at);
    return number;
}

/* The calls, from calls.h, which calls.awk makes of the header. */
struct call {
    const char *name;
    int on_head;
    uint32_t clocks; /* that it is lent */
};

enum { READING, ON_HEAD };

#define CALL(name, exported, kind, clocks, ...) { #name, kind, clocks },
static const struct call calls[] = {
#include "calls.h"
};
#undef CALL

#define CALL(name, exported, kind, clocks, ...) CALL_##name,
enum {
#include "calls.h"
    CALLS
};
#undef CALL

#define LENT(place, type) (type *)(void *)bytes(&after[place]), after[place].count / sizeof(type)
#define ARGUMENT LENT(PLACE_ARGUMENT, uint8_t)
#define HEAD LENT(PLACE_HEAD, uint8_t)
#define ANSWERS LENT(PLACE_ANSWERS, uint16_t)
#define JOURNAL LENT(PLACE_JOURNAL, uint32_t)
#define CLOCKS (uint32_t *)(void *)bytes(&after[PLACE_CLOCKS])
#define U8(at) bytes(&after[PLACE_ARGUMENT])[at]
#define U16(at) rikkovan_get_16(bytes(&after[PLACE_ARGUMENT]) + at)
#define U32(at) rikkovan_get_32(bytes(&after[PLACE_ARGUMENT]) + at)

static uint64_t run(int call)
{
    switch (call) {
#define CALL(name, exported, kind, clocks, ...) \
    case CALL_##name: return (exported)(__VA_ARGS__);
#include "calls.h"
#undef CALL
    default: return 0;
    }
}

/* A refusal has no value. */
static uint64_t word_of(uint64_t refusal, uint64_t value)
{
    if (refusal == 0)
        return value;
    if (value != 0)
        malformed = 1;
    return REFUSED | refusal;
}

/* The rest of the line of a reading; that of a plan ends with the number that its check returns. */
static void read_reading(const struct call *call, const char **at)
{
    uint64_t refusal = decimal(at), value = 0;

    wanted_word = refusal;
    before[PLACE_CLOCKS].count = 4 * call->clocks;
    if (**at == '\n')
        return;
    if (call->clocks != 0)
        hex(at, 4, &wanted[PLACE_CLOCKS]);
    else
        value = decimal(at);
    wanted_word = word_of(refusal, value);
}

/* The rest of the line of a call on a head. */
static void read_on_head(const char **at)
{
    static struct lent entries;
    uint64_t refusal, value, count, taken;

    hex(at, 1, &before[PLACE_HEAD]);
    hex(at, 2, &before[PLACE_ANSWERS]);
    hex(at, 4, &before[PLACE_CLOCKS]);
    before[PLACE_JOURNAL].count = 4 * RIKKOVAN_JOURNAL_WORDS;
    memset(bytes(&before[PLACE_JOURNAL]), UNUSED, 4 * RIKKOVAN_JOURNAL_WORDS);
    refusal = decimal(at);
    value = decimal(at);
    count = decimal(at);
    taken = decimal(at);
    wanted_word = word_of(refusal, value) | count << 32 | taken << 48;
    hex(at, 4, &entries);
    wanted[PLACE_JOURNAL] = before[PLACE_JOURNAL];
    if (entries.count != 4 * count || entries.count > wanted[PLACE_JOURNAL].count)
        malformed = 1;
    else
        memcpy(bytes(&wanted[PLACE_JOURNAL]), bytes(&entries), entries.count);
    hex(at, 1, &wanted[PLACE_HEAD]);
    hex(at, 4, &wanted[PLACE_CLOCKS]);
}

/* Reads a line: what is lent, and what is to be found after the call. Answers whether it could. */
static int read_line(const struct call *call, const char *at)
{
    size_t length = strlen(call->name);

    if (strncmp(at, call->name, length) != 0 || at[length] != ' ')
        return 0;
    at += length + 1;
    malformed = 0;
    for (int place = 0; place < PLACES; place++) {
        clear(&before[place]);
        wanted[place] = before[place];
    }
    hex(&at, 1, &before[PLACE_ARGUMENT]);
    if (call->on_head)
        read_on_head(&at);
    else
        read_reading(call, &at);
    wanted[PLACE_ARGUMENT] = before[PLACE_ARGUMENT];
    wanted[PLACE_ANSWERS] = before[PLACE_ANSWERS];
    return !malformed && *at == '\n' && before[PLACE_CLOCKS].count == 4 * call->clocks
        && wanted[PLACE_CLOCKS].count == 4 * call->clocks;
}

/* Numbers that are drawn, the same on every machine. */
static uint32_t draw(uint32_t below)
{
    static uint64_t drawn = 88172645463325252u;

    drawn ^= drawn << 13;
    drawn ^= drawn >> 7;
    drawn ^= drawn << 17;
    return (uint32_t)(drawn >> 20) % below;
}

/* A fault: one bit of the word, or of what was lent, or of a byte beside it. */
static void plant(uint64_t *word)
{
    uint32_t place = draw(PLACES + 1);

    if (place == PLACES)
        *word ^= (uint64_t)1 << draw(64);
    else
        after[place].at.bytes[draw(SIDE + ROOM + SIDE)] ^= (uint8_t)(1 << draw(8));
}

/* Makes the call; answers whether all is as recorded. */
static int replay(int call, int planted)
{
    uint64_t word;

    memcpy(after, before, sizeof after);
    word = run(call);
    if (planted)
        plant(&word);
    for (int place = 0; place < PLACES; place++)
        if (memcmp(&after[place].at, &wanted[place].at, sizeof after[place].at) != 0)
            return 0;
    return word == wanted_word;
}

static uint64_t sum;

static void add(const void *at, size_t count)
{
    for (const uint8_t *byte = at; count > 0; count--)
        sum = (sum ^ *byte++) * 1099511628211u;
}

static void spoil(struct lent *lent, uint32_t most)
{
    static const uint8_t values[] = { 0, 1, 2, 3, 4, 7, 8, 15, 16, 255 };

    if (lent->count > 0)
        for (uint32_t n = draw(most + 1); n > 0; n--)
            bytes(lent)[draw(lent->count)] =
                draw(2) ? values[draw(sizeof values)] : (uint8_t)draw(256);
}

/* Makes calls on what the line lends with some bytes replaced and lengths cut. */
static void run_drawn(int call)
{
    for (int k = 0; k < DRAWN; k++) {
        uint64_t word;

        memcpy(after, before, sizeof after);
        spoil(&after[PLACE_ARGUMENT], 2);
        spoil(&after[PLACE_HEAD], draw(3));
        spoil(&after[PLACE_ANSWERS], 2);
        if (draw(16) == 0 && after[PLACE_ANSWERS].count > 2)
            after[PLACE_ANSWERS].count = 2 * draw(after[PLACE_ANSWERS].count / 2);
        if (draw(32) == 0 && after[PLACE_HEAD].count > 0)
            after[PLACE_HEAD].count = draw(after[PLACE_HEAD].count);
        if (draw(32) == 0)
            after[PLACE_JOURNAL].count = 4 * draw(DRAWN_WORDS);
        memset(bytes(&after[PLACE_JOURNAL]), UNUSED, 4 * DRAWN_WORDS);
        word = run(call);
        add(&word, sizeof word);
        for (int place = 0; place < PLACES; place++)
            add(&after[place].at, SIDE + 4 * DRAWN_WORDS + SIDE);
    }
}

static void say_number(const char *what, uint32_t number, const char *end)
{
    char digits[11], *at = digits + sizeof digits - 1;

    *at = 0;
    do
        *--at = (char)('0' + number % 10);
    while ((number /= 10) != 0);
    say(what), say(at), say(end);
}

static uint32_t median(uint32_t *of, uint32_t count)
{
    for (uint32_t i = 1; i < count; i++)
        for (uint32_t k = i, t; k > 0 && of[k - 1] > of[k]; k--)
            t = of[k], of[k] = of[k - 1], of[k - 1] = t;
    return of[count / 2];
}

/* Of the calls of a file. */
static struct {
    uint32_t lines, different, stack, instructions[MOST_LINES];
} of_file;

static void one_line(int call, const char *at, enum mode mode)
{
    int good = read_line(&calls[call], at);

    measured.stack = measured.instructions = 0;
    if (good && mode == DRAW)
        run_drawn(call);
    else if (good)
        good = replay(call, mode == PLANT);
    of_file.different += !good;
    if (measured.stack > of_file.stack)
        of_file.stack = measured.stack;
    of_file.instructions[of_file.lines++] = measured.instructions;
    if (!good && mode != PLANT)
        say(calls[call].name), say_number(" line ", of_file.lines, " differs\n");
}

static void say_file(const char *name, enum mode mode)
{
    uint32_t lines = of_file.lines, *counts = of_file.instructions;

    say(name);
    if (mode == MEASURE) {
        say_number(" ", of_file.stack, " ");
        say_number("", median(counts, lines), " ");
        say_number("", counts[lines - 1], "\n");
    } else if (mode == DRAW) {
        say_number(": ", lines * DRAWN, " drawn, sum ");
        say_number("", (uint32_t)(sum >> 32), " ");
        say_number("", (uint32_t)sum, "\n");
    } else {
        say_number(": ", lines, " replayed, ");
        say_number("", of_file.different, " different\n");
    }
}

enum mode mode_of(const char *word)
{
    return word == NULL ? REPLAY : *word == 'p' ? PLANT : *word == 'd' ? DRAW : MEASURE;
}

int replay_all(enum mode mode)
{
    int status = 0;

    for (int call = 0; call < CALLS; call++) {
        const char *at = text, *end;

        memset(&of_file, 0, sizeof of_file);
        text[read_file(calls[call].name, text, sizeof text - 1)] = 0;
        for (; of_file.lines < MOST_LINES && (end = strchr(at, '\n')) != NULL; at = end + 1)
            one_line(call, at, mode);
        if (*at != 0 || of_file.lines == 0 || of_file.different != 0)
            status = 1;
        if (of_file.lines != 0)
            say_file(calls[call].name, mode);
    }
    return status;
}
