/* What the replay needs of the machine that it runs on. */
#include <stddef.h>
#include <stdint.h>

/* Of the last call of the library; 0 where the program does not measure. */
struct measured {
    uint32_t stack;        /* bytes that it wrote below the stack pointer at its entry */
    uint32_t instructions; /* that it ran */
};
extern struct measured measured;

void say(const char *text);

/* Reads the recorded answers of a call, at most so many bytes; answers how many. */
size_t read_file(const char *name, char *to, size_t most);

enum mode {
    REPLAY,  /* says of each file how many lines differ from the record */
    PLANT,   /* the same with a fault planted behind each call: every line must differ */
    DRAW,    /* makes calls on inputs that are drawn, and says a sum over what they left */
    MEASURE  /* says of each call its stack and instructions */
};

/* The mode of a word, REPLAY for none. */
enum mode mode_of(const char *word);

/* Answers 0 where every line is read, and nothing differs. */
int replay_all(enum mode mode);
