/*
 * The emulated board mps2-an505 (Cortex-M33): what the replay needs, by semihosting. Its words are
 * the folder of the recorded answers, and a mode.
 */
#include <string.h>
#include "platform.h"

/* The operations of semihosting. */
enum { OPEN = 0x01, CLOSE = 0x02, WRITE = 0x05, READ = 0x06, WORDS = 0x15, EXIT = 0x20 };
#define READ_BINARY 1
#define WRITE_TEXT 4
#define APPLICATION_EXIT 0x20026

/* The control registers that the program uses. */
#define CPACR (*(volatile uint32_t *)0xE000ED88)
#define SYSTICK_CONTROL (*(volatile uint32_t *)0xE000E010)
#define SYSTICK_RELOAD (*(volatile uint32_t *)0xE000E014)
#define SYSTICK_VALUE (*(volatile uint32_t *)0xE000E018)

extern uint8_t stack_top[];

struct measured measured;
static char words[256];

/* In measure.c, where the program measures. */
__attribute__((weak)) void begin_to_measure(void)
{
}

static intptr_t host(int operation, const void *given)
{
    register intptr_t r0 __asm__("r0") = operation;
    register const void *r1 __asm__("r1") = given;

    __asm__ volatile("bkpt 0xAB" : "+r"(r0) : "r"(r1) : "memory");
    return r0;
}

static intptr_t open_file(const char *path, int mode)
{
    const uintptr_t given[] = { (uintptr_t)path, (uintptr_t)mode, strlen(path) };

    return host(OPEN, given);
}

static void leave(int status)
{
    const uintptr_t given[] = { APPLICATION_EXIT, (uintptr_t)status };

    for (;;)
        host(EXIT, given);
}

void say(const char *text)
{
    static intptr_t out = -1;

    if (out == -1)
        out = open_file(":tt", WRITE_TEXT);
    const uintptr_t given[] = { (uintptr_t)out, (uintptr_t)text, strlen(text) };
    host(WRITE, given);
}

size_t read_file(const char *name, char *to, size_t most)
{
    char path[300];
    intptr_t file;
    uintptr_t left;

    strcpy(path, words), strcat(path, "/"), strcat(path, name), strcat(path, ".txt");
    file = open_file(path, READ_BINARY);
    if (file == -1)
        return 0;
    const uintptr_t given[] = { (uintptr_t)file, (uintptr_t)to, most };
    left = (uintptr_t)host(READ, given);
    host(CLOSE, &file);
    return most - left;
}

void reset(void)
{
    const uintptr_t given[] = { (uintptr_t)words, sizeof words };
    char *second;

    CPACR |= 0xF00000; /* the FPU, for a C compiler that uses it */
    SYSTICK_RELOAD = 0xFFFFFF;
    SYSTICK_VALUE = 0;
    SYSTICK_CONTROL = 5; /* on, by the clock of the core */
    host(WORDS, given);
    second = strchr(words, ' ');
    if (second != NULL)
        *second++ = 0;
    begin_to_measure();
    leave(replay_all(mode_of(second)));
}

static void fault(void)
{
    say("fault\n");
    leave(3);
}

#define FAULT (void *)fault
__attribute__((section(".vectors"), used)) static const void *const vectors[16] = {
    stack_top, (void *)reset, FAULT, FAULT, FAULT, FAULT, FAULT, FAULT,
    0, 0, 0, FAULT, FAULT, 0, FAULT, FAULT
};
