/* The library is not built with a sanitizer: an access outside a buffer has to meet such a page. */
#define _DEFAULT_SOURCE
#include "fuzz.h"

#include <stdio.h>
#include <stdlib.h>
#include <string.h>
#include <sys/mman.h>

#define PAGE 4096u

/* The room of a buffer's pages: whole ones that hold MOST_LENT elements. */
static size_t room_of(enum buffer buffer)
{
    return (MOST_LENT * element_size[buffer] + PAGE - 1) / PAGE * PAGE;
}

static void protect(uint8_t *pages, size_t len, int protection)
{
    if (mprotect(pages, len, protection) != 0) {
        perror("fuzz: mprotect");
        exit(2);
    }
}

/* The pages of a buffer, between two that are never accessible. */
static uint8_t *pages_of(enum buffer buffer)
{
    static uint8_t *pages[BUFFERS];
    size_t room = room_of(buffer);

    if (pages[buffer] == NULL) {
        void *all = mmap(NULL, room + 2 * PAGE, PROT_NONE, MAP_PRIVATE | MAP_ANONYMOUS, -1, 0);

        if (all == MAP_FAILED) {
            perror("fuzz: mmap");
            exit(2);
        }
        pages[buffer] = (uint8_t *)all + PAGE;
        protect(pages[buffer], room, PROT_READ | PROT_WRITE);
    }
    return pages[buffer];
}

static size_t bytes_of(const struct lent *lent, enum buffer buffer)
{
    return lent->len[buffer] * element_size[buffer];
}

/* Makes a call on copies that end, or begin, at such a page, and copies back what it may write. */
uint64_t make_guarded(const struct call *call, enum side side, const struct lent *given,
                      struct lent *left)
{
    struct lent lent = *given;
    uint64_t answer;
    int k;

    for (k = 0; k < BUFFERS; k++) {
        enum buffer buffer = (enum buffer)k;
        uint8_t *pages = pages_of(buffer);

        lent.at[k] = side == AT_START ? pages : pages + room_of(buffer) - bytes_of(given, buffer);
        if ((call->lends & LENDS(k)) != 0)
            memcpy(lent.at[k], given->at[k], bytes_of(given, buffer));
        if ((call->reads & LENDS(k)) != 0)
            protect(pages, room_of(buffer), PROT_READ);
    }
    answer = call->make(&lent);
    for (k = 0; k < BUFFERS; k++) {
        enum buffer buffer = (enum buffer)k;

        if ((call->reads & LENDS(k)) != 0)
            protect(pages_of(buffer), room_of(buffer), PROT_READ | PROT_WRITE);
        if ((call->lends & LENDS(k)) != 0)
            memcpy(left->at[k], lent.at[k], bytes_of(given, buffer));
        left->len[k] = given->len[k];
    }
    return answer;
}
