/* host FOLDER [MODE]: the replay on the machine that builds, with the library for x86-64. */
#include <stdio.h>
#include "platform.h"

struct measured measured;
static const char *folder;

void say(const char *text)
{
    fputs(text, stdout);
}

size_t read_file(const char *name, char *to, size_t most)
{
    char path[4096];
    size_t size = 0;
    FILE *file;

    snprintf(path, sizeof path, "%s/%s.txt", folder, name);
    if ((file = fopen(path, "rb")) != NULL) {
        size = fread(to, 1, most, file);
        fclose(file);
    }
    return size;
}

int main(int argc, char **argv)
{
    folder = argc > 1 ? argv[1] : "crates/replay/data";
    return replay_all(mode_of(argc > 2 ? argv[2] : NULL));
}
