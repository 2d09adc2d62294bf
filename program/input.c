/* Files and numbers that the command line names. */
#include "program.h"

#include <errno.h>
#include <stdio.h>
#include <stdlib.h>
#include <string.h>

/* What has so many bytes: the file, or each of several in it. */
static const struct {
    const char *what;
    size_t bytes;
    int several;
} kinds[] = {
    [KIND_PLAN] = {"a plan", RIKKOVAN_PLAN_BYTES, 0},
    [KIND_HEAD] = {"a head", RIKKOVAN_HEAD_BYTES, 0},
    [KIND_TASKS] = {"each task", RIKKOVAN_TASK_BYTES, 1},
    [KIND_ANSWERS] = {"each answer", sizeof(uint16_t), 1},
};

int has_length_of_its_kind(const struct file *file)
{
    size_t bytes = kinds[file->kind].bytes;

    return kinds[file->kind].several ? file->len % bytes == 0 : file->len == bytes;
}

/* Where a file has another length than its kind: says so, and what it may be instead. */
void explain_length(const struct file *file)
{
    const char *guess = "";

    if (has_length_of_its_kind(file))
        return;
    if (file->len == RIKKOVAN_HEAD_BYTES)
        guess = ": is it a head?";
    if (file->len == RIKKOVAN_PLAN_BYTES)
        guess = ": is it a plan?";
    /* The line that it explains comes first. */
    fflush(stdout);
    fprintf(stderr, "rikkovan: %s: %lu bytes where %s has %lu%s\n", file->name,
            (unsigned long)file->len, kinds[file->kind].what,
            (unsigned long)kinds[file->kind].bytes, guess);
}

/* Fills the file from a stream. Returns 0, or the error. */
static int fill(struct file *file, FILE *stream)
{
    file->len = fread(file->bytes, 1, FILE_BYTES, stream);
    if (ferror(stream))
        return errno;
    return file->len == FILE_BYTES ? EFBIG : 0;
}

enum status read_file(const char *name, enum kind kind, struct file *file)
{
    FILE *stream = fopen(name, "rb");
    int error;

    file->name = name;
    file->kind = kind;
    error = stream == NULL ? errno : fill(file, stream);
    if (stream != NULL)
        fclose(stream);
    if (error == 0)
        return STATUS_DONE;
    say_failure(name, strerror(error));
    return STATUS_FAILED;
}

/* A number in decimal digits alone. */
enum status read_number(const char *what, const char *digits, uint32_t most, uint32_t *number)
{
    unsigned long long value = 0;

    errno = 0;
    if (digits[0] != '\0' && digits[strspn(digits, "0123456789")] == '\0')
        value = strtoull(digits, NULL, 10);
    else
        errno = EINVAL;
    if (errno != 0 || value > most) {
        fprintf(stderr, "rikkovan: %s: \"%s\" is not a number from 0 to %lu\n", what, digits,
                (unsigned long)most);
        return STATUS_FAILED;
    }
    *number = (uint32_t)value;
    return STATUS_DONE;
}
