/* Lines and numbers that subcommands have in common. */
#include "program.h"

#include <errno.h>
#include <stdarg.h>
#include <stdio.h>
#include <string.h>

struct text text_of(const char *format, ...)
{
    struct text text;
    va_list values;

    va_start(values, format);
    vsnprintf(text.line, sizeof text.line, format, values);
    va_end(values);
    return text;
}

/* A number with commas between its thousands. */
struct text grouped(uint64_t number)
{
    struct text digits = text_of("%llu", (unsigned long long)number), text;
    size_t count = strlen(digits.line), at = 0, k;

    for (k = 0; k < count; k++) {
        if (k > 0 && (count - k) % 3 == 0)
            text.line[at++] = ',';
        text.line[at++] = digits.line[k];
    }
    text.line[at] = '\0';
    return text;
}

/* A frequency in MHz, what is below a thousandth cut off; a dash for none. */
struct text megahertz(uint32_t hz)
{
    if (hz == 0)
        return text_of("-");
    return text_of("%lu.%03lu MHz", (unsigned long)(hz / RIKKOVAN_MHZ),
                   (unsigned long)(hz / 1000 % 1000));
}

/* The width of the longest operand. */
int width_of_names(const struct request *request)
{
    int k, width = 0;

    for (k = 0; k < request->count; k++)
        if ((int)strlen(request->operands[k]) > width)
            width = (int)strlen(request->operands[k]);
    return width;
}

/* The verdict on one of several files, in columns; the line is left open where it is accepted. */
void say_verdict(const struct file *file, int width, enum rikkovan_refusal refusal)
{
    if (refusal == RIKKOVAN_NOT_REFUSED) {
        printf("%-*s  accepted", width, file->name);
        return;
    }
    printf("%-*s  refused %2d  %s\n", width, file->name, (int)refusal,
           rikkovan_refusal_text(refusal));
    if (refusal == RIKKOVAN_REFUSED_LENGTH)
        explain_length(file);
}

void say_failure(const char *name, const char *cause)
{
    fprintf(stderr, "rikkovan: %s: %s\n", name, cause);
}

/* What was printed is out, or its failure is said, once. */
enum status flush_output(void)
{
    errno = 0;
    if (fflush(stdout) == 0 && !ferror(stdout))
        return STATUS_DONE;
    say_failure("standard output", errno != 0 ? strerror(errno) : "write error");
    clearerr(stdout);
    return STATUS_FAILED;
}

/* The last line of a call that is refused; of an unfit head also why it is not fit. */
enum status say_refused(const struct file *file, enum rikkovan_refusal refusal)
{
    struct reading reading;

    printf("%s: refused %d: %s", file->name, (int)refusal, rikkovan_refusal_text(refusal));
    if (refusal == RIKKOVAN_REFUSED_UNFIT) {
        read_head(file, &reading);
        printf(": %s", rikkovan_unfit_text(rikkovan_unfit(reading.fit)));
    }
    printf("\n");
    if (refusal == RIKKOVAN_REFUSED_LENGTH)
        explain_length(file);
    return STATUS_REFUSED;
}
