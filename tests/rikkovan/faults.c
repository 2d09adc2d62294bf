/*
 * Faults while a head is written. The linker's --wrap puts these in place of the system's calls.
 * FAULT in the environment names the call in which one comes, none where it is not set, and SIGNAL
 * the signal that comes just before the call; without a signal the call fails as on a full disk.
 */
#define _XOPEN_SOURCE 700

#include <errno.h>
#include <signal.h>
#include <stdio.h>
#include <stdlib.h>
#include <string.h>
#include <sys/types.h>

/* Whether this call is to fail. */
static int fault_in(const char *call)
{
    const char *fault = getenv("FAULT"), *name = getenv("SIGNAL");

    if (fault == NULL || strcmp(fault, call) != 0)
        return 0;
    if (name != NULL) {
        raise(strcmp(name, "KILL") == 0 ? SIGKILL : SIGTERM);
        return 0;
    }
    errno = ENOSPC;
    return 1;
}

#define WRAP(result, call, parameters, arguments) \
    result __real_##call parameters; \
    result __wrap_##call parameters; \
    result __wrap_##call parameters \
    { \
        return fault_in(#call) ? -1 : __real_##call arguments; \
    }

WRAP(int, mkstemp, (char *name), (name))
WRAP(int, fchmod, (int fd, mode_t mode), (fd, mode))
WRAP(int, fsync, (int fd), (fd))
WRAP(int, close, (int fd), (fd))
WRAP(int, rename, (const char *from, const char *to), (from, to))

ssize_t __real_write(int fd, const void *bytes, size_t len);
ssize_t __wrap_write(int fd, const void *bytes, size_t len);

/* Writes part of what it is given, as a system call may. */
ssize_t __wrap_write(int fd, const void *bytes, size_t len)
{
    return fault_in("write") ? -1 : __real_write(fd, bytes, len > 100 ? 100 : len);
}
