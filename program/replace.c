/*
 * Puts a record back into its file: into a new file beside it, which then takes the file's name.
 * Whoever opens the file finds the former record or the new one, whole.
 */
#define _XOPEN_SOURCE 700

#include "program.h"

#include <errno.h>
#include <fcntl.h>
#include <limits.h>
#include <signal.h>
#include <stdio.h>
#include <stdlib.h>
#include <string.h>
#include <sys/stat.h>
#include <unistd.h>

#define BESIDE "/.rikkovan.XXXXXX"

/* The file itself, where its name is a link to it; its folder; the new file beside it. */
struct paths {
    char file[PATH_MAX];
    char folder[PATH_MAX];
    char beside[PATH_MAX + sizeof BESIDE];
};

static int find_paths(const char *name, struct paths *paths)
{
    size_t len;

    if (realpath(name, paths->file) == NULL)
        return -1;
    len = (size_t)(strrchr(paths->file, '/') - paths->file);
    memcpy(paths->folder, paths->file, len);
    paths->folder[len] = '\0';
    memcpy(paths->beside, paths->folder, len);
    memcpy(paths->beside + len, BESIDE, sizeof BESIDE);
    if (len == 0)
        memcpy(paths->folder, "/", sizeof "/");
    return 0;
}

static int write_all(int fd, const uint8_t *bytes, size_t len)
{
    ssize_t written;

    for (; len > 0; len -= (size_t)written, bytes += written) {
        written = write(fd, bytes, len);
        if (written < 0)
            return -1;
    }
    return 0;
}

/* Gives the new file what the record has, with the owner and the mode of the former one. */
static int fill(int fd, const struct file *file, const struct stat *former)
{
    struct stat made;

    if (write_all(fd, file->bytes, file->len) != 0 || fstat(fd, &made) != 0)
        return -1;
    if ((made.st_uid != former->st_uid || made.st_gid != former->st_gid) &&
        fchown(fd, former->st_uid, former->st_gid) != 0)
        return -1;
    return fchmod(fd, former->st_mode & 07777) != 0 ? -1 : fsync(fd);
}

/* Makes the new file and gives it the name. Returns 0, or the error, with the new file removed. */
static int replace(const struct file *file, struct paths *paths, const struct stat *former)
{
    int fd = mkstemp(paths->beside), error = 0;

    if (fd < 0)
        return errno;
    if (fill(fd, file, former) != 0)
        error = errno;
    if (close(fd) != 0 && error == 0)
        error = errno;
    if (error == 0 && rename(paths->beside, paths->file) != 0)
        error = errno;
    if (error != 0)
        unlink(paths->beside);
    return error;
}

/* The name lasts when its folder is on the disk; not every file system can be told so. */
static void sync_folder(const char *folder)
{
    int fd = open(folder, O_RDONLY);

    if (fd < 0)
        return;
    fsync(fd);
    close(fd);
}

/* Returns NULL, or why the file is as it was. */
static const char *replace_named(const struct file *file)
{
    struct paths paths;
    struct stat former;
    int error;

    if (find_paths(file->name, &paths) != 0 || stat(paths.file, &former) != 0)
        return strerror(errno);
    if (!S_ISREG(former.st_mode))
        return "it is not a regular file";
    error = replace(file, &paths, &former);
    if (error != 0)
        return strerror(error);
    sync_folder(paths.folder);
    return NULL;
}

/* Signals wait until the new file has its name or is removed. */
enum status replace_file(const struct file *file)
{
    sigset_t all, former;
    const char *cause;

    sigfillset(&all);
    sigprocmask(SIG_BLOCK, &all, &former);
    cause = replace_named(file);
    sigprocmask(SIG_SETMASK, &former, NULL);
    if (cause == NULL)
        return STATUS_DONE;
    fprintf(stderr, "rikkovan: %s: not written: %s\n", file->name, cause);
    return STATUS_FAILED;
}
