/* Loaded before the C library, by archive_faults: tells the program's calls on files, and has some of them fail.
 *
 * CALLS names a file that gets a line for each of these calls: open NAME, write FILE COUNT, fsync FILE, ftruncate FILE
 * LENGTH, unlink NAME. FILE is what the descriptor stands for then.
 * FAIL, if it is set, is CALL:FILE:NUMBER: that call on that file fails with that number; for a write, -COUNT in the
 * number's place has it take so many bytes at most. */
#define _GNU_SOURCE
#include <errno.h>
#include <fcntl.h>
#include <limits.h>
#include <stdarg.h>
#include <stdio.h>
#include <stdlib.h>
#include <string.h>
#include <sys/syscall.h>
#include <unistd.h>

static void tell(const char *call, const char *file, long number) {
    char line[PATH_MAX + 64];
    int length = number < 0 ? snprintf(line, sizeof line, "%s %s\n", call, file)
                            : snprintf(line, sizeof line, "%s %s %ld\n", call, file, number);
    const char *calls = getenv("CALLS");
    if (!calls) return;
    int at = syscall(SYS_openat, AT_FDCWD, calls, O_WRONLY | O_CREAT | O_APPEND | O_CLOEXEC, 0600);
    syscall(SYS_write, at, line, length);
    syscall(SYS_close, at);
}

/* What a descriptor stands for. */
static const char *named(int fd) {
    static char name[PATH_MAX];
    char link[64];
    snprintf(link, sizeof link, "/proc/self/fd/%d", fd);
    ssize_t length = readlink(link, name, sizeof name - 1);
    name[length < 0 ? 0 : length] = 0;
    return name;
}

/* The number that a call on a file is to fail with, or 0. */
static long failing(const char *call, const char *file) {
    char sought[PATH_MAX + 64];
    const char *fail = getenv("FAIL");
    int length = snprintf(sought, sizeof sought, "%s:%s:", call, file);
    return fail && !strncmp(fail, sought, length) ? atol(fail + length) : 0;
}

static int refuse(long number) {
    errno = number;
    return -1;
}

int open(const char *name, int flags, ...) {
    va_list more;
    va_start(more, flags);
    int mode = va_arg(more, int);
    va_end(more);
    tell("open", name, -1);
    long number = failing("open", name);
    return number ? refuse(number) : syscall(SYS_openat, AT_FDCWD, name, flags, mode);
}

ssize_t write(int fd, const void *bytes, size_t count) {
    const char *file = named(fd);
    tell("write", file, count);
    long number = failing("write", file);
    if (number > 0) return refuse(number);
    return syscall(SYS_write, fd, bytes, number && count > (size_t)-number ? (size_t)-number : count);
}

int fsync(int fd) {
    const char *file = named(fd);
    tell("fsync", file, -1);
    long number = failing("fsync", file);
    return number ? refuse(number) : syscall(SYS_fsync, fd);
}

int ftruncate(int fd, off_t length) {
    const char *file = named(fd);
    tell("ftruncate", file, length);
    long number = failing("ftruncate", file);
    return number ? refuse(number) : syscall(SYS_ftruncate, fd, length);
}

int unlink(const char *name) {
    tell("unlink", name, -1);
    return syscall(SYS_unlink, name);
}
