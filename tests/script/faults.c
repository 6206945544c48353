/* Loaded before the C library, by read_faults: some of the program's calls answer what a test asks for.
 *
 * FAULTS has what is asked, words in a row: CALL:FD:FROM:COUNT:WHAT, where CALL is read or write, FD the descriptor, FROM
 * the first call that is meant, counted from 1 on this descriptor, COUNT how many from there on, and WHAT the number of
 * an error, 0 for an end of the file (a read alone), or -N for N bytes at most.
 * CALLS, if it is set, names a file that gets a line for each call that was answered so, and for each sleep. */
#define _GNU_SOURCE
#include <dlfcn.h>
#include <errno.h>
#include <fcntl.h>
#include <stdio.h>
#include <stdlib.h>
#include <string.h>
#include <sys/syscall.h>
#include <time.h>
#include <unistd.h>

static int calls[2][1024];

static void note(const char *text) {
    const char *path = getenv("CALLS");
    if (!path) return;
    int at = open(path, O_WRONLY | O_CREAT | O_APPEND | O_CLOEXEC, 0600);
    syscall(SYS_write, at, text, strlen(text));
    close(at);
}

/* What is asked of this call, if anything is. */
static int asked(int which, int fd, int *what) {
    if (fd < 0 || fd >= 1024) return 0;
    int n = ++calls[which][fd];
    const char *plan = getenv("FAULTS");
    while (plan && *plan) {
        char name[8];
        int of, from, count, value, used;
        if (sscanf(plan, " %7[a-z]:%d:%d:%d:%d%n", name, &of, &from, &count, &value, &used) != 5) break;
        plan += used;
        if (!strcmp(name, which ? "write" : "read") && of == fd && from <= n && n - from < count) {
            *what = value;
            return 1;
        }
    }
    return 0;
}

ssize_t read(int fd, void *bytes, size_t count) {
    int what;
    if (asked(0, fd, &what)) {
        if (what >= 0) {
            note("read\n");
            errno = what;
            return what ? -1 : 0;
        }
        if (count > (size_t)-what) count = (size_t)-what;
    }
    return syscall(SYS_read, fd, bytes, count);
}

ssize_t write(int fd, const void *bytes, size_t count) {
    int what;
    if (asked(1, fd, &what)) {
        if (what >= 0) {
            note("write\n");
            errno = what;
            return -1;
        }
        if (count > (size_t)-what) count = (size_t)-what;
    }
    return syscall(SYS_write, fd, bytes, count);
}

int nanosleep(const struct timespec *asked_for, struct timespec *left) {
    note("sleep\n");
    return syscall(SYS_nanosleep, asked_for, left);
}
