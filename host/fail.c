/*
 * A library that is loaded before the C library (LD_PRELOAD) and makes calls fail in the program whose name FAIL_IN is: reads of descriptor 0, writes of
 * descriptor 1, reads and writes of files that it opens (descriptors above 2), and what it does to files. All other programs are left alone, and standard
 * error too. host/io.py says what it is to do by the environment:
 *
 *   FAIL_READ, FAIL_WRITE   "BYTES ERROR TIMES": once so many bytes were read, or written to standard output, so many calls fail with this errno, and
 *   FAIL_FILE               then all goes on. A call that would move more bytes than that is cut short before. FAIL_FILE: writes to an opened file.
 *   FAIL_SYNC, FAIL_CLOSE,  "BEFORE ERROR TIMES": behind so many of these calls, so many fail with this errno. A close that fails closes all the same,
 *   FAIL_OPEN, FAIL_RENAME  an open that fails opens nothing.
 *   FAIL_MOST               no call moves more than so many bytes
 *   FAIL_TURNS              if it is there, every second call, from the first on, fails with EINTR
 *   FAIL_LOG                a file that gets a line for each call: "read" or "write", and the bytes moved, or "error" and errno
 */
#define _GNU_SOURCE
#include <errno.h>
#include <fcntl.h>
#include <stdarg.h>
#include <stdio.h>
#include <stdlib.h>
#include <string.h>
#include <sys/syscall.h>
#include <unistd.h>

struct side {
    const char *name, *fault;
    long call;
    unsigned long moved, calls, failed;
};
static struct side input = {.name = "read", .fault = "FAIL_READ", .call = SYS_read};
static struct side output = {.name = "write", .fault = "FAIL_WRITE", .call = SYS_write};
static struct side file = {.name = "file", .fault = "FAIL_FILE", .call = SYS_write};
static struct side syncs = {.name = "sync", .fault = "FAIL_SYNC"};
static struct side closes = {.name = "close", .fault = "FAIL_CLOSE"};
static struct side opens = {.name = "open", .fault = "FAIL_OPEN"};
static struct side renames = {.name = "rename", .fault = "FAIL_RENAME"};

/* The word of this number in a variable, as a number; 0 where it is not there. */
static unsigned long number(const char *variable, int word)
{
    const char *text = getenv(variable);
    unsigned long n = 0;
    for (; text && *text && word > 0; text++)
        word -= *text == ' ';
    for (; text && '0' <= *text && *text <= '9'; text++)
        n = 10 * n + (unsigned long)(*text - '0');
    return n;
}

static void tell(const struct side *side, const char *word, long n)
{
    char line[64];
    const char *path = getenv("FAIL_LOG");
    long fd = path ? syscall(SYS_openat, AT_FDCWD, path, O_WRONLY | O_APPEND | O_CREAT, 0666) : -1;
    if (fd < 0)
        return;
    snprintf(line, sizeof line, "%s %s%ld\n", side->name, word, n);
    syscall(SYS_write, fd, line, strlen(line));
    syscall(SYS_close, fd);
}

static ssize_t failed(struct side *side, int error)
{
    tell(side, "error ", error);
    errno = error;
    return -1;
}

static ssize_t call(struct side *side, int fd, const void *bytes, size_t count)
{
    unsigned long before = number(side->fault, 0), most = number("FAIL_MOST", 0);
    int faulty = side->failed < number(side->fault, 2);
    long got;
    if (getenv("FAIL_TURNS") && side->calls++ % 2 == 0)
        return failed(side, EINTR);
    if (faulty && side->moved >= before) {
        side->failed++;
        return failed(side, (int)number(side->fault, 1));
    }
    if (faulty && count > before - side->moved)
        count = before - side->moved;
    if (most > 0 && count > most)
        count = most;
    got = syscall(side->call, fd, bytes, count);
    if (got < 0)
        return failed(side, errno);
    side->moved += (unsigned long)got;
    tell(side, "", got);
    return got;
}

static int is_ours(void)
{
    const char *name = getenv("FAIL_IN");
    return name && strcmp(name, program_invocation_short_name) == 0;
}

ssize_t read(int fd, void *to, size_t count)
{
    return (fd == 0 || fd > 2) && is_ours() ? call(&input, fd, to, count) : syscall(SYS_read, fd, to, count);
}

ssize_t write(int fd, const void *from, size_t count)
{
    return fd != 2 && is_ours() ? call(fd == 1 ? &output : &file, fd, from, count) : syscall(SYS_write, fd, from, count);
}

/* Whether a call that moves no bytes is to fail. */
static int fails(struct side *side)
{
    if (!is_ours())
        return 0;
    if (side->calls++ < number(side->fault, 0) || side->failed >= number(side->fault, 2)) {
        tell(side, "", 0);
        return 0;
    }
    side->failed++;
    return failed(side, (int)number(side->fault, 1));
}

int fsync(int fd)
{
    return fails(&syncs) ? -1 : (int)syscall(SYS_fsync, fd);
}

int close(int fd)
{
    int broken = fails(&closes), error = errno, closed = (int)syscall(SYS_close, fd);
    if (broken)
        errno = error;
    return broken ? -1 : closed;
}

int open(const char *path, int flags, ...)
{
    va_list more;
    unsigned int mode;
    va_start(more, flags);
    mode = flags & O_CREAT ? va_arg(more, unsigned int) : 0;
    va_end(more);
    return fails(&opens) ? -1 : (int)syscall(SYS_openat, AT_FDCWD, path, flags, mode);
}

int rename(const char *from, const char *to)
{
    return fails(&renames) ? -1 : (int)syscall(SYS_rename, from, to);
}
