/*
 * Bytes that a call may read and not write, for the hostile hosts: the same pages are mapped twice, once for the host to write and once to lend,
 * read-only. A write to what is lent so ends the host and names the call, even where the byte is written with its own value. Include it first.
 */
#ifndef WATCHED_H
#define WATCHED_H

#define _GNU_SOURCE
#include <setjmp.h>
#include <signal.h>
#include <stdint.h>
#include <stdio.h>
#include <stdlib.h>
#include <sys/mman.h>
#include <unistd.h>

#define WATCHED_BYTES 16384

struct watched {
    uint8_t *own;  /* to be written */
    uint8_t *lent; /* the same bytes, read-only */
};

static unsigned long calls;
static const char *watched_call = "no call";
static size_t watched_length;
static sigjmp_buf watched_try;
static volatile sig_atomic_t watched_tries;

/* What is called next, for the handler to say. */
static void watch(const char *what, size_t length)
{
    watched_call = what;
    watched_length = length;
}

static void watched_fault(int signal)
{
    char line[160];
    if (watched_tries)
        siglongjmp(watched_try, signal);
    int n = snprintf(line, sizeof line, "call %lu, %s of %zu bytes: it writes to what is lent to be read, or reaches what is not lent\n", calls, watched_call, watched_length);
    if (write(STDOUT_FILENO, line, (size_t)n) != n)
        _exit(2);
    _exit(1);
}

/* 1 if a byte that is written with its own value is seen: that is tried, since a host whose pages are not watched could not fail. */
static int watched_sees(volatile uint8_t *byte)
{
    watched_tries = 1;
    int seen = sigsetjmp(watched_try, 1);
    if (seen == 0)
        *byte = *byte;
    watched_tries = 0;
    return seen == SIGSEGV;
}

static struct watched watched_pages(void)
{
    struct watched w = {MAP_FAILED, MAP_FAILED};
    struct sigaction action = {.sa_handler = watched_fault};
    int pages = memfd_create("lent", 0);
    if (pages >= 0 && ftruncate(pages, WATCHED_BYTES) == 0) {
        w.own = mmap(NULL, WATCHED_BYTES, PROT_READ | PROT_WRITE, MAP_SHARED, pages, 0);
        w.lent = mmap(NULL, WATCHED_BYTES, PROT_READ, MAP_SHARED, pages, 0);
    }
    if (w.own == MAP_FAILED || w.lent == MAP_FAILED || sigaction(SIGSEGV, &action, NULL) != 0) {
        perror("pages to lend");
        exit(1);
    }
    if (!watched_sees(w.lent) || watched_sees(w.own)) {
        printf("a write to pages that are lent read-only is not seen\n");
        exit(1);
    }
    return w;
}

#endif
