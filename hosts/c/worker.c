/* The library as a process: reads calls from standard input and writes their answers to standard output, until the input
 * ends. hosts/python/zr400/_library.py drives it where the library cannot be loaded into the interpreter itself.
 *
 * A call is eight numbers: the call's own (a zr_call of the header), three numbers that are its arguments (unused ones 0), and
 * the lengths in bytes of its buffers (unused ones 0), then the bytes of all its buffers. The answer is three numbers, then the
 * bytes of the buffers that the call may write. A number is eight bytes, low byte first. */
#include "zr400.h"

#include <stdio.h>
#include <stdlib.h>
#include <unistd.h>

enum { NUMBERS = 3, BUFFERS = 4, LONGEST = 1 << 30 };

struct call {
    uint64_t name, numbers[NUMBERS], lengths[BUFFERS];
};

/* For each call in the header's order, how many buffers it has, and from which one on it may write. */
static const struct {
    unsigned buffers, written;
} shapes[] = {{0, 0}, {0, 0}, {2, 1}, {2, 1}, {1, 1}, {3, 2}, {3, 1}, {4, 2}, {3, 2}, {4, 1}};

enum { CALLS = sizeof shapes / sizeof *shapes };

static void stop(const char *what)
{
    dprintf(2, "zr400-worker: %s\n", what);
    exit(1);
}

/* Takes `length` bytes. Where the input ends, also within a call, nobody is there to be told, and the process ends. */
static void get(void *to, size_t length)
{
    size_t at = 0;
    while (at < length) {
        long got = read(0, (char *)to + at, length - at);
        if (got == 0)
            exit(0);
        if (got < 0)
            stop("the input cannot be read");
        at += (size_t)got;
    }
}

static void put(const void *from, size_t length)
{
    size_t at = 0;
    while (at < length) {
        long wrote = write(1, (const char *)from + at, length - at);
        if (wrote <= 0)
            stop("the answer cannot be written");
        at += (size_t)wrote;
    }
}

/* A buffer that is a list, and how many numbers it has. */
#define LIST(k) (uint64_t *)(void *)b[k], l[k] / 8

static zr_answer answer(const struct call *c, uint8_t *b[BUFFERS])
{
    const uint64_t *n = c->numbers, *l = c->lengths;
    switch (c->name) {
    case ZR400_CALL_RUN: {
        zr_run r = zr400_run(n[0], n[1]);
        return (zr_answer){r.number, r.kind, r.last};
    }
    case ZR400_CALL_RUNS: return zr400_runs(n[0], n[1]);
    case ZR400_CALL_MAP: return zr400_map(n[0], n[1], n[2], b[0], l[0], b[1], l[1]);
    case ZR400_CALL_UNMAP: return zr400_unmap(n[0], n[1], n[2], b[0], l[0], b[1], l[1]);
    case ZR400_CALL_INFORMATION: return zr400_information(n[0], n[1], b[0], l[0]);
    case ZR400_CALL_CODE: return zr400_code(n[0], n[1], b[0], l[0], b[1], l[1], b[2], l[2]);
    case ZR400_CALL_READ: return zr400_read(n[0], n[1], b[0], l[0], b[1], l[1], b[2], l[2]);
    case ZR400_CALL_EDIT: return zr400_edit(n[0], n[1], b[0], l[0], b[1], l[1], b[2], l[2], LIST(3));
    case ZR400_CALL_ARCHIVE_WRITE: return zr400_archive_write(n[0], LIST(0), LIST(1), b[2], l[2]);
    default: return zr400_archive_read(n[0], b[0], l[0], LIST(1), LIST(2), LIST(3));
    }
}

int main(void)
{
    struct call c;
    for (;;) {
        get(&c, sizeof c);
        if (c.name >= CALLS)
            stop("there is no such call");
        uint8_t *b[BUFFERS] = {NULL, NULL, NULL, NULL};
        for (unsigned k = 0; k < shapes[c.name].buffers; k++) {
            if (c.lengths[k] > LONGEST)
                stop("a buffer is too long");
            if (c.lengths[k] == 0)
                continue;
            b[k] = malloc(c.lengths[k]);
            if (b[k] == NULL)
                stop("out of memory");
            get(b[k], c.lengths[k]);
        }
        zr_answer a = answer(&c, b);
        put(&a, sizeof a);
        for (unsigned k = shapes[c.name].written; k < shapes[c.name].buffers; k++)
            put(b[k], c.lengths[k]);
        for (unsigned k = 0; k < BUFFERS; k++)
            free(b[k]);
    }
}
