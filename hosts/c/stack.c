/* How much stack each call of the library takes: each is made in a thread whose stack is filled with a pattern first, and what is no longer
 * the pattern was used. All of it counts, the thread's own part too. It must leave a quarter of ZR400_STACK_BYTES to the caller. */
#include "zr400.h"

#include <pthread.h>
#include <stdio.h>
#include <stdlib.h>
#include <string.h>
#include <sys/mman.h>

enum { N = 8, ROOM = 8 << 20, PATTERN = 0xa5, D = 10216, WINDOW = 10220 };

static uint8_t info[ZR400_INFORMATION_BYTES(N)], parity[ZR400_PARITY_BYTES(N)], capture[ZR400_CAPTURE_BYTES(N)];
static uint8_t groups[ZR400_GROUPS_BYTES(D)], window[ZR400_WINDOW_BYTES(WINDOW)], bits[ZR400_CLIENT_BYTES];
static uint64_t list[ZR400_LIST_LENGTH];
static uint64_t kinds[ZR400_MOST_ENTRIES], offsets[ZR400_MOST_ENTRIES], lengths[ZR400_MOST_ENTRIES];
static uint8_t head[ZR400_MOST_HEAD_BYTES];

static void stop(const char *what)
{
    dprintf(2, "stack: %s\n", what);
    exit(1);
}

static void expect(zr_answer a, uint64_t number)
{
    if (a.number != number)
        stop("a call did not answer as it should");
}

static zr_answer edit(void)
{
    return zr400_edit(N, 4711, bits, sizeof bits, parity, ZR400_BLOCK_PARITY_BYTES, capture, sizeof capture, list, ZR400_LIST_LENGTH);
}

static zr_answer read_back(void)
{
    return zr400_read(N, 7, capture, sizeof capture, info, sizeof info, parity, sizeof parity);
}

static void *no_call(void *unused) { return unused; }

static void *places(void *unused)
{
    if (zr400_run(D, 2).last != 2555)
        stop("a run did not end where it should");
    expect(zr400_runs(D, 1), 0);
    return unused;
}

static void *windows(void *unused)
{
    expect(zr400_map(D, 1, WINDOW, groups, sizeof groups, window, sizeof window), 0);
    expect(zr400_unmap(D, 1, WINDOW, window, sizeof window, groups, sizeof groups), 0);
    return unused;
}

static void *code(void *unused)
{
    expect(zr400_information(N, 5 * N - 1, info, sizeof info), 0);
    expect(zr400_code(N, 7, info, sizeof info, parity, sizeof parity, capture, sizeof capture), 0);
    return unused;
}

static void *read_whole(void *unused)
{
    expect(read_back(), 0);
    return unused;
}

/* A flip in every word is repaired; a second one in the last word is beyond repair. */
static void *read_flipped(void *unused)
{
    for (size_t g = 0; g < sizeof capture / 128; g++)
        for (size_t w = 0; w < 8; w++)
            capture[128 * g + 8 * (g % 16) + w] ^= 0x10;
    expect(read_back(), 0);
    capture[sizeof capture - 1] ^= 0x40;
    expect(read_back(), 4);
    return unused;
}

static void *edit_refused(void *unused)
{
    expect(edit(), 9);
    return unused;
}

static void *edit_done(void *unused)
{
    expect(edit(), 0);
    return unused;
}

/* A capture file of as many entries as there can be, all empty. */
static void *archive(void *unused)
{
    for (size_t e = 0; e < ZR400_MOST_ENTRIES; e++)
        kinds[e] = ZR400_KIND_CAPTURE;
    expect(zr400_archive_write(ZR400_MOST_ENTRIES, kinds, ZR400_MOST_ENTRIES, lengths, ZR400_MOST_ENTRIES, head, sizeof head), 0);
    expect(zr400_archive_read(sizeof head, head, sizeof head, kinds, ZR400_MOST_ENTRIES, offsets, ZR400_MOST_ENTRIES, lengths,
                              ZR400_MOST_ENTRIES), 0);
    return unused;
}

/* The bytes of the stack that a thread used. */
static size_t used_by(void *(*task)(void *))
{
    uint8_t *room = mmap(NULL, ROOM, PROT_READ | PROT_WRITE, MAP_PRIVATE | MAP_ANONYMOUS, -1, 0);
    pthread_attr_t attributes;
    pthread_t thread;
    size_t untouched = 0;
    if (room == MAP_FAILED)
        stop("out of memory");
    memset(room, PATTERN, ROOM);
    if (pthread_attr_init(&attributes) != 0 || pthread_attr_setstack(&attributes, room, ROOM) != 0 ||
        pthread_create(&thread, &attributes, task, NULL) != 0 || pthread_join(thread, NULL) != 0)
        stop("no thread can be started");
    while (untouched < ROOM && room[untouched] == PATTERN)
        untouched++;
    munmap(room, ROOM);
    return ROOM - untouched;
}

int main(void)
{
    static const struct {
        const char *name;
        void *(*task)(void *);
    } tasks[] = {{"no call", no_call},     {"run and runs", places},          {"map and unmap", windows},       {"code", code},      {"read", read_whole},
                 {"edit", edit_done},      {"read with flips", read_flipped}, {"edit, refused", edit_refused}, {"archive", archive}};
    size_t most = 0;
    for (size_t k = 0; k < sizeof tasks / sizeof *tasks; k++) {
        size_t used = used_by(tasks[k].task);
        printf("%s %lu\n", tasks[k].name, used);
        most = used > most ? used : most;
    }
    printf("most %lu of %u\n", most, ZR400_STACK_BYTES);
    return most > ZR400_STACK_BYTES / 4 * 3;
}
