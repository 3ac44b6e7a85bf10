/* Times the library (zr400_..) and the plain C coder (plain_..) on the same input, one after the other, and compares what
 * they give. bench/run builds and starts it. With the path of a shared library, which is the library of an earlier commit, it
 * does the same with that one too. With the word `count` it works once on one super frame instead, and marks where each task
 * ends, so that what an emulator counts can be told apart. */
#include "measure.h"
#include "zr400.h"

#include <dlfcn.h>
#include <string.h>
#include <unistd.h>

enum { N = 8, M0 = 7, EDITS = 400, COUNTED_EDITS = 4 };

typedef zr_answer code_call(uint64_t, uint64_t, const uint8_t *, size_t, const uint8_t *, size_t, uint8_t *, size_t);
typedef zr_answer read_call(uint64_t, uint64_t, const uint8_t *, size_t, uint8_t *, size_t, uint8_t *, size_t);
typedef zr_answer edit_call(uint64_t, uint64_t, const uint8_t *, size_t, const uint8_t *, size_t, uint8_t *, size_t,
                            uint64_t *, size_t);

code_call plain_code;
read_call plain_read;
edit_call plain_edit;

struct coder {
    code_call *code;
    read_call *read;
    edit_call *edit;
};

enum { LIBRARY, PLAIN, EARLIER, MOST_CODERS };

/* How much is done in a round, and by how many coders: the earlier library is there only where one is named. */
static uint64_t n = N, edits = EDITS;
static int taking_turns = EARLIER;

static struct coder coders[MOST_CODERS] = {{zr400_code, zr400_read, zr400_edit}, {plain_code, plain_read, plain_edit}};

static uint8_t info[ZR400_INFORMATION_BYTES(N)], parity[ZR400_PARITY_BYTES(N)], capture[ZR400_CAPTURE_BYTES(N)];
static uint8_t flipped[sizeof capture];
static uint8_t out_capture[MOST_CODERS][sizeof capture], out_info[MOST_CODERS][sizeof info];
static uint8_t out_parity[MOST_CODERS][sizeof parity];
static uint64_t out_list[MOST_CODERS][ZR400_LIST_LENGTH];

static void *find(void *library, const char *name)
{
    void *found = dlsym(library, name);
    if (found == NULL)
        stop(dlerror());
    return found;
}

static void load_earlier(const char *path)
{
    void *library = dlopen(path, RTLD_NOW);
    if (library == NULL)
        stop(dlerror());
    coders[EARLIER].code = (code_call *)find(library, "zr400_code");
    coders[EARLIER].read = (read_call *)find(library, "zr400_read");
    coders[EARLIER].edit = (edit_call *)find(library, "zr400_edit");
    taking_turns = MOST_CODERS;
}

/* One round of a task by a coder: the work done, in megabytes of capture or in edits. */
typedef double task(const struct coder *coder, int which);

static void expect(zr_answer a, uint64_t count)
{
    if (a.number != 0 || a.count != count)
        stop("a call was refused, or counted wrongly");
}

static void code_to(code_call *call, uint8_t *to)
{
    zr_answer a = call(n, M0, info, ZR400_INFORMATION_BYTES(n), parity, ZR400_PARITY_BYTES(n), to, ZR400_CAPTURE_BYTES(n));
    expect(a, ZR400_WORDS(n));
}

static double code(const struct coder *c, int which)
{
    code_to(c->code, out_capture[which]);
    return ZR400_CAPTURE_BYTES(n) / 1e6;
}

static double read_from(const struct coder *c, int which, const uint8_t *from, uint64_t count)
{
    zr_answer a = c->read(n, M0, from, ZR400_CAPTURE_BYTES(n), out_info[which], ZR400_INFORMATION_BYTES(n), out_parity[which],
                          ZR400_PARITY_BYTES(n));
    expect(a, count);
    return ZR400_CAPTURE_BYTES(n) / 1e6;
}

static double read_whole(const struct coder *c, int which) { return read_from(c, which, capture, 0); }

static double read_flipped(const struct coder *c, int which) { return read_from(c, which, flipped, ZR400_WORDS(n)); }

static double edit(const struct coder *c, int which)
{
    for (uint64_t k = 0; k < edits; k++) {
        uint64_t block = k * 7919 % (4760 * n);
        uint8_t bits[ZR400_CLIENT_BYTES];
        memcpy(bits, info + k, sizeof bits);
        bits[32] &= 0x80;
        zr_answer a = c->edit(n, block, bits, sizeof bits, parity + k, ZR400_BLOCK_PARITY_BYTES, out_capture[which],
                              ZR400_CAPTURE_BYTES(n), out_list[which], ZR400_LIST_LENGTH);
        if (a.number != 0)
            stop("an edit was refused");
    }
    return (double)edits;
}

static int differs_from_library(int which)
{
    return memcmp(out_capture[LIBRARY], out_capture[which], sizeof capture) != 0 ||
           memcmp(out_info[LIBRARY], out_info[which], sizeof info) != 0 ||
           memcmp(out_parity[LIBRARY], out_parity[which], sizeof parity) != 0 ||
           memcmp(out_list[LIBRARY], out_list[which], sizeof out_list[which]) != 0;
}

static void compare(void)
{
    if (differs_from_library(PLAIN))
        stop("the two coders wrote different bytes");
    if (taking_turns > EARLIER && differs_from_library(EARLIER))
        stop("the library and the earlier one wrote different bytes");
}

/* The coders take turns for at least three rounds, and half a second for each; the best round of each counts, since other
 * work on the machine only slows a round. Of three, two change places from round to round: each then follows each of the
 * others, which leave the caches differently. */
static void line(const char *name, const char *unit, task *t)
{
    double best[MOST_CODERS] = {0}, start = now();
    for (int round = 0; round < 3 || now() - start < taking_turns / 2.0; round++)
        for (int k = 0; k < taking_turns; k++) {
            int which = (round % 2 == 0 ? k : taking_turns - k) % taking_turns;
            double began = now(), work = t(&coders[which], which), speed = work / (now() - began);
            if (speed > best[which])
                best[which] = speed;
        }
    printf("%-30s %10.1f %-8s %10.1f %-8s %6.2f", name, best[LIBRARY], unit, best[PLAIN], unit, best[LIBRARY] / best[PLAIN]);
    if (taking_turns > EARLIER)
        printf(" %10.1f %-8s %10.2f", best[EARLIER], unit, best[EARLIER] / best[LIBRARY]);
    printf("\n");
    compare();
}

static const struct {
    const char *name, *unit;
    task *t;
} tasks[4] = {{"code", "MB/s", code},
              {"read, undamaged", "MB/s", read_whole},
              {"read, one flip in every word", "MB/s", read_flipped},
              {"edit", "edits/s", edit}};

/* ---- counting */

static void mark(void)
{
    if (write(2, "mark\n", 5) != 5)
        stop("no mark could be written");
}

/* Names the tasks; then, between marks: nothing, a thousand instructions, each task by the library and by the plain C coder.
 * What is counted for the first two tells what a mark takes, and whether it is instructions that are counted. */
static void run_marked(void)
{
    for (int k = 0; k < 4; k++)
        dprintf(2, "task %s\n", tasks[k].name);
    mark();
    mark();
    __asm__ volatile(".rept 1000\n nop\n .endr");
    mark();
    for (int k = 0; k < 4; k++)
        for (int which = LIBRARY; which <= PLAIN; which++) {
            tasks[k].t(&coders[which], which);
            mark();
        }
    compare();
}

static void make_inputs(void)
{
    fill(info, ZR400_INFORMATION_BYTES(n), 1);
    fill(parity, ZR400_PARITY_BYTES(n), 2);
    code_to(plain_code, capture);
    memcpy(flipped, capture, ZR400_CAPTURE_BYTES(n));
    for (size_t w = 0; w < ZR400_WORDS(n); w++) {
        size_t bit = (w * 37 + 11) % 128;
        flipped[128 * (w / 8) + 8 * (bit / 8) + w % 8] ^= (uint8_t)(0x80 >> bit % 8);
    }
}

static void print_table(void)
{
    int with_earlier = taking_turns > EARLIER;
    printf("%-30s %19s %19s %6s", "", "library", "plain C", "ratio");
    if (with_earlier)
        printf(" %19s %10s", "before", "now/before");
    printf("\n");
    for (int k = 0; k < 4; k++)
        line(tasks[k].name, tasks[k].unit, tasks[k].t);
    printf("Captures of %d super frames; MB are millions of capture bytes. %s gave the same answers and bytes.\n", N,
           with_earlier ? "All three coders" : "Both coders");
    if (with_earlier)
        printf("now/before is the time that the library takes, divided by the time that the earlier one takes: 0.75 is three "
               "quarters of it.\n");
}

int main(int words, char **word)
{
    if (words == 2 && strcmp(word[1], "count") == 0) {
        n = 1;
        edits = COUNTED_EDITS;
        make_inputs();
        run_marked();
        return 0;
    }
    if (words == 2)
        load_earlier(word[1]);
    make_inputs();
    print_table();
    return 0;
}
