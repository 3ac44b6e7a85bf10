/* Part of check.c: every call on buffers of which each has its stated length, or one less, or one more, in every combination;
 * again with a spare bit set where a buffer has spare bits; and once with a number outside its set. So each line shows which
 * buffer a refusal names where several are wrong, and what comes before it. The second program prints the same lines. */

enum { MOST_LENT = 4 };

/* What the line being printed says of the outputs. */
static char left[120];
#define LEFT(...) snprintf(left, sizeof left, __VA_ARGS__)

/* Makes a call on buffers of these lengths, which it makes anew, and says what is left. `number` is the first of the call's
 * numbers, and `spare` is set in the byte that has the spare bits. */
typedef zr_answer lent_call(uint64_t number, uint8_t spare, const size_t *l);

static zr_answer lent_code(uint64_t n, uint8_t spare, const size_t *l)
{
    (void)spare;
    uint8_t *both = seeded(101, l[0] + l[1]), *capture = seeded(999, l[2]);
    zr_answer a = code(n, 7, both, l[0], both + l[0], l[1], capture, l[2]);
    LEFT(" capture %016lx", digest(capture, l[2]));
    free(both);
    free(capture);
    return a;
}

/* The first bytes of the coded capture and a zero byte behind it. */
static uint8_t *lent_capture(size_t length)
{
    struct coded *c = coded_once(1);
    uint8_t *capture = room(length);
    memset(capture, 0, length);
    memcpy(capture, c->capture, length < c->cl ? length : c->cl);
    return capture;
}

static zr_answer lent_read(uint64_t n, uint8_t spare, const size_t *l)
{
    (void)spare;
    uint8_t *capture = lent_capture(l[0]), *info = seeded(998, l[1]), *parity = seeded(997, l[2]);
    zr_answer a = read_capture(n, 7, capture, l[0], info, l[1], parity, l[2]);
    LEFT(" information %016lx parity %016lx", digest(info, l[1]), digest(parity, l[2]));
    free(capture);
    free(info);
    free(parity);
    return a;
}

/* Seeded bytes, of which byte `at`, where it is lent, has no bits but those of `kept` and `spare`. */
static uint8_t *seeded_with_spare(uint64_t seed, size_t length, size_t at, uint8_t kept, uint8_t spare)
{
    uint8_t *bytes = seeded(seed, length);
    if (at < length)
        bytes[at] = (uint8_t)((bytes[at] & kept) | spare);
    return bytes;
}

static zr_answer lent_edit(uint64_t n, uint8_t spare, const size_t *l)
{
    uint8_t *bits = seeded_with_spare(306, l[0], 32, 0x80, spare), *parity = seeded(307, l[1]), *capture = lent_capture(l[2]);
    uint64_t *list = seeded_list(l[3]);
    zr_answer a = edit(n, 6, bits, l[0], parity, l[1], capture, l[2], list, l[3]);
    LEFT(" capture %016lx list %016lx", digest(capture, l[2]), digest_numbers(list, l[3]));
    free(bits);
    free(parity);
    free(capture);
    free(list);
    return a;
}

static zr_answer lent_part(uint64_t n, uint8_t spare, const size_t *l)
{
    (void)spare;
    uint8_t *info = seeded(101, l[0]);
    zr_answer a = information(n, 4, info, l[0]);
    LEFT(" bytes %u", a.number == 0 ? ZR400_BLOCK_INFORMATION_BYTES : 0);
    free(info);
    return a;
}

static zr_answer lent_map(uint64_t c, uint8_t spare, const size_t *l)
{
    uint8_t *groups = seeded_with_spare(995, l[0], 128, 0xf0, spare), *bytes = seeded(999, l[1]);
    zr_answer a = window(zr400_map, c, 1, 2, groups, l[0], bytes, l[1]);
    LEFT(" window %016lx", digest(bytes, l[1]));
    free(groups);
    free(bytes);
    return a;
}

static zr_answer lent_unmap(uint64_t c, uint8_t spare, const size_t *l)
{
    (void)spare;
    uint8_t *bytes = seeded(999, l[0]), *groups = seeded(995, l[1]);
    zr_answer a = window(zr400_unmap, c, 1, 2, bytes, l[0], groups, l[1]);
    LEFT(" groups %016lx", digest(groups, l[1]));
    free(groups);
    free(bytes);
    return a;
}

static const uint64_t lent_kinds[3] = {1, 3, 2}, lent_lengths[3] = {5, 7, 9};

static zr_answer lent_archive_write(uint64_t count, uint8_t spare, const size_t *l)
{
    (void)spare;
    uint8_t *head = seeded(999, l[2]);
    zr_answer a = archive_write(count, lent_kinds, l[0], lent_lengths, l[1], head, l[2]);
    LEFT(" head %016lx", digest(head, l[2]));
    free(head);
    return a;
}

static zr_answer lent_archive_read(uint64_t size, uint8_t spare, const size_t *l)
{
    (void)spare;
    uint8_t *first = file_of(2, lent_kinds, lent_lengths);
    struct table t = {{seeded_list(l[1]), seeded_list(l[2]), seeded_list(l[3])}, {l[1], l[2], l[3]}};
    zr_answer a = archive_read(size, first, l[0], t);
    LEFT(" kinds %016lx offsets %016lx lengths %016lx", digest_numbers(t.numbers[0], l[1]), digest_numbers(t.numbers[1], l[2]),
         digest_numbers(t.numbers[2], l[3]));
    free(first);
    for (int k = 0; k < 3; k++)
        free(t.numbers[k]);
    return a;
}

/* A call: the stated lengths of its buffers, the first of its numbers, and one that is outside its set, where there is one. */
struct lending {
    const char *name;
    lent_call *make;
    size_t count, stated[MOST_LENT];
    int has_spare_bits;
    uint64_t number;
    const char *outside_name;
    uint64_t outside;
};

static void say_lent(const char *name, const struct lending *c, uint64_t number, uint8_t spare, const size_t *l)
{
    zr_answer a = c->make(number, spare, l);
    printf("%s", name);
    for (size_t k = 0; k < c->count; k++)
        printf(" %lu", l[k]);
    printf(": " SHOWN "%s\n", NUMBERS(a), left);
}

/* A pattern has a digit for each buffer, the lowest for the first: 0 the stated length, 1 one less, 2 one more. */
static void say_patterns(const char *name, const struct lending *c, uint8_t spare)
{
    size_t l[MOST_LENT], patterns = 1;
    for (size_t k = 0; k < c->count; k++)
        patterns *= 3;
    for (size_t p = 0; p < patterns; p++) {
        for (size_t k = 0, digits = p; k < c->count; k++, digits /= 3)
            l[k] = c->stated[k] + (digits % 3 == 2) - (digits % 3 == 1);
        say_lent(name, c, c->number, spare, l);
    }
}

static void buffers(void)
{
    static const struct lending calls[] = {
        {"code", lent_code, 3, {152915, 10240, 183296}, 0, 1, "N 0", 0},
        {"read", lent_read, 3, {183296, 152915, 10240}, 0, 1, "N 0", 0},
        {"edit", lent_edit, 4, {33, 2048, 183296, 145}, 1, 1, "N 0", 0},
        {"part", lent_part, 1, {152915}, 0, 1, "N 0", 0},
        {"map", lent_map, 2, {129, 257}, 1, 10216, "C 10221", 10221},
        {"unmap", lent_unmap, 2, {257, 129}, 0, 10216, "C 10221", 10221},
        {"archive write", lent_archive_write, 3, {2, 2, 36}, 0, 2, "count 0", 0},
        {"archive read", lent_archive_read, 4, {48, 32, 32, 32}, 0, 48, NULL, 0},
    };
    for (size_t k = 0; k < sizeof calls / sizeof *calls; k++) {
        const struct lending *c = calls + k;
        size_t shorter[MOST_LENT];
        for (size_t i = 0; i < c->count; i++)
            shorter[i] = c->stated[i] - 1;
        say_patterns(c->name, c, 0);
        if (c->has_spare_bits)
            say_patterns(LABEL("%s with a spare bit set", c->name), c, 1);
        if (c->outside_name != NULL)
            say_lent(LABEL("%s of %s", c->name, c->outside_name), c, c->outside, 0, shorter);
    }
}
