/* Part of check.c: calls that a seed chooses, many of them refused. hosts/oracle/main.rs makes the same choices for the
 * second program, number for number. */

/* A number that is often just at, or far beyond, the edge of 0..limit. */
static uint64_t nasty(struct generator *g, uint64_t limit)
{
    switch (below(g, 8)) {
    case 0: return 0;
    case 1: return 1;
    case 2: return limit;
    case 3: return limit + 1;
    case 4: return UINT64_MAX;
    case 5: return number_from(g);
    default: return below(g, limit + 1);
    }
}

static void random_window(struct generator *g)
{
    uint64_t c = nasty(g, 10220), f, n;
    if (below(g, 4) == 0) {
        f = nasty(g, 10220);
        n = nasty(g, 10220);
    } else {
        f = 1 + 2 * below(g, 5000);
        n = 2 + 2 * below(g, 20);
    }
    int stated = c <= 10220 && f % 2 == 1 && f <= 10220 && n % 2 == 0 && n >= 2 && n <= 10220 && f + n - 1 <= 10220;
    uint64_t d = stated ? (f + n - 1) * c / 10220 - (f - 1) * c / 10220 : below(g, 5);
    size_t gl = (257 * d + 1) / 2, wl = stated ? 257 * n / 2 : 257;
    switch (below(g, 8)) {
    case 0: gl = 0; break;
    case 1: gl += 1; break;
    case 2: wl = 0; break;
    case 3: wl -= 1; break;
    }
    uint8_t *groups = bytes_from(g, gl), *bytes = bytes_from(g, wl);
    if (below(g, 4) != 0 && gl > 0)
        groups[gl - 1] &= 0xf0;
    printf("window C %lu f %lu n %lu groups %lu window %lu\n", c, f, n, gl, wl);
    zr_answer a = window(zr400_map, c, f, n, groups, gl, bytes, wl);
    printf("map: " SHOWN " window %016lx\n", NUMBERS(a), digest(bytes, wl));
    free(groups);
    free(bytes);
    bytes = bytes_from(g, wl);
    groups = bytes_from(g, gl);
    a = window(zr400_unmap, c, f, n, bytes, wl, groups, gl);
    printf("unmap: " SHOWN " groups %016lx\n", NUMBERS(a), digest(groups, gl));
    free(groups);
    free(bytes);
}

static void random_part(struct generator *g)
{
    uint64_t n = nasty(g, 8), t = nasty(g, 39);
    size_t il = ZR400_INFORMATION_BYTES(n >= 1 && n <= 8 ? n : 1);
    switch (below(g, 4)) {
    case 0: il = 0; break;
    case 1: il -= 1; break;
    }
    uint8_t *info = bytes_from(g, il);
    part(LABEL("part N %lu t %lu of %lu", n, t, il), n, t, info, il);
    free(info);
}

static void turn_word(uint8_t *capture, size_t w, unsigned bit)
{
    flip(capture, w, bit);
    encode(capture, w);
}

/* Damages a capture of `words` words, and gives the m0 to read it with. */
static uint64_t random_damage(struct generator *g, uint8_t *capture, size_t words, uint64_t m0)
{
    uint64_t w, bit, kind = below(g, 6);
    if (kind == 1) {
        for (w = 0; w < words; w++)
            flip(capture, w, below(g, 128));
    } else if (kind == 2) {
        w = below(g, words);
        bit = below(g, 128);
        flip(capture, w, bit);
        flip(capture, w, (bit + 1 + below(g, 127)) % 128);
    } else if (kind == 3 || kind == 5) {
        for (uint64_t k = 3; k <= kind; k++) {
            w = below(g, 2) == 0 ? below(g, 480) : below(g, words);
            turn_word(capture, w, below(g, ELEMENT_BITS));
        }
    } else if (kind == 4) {
        m0 = below(g, 2) == 0 ? m0 ^ 1 : (m0 % 128 + 1 + below(g, 127)) % 128; /* m0 ^ 1 has the same half */
    }
    printf("damage %lu, read with m0 %lu\n", kind, m0);
    return m0;
}

static void random_edit(struct generator *g, uint64_t n, uint64_t blocks, uint8_t *capture, size_t cl)
{
    uint64_t block = below(g, 4) == 0 ? nasty(g, blocks - 1) : below(g, blocks);
    size_t bl = 33, pl = 2048, ll = LIST;
    switch (below(g, 12)) {
    case 0: bl = 0; break;
    case 1: pl = 0; break;
    case 2: ll = 0; break;
    case 3: ll = 146; break;
    }
    uint8_t *bits = bytes_from(g, bl), *parity = bytes_from(g, pl);
    uint64_t *list = room(8 * ll);
    if (below(g, 5) != 0 && bl > 0)
        bits[32] &= 0x80;
    for (size_t i = 0; i < ll; i++)
        list[i] = number_from(g);
    zr_answer a = edit(n, block, bits, bl, parity, pl, capture, cl, list, ll);
    printf("edit N %lu block %lu of %lu %lu %lu: " SHOWN "\n", n, block, bl, pl, ll, NUMBERS(a));
    printf("edit: capture %016lx list %016lx\n", digest(capture, cl), digest_numbers(list, ll));
    free(bits);
    free(parity);
    free(list);
}

static void random_capture(struct generator *g)
{
    uint64_t n = below(g, 5) == 0 ? nasty(g, 8) : 1 + below(g, 2);
    uint64_t m0 = below(g, 5) == 0 ? nasty(g, 127) : below(g, 128);
    uint64_t k = n >= 1 && n <= 8 ? n : 1;
    size_t il = ZR400_INFORMATION_BYTES(k), pl = ZR400_PARITY_BYTES(k), cl = ZR400_CAPTURE_BYTES(k);
    switch (below(g, 12)) {
    case 0: il = 0; break;
    case 1: pl = 0; break;
    case 2: cl = 0; break;
    case 3: il += 1; break;
    case 4: pl -= 1; break;
    case 5: cl += 1; break;
    }
    uint8_t *info = bytes_from(g, il), *parity = bytes_from(g, pl), *capture = bytes_from(g, cl);
    zr_answer a = code(n, m0, info, il, parity, pl, capture, cl);
    printf("code N %lu m0 %lu of %lu %lu %lu: " SHOWN " capture %016lx\n", n, m0, il, pl, cl, NUMBERS(a), digest(capture, cl));
    if (cl == ZR400_CAPTURE_BYTES(k))
        m0 = random_damage(g, capture, ZR400_WORDS(k), m0);
    a = read_capture(n, m0, capture, cl, info, il, parity, pl);
    printf("read: " SHOWN "\n", NUMBERS(a));
    both_digests("read", info, il, parity, pl);
    random_edit(g, n, 4760 * k, capture, cl);
    free(info);
    free(parity);
    free(capture);
}

/* Opens the file of `end` bytes that begins with `first`: as it is, with another size, or with other bytes in its head. */
static void random_open(struct generator *g, uint8_t *first, uint64_t head, uint64_t end)
{
    uint64_t size = end, which = below(g, 6), lists[3] = {ZR400_MOST_ENTRIES, ZR400_MOST_ENTRIES, ZR400_MOST_ENTRIES};
    static const uint64_t other[3] = {0, ZR400_MOST_ENTRIES - 1, ZR400_MOST_ENTRIES + 1};
    if (which == 0)
        size = nasty(g, end);
    else if (which == 1)
        size = below(g, ZR400_MOST_HEAD_BYTES + 1);
    else if (which == 2 || which == 4)
        for (uint64_t k = 2; k <= which; k++) {
            uint64_t at = below(g, head);
            first[at] = (uint8_t)below(g, 256);
        }
    size_t fl = size < ZR400_MOST_HEAD_BYTES ? size : ZR400_MOST_HEAD_BYTES;
    which = below(g, 40);
    if (which == 0)
        fl = 0;
    else if (which == 1)
        fl += 1;
    else if (which < 5)
        lists[which - 2] = other[below(g, 3)];
    struct table t = table_of(lists);
    size_t all = lists[0] + lists[1] + lists[2];
    for (size_t i = 0; i < all; i++)
        t.numbers[0][i] = number_from(g);
    zr_answer a = archive_read(size, first, fl, t);
    printf("open %lu by %lu of %lu %lu %lu: " SHOWN, size, fl, lists[0], lists[1], lists[2], NUMBERS(a));
    printf(" lists %016lx\n", digest_numbers(t.numbers[0], all));
    free(t.numbers[0]);
}

/* Makes the head of a capture file, and opens one that begins with it, or with any bytes where it was refused. */
static void random_archive(struct generator *g)
{
    uint64_t n = below(g, 8) == 0 ? nasty(g, 32) : 1 + below(g, 32), k = n >= 1 && n <= 32 ? n : 1;
    size_t kl = k, ll = k, hl = ZR400_HEAD_BYTES(k);
    switch (below(g, 40)) {
    case 0: kl = 0; break;
    case 1: ll = 0; break;
    case 2: hl = 0; break;
    case 3: kl += 1; break;
    case 4: ll -= 1; break;
    case 5: hl += 1; break;
    }
    uint64_t *kinds = room(8 * kl), *lengths = room(8 * ll), end = hl;
    for (size_t i = 0; i < kl; i++)
        kinds[i] = below(g, 200) == 0 ? nasty(g, 3) : 1 + below(g, 3);
    for (size_t i = 0; i < ll; i++)
        lengths[i] = below(g, 100) == 0 ? nasty(g, 0xffffffffu) : below(g, 1 << 27);
    uint8_t *head = bytes_from(g, hl), *first = bytes_from(g, FIRST);
    zr_answer a = archive_write(n, kinds, kl, lengths, ll, head, hl);
    printf("archive N %lu of %lu %lu %lu: " SHOWN " head %016lx\n", n, kl, ll, hl, NUMBERS(a), digest(head, hl));
    if (a.number == 0)
        memcpy(first, head, hl);
    for (size_t i = 0; a.number == 0 && i < ll; i++)
        end += lengths[i];
    random_open(g, first, ZR400_HEAD_BYTES(k), end);
    free(kinds);
    free(lengths);
    free(head);
    free(first);
}

static void random_calls(uint64_t seed)
{
    struct generator g = {seed};
    for (int k = 0; k < 150; k++) {
        uint64_t c = nasty(&g, 10220), j = nasty(&g, 10220);
        place(c, j);
    }
    for (int k = 0; k < 100; k++)
        random_window(&g);
    for (int k = 0; k < 20; k++)
        random_part(&g);
    for (int k = 0; k < 16; k++)
        random_capture(&g);
    for (int k = 0; k < 400; k++)
        random_archive(&g);
}
