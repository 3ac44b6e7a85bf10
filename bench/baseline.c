/* A plain C coder: the functions of hosts/c/zr400.h as a C programmer would write them for speed, with no proofs and no
 * vector instructions written out. bench/run holds the proved library against it, and hosts/build --plain makes the library
 * from it, to try the hosts without proving anything. Its tables are filled once, when the program is loaded; after that it
 * keeps no state. It is for machines that store the lowest byte of a number first, as x86-64 does.
 *
 * A word is two numbers of 64 bits. The words of a super frame stand in one array, in the order of elements; eight at a time
 * they change between this and the order of the capture, whose sixteen rows of eight bytes are numbers too. */
#include "zr400.h"

#include <string.h>

enum {
    PLACES = 10220,
    PLACE_BITS = 1028,
    INFO_BYTES = 30583,
    PARITY_BYTES = 2048,
    BLOCK_ELEMENTS = 2194,
    INFO_ELEMENTS = 2056,
    TAIL_ELEMENTS = 138, /* CRC, MBAS and parity of a FEC block */
    CLIENT_BITS = 257,
    CLIENT_BLOCKS = 952,
    ELEMENTS = 10976,
    PAD_ELEMENTS = 6,
    ELEMENT_BITS = 119,
    FILLER = 480,
    APART = 33, /* from the element of a slot to that of the next, within sixteen: the delay is shorter by 32 */
    EIGHT_BYTES = 119, /* eight elements */
    TAIL_EIGHTS = 18,  /* the tail and six elements more */
    PERIOD_BITS = 65535,
    KEYS = 3855, /* elements after which the scrambler comes round: seven periods */
};

#define CRC_POLYNOMIAL 0x04c11db7u
#define LANES(byte) ((uint64_t)(byte)*0x0101010101010101u) /* the byte in each of a row's eight words */

/* The first bit is the top bit of `high`. Of a word that stands for its element the last nine bits may be anything. */
struct word {
    uint64_t high, low;
};

static uint16_t tail_of[15][256];         /* what byte k of an element adds to its nine check bits */
static struct word flip_of[512];          /* the bit to be turned where nine check bits differ by so much */
static uint8_t is_beyond[512];            /* whether that is beyond repair: then no bit is turned */
static uint32_t crc_of[15][256];          /* what byte k of an element adds to the remainder */
static uint32_t power_of[INFO_ELEMENTS];  /* x to the power of so many elements' bits */
static struct word key_of[KEYS + 7];      /* the scrambler, cut into elements; eight in a row never run over the end */
static uint32_t crc_of_keys[5];           /* what the scrambler adds to the remainder of each FEC block */

static zr_answer done(uint64_t count) { return (zr_answer){0, 0, count}; }

static zr_answer refused(uint64_t number, uint64_t place) { return (zr_answer){number, place, 0}; }

/* ---- lent buffers */

/* The length of a buffer, and the length that is stated for it. */
struct lent {
    uint64_t length, stated;
};

/* The position, from 1, of the first buffer whose length is not the stated one; 0 where all are right. A call lists its
 * buffers in the order of its parameters, since it is their order that decides. */
static uint64_t first_wrong(const struct lent *lent, size_t count)
{
    for (size_t k = 0; k < count; k++)
        if (lent[k].length != lent[k].stated)
            return k + 1;
    return 0;
}

#define FIRST_WRONG(lent) first_wrong(lent, sizeof(lent) / sizeof *(lent))

enum { SPARE_BITS_AT = 1 }; /* the first buffer is the only one that has spare bits: groups to be mapped, a client block */

/* ---- bits and elements */

static inline uint64_t load(const uint8_t *from)
{
    uint64_t x;
    memcpy(&x, from, 8);
    return __builtin_bswap64(x);
}

static inline void store(uint8_t *to, uint64_t x)
{
    x = __builtin_bswap64(x);
    memcpy(to, &x, 8);
}

static inline struct word add(struct word a, struct word b) { return (struct word){a.high ^ b.high, a.low ^ b.low}; }

static inline struct word cut(const uint8_t *from, unsigned shift)
{
    uint64_t a = load(from), b = load(from + 8);
    return (struct word){a << shift | b >> 1 >> (63 - shift), b << shift};
}

/* Where eight elements stand in their 119 bytes: sixteen bytes that hold the element and lie within the 119, and the bits
 * before it. */
static const struct {
    unsigned byte, shift;
} stands[8] = {{0, 0}, {14, 7}, {29, 6}, {44, 5}, {59, 4}, {74, 3}, {89, 2}, {103, 9}};

static inline void cut_eight(const uint8_t *from, struct word e[8])
{
    for (unsigned r = 0; r < 8; r++)
        e[r] = cut(from + stands[r].byte, stands[r].shift);
}

/* Each element is written with what the one before it has in the same byte, and over what that one wrote too much. */
static inline void put_eight(uint8_t *to, const struct word e[8])
{
    store(to, e[0].high);
    store(to + 8, e[0].low);
    for (unsigned r = 1; r < 8; r++) {
        uint8_t *t = to + stands[r].byte;
        unsigned shift = stands[r].shift;
        store(t, e[r - 1].low >> 9 << (64 - shift) | e[r].high >> shift);
        store(t + 8, e[r].high << (64 - shift) | e[r].low >> shift);
    }
}

/* Elements e .. e + 7 of a super frame are scrambled or descrambled. */
static inline void scramble_eight(struct word *to, const struct word *from, size_t e)
{
    const struct word *key = key_of + e % KEYS;
    for (unsigned r = 0; r < 8; r++)
        to[r] = add(from[r], key[r]);
}

static unsigned get_bit(const uint8_t *from, size_t at) { return from[at / 8] >> (7 - at % 8) & 1; }

static void set_bit(uint8_t *to, size_t at, unsigned bit)
{
    uint8_t mask = (uint8_t)(0x80 >> at % 8);
    to[at / 8] = (uint8_t)(bit ? to[at / 8] | mask : to[at / 8] & ~mask);
}

static void copy_bits(uint8_t *to, size_t at, const uint8_t *from, size_t start, size_t count)
{
    for (; count > 0 && at % 8 != 0; count--)
        set_bit(to, at++, get_bit(from, start++));
    uint8_t *t = to + at / 8;
    const uint8_t *s = from + start / 8;
    unsigned shift = start % 8;
    size_t bytes = count / 8, i = 0;
    if (shift == 0 && bytes > 0) {
        memcpy(t, s, bytes);
        i = bytes;
    }
    for (; i + 8 <= bytes; i += 8)
        store(t + i, load(s + i) << shift | s[i + 8] >> (8 - shift));
    for (; i < bytes; i++)
        t[i] = (uint8_t)(s[i] << shift | s[i + 1] >> (8 - shift));
    for (i = 8 * bytes; i < count; i++)
        set_bit(to, at + i, get_bit(from, start + i));
}

static void clear_bits(uint8_t *to, size_t at, size_t count)
{
    for (; count > 0 && at % 8 != 0; count--)
        set_bit(to, at++, 0);
    memset(to + at / 8, 0, count / 8);
    for (size_t i = count / 8 * 8; i < count; i++)
        set_bit(to, at + i, 0);
}

/* ---- check bits */

/* Nine check bits of eight words: the first as the lowest bit of each byte, the others as bytes. */
struct nine {
    uint64_t first, others;
};

/* The rows with their bits in the order g(0), g(1), .. of 001 section 10.5, and zero for the check bits. A word has the
 * columns of its check bits taken out and put last, so that in it the others stand up to six bits earlier. */
static inline void in_order(const uint64_t row[16], uint64_t g[16])
{
    for (unsigned k = 0; k < 7; k++)
        g[k] = row[k];
    g[7] = row[7] & LANES(0xfe);
    for (unsigned k = 8; k < 11; k++)
        g[k] = (row[k - 1] & LANES(1)) << 7 | (row[k] >> 1 & LANES(0x7f));
    g[11] = (row[10] & LANES(1)) << 7 | (row[11] >> 1 & LANES(0x7e));
    g[12] = (row[11] & LANES(3)) << 6 | (row[12] >> 2 & LANES(0x3f));
    g[13] = (row[12] & LANES(3)) << 6 | (row[13] >> 2 & LANES(0x3e));
    g[14] = (row[13] & LANES(7)) << 5 | (row[14] >> 3 & LANES(0x1e));
    g[15] = (row[14] & LANES(8)) << 4 | (row[14] & LANES(4)) << 3 | (row[14] & LANES(2)) << 2;
}

/* A step in summing the bits of each byte, of two rows at once: the sums of a go to the bits of `mask`, those of b to the
 * others. Three steps make one byte of the bytes of eight rows a .. h, its bits being the sums of a, e, c, g, b, f, d, h. */
static inline uint64_t halve(uint64_t a, uint64_t b, unsigned shift, uint64_t mask)
{
    return ((a ^ a << shift) & mask) | ((b ^ b >> shift) & ~mask);
}

static inline uint64_t halve_four(uint64_t a, uint64_t b, uint64_t c, uint64_t d)
{
    return halve(halve(a, b, 4, LANES(0xf0)), halve(c, d, 4, LANES(0xf0)), 2, LANES(0xcc));
}

/* Column g(i) is made of the seven bits of i, a bit that depends on the lowest three, and a one. So a check is the sum over
 * rows, four bits of i being the number k of the row, or over some bits of all rows. The nine equations solved, the check
 * bits are: the sums over the rows whose k has no 8, no 4, no 2, no 1; over the bits c0, 30, 0c and aa of all rows; and what
 * remains. */
static inline struct nine check_bits_of_eight(const uint64_t row[16])
{
    uint64_t g[16], no8 = 0, no4 = 0;
    in_order(row, g);
    for (unsigned k = 0; k < 8; k++) {
        no8 ^= g[k];
        g[k] ^= g[k + 8];
    }
    for (unsigned k = 0; k < 4; k++) {
        no4 ^= g[k];
        g[k] ^= g[k + 4];
    }
    uint64_t no2 = g[0] ^ g[1], no1 = g[0] ^ g[2], all = no1 ^ g[1] ^ g[3];
    uint64_t remains = no8 ^ no4 ^ no2 ^ no1 ^ (all & LANES(0xa9));
    uint64_t odd = halve_four(no4, all & LANES(0x30), no1, all & LANES(0xaa));
    uint64_t even = halve_four(no2, all & LANES(0x0c), all & LANES(0xc0), remains);
    no8 ^= no8 >> 4;
    no8 ^= no8 >> 2;
    return (struct nine){(no8 ^ no8 >> 1) & LANES(1), halve(odd, even, 1, LANES(0xaa))};
}

/* ---- eight words between their two orders */

/* Eight words of eight bytes to eight rows, and back: byte c from below of word w is byte w from below of row c. */
static inline void transpose(uint64_t m[8])
{
    static const uint64_t masks[3] = {0x00ff00ff00ff00ffu, 0x0000ffff0000ffffu, 0x00000000ffffffffu};
    for (unsigned level = 0; level < 3; level++)
        for (unsigned i = 0; i < 8; i++) {
            unsigned far = 1u << level, j = i | far;
            if (i == j)
                continue;
            uint64_t swapped = (m[i] >> 8 * far ^ m[j]) & masks[level];
            m[j] ^= swapped;
            m[i] ^= swapped << 8 * far;
        }
}

/* The rows of the words of eight elements that stand `apart` from each other. */
static inline void rows_of(const struct word *first, size_t apart, uint64_t row[16])
{
    uint64_t high[8], low[8];
    for (unsigned r = 0; r < 8; r++) {
        high[r] = first[apart * r].high;
        low[r] = first[apart * r].low;
    }
    transpose(high);
    transpose(low);
    for (unsigned k = 0; k < 8; k++) {
        row[k] = high[7 - k];
        row[8 + k] = low[7 - k];
    }
    struct nine made = check_bits_of_eight(row);
    row[14] = (row[14] & LANES(0xfe)) | made.first;
    row[15] = made.others;
}

static inline void words_of(const uint64_t row[16], struct word *first, size_t apart)
{
    uint64_t high[8], low[8];
    for (unsigned k = 0; k < 8; k++) {
        high[7 - k] = row[k];
        low[7 - k] = row[8 + k];
    }
    transpose(high);
    transpose(low);
    for (unsigned r = 0; r < 8; r++)
        first[apart * r] = (struct word){high[r], low[r]};
}

static struct word get_word(const uint8_t *capture, size_t w)
{
    const uint8_t *s = capture + w / 8 * 128 + w % 8;
    struct word word = {0, 0};
    for (unsigned k = 0; k < 8; k++) {
        word.high = word.high << 8 | s[8 * k];
        word.low = word.low << 8 | s[64 + 8 * k];
    }
    return word;
}

/* Word r of eight rows goes to slot w. */
static void put_word(uint8_t *capture, size_t w, const uint64_t row[16], size_t r)
{
    uint8_t *t = capture + w / 8 * 128 + w % 8;
    const uint8_t *s = (const uint8_t *)row + r;
    for (unsigned k = 0; k < 16; k++)
        t[8 * k] = s[8 * k];
}

static int fails_a_check(const uint8_t *capture, size_t w)
{
    const uint8_t *s = capture + w / 8 * 128 + w % 8;
    unsigned sum = (unsigned)(s[112] & 1) << 8 | s[120];
    for (unsigned k = 0; k < 15; k++)
        sum ^= tail_of[k][s[8 * k]];
    return sum != 0;
}

static size_t slot_of(size_t e) { return e + 32 * (15 - e % 16); }

/* ---- CRC */

/* The remainder after one element more, from the remainder before it, whose four bytes are looked up last: the next step waits
 * for them. */
static inline uint32_t crc_step(uint32_t r, struct word e)
{
    uint64_t high = e.high ^ (uint64_t)r << 32;
    uint32_t sum = 0;
    for (unsigned k = 15; k-- > 8;)
        sum ^= crc_of[k][e.low >> (120 - 8 * k) & 255];
    for (unsigned k = 8; k-- > 0;)
        sum ^= crc_of[k][high >> (56 - 8 * k) & 255];
    return sum;
}

/* a times b modulo the CRC's polynomial. */
static uint32_t times(uint32_t a, uint32_t b)
{
    uint32_t r = 0;
    for (int i = 31; i >= 0; i--) {
        r = r << 1 ^ (r >> 31 ? CRC_POLYNOMIAL : 0);
        r ^= b >> i & 1 ? a : 0;
    }
    return r;
}

/* The CRC of FEC block i of a super frame, from its scrambled elements: what the scrambler adds to it is known. Two halves
 * that do not wait for each other are faster than the whole. */
static uint32_t crc_of_block(const struct word *e, size_t i)
{
    uint32_t first = 0xffffffffu, second = 0;
    for (size_t k = 0; k < INFO_ELEMENTS / 2; k++) {
        first = crc_step(first, e[k]);
        second = crc_step(second, e[INFO_ELEMENTS / 2 + k]);
    }
    return ~(times(first, power_of[INFO_ELEMENTS / 2]) ^ second ^ crc_of_keys[i]);
}

/* ---- tables */

/* g(i) of 001 section 10.5: the row of s0 is the top of the nine bits, the row of ones the lowest. */
static uint16_t column(unsigned i)
{
    unsigned s0 = i & 1, s1 = i >> 1 & 1, s2 = i >> 2 & 1, sum = 1;
    for (unsigned k = 0; k < 7; k++)
        sum |= (i >> k & 1) << (8 - k);
    unsigned s7 = (s0 & s2) | (!s0 & !s1 & !s2) | (s0 & s1 & !s2);
    return (uint16_t)(sum | s7 << 1);
}

/* Which check bits make up for each bit of an element; for a check bit it is that bit itself. */
static void make_tails(uint16_t tails[128])
{
    static const uint8_t last[9] = {63, 95, 111, 119, 121, 123, 125, 126, 127};
    uint16_t tail_for[512] = {0};
    for (unsigned tail = 0; tail < 512; tail++) {
        unsigned sum = 0;
        for (unsigned l = 0; l < 9; l++)
            sum ^= tail >> (8 - l) & 1 ? column(last[l]) : 0;
        tail_for[sum] = (uint16_t)tail;
    }
    unsigned k = 0, l = 0;
    for (unsigned i = 0; i < 128; i++)
        if (l < 9 && last[l] == i)
            tails[119 + l++] = tail_for[column(i)];
        else
            tails[k++] = tail_for[column(i)];
}

static void make_words(void)
{
    uint16_t tails[128];
    make_tails(tails);
    memset(is_beyond + 1, 1, 511);
    for (unsigned i = 0; i < 128; i++) {
        flip_of[tails[i]] = i < 64 ? (struct word){(uint64_t)1 << (63 - i), 0} : (struct word){0, (uint64_t)1 << (127 - i)};
        is_beyond[tails[i]] = 0;
    }
    for (unsigned i = 0; i < ELEMENT_BITS; i++)
        for (unsigned b = 0; b < 256; b++)
            if (b >> (7 - i % 8) & 1)
                tail_of[i / 8][b] ^= tails[i];
}

static void make_crc(void)
{
    uint32_t r = CRC_POLYNOMIAL; /* x^32 */
    for (unsigned i = ELEMENT_BITS; i-- > 0; r = r << 1 ^ (r >> 31 ? CRC_POLYNOMIAL : 0))
        for (unsigned b = 0; b < 256; b++)
            if (b >> (7 - i % 8) & 1)
                crc_of[i / 8][b] ^= r;
    power_of[0] = 1;
    for (unsigned k = 1; k < INFO_ELEMENTS; k++)
        power_of[k] = crc_step(power_of[k - 1], (struct word){0, 0});
}

/* `last` holds the last sixteen bits, the newest lowest. The period is written with a little of the next. */
static void make_keys(void)
{
    uint8_t period[PERIOD_BITS / 8 + 17] = {0xff, 0xff};
    uint32_t last = 0xffff;
    for (unsigned at = 2; at < sizeof period; at++) {
        for (unsigned i = 0; i < 8; i++)
            last = last << 1 | ((last ^ last >> 2 ^ last >> 11 ^ last >> 15) & 1);
        period[at] = (uint8_t)last;
    }
    for (size_t k = 0; k < KEYS + 7; k++) {
        size_t at = ELEMENT_BITS * k % PERIOD_BITS;
        key_of[k] = cut(period + at / 8, at % 8);
    }
    for (size_t i = 0; i < 5; i++)
        for (size_t k = 0; k < INFO_ELEMENTS; k++)
            crc_of_keys[i] = crc_step(crc_of_keys[i], key_of[(BLOCK_ELEMENTS * i + k) % KEYS]);
}

__attribute__((constructor)) static void make_tables(void)
{
    make_words();
    make_crc();
    make_keys();
}

/* ---- GMP places */

/* Place j is data where this is below c; for the next place c is added. */
static uint64_t phase_of(uint64_t c, uint64_t j) { return j * c % PLACES; }

static uint64_t next_phase(uint64_t c, uint64_t phase) { return phase + c < PLACES ? phase + c : phase + c - PLACES; }

/* The last place of the run of place j, at most `end`. */
static uint64_t last_of_run(uint64_t c, uint64_t j, uint64_t end)
{
    uint64_t phase = phase_of(c, j);
    int kind = phase < c;
    for (; j < end; j++) {
        phase = next_phase(c, phase);
        if ((phase < c) != kind)
            break;
    }
    return j;
}

zr_run zr400_run(uint64_t c, uint64_t j)
{
    if (c > PLACES || j < 1 || j > PLACES)
        return (zr_run){1, 0, 0};
    return (zr_run){0, phase_of(c, j) < c, last_of_run(c, j, PLACES)};
}

zr_answer zr400_runs(uint64_t c, uint64_t j)
{
    if (c > PLACES || j < 1 || j > PLACES)
        return refused(1, 0);
    uint64_t count = 1, phase = phase_of(c, j);
    for (; j < PLACES; j++) {
        uint64_t next = next_phase(c, phase);
        count += (phase < c) != (next < c);
        phase = next;
    }
    return done(count);
}

static int window_is_stated(uint64_t c, uint64_t f, uint64_t n)
{
    return c <= PLACES && f % 2 == 1 && n % 2 == 0 && n >= 2 && f <= PLACES && n <= PLACES && f + n - 1 <= PLACES;
}

static uint64_t data_places(uint64_t c, uint64_t f, uint64_t n) { return (f + n - 1) * c / PLACES - (f - 1) * c / PLACES; }

zr_answer zr400_map(uint64_t c, uint64_t f, uint64_t n, const uint8_t *groups, size_t groups_length, uint8_t *window,
                    size_t window_length)
{
    if (!window_is_stated(c, f, n))
        return refused(1, 0);
    uint64_t d = data_places(c, f, n);
    const struct lent lent[] = {{groups_length, ZR400_GROUPS_BYTES(d)}, {window_length, ZR400_WINDOW_BYTES(n)}};
    uint64_t wrong = FIRST_WRONG(lent);
    if (wrong != 0)
        return refused(2, wrong);
    if (d % 2 == 1 && (groups[groups_length - 1] & 15) != 0)
        return refused(3, SPARE_BITS_AT);
    size_t used = 0;
    for (uint64_t j = f, next; j < f + n; j = next) {
        next = last_of_run(c, j, f + n - 1) + 1;
        size_t at = PLACE_BITS * (j - f), count = PLACE_BITS * (next - j);
        if (phase_of(c, j) < c) {
            copy_bits(window, at, groups, used, count);
            used += count;
        } else
            clear_bits(window, at, count);
    }
    return done(d);
}

zr_answer zr400_unmap(uint64_t c, uint64_t f, uint64_t n, const uint8_t *window, size_t window_length, uint8_t *groups,
                      size_t groups_length)
{
    if (!window_is_stated(c, f, n))
        return refused(1, 0);
    uint64_t d = data_places(c, f, n);
    const struct lent lent[] = {{window_length, ZR400_WINDOW_BYTES(n)}, {groups_length, ZR400_GROUPS_BYTES(d)}};
    uint64_t wrong = FIRST_WRONG(lent);
    if (wrong != 0)
        return refused(2, wrong);
    size_t used = 0;
    for (uint64_t j = f, next; j < f + n; j = next) {
        next = last_of_run(c, j, f + n - 1) + 1;
        if (phase_of(c, j) < c) {
            copy_bits(groups, used, window, PLACE_BITS * (j - f), PLACE_BITS * (next - j));
            used += PLACE_BITS * (next - j);
        }
    }
    if (d % 2 == 1)
        groups[groups_length - 1] &= 0xf0;
    return done(d);
}

/* ---- coding */

static int n_is_stated(uint64_t n) { return n >= 1 && n <= 8; }

zr_answer zr400_information(uint64_t n, uint64_t t, const uint8_t *info, size_t info_length)
{
    (void)info;
    if (!n_is_stated(n) || t >= 5 * n)
        return refused(1, 0);
    const struct lent lent[] = {{info_length, ZR400_INFORMATION_BYTES(n)}};
    uint64_t wrong = FIRST_WRONG(lent);
    return wrong == 0 ? done(0) : refused(2, wrong);
}

/* The bytes of CRC, MBAS and parity, and zeros up to the eighteenth eight of elements. */
struct tail {
    uint8_t bytes[EIGHT_BYTES * TAIL_EIGHTS];
};

static void fill_tail(struct tail *tail, uint32_t crc, uint64_t mbas, const uint8_t *parity)
{
    uint64_t before = mbas;
    uint8_t *t = tail->bytes;
    store(t, (uint64_t)crc << 32);
    t += 4;
    for (size_t k = 0; k < PARITY_BYTES; k += 8) {
        uint64_t x = load(parity + k);
        store(t + k, before << 58 | x >> 6);
        before = x;
    }
    store(t + PARITY_BYTES, before << 58);
    memset(t + PARITY_BYTES + 8, 0, sizeof tail->bytes - PARITY_BYTES - 12);
}

/* FEC block i of a super frame, scrambled, to its elements e. The eighteen eights at its end are six elements more than it
 * has: behind the fifth FEC block these are the pad, and behind another the next FEC block will overwrite them. */
static void fill_block(struct word *e, size_t i, uint64_t mbas, const uint8_t *info, const uint8_t *parity)
{
    struct word eight[8];
    for (size_t k = 0; k < INFO_ELEMENTS; k += 8) {
        cut_eight(info + EIGHT_BYTES * (k / 8), eight);
        scramble_eight(e + k, eight, BLOCK_ELEMENTS * i + k);
    }
    struct tail tail;
    fill_tail(&tail, crc_of_block(e, i), mbas, parity);
    for (size_t k = 0; k < TAIL_EIGHTS; k++) {
        cut_eight(tail.bytes + EIGHT_BYTES * k, eight);
        scramble_eight(e + INFO_ELEMENTS + 8 * k, eight, BLOCK_ELEMENTS * i + INFO_ELEMENTS + 8 * k);
    }
}

/* The next `count` slots, where e begins with the 480 elements before the super frame. */
static void code_slots(const struct word *e, size_t count, uint8_t *capture)
{
    uint64_t row[16];
    for (size_t w = 0; w < count; w += 8) {
        rows_of(e + w + 32 * (w % 16), APART, row);
        memcpy(capture + 16 * w, row, sizeof row);
    }
}

/* The upper six bits of the seven-bit number of FEC block t. */
static uint64_t mbas_of(uint64_t m0, uint64_t t) { return ((m0 + t) & 127) >> 1; }

zr_answer zr400_code(uint64_t n, uint64_t m0, const uint8_t *info, size_t info_length, const uint8_t *parity,
                     size_t parity_length, uint8_t *capture, size_t capture_length)
{
    if (!n_is_stated(n) || m0 > 127)
        return refused(1, 0);
    const struct lent lent[] = {{info_length, ZR400_INFORMATION_BYTES(n)},
                                {parity_length, ZR400_PARITY_BYTES(n)},
                                {capture_length, ZR400_CAPTURE_BYTES(n)}};
    uint64_t wrong = FIRST_WRONG(lent);
    if (wrong != 0)
        return refused(2, wrong);
    struct word e[FILLER + ELEMENTS];
    memset(e, 0, FILLER * sizeof *e);
    for (uint64_t f = 0; f < n; f++) {
        for (size_t i = 0; i < 5; i++)
            fill_block(e + FILLER + BLOCK_ELEMENTS * i, i, mbas_of(m0, 5 * f + i), info + INFO_BYTES * (5 * f + i),
                       parity + PARITY_BYTES * (5 * f + i));
        code_slots(e, ELEMENTS, capture + 16 * ELEMENTS * f);
        memcpy(e, e + ELEMENTS, FILLER * sizeof *e);
    }
    memset(e + FILLER, 0, FILLER * sizeof *e);
    code_slots(e, FILLER, capture + 16 * ELEMENTS * n);
    return done(ZR400_WORDS(n));
}

/* ---- reading */

/* What a reading has found so far: the smallest place of each number, and the words to be repaired. */
struct found {
    uint64_t first[9];
    uint64_t repaired;
};

static void note(struct found *found, unsigned number, uint64_t place)
{
    if (place < found->first[number])
        found->first[number] = place;
}

/* Repairs eight words whose check bits differ from those of their elements by `other`. */
static void repair_eight(struct word *first, struct nine other, size_t w, struct found *found)
{
    for (unsigned r = 0; r < 8; r++) {
        unsigned nine = (unsigned)((other.first >> 8 * r & 1) << 8 | (other.others >> 8 * r & 255));
        first[APART * r] = add(first[APART * r], flip_of[nine]);
        found->repaired += nine != 0;
        if (is_beyond[nine])
            note(found, 4, w + r);
    }
}

/* Slots w .. w + 7 to their elements, the first of them at `first`; unchecked where nothing is to be found any more. */
static inline void read_eight(const uint8_t *capture, size_t w, struct word *first, struct found *found)
{
    uint64_t row[16];
    memcpy(row, capture + 16 * w, sizeof row);
    words_of(row, first, APART);
    if (found == NULL)
        return;
    struct nine made = check_bits_of_eight(row);
    struct nine other = {(made.first ^ row[14]) & LANES(1), made.others ^ row[15]};
    if ((other.first | other.others) != 0)
        repair_eight(first, other, w, found);
}

/* Slots w .. w + count - 1 to their elements, which are those from e on and up to 480 more. */
static void read_slots(const uint8_t *capture, size_t w, size_t count, struct word *e, struct found *found)
{
    for (size_t k = 0; k < count; k += 8)
        read_eight(capture, w + k, e + k + 32 * (k % 16), found);
}

/* The 480 slots from w on have been read to e: looks at those that no element fills, which stand in one half of what was
 * read. */
static void look_at_filler(const struct word *e, size_t w, int behind, struct found *found)
{
    for (size_t k = 0; k < FILLER; k++) {
        size_t at = k + 32 * (k % 16);
        if ((at >= FILLER) == behind && (e[at].high | e[at].low) != 0)
            note(found, 5, w + k);
    }
}

static void look_at_frame(const struct word *e, uint64_t f, uint64_t m0, struct found *found)
{
    for (size_t i = 0; i < 5; i++) {
        uint64_t t = 5 * f + i;
        const struct word *block = e + BLOCK_ELEMENTS * i;
        struct word field = add(block[INFO_ELEMENTS], key_of[(BLOCK_ELEMENTS * i + INFO_ELEMENTS) % KEYS]);
        if ((field.high >> 26 & 63) != mbas_of(m0, t))
            note(found, 6, t);
        if (field.high >> 32 != crc_of_block(block, i))
            note(found, 7, t);
    }
    for (size_t k = ELEMENTS - PAD_ELEMENTS; k < ELEMENTS; k++) {
        struct word pad = add(e[k], key_of[k % KEYS]);
        if ((pad.high | pad.low >> 9) != 0)
            note(found, 8, f);
    }
}

/* FEC block i of a super frame, from its scrambled elements e. */
static void write_block(const struct word *e, size_t i, uint8_t *info, uint8_t *parity)
{
    struct word eight[8];
    struct tail tail;
    for (size_t k = 0; k < INFO_ELEMENTS; k += 8) {
        scramble_eight(eight, e + k, BLOCK_ELEMENTS * i + k);
        put_eight(info + EIGHT_BYTES * (k / 8), eight);
    }
    for (size_t k = 0; k < TAIL_EIGHTS; k++) {
        scramble_eight(eight, e + INFO_ELEMENTS + 8 * k, BLOCK_ELEMENTS * i + INFO_ELEMENTS + 8 * k);
        put_eight(tail.bytes + EIGHT_BYTES * k, eight);
    }
    for (size_t k = 0; k < PARITY_BYTES; k += 8)
        store(parity + k, load(tail.bytes + 4 + k) << 6 | tail.bytes[12 + k] >> 2);
}

static void write_frame(const struct word *e, uint64_t f, uint8_t *info, uint8_t *parity)
{
    for (size_t i = 0; i < 5; i++)
        write_block(e + BLOCK_ELEMENTS * i, i, info + INFO_BYTES * (5 * f + i), parity + PARITY_BYTES * (5 * f + i));
}

/* The first 480 slots: filler, and elements of the first super frame, which then stand where it will be read to. */
static void read_start(const uint8_t *capture, struct word *e, struct found *found)
{
    read_slots(capture, 0, FILLER, e, found);
    if (found != NULL)
        look_at_filler(e, 0, 0, found);
    memcpy(e, e + FILLER, FILLER * sizeof *e);
}

/* Looks at the whole capture; e has the last super frame then. */
static void look(const uint8_t *capture, uint64_t n, uint64_t m0, struct word *e, struct found *found)
{
    read_start(capture, e, found);
    for (uint64_t f = 0; f < n; f++) {
        if (f > 0)
            memcpy(e, e + ELEMENTS, FILLER * sizeof *e);
        read_slots(capture, FILLER + ELEMENTS * f, ELEMENTS, e, found);
        look_at_frame(e, f, m0, found);
    }
    look_at_filler(e + ELEMENTS - FILLER, ELEMENTS * n, 1, found);
}

zr_answer zr400_read(uint64_t n, uint64_t m0, const uint8_t *capture, size_t capture_length, uint8_t *info,
                     size_t info_length, uint8_t *parity, size_t parity_length)
{
    if (!n_is_stated(n) || m0 > 127)
        return refused(1, 0);
    const struct lent lent[] = {{capture_length, ZR400_CAPTURE_BYTES(n)},
                                {info_length, ZR400_INFORMATION_BYTES(n)},
                                {parity_length, ZR400_PARITY_BYTES(n)}};
    uint64_t wrong = FIRST_WRONG(lent);
    if (wrong != 0)
        return refused(2, wrong);
    struct word e[ELEMENTS + FILLER];
    struct found found;
    memset(&found, 0xff, sizeof found);
    found.repaired = 0;
    look(capture, n, m0, e, &found);
    for (unsigned number = 4; number < 9; number++)
        if (found.first[number] != UINT64_MAX)
            return refused(number, found.first[number]);
    /* All super frames but the last are read again, and checked only where there is anything to repair. */
    struct found again = found;
    struct found *repairs = found.repaired == 0 ? NULL : &again;
    write_frame(e, n - 1, info, parity);
    if (n > 1)
        read_start(capture, e, repairs);
    for (uint64_t f = 0; f < n - 1; f++) {
        read_slots(capture, FILLER + ELEMENTS * f, ELEMENTS, e, repairs);
        write_frame(e, f, info, parity);
        memcpy(e, e + ELEMENTS, FILLER * sizeof *e);
    }
    return done(found.repaired);
}

/* ---- edits */

/* Where an edit works: super frame f, in it the elements of the client block (head) and those of CRC, MBAS and parity (tail),
 * and how many elements of information there are behind the head. */
struct site {
    uint64_t f, within;
    size_t head, head_count, tail, after;
};

static struct site site_of(uint64_t block)
{
    uint64_t t = block / CLIENT_BLOCKS, within = block % CLIENT_BLOCKS;
    size_t start = BLOCK_ELEMENTS * (t % 5);
    size_t first = CLIENT_BITS * within / ELEMENT_BITS, last = (CLIENT_BITS * within + CLIENT_BITS - 1) / ELEMENT_BITS;
    return (struct site){t / 5, within, start + first, last - first + 1, start + INFO_ELEMENTS, INFO_ELEMENTS - 1 - last};
}

/* Puts w into a rising list; where it is the largest this takes one look. */
static size_t add_sorted(uint64_t *list, size_t count, uint64_t w)
{
    size_t at = count;
    for (; at > 0 && list[at - 1] > w; at--)
        list[at] = list[at - 1];
    list[at] = w;
    return count + 1;
}

/* Slot w + r of a sixteen holds element w + 33 * r - 480: how many of them are before element `end` - 480. */
static size_t words_before(size_t end, size_t w)
{
    size_t count = end > w ? (end - w + APART - 1) / APART : 0;
    return count < 16 ? count : 16;
}

/* Lists the slots of all elements of the site in rising order, those of the tail sixteen by sixteen. */
static size_t list_words(struct site s, uint64_t *list)
{
    size_t e = ELEMENTS * s.f, count = 0, tail = e + s.tail + FILLER;
    for (size_t i = 0; i < s.head_count; i++)
        count = add_sorted(list, count, slot_of(e + s.head + i));
    for (size_t w = (e + s.tail) / 16 * 16; w < tail + TAIL_ELEMENTS; w += 16) {
        size_t end = words_before(tail + TAIL_ELEMENTS, w);
        for (size_t r = words_before(tail, w); r < end; r++)
            count = add_sorted(list, count, w + r);
    }
    return count;
}

static struct word get_element(const uint8_t *capture, uint64_t f, size_t e)
{
    return add(get_word(capture, slot_of(ELEMENTS * f + e)), key_of[e % KEYS]);
}

/* Elements e .. e + count - 1 of super frame f, at most eight. */
static void put_elements(uint8_t *capture, uint64_t f, size_t e, struct word eight[8], size_t count)
{
    uint64_t row[16];
    scramble_eight(eight, eight, e);
    rows_of(eight, 1, row);
    for (size_t r = 0; r < count; r++)
        put_word(capture, slot_of(ELEMENTS * f + e + r), row, r);
}

/* Puts the client block in; the answer is what it changes the CRC by. */
static uint32_t write_head(struct site s, const uint8_t *bits, uint8_t *capture)
{
    struct word old[8] = {{0, 0}}, fresh[8];
    uint8_t bytes[EIGHT_BYTES];
    uint32_t change = 0;
    for (size_t i = 0; i < s.head_count; i++)
        old[i] = get_element(capture, s.f, s.head + i);
    put_eight(bytes, old);
    copy_bits(bytes, CLIENT_BITS * s.within % ELEMENT_BITS, bits, 0, CLIENT_BITS);
    cut_eight(bytes, fresh);
    for (size_t i = 0; i < s.head_count; i++)
        change = crc_step(change, add(old[i], fresh[i]));
    put_elements(capture, s.f, s.head, fresh, s.head_count);
    return times(change, power_of[s.after]);
}

static void write_tail(struct site s, uint32_t change, const uint8_t *parity, uint8_t *capture)
{
    struct tail tail;
    struct word eight[8];
    uint64_t field = get_element(capture, s.f, s.tail).high;
    fill_tail(&tail, (uint32_t)(field >> 32) ^ change, field >> 26 & 63, parity);
    for (size_t k = 0; k < TAIL_ELEMENTS; k += 8) {
        cut_eight(tail.bytes + EIGHT_BYTES * (k / 8), eight);
        put_elements(capture, s.f, s.tail + k, eight, k + 8 <= TAIL_ELEMENTS ? 8 : TAIL_ELEMENTS - k);
    }
}

zr_answer zr400_edit(uint64_t n, uint64_t block, const uint8_t *bits, size_t bits_length, const uint8_t *parity,
                     size_t parity_length, uint8_t *capture, size_t capture_length, uint64_t *list, size_t list_length)
{
    if (!n_is_stated(n) || block >= 5 * CLIENT_BLOCKS * n)
        return refused(1, 0);
    const struct lent lent[] = {{bits_length, ZR400_CLIENT_BYTES},
                                {parity_length, ZR400_BLOCK_PARITY_BYTES},
                                {capture_length, ZR400_CAPTURE_BYTES(n)},
                                {list_length, ZR400_LIST_LENGTH}};
    uint64_t wrong = FIRST_WRONG(lent);
    if (wrong != 0)
        return refused(2, wrong);
    if ((bits[32] & 0x7f) != 0)
        return refused(3, SPARE_BITS_AT);
    struct site s = site_of(block);
    uint64_t words[ZR400_LIST_LENGTH];
    size_t count = list_words(s, words);
    for (size_t i = 0; i < count; i++)
        if (fails_a_check(capture, words[i]))
            return refused(9, words[i]);
    write_tail(s, write_head(s, bits, capture), parity, capture);
    memcpy(list, words, count * sizeof *list);
    return done(count);
}

/* ---- capture files */

enum { FIXED_BYTES = 16, COUNT_BYTES = 2, ENTRY_BYTES = 9 };

#define FIELD_MOST 0xffffffffu /* what four bytes hold */

static const char fixed_bytes[] = "400ZR CAPTURE 1\n";

static void put_number(uint8_t *to, size_t bytes, uint64_t x)
{
    for (; bytes > 0; x >>= 8)
        to[--bytes] = (uint8_t)x;
}

static uint64_t number_at(const uint8_t *from, size_t bytes)
{
    uint64_t x = 0;
    for (size_t i = 0; i < bytes; i++)
        x = x << 8 | from[i];
    return x;
}

static int is_count(uint64_t count) { return count >= 1 && count <= ZR400_MOST_ENTRIES; }

static int is_kind(uint64_t kind) { return kind >= ZR400_KIND_INFORMATION && kind <= ZR400_KIND_CAPTURE; }

static uint64_t smaller(uint64_t a, uint64_t b) { return a < b ? a : b; }

zr_answer zr400_archive_write(uint64_t count, const uint64_t *kinds, size_t kinds_length, const uint64_t *lengths,
                              size_t lengths_length, uint8_t *head, size_t head_length)
{
    if (!is_count(count))
        return refused(1, 0);
    uint64_t from = ZR400_HEAD_BYTES(count), handed_in = smaller(count, smaller(kinds_length, lengths_length));
    for (size_t e = 0; e < handed_in; e++) {
        if (!is_kind(kinds[e]) || lengths[e] > FIELD_MOST || from > FIELD_MOST)
            return refused(1, 0);
        from += lengths[e];
    }
    const struct lent lent[] = {{kinds_length, count}, {lengths_length, count}, {head_length, ZR400_HEAD_BYTES(count)}};
    uint64_t wrong = FIRST_WRONG(lent);
    if (wrong != 0)
        return refused(2, wrong);
    memcpy(head, fixed_bytes, FIXED_BYTES);
    put_number(head + FIXED_BYTES, COUNT_BYTES, count);
    from = head_length;
    for (size_t e = 0; e < count; e++) {
        uint8_t *entry = head + ZR400_HEAD_BYTES(e);
        put_number(entry, 1, kinds[e]);
        put_number(entry + 1, 4, from);
        put_number(entry + 5, 4, lengths[e]);
        from += lengths[e];
    }
    return done(head_length);
}

/* What reading answers for a file of `size` bytes where the lengths of the buffers are right. */
static zr_answer judge_table(uint64_t size, const uint8_t *first)
{
    if (size < FIXED_BYTES || memcmp(first, fixed_bytes, FIXED_BYTES) != 0)
        return refused(10, 0);
    uint64_t count = size < ZR400_HEAD_BYTES(0) ? 0 : number_at(first + FIXED_BYTES, COUNT_BYTES);
    if (!is_count(count))
        return refused(11, 0);
    uint64_t from = ZR400_HEAD_BYTES(count), whole = smaller(count, (size - ZR400_HEAD_BYTES(0)) / ENTRY_BYTES);
    for (size_t e = 0; e < whole; e++)
        if (!is_kind(first[ZR400_HEAD_BYTES(e)]))
            return refused(11, e + 1);
    for (size_t e = 0; e < count; e++) {
        if (e >= whole || number_at(first + ZR400_HEAD_BYTES(e) + 1, 4) != from)
            return refused(12, e + 1);
        from += number_at(first + ZR400_HEAD_BYTES(e) + 5, 4);
    }
    return from == size ? done(count) : refused(12, count);
}

zr_answer zr400_archive_read(uint64_t size, const uint8_t *first, size_t first_length, uint64_t *kinds, size_t kinds_length,
                             uint64_t *offsets, size_t offsets_length, uint64_t *lengths, size_t lengths_length)
{
    const struct lent lent[] = {{first_length, smaller(size, ZR400_MOST_HEAD_BYTES)},
                                {kinds_length, ZR400_MOST_ENTRIES},
                                {offsets_length, ZR400_MOST_ENTRIES},
                                {lengths_length, ZR400_MOST_ENTRIES}};
    uint64_t wrong = FIRST_WRONG(lent);
    if (wrong != 0)
        return refused(2, wrong);
    zr_answer a = judge_table(size, first);
    for (size_t e = 0; e < a.count; e++) {
        const uint8_t *entry = first + ZR400_HEAD_BYTES(e);
        kinds[e] = entry[0];
        offsets[e] = number_at(entry + 1, 4);
        lengths[e] = number_at(entry + 5, 4);
    }
    return a;
}
