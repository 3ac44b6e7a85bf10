/* Times how the scrambler's sequence is added to one super frame: by the proved function (bench_scramble), by plain C that
 * takes bytes, and by plain C that takes one bit after the other; and compares what they give. bench/run builds and starts
 * it. Each of them makes the sequence anew each time, as each call of the proved coder does. */
#include "measure.h"

#include <string.h>

enum {
    FRAME_BITS = 10976 * 119,
    FRAME_BYTES = FRAME_BITS / 8,
    PERIOD = 65535, /* in bits, and so in bytes too: after eight periods a byte begins with the first bit again */
};

/* Makes the sequence and adds it to the bytes of a super frame: the function of the crate `scrambling` that coding, reading
 * and editing use. */
void bench_scramble(uint8_t *bytes, size_t length);

static uint8_t proved[FRAME_BYTES], by_bytes[FRAME_BYTES], by_bits[FRAME_BYTES];

static void add_proved(void) { bench_scramble(proved, sizeof proved); }

/* The next bit behind the last sixteen, of which the newest is the lowest. */
static inline unsigned next_bit(unsigned last) { return (last ^ last >> 2 ^ last >> 11 ^ last >> 15) & 1; }

/* Each byte is the sum of four before it. A rule for bits that adds those at some distances holds at twice the distances too,
 * since squaring a polynomial over two elements doubles its exponents; so bytes follow the rule of the bits, at any stride
 * that is a power of two. */
static inline void go_on(uint8_t *byte, size_t stride, size_t end)
{
    for (size_t k = 16 * stride; k < end; k++)
        byte[k] = byte[k - stride] ^ byte[k - 3 * stride] ^ byte[k - 12 * stride] ^ byte[k - 16 * stride];
}

/* Makes the bytes up to where they come round, with longer strides as soon as there is enough behind them: the compiler then
 * takes many bytes at once. */
static void make_sequence(uint8_t byte[PERIOD])
{
    unsigned last = 0xffff;
    byte[0] = byte[1] = 0xff;
    for (size_t k = 2; k < 16; k++) {
        for (unsigned i = 0; i < 8; i++)
            last = last << 1 | next_bit(last);
        byte[k] = (uint8_t)last;
    }
    go_on(byte, 1, 16 * 8);
    go_on(byte, 8, 16 * 64);
    go_on(byte, 64, PERIOD);
}

static void add_by_bytes(void)
{
    uint8_t sequence[PERIOD];
    make_sequence(sequence);
    for (size_t at = 0; at < FRAME_BYTES; at += PERIOD) {
        size_t count = FRAME_BYTES - at < PERIOD ? FRAME_BYTES - at : PERIOD;
        for (size_t k = 0; k < count; k++)
            by_bytes[at + k] ^= sequence[k];
    }
}

/* As a night run did it before anybody thought of its time. */
static void add_by_bits(void)
{
    uint16_t last = 0xffff;
    for (size_t at = 0; at < FRAME_BITS; at++) {
        by_bits[at / 8] ^= (uint8_t)(last >> 15 << (7 - at % 8));
        last = (uint16_t)(last << 1 | next_bit(last));
    }
}

static void make_input(void)
{
    fill(by_bits, sizeof by_bits, 1);
    memcpy(by_bytes, by_bits, sizeof by_bytes);
    memcpy(proved, by_bits, sizeof proved);
}

static void compare(void)
{
    if (memcmp(by_bytes, by_bits, sizeof by_bits) != 0)
        stop("plain C by bytes and bit by bit scrambled differently");
    if (memcmp(proved, by_bits, sizeof by_bits) != 0)
        stop("the proved scrambler and plain C scrambled differently");
}

/* The three take turns, and the best round of each counts, as for the tasks. Every second round gives the input back, so the
 * first is compared too. */
int main(void)
{
    static void (*const adds[3])(void) = {add_proved, add_by_bytes, add_by_bits};
    make_input();
    double best[3] = {0}, start = now();
    for (int round = 0; round < 3 || now() - start < 2; round++) {
        for (int which = 0; which < 3; which++) {
            double began = now();
            adds[which]();
            double speed = FRAME_BYTES / 1e6 / (now() - began);
            if (speed > best[which])
                best[which] = speed;
        }
        if (round == 0)
            compare();
    }
    compare();
    printf("%-30s %19s %19s %6s %19s %6s\n", "", "proved", "plain C by bytes", "ratio", "plain C bit by bit", "ratio");
    printf("%-30s %10.1f %-8s %10.1f %-8s %6.2f %10.1f %-8s %6.2f\n", "the scrambler alone", best[0], "MB/s", best[1], "MB/s",
           best[0] / best[1], best[2], "MB/s", best[0] / best[2]);
    printf("For one super frame; MB are millions of its %d bytes. Ratios are proved / plain C. Each makes the sequence anew "
           "in each round. All three gave the same bytes.\n",
           FRAME_BYTES);
    return 0;
}
