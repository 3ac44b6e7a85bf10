/* The 400ZR line coder for C and C++: the functions of the proved library libzr400.
 *
 * N, m0, t, c, j, f, n and block are whole numbers as document 01 (the scope) names them. Bits are packed first bit in
 * the top bit of the first byte. A buffer is a pointer and its length: in bytes, and for a list (`list`, `kinds`, `offsets`,
 * `lengths`) in numbers of 64 bits. A buffer of length 0 may be a null pointer. Two buffers of one call must not overlap
 * where one of them is written. The library keeps no state, allocates nothing and calls nothing back: any number of
 * threads may use it at once, each with a stack of at least ZR400_STACK_BYTES.
 *
 * Every call answers a number. 0 is "done"; any other number is a refusal, and a refusal changes no byte of any buffer.
 *
 *   no.  given exactly when                                                                place
 *   0    done                                                                              0
 *   1    a number is outside its stated set                                                0
 *   2    a buffer's length is not the stated one                                           the buffer
 *   3    a spare bit is not zero                                                           the buffer
 *   4    reading: a word beyond repair                                                     word
 *   5    reading: a filler word not zero after repair                                      word
 *   6    reading: MBAS not the expected number                                             FEC block of the capture
 *   7    reading: CRC wrong                                                                FEC block of the capture
 *   8    reading: pad not zero                                                             super frame
 *   9    edit: a word to be listed fails a check                                           word
 *   10   archive: fewer than 16 bytes, or the first bytes differ                           0
 *   11   archive: count missing or outside 1..32, or a kind outside 1..3 in a whole entry  the entry
 *   12   archive: an entry cut off, or an offset or the end not where the rule puts it     the entry
 *
 * If several apply, the smallest number is given, then the smallest place. Buffers count from 1 in the order of the
 * call's parameters, as the entries of a capture file do; words, FEC blocks and super frames count from 0. 11 at place 0
 * speaks of the count. The count of a refusal is 0.
 */
#ifndef ZR400_H
#define ZR400_H

#include <stddef.h>
#include <stdint.h>

#ifdef __cplusplus
extern "C" {
#endif

/* Places in an envelope, and the lengths that the calls ask for. A capture has N = 1..8 super frames. */
#define ZR400_PLACES 10220u
#define ZR400_BLOCK_INFORMATION_BYTES 30583u                          /* of one FEC block */
#define ZR400_BLOCK_PARITY_BYTES 2048u                                /* of one FEC block */
#define ZR400_CLIENT_BYTES 33u                                        /* a client block: 257 bits, then seven zero bits */
#define ZR400_LIST_LENGTH 145u                                        /* numbers in the list of an edit */
#define ZR400_INFORMATION_BYTES(N) ((size_t)152915 * (size_t)(N))
#define ZR400_PARITY_BYTES(N) ((size_t)10240 * (size_t)(N))
#define ZR400_CAPTURE_BYTES(N) ((size_t)175616 * (size_t)(N) + 7680)
#define ZR400_WORDS(N) ((size_t)10976 * (size_t)(N) + 480)
#define ZR400_WINDOW_BYTES(n) ((size_t)257 * (size_t)(n) / 2)                 /* n places, n even */
#define ZR400_GROUPS_BYTES(d) (((size_t)257 * (size_t)(d) + 1) / 2)           /* d data places */

/* A capture file, the archive of document 02: its head has an entry for each of its 1..32 bodies, which stand behind it. */
#define ZR400_MOST_ENTRIES 32u                                        /* also the numbers in each list that reading fills */
#define ZR400_MOST_HEAD_BYTES 306u
#define ZR400_HEAD_BYTES(count) ((size_t)9 * (size_t)(count) + 18)
#define ZR400_KIND_INFORMATION 1u
#define ZR400_KIND_PARITY 2u
#define ZR400_KIND_CAPTURE 3u

/* The stack of a thread that makes any of the calls: 512 KiB. A call takes at most three quarters of it, as hosts/check
 * measures; the rest is for the thread's own frames and data. A thread that has much of these needs so much more. */
#define ZR400_STACK_BYTES 524288u

typedef struct { uint64_t number, place, count; } zr_answer;
typedef struct { uint64_t number, kind, last; } zr_run;               /* kind 0 stuff, 1 data */

/* The calls below, in their order. */
typedef enum {
    ZR400_CALL_RUN = 0,
    ZR400_CALL_RUNS,
    ZR400_CALL_MAP,
    ZR400_CALL_UNMAP,
    ZR400_CALL_INFORMATION,
    ZR400_CALL_CODE,
    ZR400_CALL_READ,
    ZR400_CALL_EDIT,
    ZR400_CALL_ARCHIVE_WRITE,
    ZR400_CALL_ARCHIVE_READ
} zr_call;

/* The kind of place j (1..10,220) under the count c (0..10,220), and the last place of its run. Refused: stuff, 0. */
zr_run zr400_run(uint64_t c, uint64_t j);

/* How many runs there are from place j to 10,220, what is left of j's own run counting as one: in `count`. */
zr_answer zr400_runs(uint64_t c, uint64_t j);

/* Fills the window of n places from place f on with the groups and, at stuff places, zeros; the count is the number of groups. */
zr_answer zr400_map(uint64_t c, uint64_t f, uint64_t n, const uint8_t *groups, size_t groups_length, uint8_t *window,
                    size_t window_length);

/* Takes the groups out of such a window again and ignores stuff; the count is the number of groups. */
zr_answer zr400_unmap(uint64_t c, uint64_t f, uint64_t n, const uint8_t *window, size_t window_length, uint8_t *groups,
                      size_t groups_length);

/* Whether FEC block t of N super frames may be asked for: if done, its 30,583 bytes begin at info + 30583 * t. */
zr_answer zr400_information(uint64_t n, uint64_t t, const uint8_t *info, size_t info_length);

/* Codes information and parity of N super frames (1..8) into the capture; the count is the words written. The FEC blocks are
 * numbered from m0 (0..127) on, after 127 from 0 again, and each carries half its number, rounded down, as its MBAS. */
zr_answer zr400_code(uint64_t n, uint64_t m0, const uint8_t *info, size_t info_length, const uint8_t *parity,
                     size_t parity_length, uint8_t *capture, size_t capture_length);

/* Reads a capture back, repairing one flipped bit in each word; the count is the words whose checks were not zero. An
 * undamaged capture is refused by 6 for every other m0 than its own: at FEC block 0 or, where the halves are the same, at 1. */
zr_answer zr400_read(uint64_t n, uint64_t m0, const uint8_t *capture, size_t capture_length, uint8_t *info,
                     size_t info_length, uint8_t *parity, size_t parity_length);

/* Replaces one client block and its FEC block's parity in the capture, and lists the words it wrote; the count is their number. */
zr_answer zr400_edit(uint64_t n, uint64_t block, const uint8_t *bits, size_t bits_length, const uint8_t *parity,
                     size_t parity_length, uint8_t *capture, size_t capture_length, uint64_t *list, size_t list_length);

/* Makes the head of a capture file whose `count` bodies have these kinds and lengths, at most 2^32 - 1 bytes each. They stand
 * behind it in this order, and only the last may end beyond 4 GiB. The count is the bytes of the head. */
zr_answer zr400_archive_write(uint64_t count, const uint64_t *kinds, size_t kinds_length, const uint64_t *lengths,
                              size_t lengths_length, uint8_t *head, size_t head_length);

/* Opens the capture file of `size` bytes by its first 306, or by all where it has fewer, and lists its table. The count is the
 * entries; what stands behind them in a list stays. */
zr_answer zr400_archive_read(uint64_t size, const uint8_t *first, size_t first_length, uint64_t *kinds, size_t kinds_length,
                             uint64_t *offsets, size_t offsets_length, uint64_t *lengths, size_t lengths_length);

/* The table's sentence for a number, and for a number that no call gives a sentence that says so. The text stays. */
const char *zr400_sentence(uint64_t number);

/* The name of the buffer at the place that a call gave with 2 or 3: "capture" for ZR400_CALL_CODE and 3. Where the call has no
 * buffer, and for a number that is no call, the text says so. The text stays. */
const char *zr400_buffer(zr_call call, uint64_t place);

/* The version of the library: three numbers with points between them. */
const char *zr400_version(void);

#ifdef __cplusplus
}
#endif

#endif
