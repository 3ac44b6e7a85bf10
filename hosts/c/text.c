/* The functions of the library that hand out text, which a program of Rattle cannot: hosts/build adds them to what is proved. */
#include "zr400.h"

const char *zr400_version(void) { return ZR400_VERSION_TEXT; }

const char *zr400_sentence(uint64_t number)
{
    switch (number) {
    case 0: return "done";
    case 1: return "a number is outside its stated set";
    case 2: return "a buffer's length is not the stated one";
    case 3: return "a spare bit is not zero";
    case 4: return "reading: a word beyond repair";
    case 5: return "reading: a filler word not zero after repair";
    case 6: return "reading: MBAS not the expected number";
    case 7: return "reading: CRC wrong";
    case 8: return "reading: pad not zero";
    case 9: return "edit: a word to be listed fails a check";
    case 10: return "archive: fewer than 16 bytes, or the first bytes differ";
    case 11: return "archive: count missing or outside 1..32, or a kind outside 1..3 in a whole entry";
    case 12: return "archive: an entry cut off, or an offset or the end not where the rule puts it";
    default: return "a number that this library does not give";
    }
}

/* A call has at most four buffers, in the order of its parameters in zr400.h; behind its last one there is none. */
enum { MOST_BUFFERS = 4 };

static const char *const buffers[][MOST_BUFFERS] = {
    [ZR400_CALL_RUN] = {0},
    [ZR400_CALL_RUNS] = {0},
    [ZR400_CALL_MAP] = {"groups", "window"},
    [ZR400_CALL_UNMAP] = {"window", "groups"},
    [ZR400_CALL_INFORMATION] = {"information"},
    [ZR400_CALL_CODE] = {"information", "parity", "capture"},
    [ZR400_CALL_READ] = {"capture", "information", "parity"},
    [ZR400_CALL_EDIT] = {"client block", "parity", "capture", "list"},
    [ZR400_CALL_ARCHIVE_WRITE] = {"kinds", "lengths", "head"},
    [ZR400_CALL_ARCHIVE_READ] = {"first bytes", "kinds", "offsets", "lengths"},
};

const char *zr400_buffer(zr_call call, uint64_t place)
{
    const char *name = NULL;
    if ((uint64_t)call < sizeof buffers / sizeof *buffers && place >= 1 && place <= MOST_BUFFERS)
        name = buffers[call][place - 1];
    return name != NULL ? name : "no buffer of this call";
}
