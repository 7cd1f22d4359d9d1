/* host SEED [MEMORY] <TAPE >ANSWERS: feeds the tape to a fresh board in random lumps (of 0 to 40 bytes, now and then of some
 * thousands), writes the answers, and leaves the memory in the file MEMORY. It is `./run feed` with other lumps, in C. Before the tape and
 * after it, the board must be in range; copies with dma.selected 4, with slave.stage 5 and with D1 in a channel's mode must not be, and must be
 * refused. A copy whose channel 0 has words on the narrow bus, which no tape leads to, must be taken, and must move a word.
 *
 * The toolchain's compiler comes without C's headers, so the few functions of the C library are declared here. */
#include "limbusagin.h"

int open(const char *, int, ...);
long read(int, void *, unsigned long);
long write(int, const void *, unsigned long);
int close(int);
void *realloc(void *, unsigned long);
unsigned long strlen(const char *);
unsigned long strtoul(const char *, char **, int);
_Noreturn void exit(int);

enum { READING = 0, REPLACING = 01 | 01000 }; /* O_RDONLY; O_WRONLY and O_TRUNC, on Linux */

struct bytes {
    unsigned char *at;
    unsigned long length;
};

static void fail(const char *what)
{
    write(2, "host: ", 6);
    write(2, what, strlen(what));
    write(2, "\n", 1);
    exit(1);
}

static struct bytes read_whole(int from, const char *name)
{
    struct bytes b = {0, 0};
    unsigned long room = 65536;
    for (;;) {
        b.at = realloc(b.at, room);
        if (!b.at)
            fail("no memory left");
        long got = read(from, b.at + b.length, room - b.length);
        if (got < 0)
            fail(name);
        if (got == 0)
            return b;
        b.length += (unsigned long)got;
        if (b.length == room)
            room *= 2;
    }
}

static void write_whole(int to, const unsigned char *at, unsigned long length, const char *name)
{
    while (length) {
        long put = write(to, at, length);
        if (put <= 0)
            fail(name);
        at += put;
        length -= (unsigned long)put;
    }
}

static unsigned long state;

static unsigned long below(unsigned long n)
{
    state = state * 6364136223846793005ul + 1442695040888963407ul;
    return (state >> 33) % n;
}

/* Whether a board is out of range, and a call on it refused; with no bytes fed, that is for its range alone. */
static int is_refused(struct limbusagin_board board)
{
    unsigned char tape = 0, memory = 0, answers = 0; /* a pointer is valid also for length 0 */
    return !limbusagin_in_range(board) && limbusagin_feed(board, &tape, 0, &memory, 0, &answers, 0).status == 7;
}

/* A board that the library gave out is in range; with one field out of range it is not. */
static void check_range(struct limbusagin_board board)
{
    struct limbusagin_board other = board;
    if (!limbusagin_in_range(board))
        fail("a board that the library gave out is not in range");
    other.dma.selected = 4;
    if (!is_refused(other))
        fail("a board with dma.selected 4 is in range, or is not refused with 7");
    other = board;
    other.slave.stage = 5;
    if (!is_refused(other))
        fail("a board with slave.stage 5 is in range, or is not refused with 7");
    other = board;
    other.dma.channels[3].mode = 0x02;
    if (!is_refused(other))
        fail("a board with D1 in dma.channels[3].mode is in range, or is not refused with 7");
}

/* Words on the narrow bus: the mode alone says how wide a unit is, and register 0 cannot be written with 00H. */
static void check_narrow(struct limbusagin_board board)
{
    static const unsigned char tape[] = {1, 0x20, 0, 0, 0, 0, 0, 0, 3, 2, 1, 0, 0, 0, 0, 0, 6, 0, 0, 0, 0, 0, 0, 0, 6, 0, 0x55, 0xAA, 0, 0, 0, 0};
    unsigned char memory[3] = {0, 0, 0}, answers[sizeof tape / LIMBUSAGIN_RECORD * LIMBUSAGIN_ANSWER];
    const unsigned char *unit = answers + 3 * LIMBUSAGIN_ANSWER;
    struct limbusagin_channel *first = &board.dma.channels[0];
    first->mode = 0x85; /* block, device to memory, words */
    first->current.address = 1;
    first->masked = 0;
    board.dma.wide = board.dma.serving = board.dma.disabled = 0;
    board.dma.channel = board.dma.first = board.kept.length = 0;
    struct limbusagin_fed fed = limbusagin_feed(board, tape, sizeof tape, memory, sizeof memory, answers, sizeof answers);
    if (!limbusagin_in_range(board) || fed.status != 0)
        fail("a board with words on the narrow bus is not in range, or is refused");
    if (answers[0] != 4 || unit[4] != 2 || unit[2] != 0x55 || unit[13] != 0xAA || unit[8] != 1 || unit[12] != 0 || memory[0] != 0x55 ||
        memory[1] != 0xAA || memory[2] != 0 || fed.board.dma.channels[0].current.address != 3)
        fail("a board with words on the narrow bus does not move a word");
}

int main(int words, char **word)
{
    static unsigned char answers[LIMBUSAGIN_ANSWER * 1024];
    unsigned char none = 0;
    struct bytes memory = {&none, 0}; /* a pointer is valid also for length 0 */
    if (words < 2 || words > 3)
        fail("usage: host SEED [MEMORY] <TAPE >ANSWERS");
    if (limbusagin_version() != LIMBUSAGIN_VERSION)
        fail("the library is of another version than the header");
    state = strtoul(word[1], 0, 10);
    if (words == 3) {
        int file = open(word[2], READING);
        if (file < 0)
            fail(word[2]);
        memory = read_whole(file, word[2]);
        close(file);
    }
    struct bytes tape = read_whole(0, "standard input");
    struct limbusagin_board board = limbusagin_fresh();
    check_range(board);
    check_narrow(board);
    unsigned long at = 0;
    while (at < tape.length) {
        unsigned long lump = below(50) == 0 ? below(8000) : below(41);
        if (lump > tape.length - at)
            lump = tape.length - at;
        struct limbusagin_fed fed =
            limbusagin_feed(board, tape.at + at, lump, memory.at, memory.length, answers, sizeof answers);
        if (fed.status != 0)
            fail("status 7");
        write_whole(1, answers, LIMBUSAGIN_ANSWER * fed.records, "standard output");
        board = fed.board;
        at += lump;
    }
    check_range(board);
    check_narrow(board);
    if (words == 3) {
        int file = open(word[2], REPLACING);
        if (file < 0)
            fail(word[2]);
        write_whole(file, memory.at, memory.length, word[2]);
        close(file);
    }
    return 0;
}
