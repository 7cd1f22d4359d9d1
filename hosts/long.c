/* long: the board over a memory that is longer than the DMA chip can address, 16,777,216 bytes and 4,096 more; and over the first 16,777,216 of them, over
 * one and two less, and over the first three and the first alone. Blocks of four units, of bytes and then of words, cross from FFFFFFH to 000000H upwards and
 * downwards, from the device to memory, back, and as verify; the words go upwards from an odd address and downwards from an even one.
 * Each unit must be where it has to be with the bytes that it has to have. Byte 12 of its answer must say whether a byte of it lay outside what was lent, the
 * length itself too, and be 0 in a verify. Of the whole memory the bytes that were written must be the only ones that changed: nothing from the length on, and
 * nothing from 16,777,216 on.
 *
 * The toolchain's compiler comes without C's headers, so the few functions of the C library are declared here. */
#include "limbusagin.h"

int printf(const char *, ...);
int fflush(void *);
void *malloc(unsigned long);

enum { REACH = 1 << 24, LENGTH = REACH + 4096, BLOCKS = 6, UNITS = 4, EACH = 15, RECORDS = BLOCKS * EACH };
enum { FIRST = 10 }; /* the first unit among the fifteen records of a block */
enum { BYTES, WORDS, WIDTHS };
static const char *const widths[WIDTHS] = {"bytes", "words"};

/* What is lent of the memory, and how many units of each width are outside it then, or half outside. */
struct part {
    unsigned long length, outside[WIDTHS];
};

enum { PARTS = 6 };
static const struct part parts[PARTS] = {{LENGTH, {0, 0}}, {REACH, {0, 0}}, {REACH - 1, {4, 4}}, {REACH - 2, {8, 4}}, {3, {8, 12}}, {1, {12, 16}}};

/* Register A: block mode, and which way. D0 is the width. */
enum { UPWARDS = 0x80, DOWNWARDS = 0xA0, VERIFY = 0x00, TO_MEMORY = 0x04, TO_DEVICE = 0x08, WAYS = 0x0C };

/* A block of four units: its mode, its first address, what the device has (the upper byte of a word above the lower), and what each unit has to be, where it
 * is inside. */
struct block {
    unsigned mode, from;
    unsigned short device[UNITS];
    unsigned address[UNITS];
    unsigned short data[UNITS];
};

static const struct block blocks[WIDTHS][BLOCKS] = {
    {
        {UPWARDS | TO_MEMORY, 0xFFFFFE, {0xA1, 0xA2, 0xA3, 0xA4}, {0xFFFFFE, 0xFFFFFF, 0x000000, 0x000001}, {0xA1, 0xA2, 0xA3, 0xA4}},
        {UPWARDS | TO_DEVICE, 0xFFFFFE, {0}, {0xFFFFFE, 0xFFFFFF, 0x000000, 0x000001}, {0xA1, 0xA2, 0xA3, 0xA4}},
        {DOWNWARDS | TO_MEMORY, 0x000001, {0xD1B1, 0xD2B2, 0xD3B3, 0xD4B4}, {0x000001, 0x000000, 0xFFFFFF, 0xFFFFFE}, {0xB1, 0xB2, 0xB3, 0xB4}},
        {DOWNWARDS | TO_DEVICE, 0x000001, {0}, {0x000001, 0x000000, 0xFFFFFF, 0xFFFFFE}, {0xB1, 0xB2, 0xB3, 0xB4}},
        {UPWARDS | VERIFY, 0xFFFFFE, {0xC1, 0xC2, 0xC3, 0xC4}, {0xFFFFFE, 0xFFFFFF, 0x000000, 0x000001}, {0}},
        {DOWNWARDS | VERIFY, 0x000001, {0xC1, 0xC2, 0xC3, 0xC4}, {0x000001, 0x000000, 0xFFFFFF, 0xFFFFFE}, {0}},
    },
    {
        {UPWARDS | TO_MEMORY | WORDS, 0xFFFFFD, {0x11A1, 0x12A2, 0x13A3, 0x14A4}, {0xFFFFFD, 0xFFFFFF, 0x000001, 0x000003}, {0x11A1, 0x12A2, 0x13A3, 0x14A4}},
        {UPWARDS | TO_DEVICE | WORDS, 0xFFFFFD, {0}, {0xFFFFFD, 0xFFFFFF, 0x000001, 0x000003}, {0x11A1, 0x12A2, 0x13A3, 0x14A4}},
        {DOWNWARDS | TO_MEMORY | WORDS, 0x000002, {0x21B1, 0x22B2, 0x23B3, 0x24B4}, {0x000002, 0x000000, 0xFFFFFE, 0xFFFFFC}, {0x21B1, 0x22B2, 0x23B3, 0x24B4}},
        {DOWNWARDS | TO_DEVICE | WORDS, 0x000002, {0}, {0x000002, 0x000000, 0xFFFFFE, 0xFFFFFC}, {0x21B1, 0x22B2, 0x23B3, 0x24B4}},
        {UPWARDS | VERIFY | WORDS, 0xFFFFFD, {0x31C1, 0x32C2, 0x33C3, 0x34C4}, {0xFFFFFD, 0xFFFFFF, 0x000001, 0x000003}, {0}},
        {DOWNWARDS | VERIFY | WORDS, 0x000002, {0x31C1, 0x32C2, 0x33C3, 0x34C4}, {0x000002, 0x000000, 0xFFFFFE, 0xFFFFFC}, {0}},
    },
};

static unsigned char tape[RECORDS * LIMBUSAGIN_RECORD];
static unsigned char answers[RECORDS * LIMBUSAGIN_ANSWER];
static unsigned long size;

static void put(unsigned op, unsigned a, unsigned b)
{
    tape[size] = (unsigned char)op;
    tape[size + 1] = (unsigned char)a;
    tape[size + 2] = (unsigned char)b;
    tape[size + 3] = (unsigned char)(op == 6 ? b >> 8 : 0);
    size += LIMBUSAGIN_RECORD;
}

/* Fifteen records: the wide bus, a count of 3, the address, the mode, channel 0 unmasked, its request, the grant, the four units, and the status. */
static void put_block(struct block b)
{
    put(1, 0x20, 2);
    put(1, 0x22, UNITS - 1);
    put(1, 0x23, 0);
    put(1, 0x24, b.from);
    put(1, 0x25, b.from >> 8);
    put(1, 0x26, b.from >> 16);
    put(1, 0x2A, b.mode);
    put(1, 0x2F, 0x0E);
    put(3, 2, 1);
    put(6, 0, 0);
    for (int i = 0; i < UNITS; i++)
        put(6, 0, b.device[i]);
    put(2, 0x2B, 0);
}

static unsigned char pattern(unsigned long i)
{
    return (unsigned char)(i * 7 + i / 256 * 3 + i / 65536);
}

static unsigned long lent; /* the length of the part that is lent */
static int width;          /* of the units that are tried */
static int is_wrong;

static void check(int good, const char *what, unsigned long where, unsigned got)
{
    if (!good)
        printf("long: %s, with length %lu lent: %s, at %lu: %02X\n", widths[width], lent, what, where, got), is_wrong = 1;
}

static unsigned address_of(const unsigned char *answer)
{
    return answer[8] | (unsigned)answer[9] << 8 | (unsigned)answer[10] << 16 | (unsigned)answer[11] << 24;
}

/* The address of a unit's lower byte. */
static unsigned lower_of(unsigned address)
{
    return width == WORDS ? address & ~1u : address;
}

/* What a byte of a unit has to be in the answer, if it is inside; a read outside is FF. */
static unsigned shown(unsigned data, unsigned way, unsigned long at)
{
    return way == TO_DEVICE && at >= lent ? 0xFF : data & 0xFF;
}

/* One unit of a block; whether it is outside. */
static unsigned long check_unit(const struct block *b, int i, unsigned long unit, const unsigned char *answer)
{
    unsigned address = b->address[i], way = b->mode & WAYS, lower = lower_of(address);
    unsigned upper = width == WORDS ? shown(b->data[i] >> 8, way, lower + 1) : 0;
    int is_outside = way != VERIFY && lower + (unsigned)width >= lent;
    check(answer[4] == 2, "a cycle moved no unit", unit, answer[4]);
    check(answer[6] == (i == UNITS - 1), "a block does not end with its fourth unit", unit, answer[6]);
    check(address_of(answer) == address, "a unit is at another address", unit, address_of(answer));
    check(answer[2] == shown(b->data[i], way, lower), "a unit has another byte", unit, answer[2]);
    check(answer[13] == upper, "a unit has another upper byte", unit, answer[13]);
    check(answer[12] == is_outside, "byte 12 does not say where a unit was", unit, answer[12]);
    return (unsigned long)is_outside;
}

static void run(unsigned char *memory, struct part part)
{
    lent = part.length;
    for (unsigned long i = 0; i < LENGTH; i++)
        memory[i] = pattern(i);
    struct limbusagin_fed fed = limbusagin_feed(limbusagin_fresh(), tape, size, memory, lent, answers, sizeof answers);
    check(fed.status == 0 && fed.records == RECORDS, "the call was not taken whole", fed.records, fed.status);
    unsigned long outside = 0;
    for (unsigned long r = 0; r < RECORDS; r++) {
        const unsigned char *answer = answers + r * LIMBUSAGIN_ANSWER;
        int b = (int)r / EACH, i = (int)r % EACH - FIRST;
        check(answer[0] == 0, "a record was refused", r, answer[0]);
        if (i >= 0 && i < UNITS)
            outside += check_unit(&blocks[width][b], i, (unsigned long)(b * UNITS + i), answer);
        else
            check(answer[12] == 0 && answer[13] == 0, "byte 12 or 13 is set, and no unit moved", r, answer[12]);
    }
    check(outside == part.outside[width], "so many units are outside", outside, 0);
    const struct block *last = &blocks[width][2]; /* the last that writes to memory */
    unsigned long others = 0;
    for (unsigned long i = 0; i < LENGTH; i++) {
        int written = 0;
        for (int u = 0; u < UNITS && i < lent; u++) {
            unsigned lower = lower_of(last->address[u]);
            if (i == lower || (width == WORDS && i == lower + 1))
                check(memory[i] == (last->data[u] >> 8 * (i - lower) & 0xFF), "memory has another byte", i, memory[i]), written = 1;
        }
        if (!written && memory[i] != pattern(i) && others++ < 10)
            check(0, i >= lent ? "a byte that was not lent changed" : i < REACH ? "a byte changed that no unit was at" : "a byte past the address lines changed",
                  i, memory[i]);
    }
}

int main(void)
{
    unsigned char *memory = malloc(LENGTH);
    if (!memory) {
        printf("long: no memory left\n");
        return 1;
    }
    for (width = BYTES; width < WIDTHS; width++) {
        size = 0;
        for (int b = 0; b < BLOCKS; b++)
            put_block(blocks[width][b]);
        for (int p = 0; p < PARTS; p++)
            run(memory, parts[p]);
    }
    for (int p = 0; !is_wrong && p < PARTS; p++)
        printf("long memory: length %lu lent; %d units of bytes and of words each across FFFFFFH and 000000H, %lu and %lu of them told as outside; no other byte "
               "changed, and none from %lu on\n",
               parts[p].length, BLOCKS * UNITS, parts[p].outside[BYTES], parts[p].outside[WORDS], parts[p].length < REACH ? parts[p].length : REACH);
    fflush(0);
    return is_wrong;
}
