/* layout: holds the header's struct against what the library laid out.
 *
 * layout         runs pairs of short tapes, each pair known to change certain fields to certain values, or none. Between the two boards that the
 *                library gives back, just the bytes of those fields (as the header places them) may differ, and the fields must have those
 *                values. Every field is changed by some pair. Then the sizes: how far the library writes where it puts a board.
 * layout table   prints the place and size of each field, for comparison with other declarations. */
#include "limbusagin.h"

int printf(const char *, ...);
int snprintf(char *, unsigned long, const char *, ...);
int strcmp(const char *, const char *);
unsigned long strtoul(const char *, char **, int);
void *memset(void *, int, unsigned long);
_Noreturn void exit(int);

/* A function that gives back a struct in memory gets the place for it as its first argument: here that place is ours. */
struct raw_board {
    unsigned char byte[sizeof(struct limbusagin_board)];
};
void *raw_fresh(void *to) __asm__("limbusagin_fresh");
void *raw_feed(void *to, struct limbusagin_board, const unsigned char *, unsigned long, unsigned char *, unsigned long, unsigned char *,
               unsigned long) __asm__("limbusagin_feed");

static struct field {
    char name[48];
    unsigned at, size;
    int seen;
} fields[128];
static int count;

static void field(const char *name, int index, const char *part, unsigned long at, unsigned long size)
{
    struct field *f = &fields[count++];
    if (index < 0)
        snprintf(f->name, sizeof f->name, "%s%s", name, part);
    else
        snprintf(f->name, sizeof f->name, "%s[%d]%s", name, index, part);
    f->at = (unsigned)at;
    f->size = (unsigned)size;
}

#define IN(type, f) __builtin_offsetof(struct limbusagin_##type, f), sizeof(((struct limbusagin_##type *)0)->f)
#define BOARD(f) field(#f, -1, "", IN(board, f));
#define COUNTER(f) \
    field("timer.counters", i, "." #f, __builtin_offsetof(struct limbusagin_board, timer.counters[i]) + IN(counter, f));
#define CHANNEL(f) field("dma.channels", i, "." #f, __builtin_offsetof(struct limbusagin_board, dma.channels[i]) + IN(channel, f));

static void list_fields(void)
{
    int i;
    BOARD(icu.stage) BOARD(icu.iw1) BOARD(icu.iw2) BOARD(icu.sfi) BOARD(icu.vector) BOARD(icu.rotation) BOARD(icu.showsisr)
    BOARD(icu.edges) BOARD(icu.isr) BOARD(icu.imr) BOARD(icu.lowest) BOARD(intp)
    BOARD(slave.stage) BOARD(slave.iw1) BOARD(slave.iw2) BOARD(slave.sfi) BOARD(slave.vector) BOARD(slave.rotation) BOARD(slave.showsisr)
    BOARD(slave.edges) BOARD(slave.isr) BOARD(slave.imr) BOARD(slave.lowest) BOARD(slaveintp)
    for (i = 0; i < 3; i++) {
        COUNTER(mode) COUNTER(format) COUNTER(value) COUNTER(count) COUNTER(full) COUNTER(pending) COUNTER(trigger)
        COUNTER(half) COUNTER(low) COUNTER(latched) COUNTER(latch) COUNTER(second) COUNTER(gate) COUNTER(out) COUNTER(odd)
    }
    for (i = 0; i < 4; i++) {
        CHANNEL(current.address) CHANNEL(current.count) CHANNEL(base.address) CHANNEL(base.count) CHANNEL(mode) CHANNEL(masked)
    }
    BOARD(dma.wide) BOARD(dma.selected) BOARD(dma.base) BOARD(dma.rotate) BOARD(dma.disabled) BOARD(dma.first)
    BOARD(dma.serving) BOARD(dma.channel) BOARD(dma.requests) BOARD(dma.ends)
    for (i = 0; i < 7; i++)
        field("kept.bytes", i, "", __builtin_offsetof(struct limbusagin_board, kept.bytes[i]), 1);
    BOARD(kept.length)
}

/* A pair: the tape before, the tape that goes on from there, and the fields that the second changes, with their values. In tapes: Wpp=vv
 * write, Rpp read, Lg=vv lines, K acknowledge, An advance, Ce,vv DMA cycle, Bvv a bare byte. '#' stands for the number of the counter or
 * channel under test, and for that: Mvv control word of the counter, G its gate low, Sv register 1, F its mask cleared. Numbers are hex. */
static const struct pair {
    int times; /* 1, 3 for each counter, 4 for each channel */
    const char *before, *then, *changes;
} pairs[] = {
    {1, "", "W00=52", "icu.stage=1 icu.iw1=52"},
    {1, "W00=13", "W01=47", "icu.stage=2 icu.iw2=47"},
    {1, "W00=13 W01=47", "W01=02", "icu.stage=3 icu.sfi=1"},
    {1, "W00=13 W01=47", "W01=01", "icu.stage=3 icu.vector=1"},
    {1, "W00=12 W01=47", "W00=80", "icu.rotation=1"},
    {1, "W00=12 W01=47", "W00=0B", "icu.showsisr=1"},
    {1, "W00=12 W01=47", "L0=24", "icu.edges=24 intp=24"},
    {1, "", "L0=24", "intp=24"},
    {1, "W00=12 W01=47 L0=24", "L0=04", "icu.edges=4 intp=4"},
    {1, "W00=12 W01=47 L0=20", "K", "icu.edges=0 icu.isr=20"},
    {1, "W00=12 W01=47", "K", ""},
    {1, "W00=12 W01=47", "W01=5A", "icu.imr=5A"},
    {1, "W00=12 W01=47", "W00=C3", "icu.lowest=3"},
    {1, "", "W00=11", "icu.stage=1 icu.iw1=11"},
    {1, "W00=11", "W01=47", "icu.stage=4 icu.iw2=47"},
    {1, "W00=11 W01=47", "W01=80", "icu.stage=2"},
    {1, "W00=10 W01=47", "W01=80", "icu.stage=3"},
    {1, "", "W30=51", "slave.stage=1 slave.iw1=51"},
    {1, "W30=11", "W31=47", "slave.stage=4 slave.iw2=47"},
    {1, "W30=11 W31=47", "W31=07", "slave.stage=2"},
    {1, "W30=10 W31=47", "W31=07", "slave.stage=3"},
    {1, "W30=13 W31=47", "W31=02", "slave.stage=3 slave.sfi=1"},
    {1, "W30=13 W31=47", "W31=01", "slave.stage=3 slave.vector=1"},
    {1, "W30=12 W31=47", "W30=80", "slave.rotation=1"},
    {1, "W30=12 W31=47", "W30=0B", "slave.showsisr=1"},
    {1, "W30=12 W31=47", "L3=25", "slave.edges=25 slaveintp=25"},
    {1, "", "L3=25", "slaveintp=25"},
    {1, "W30=12 W31=47", "W31=5A", "slave.imr=5A"},
    {1, "W30=12 W31=47", "W30=C3", "slave.lowest=3"},
    {1, "W00=12 W01=47 W30=12 W31=47", "L3=25", "icu.edges=80 slave.edges=25 slaveintp=25"},
    {1, "W00=12 W01=47 W30=12 W31=47 L3=25", "K", "icu.edges=0 icu.isr=80"},
    {1, "W00=10 W01=47 W01=80 W30=10 W31=47 W31=07 L3=24", "K", "icu.edges=0 icu.isr=80 slave.edges=20 slave.isr=4"},
    {1, "W00=10 W01=47 W01=80 W30=10 W31=47 W31=07 L0=80", "K", "icu.edges=0 icu.isr=80"},
    {3, "", "M30", "timer.counters[#].mode=0 timer.counters[#].format=3"},
    {3, "", "M34", "timer.counters[#].mode=2 timer.counters[#].format=3 timer.counters[#].out=1"},
    {3, "M34", "W1#=34", "timer.counters[#].half=1 timer.counters[#].low=34"},
    {3, "M24", "W1#=12", "timer.counters[#].count=1200 timer.counters[#].full=1 timer.counters[#].pending=1"},
    {3, "M24 W1#=12", "A1", "timer.counters[#].value=1200 timer.counters[#].pending=0"},
    {3, "M24 W1#=12 A1", "G", "timer.counters[#].gate=0"},
    {3, "M24 W1#=12 A1 G", "L1=7", "timer.counters[#].gate=1 timer.counters[#].trigger=1"},
    {3, "M24 W1#=12 A1", "M00", "timer.counters[#].latched=1 timer.counters[#].latch=1200"},
    {3, "M34 W1#=34 W1#=12 A1", "R1#", "timer.counters[#].second=1"},
    {3, "M16 W1#=13", "A1", "timer.counters[#].value=12 timer.counters[#].pending=0 timer.counters[#].odd=1"},
    {4, "S4", "W22=34", "dma.channels[#].base.count=34"},
    {4, "S4", "W23=34", "dma.channels[#].base.count=3400"},
    {4, "S4", "W26=AB", "dma.channels[#].base.address=AB0000"},
    {4, "S0", "W23=34", "dma.channels[#].base.count=3400 dma.channels[#].current.count=3400"},
    {4, "S0", "W26=AB", "dma.channels[#].base.address=AB0000 dma.channels[#].current.address=AB0000"},
    {4, "S0", "W2A=64", "dma.channels[#].mode=64"},
    {4, "", "F", "dma.channels[#].masked=0"},
    {4, "W20=02 S0", "W2A=65", "dma.channels[#].mode=65"},
    {1, "", "W20=02", "dma.wide=1"},
    {1, "W20=02", "W20=00", "dma.wide=0"},
    {1, "W20=02 W21=02", "W20=03", "dma.selected=0"},
    {1, "W20=02 W21=02", "W20=01", "dma.wide=0 dma.selected=0"},
    {1, "", "W21=02", "dma.selected=2"},
    {1, "", "W21=04", "dma.base=1"},
    {1, "", "W28=10", "dma.rotate=1"},
    {1, "", "W28=04", "dma.disabled=1"},
    {1, "", "L2=0A", "dma.requests=A"},
    {1, "W2F=0E L2=01", "C0,00", "dma.serving=1"},
    {1, "W2F=0B L2=04", "C0,00", "dma.serving=1 dma.channel=2"},
    {1, "W21=02 W2A=40 W2F=0B L2=04 C0,00", "C0,00",
     "dma.serving=0 dma.channel=0 dma.ends=4 dma.channels[2].masked=1 dma.channels[2].current.address=1 dma.channels[2].current.count=FFFF"},
    {1, "W28=10 W21=02 W2A=40 W2F=0B L2=04 C0,00", "C0,00",
     "dma.serving=0 dma.channel=0 dma.ends=4 dma.channels[2].masked=1 dma.channels[2].current.address=1 dma.channels[2].current.count=FFFF "
     "dma.first=3"},
    {1, "W20=02 W21=02 W24=05 W2A=61 W2F=0B L2=04 C0,00", "C0,00",
     "dma.serving=0 dma.channel=0 dma.ends=4 dma.channels[2].masked=1 dma.channels[2].current.address=3 dma.channels[2].current.count=FFFF"},
    {1, "", "B01 B22 B03 B44 B05 B66 B07",
     "kept.bytes[0]=1 kept.bytes[1]=22 kept.bytes[2]=3 kept.bytes[3]=44 kept.bytes[4]=5 kept.bytes[5]=66 kept.bytes[6]=7 kept.length=7"},
};

static unsigned hex(const char **s)
{
    char *end;
    unsigned long v = strtoul(*s, &end, 16);
    *s = end;
    return (unsigned)v;
}

/* The text with '#' replaced, as bytes of a tape. */
static unsigned long compile(const char *text, int index, unsigned char *tape)
{
    char plain[256];
    unsigned long n = 0;
    int i;
    for (i = 0; text[i]; i++)
        plain[i] = text[i] == '#' ? (char)('0' + index) : text[i];
    plain[i] = 0;
    for (const char *s = plain; *s; s += *s == ' ') {
        unsigned char r[8] = {0};
        char op = *s++;
        if (op == 'B') {
            tape[n++] = (unsigned char)hex(&s);
            continue;
        }
        if (op == 'W' || op == 'R' || op == 'L') {
            r[0] = op == 'W' ? 1 : op == 'R' ? 2 : 3;
            r[1] = (unsigned char)hex(&s);
            if (*s == '=')
                s++, r[2] = (unsigned char)hex(&s);
        } else if (op == 'K') {
            r[0] = 4;
        } else if (op == 'A') {
            r[0] = 5, r[4] = (unsigned char)hex(&s);
        } else if (op == 'C') {
            r[0] = 6, r[1] = (unsigned char)hex(&s), s++, r[2] = (unsigned char)hex(&s);
        } else if (op == 'M') {
            r[0] = 1, r[1] = 0x13, r[2] = (unsigned char)(hex(&s) | (unsigned)index << 6);
        } else if (op == 'G') {
            r[0] = 3, r[1] = 1, r[2] = (unsigned char)(7 ^ 1 << index);
        } else if (op == 'S') {
            r[0] = 1, r[1] = 0x21, r[2] = (unsigned char)(hex(&s) | (unsigned)index);
        } else {
            r[0] = 1, r[1] = 0x2F, r[2] = (unsigned char)(15 ^ 1 << index);
        }
        for (i = 0; i < 8; i++)
            tape[n++] = r[i];
    }
    return n;
}

static int wrong;

static struct limbusagin_board run(struct limbusagin_board board, const char *text, int index)
{
    unsigned char tape[256], answers[512], memory[1];
    unsigned long n = compile(text, index, tape);
    struct limbusagin_fed fed = limbusagin_feed(board, tape, n, memory, 0, answers, sizeof answers);
    if (fed.status != 0 || fed.records != n / 8)
        printf("layout: '%s': status %d, %lu records of %lu\n", text, fed.status, fed.records, n / 8), wrong++;
    for (unsigned long i = 0; i < fed.records; i++)
        if (answers[16 * i] != 0)
            printf("layout: '%s': record %lu has status %d\n", text, i, answers[16 * i]), wrong++;
    return fed.board;
}

static unsigned long value(const struct limbusagin_board *b, const struct field *f)
{
    const unsigned char *p = (const unsigned char *)b + f->at;
    unsigned long v = 0;
    for (unsigned i = f->size; i-- > 0;)
        v = v << 8 | p[i];
    return v;
}

static void try_pair(const struct pair *p, int index)
{
    struct limbusagin_board a = run(limbusagin_fresh(), p->before, index), b = run(a, p->then, index);
    int named[128] = {0};
    for (const char *s = p->changes; *s;) {
        char name[48];
        int n = 0, f;
        while (*s != '=')
            name[n++] = *s == '#' ? (char)('0' + index) : *s, s++;
        name[n] = 0, s++;
        unsigned long to = hex(&s);
        s += *s == ' ';
        for (f = 0; f < count && strcmp(fields[f].name, name); f++)
            ;
        if (f == count) {
            printf("layout: no field %s\n", name), wrong++;
            continue;
        }
        named[f] = fields[f].seen = 1;
        if (value(&b, &fields[f]) != to || value(&a, &fields[f]) == to) {
            printf("layout: after '%s', then '%s': %s is %lX, then %lX; the second should be %lX and the first not\n", p->before, p->then,
                   name, value(&a, &fields[f]), value(&b, &fields[f]), to);
            wrong++;
        }
    }
    for (int f = 0; f < count; f++)
        if (!named[f] && value(&a, &fields[f]) != value(&b, &fields[f])) {
            printf("layout: after '%s', then '%s': %s changed from %lX to %lX\n", p->before, p->then, fields[f].name,
                   value(&a, &fields[f]), value(&b, &fields[f]));
            wrong++;
        }
}

/* How far two runs over different fillings agree: one past the last byte that the library wrote. It may leave the padding at the end of a struct. */
static void extent(const char *what, const unsigned char *x, const unsigned char *y, unsigned long used, unsigned long size)
{
    unsigned long end = 512;
    while (end > 0 && x[end - 1] == 0xA5 && y[end - 1] == 0x5A)
        end--;
    if (end < used || end > size)
        printf("layout: %s: the library wrote %lu bytes, the header has %lu to %lu\n", what, end, used, size), wrong++;
}

static void try_sizes(void)
{
    static unsigned char x[512] __attribute__((aligned(16))), y[512] __attribute__((aligned(16)));
    unsigned char tape[21] = {0}, answers[32], memory[1];
    struct limbusagin_board b = limbusagin_fresh();
    memset(x, 0xA5, sizeof x), memset(y, 0x5A, sizeof y);
    raw_fresh(x), raw_fresh(y);
    extent("a fresh board", x, y, sizeof b, sizeof b);
    memset(x, 0xA5, sizeof x), memset(y, 0x5A, sizeof y);
    raw_feed(x, b, tape, 21, memory, 0, answers, 32), raw_feed(y, b, tape, 21, memory, 0, answers, 32);
    extent("what a call gives back", x, y, __builtin_offsetof(struct limbusagin_fed, board) + sizeof b, sizeof(struct limbusagin_fed));
    /* The last length lies behind the board among the arguments: a board of eight bytes more or less would move it. */
    struct limbusagin_fed fed = limbusagin_feed(b, tape, 21, memory, 0, answers, 32);
    if (fed.status != 0 || fed.records != 2 || fed.board.kept.length != 5)
        printf("layout: 21 bytes with room for 2 answers: status %d, %lu records\n", fed.status, fed.records), wrong++;
    fed = limbusagin_feed(b, tape, 21, memory, 0, answers, 31);
    if (fed.status != 7 || fed.records != 0 || fed.board.kept.length != 0)
        printf("layout: 21 bytes with room for 31 bytes: status %d, %lu records\n", fed.status, fed.records), wrong++;
    b.dma.ends = 16;
    fed = limbusagin_feed(b, tape, 0, memory, 0, answers, 0);
    if (fed.status != 7 || fed.board.dma.ends != 16)
        printf("layout: a board with end bits 10H: status %d, end bits %XH\n", fed.status, fed.board.dma.ends), wrong++;
    b = limbusagin_fresh();
    b.slave.lowest = 8;
    fed = limbusagin_feed(b, tape, 0, memory, 0, answers, 0);
    if (fed.status != 7 || fed.board.slave.lowest != 8)
        printf("layout: a board with the slave's lowest level 8: status %d, lowest level %d\n", fed.status, fed.board.slave.lowest), wrong++;
}

int main(int words, char **word)
{
    int i, f;
    list_fields();
    if (words == 2 && !strcmp(word[1], "table")) {
        for (f = 0; f < count; f++)
            printf("%s %u %u\n", fields[f].name, fields[f].at, fields[f].size);
        printf("board 0 %lu\nfed.status %lu 1\nfed.records %lu 8\nfed.board %lu %lu\nfed 0 %lu\n", sizeof(struct limbusagin_board),
               __builtin_offsetof(struct limbusagin_fed, status), __builtin_offsetof(struct limbusagin_fed, records),
               __builtin_offsetof(struct limbusagin_fed, board), sizeof(struct limbusagin_board), sizeof(struct limbusagin_fed));
        return 0;
    }
    for (i = 0; i < (int)(sizeof pairs / sizeof pairs[0]); i++)
        for (f = 0; f < pairs[i].times; f++)
            try_pair(&pairs[i], f);
    for (f = 0; f < count; f++)
        if (!fields[f].seen)
            printf("layout: no pair of tapes changes %s\n", fields[f].name), wrong++;
    try_sizes();
    if (wrong)
        return 1;
    printf("layout: %d fields and 2 sizes are where the header has them\n", count);
    return 0;
}
