/* driver compare SEED TAPES       feeds random tapes in random lumps to both boards and compares every answer, the memory and the boards at the end
 * driver time REPEATS [WORD]      times both boards on the same tapes, by turns, and prints the ratios; with WORD the lines that have it
 * driver count KIND proved|plain  runs the tape of a timed line once through one board, and prints its items and the line's words
 * driver count                    prints the kinds of the lines that can be counted
 *
 * Both boards are called the same way: a whole tape, or a lump of it, through one function each. Every timed run's answers are compared too. Times
 * are of the processor's time of this process, so that other work on the machine counts as little as it can. `count` is for a tool that counts the
 * instructions inside feed_proved or feed_plain: those two are never inlined, and keep their names. */
#include "../hosts/limbusagin.h"
#include "board.h"

int printf(const char *, ...);
int strcmp(const char *, const char *);
char *strstr(const char *, const char *);
int memcmp(const void *, const void *, unsigned long);
void *memcpy(void *, const void *, unsigned long);
void *memset(void *, int, unsigned long);
void *malloc(unsigned long);
unsigned long strtoul(const char *, char **, int);
int fflush(void *);
_Noreturn void exit(int);
struct moment {
    long seconds, nanoseconds;
};
int clock_gettime(int, struct moment *);

enum { MOST = 1000000, MEMORY = 1 << 20, BEHIND = 16, PROCESS_TIME = 2 };

static byte *tape, *answers[2], *memory[2], *start_memory;

/* ---- the two boards ---- */

static struct limbusagin_board proved;
static struct plain_board plain;

__attribute__((noinline)) static int feed_proved(const byte *t, length n, byte *m, length mn, byte *a, length an, length *records)
{
    struct limbusagin_fed fed = limbusagin_feed(proved, t, n, m, mn, a, an);
    proved = fed.board;
    *records = fed.records;
    return fed.status;
}

__attribute__((noinline)) static int feed_plain(const byte *t, length n, byte *m, length mn, byte *a, length an, length *records)
{
    return plain_feed(&plain, t, n, m, mn, a, an, records);
}

static int (*const feed[2])(const byte *, length, byte *, length, byte *, length, length *) = {feed_proved, feed_plain};

static void fresh(void)
{
    proved = limbusagin_fresh();
    plain_reset(&plain);
}

/* ---- tapes ---- */

static unsigned long state;

static unsigned below(unsigned n)
{
    state = state * 6364136223846793005ul + 1442695040888963407ul;
    return (unsigned)(state >> 33) % n;
}

static length size; /* bytes of the tape so far */

static void put(unsigned a, unsigned b, unsigned c)
{
    byte *r = tape + size;
    memset(r, 0, 8);
    r[0] = (byte)a, r[1] = (byte)b, r[2] = (byte)c;
    size += 8;
}

static void put_advance(unsigned n)
{
    put(5, 0, 0);
    memcpy(tape + size - 4, &n, 4);
}

static void put_cycle(unsigned end, unsigned lower, unsigned upper)
{
    put(6, end, lower);
    tape[size - 5] = (byte)upper;
}

static void set_up(void) /* interrupt chip ready, edge trigger, vectors */
{
    put(1, 0x00, 0x13), put(1, 0x01, 0x40), put(1, 0x01, 0x01);
}

/* One record of a mixed tape; about wild in a hundred have one byte at random. */
static void put_mixed(unsigned wild, unsigned pulses)
{
    static const byte control[] = {0, 4, 4, 0xC, 2, 0}; /* modes 0, 2 and 1 */
    unsigned k = below(24);
    switch (k) {
    case 0: put(1, 0x00, below(256) | 0x12); break;
    case 1: put(1, 0x01, below(2) ? below(256) & below(256) : below(256)); break;
    case 2: put(1, 0x00, below(256) & 0xEF); break;
    case 3: put(1, 0x13, below(3) << 6 | below(4) << 4 | control[below(6)]); break;
    case 4:
    case 5: put(1, 0x10 + below(3), below(2) ? below(4) : below(256)); break;
    case 6: put(1, 0x21, below(8)); break;
    case 7: put(1, 0x22 + below(5), below(3) ? below(4) : below(256)); break;
    case 8: put(1, 0x22 + below(2) * 4, below(4)); break;
    case 9: put(1, 0x2A, below(3) << 6 | below(4) << 4 | below(3) << 2); break;
    case 10: put(1, 0x28 + 7 * below(2), below(2) ? 0x10 : below(16)); break;
    case 11:
    case 12:
    case 13: put(2, below(3) == 0 ? below(2) : below(2) ? 0x10 + below(3) : 0x21 + below(15), 0); break;
    case 14:
    case 15: put(3, 0, below(128) * 2); break;
    case 16: put(3, 1, below(2) ? 7 : below(8)); break;
    case 17: put(3, 2, below(16)); break;
    case 18: put(4, 0, 0); break;
    case 19: put_advance(below(pulses)); break;
    default: put(6, below(3) == 0, below(256));
    }
    if (below(100) < wild)
        tape[size - 8 + below(8)] = (byte)below(256);
    if (below(2000) == 0)
        memset(tape + size - 8, 0, 8);
}

/* One record for the timer: every mode, whole and half counts, gates that rise and fall, and now and then pulses enough for any count. */
static void put_timer(unsigned pulses)
{
    switch (below(8)) {
    case 0: put(1, 0x13, below(3) << 6 | below(4) << 4 | below(8) << 1); break;
    case 1:
    case 2: put(1, 0x10 + below(3), below(2) ? below(4) : below(256)); break;
    case 3: put(3, 1, below(8)); break;
    case 4: put(2, 0x10 + below(3), 0); break;
    default: put_advance(below(5000) ? below(pulses) : 65535 - below(4));
    }
}

static unsigned held; /* the lines of put_requests */

/* One record for the interrupt chip, or the words that make it ready: one line after the other turned over, so that many fall with their request
 * waiting; OUT0 that rises and falls within a few pulses, by a mode word and by a count; masks, finish commands, and acknowledges at any time. */
static void put_requests(unsigned pulses)
{
    unsigned k = below(32), iw1;
    switch (k) {
    case 0:
        iw1 = 0x12 | (below(256) & 0xE5) | (below(4) == 0) << 3;
        put(1, 0x00, iw1), put(1, 0x01, below(256));
        if (iw1 & 1)
            put(1, 0x01, below(4));
        break;
    case 1: put(1, 0x01, below(256)); break;
    case 2: put(1, 0x01, below(2) ? 0 : 1u << below(8)); break;
    case 3: put(1, 0x00, below(256) & 0xE7); break;
    case 4: put(1, 0x00, 0x0A | below(2)); break;
    case 5: put(1, 0x13, 0x10 | below(6) << 1); break;
    case 6: put(1, 0x10, below(5)); break;
    case 7: put(3, 1, below(8)); break;
    case 8:
    case 9:
    case 10:
    case 11: put(2, 0x00, 0); break;
    case 12:
    case 13:
    case 14:
    case 15: put_advance(below(pulses)); break;
    case 16:
    case 17:
    case 18:
    case 19:
    case 20:
    case 21: put(4, 0, 0); break;
    default: held ^= 2u << below(7), put(3, 0, held);
    }
}

static unsigned slaves_lines; /* group 3, of put_cascade */

/* The words that make a chip ready, some of them with rotation in self-FI; now and then a wrong IW3 comes first, or an IW1 that announces something else. */
static void put_words(unsigned port, unsigned iw1, unsigned iw4)
{
    unsigned iw3 = port ? 0x07 : 0x80;
    if (below(16) == 0)
        put(1, port, below(256) | 0x10), put(1, port + 1, below(256));
    put(1, port, iw1), put(1, port + 1, below(256));
    if (!(iw1 & 2)) {
        if (below(8) == 0)
            put(1, port + 1, below(2) ? below(256) : iw3 ^ 0x87);
        put(1, port + 1, iw3);
    }
    if (iw1 & 1)
        put(1, port + 1, iw4);
    if (below(3) == 0)
        put(1, port, 0x80);
}

/* One record for the two interrupt chips, or the words that make them ready: both extended and in one mode most of the time, or set up in any other way;
 * lines of the slave and of the master turned over, INTP7 above all; masks, finish commands and acknowledges of both. */
static void put_cascade(unsigned pulses)
{
    unsigned k = below(64), port = below(2) * 0x30, vectors;
    switch (k) {
    case 0:
    case 1: /* CALL mode comes with an IW4 or without */
        vectors = below(2);
        for (port = 0; port <= 0x30; port += 0x30)
            put_words(port, 0x10 | (below(256) & 0xE4) | (below(4) == 0) << 3 | (vectors || below(2)), below(128) << 1 | vectors);
        break;
    case 2:
        if (below(2))
            put_words(0x00, 0x12 | (below(256) & 0xED), below(256)), put_words(0x30, 0x12 | (below(256) & 0xED), below(256));
        else
            put_words(port, 0x10 | (below(256) & 0xE7) | (below(4) == 0) << 3, below(256));
        break;
    case 3: put(1, port, below(8) ? below(256) & 0xE7 : below(256) | 0x10); break;
    case 4: put(1, port + 1, below(2) ? 0 : below(256)); break;
    case 5: put(1, port + 1, below(2) ? 0 : 1u << below(8)); break;
    case 6: put(1, port, 0x08 | below(4)); break;
    case 7: put(1, port, below(4) ? 0x80 : 0xC0 | below(8)); break;
    case 8: put(1, 0x13, 0x10 | below(6) << 1); break;
    case 9: put(1, 0x10, below(5)); break;
    case 10:
    case 11: put_advance(below(pulses)); break;
    default:
        if (k < 18)
            put(2, port + (below(8) == 0), 0);
        else if (k < 30)
            put(1, port, below(4) ? 0x20 : 0xA0);
        else if (k < 34)
            put(1, 0x30, 0x20), put(1, 0x00, 0x20);
        else if (k < 40)
            held ^= below(2) ? 0x80 : 2u << below(7), put(3, 0, held);
        else if (k < 51)
            put(4, 0, 0);
        else
            slaves_lines ^= 1u << below(8) | (below(4) == 0) << below(8), put(3, 3, slaves_lines);
    }
}

/* Whoever is served, the bus is free after it. */
static void put_free(void)
{
    put(3, 2, 0), put(6, 1, below(256));
}

/* A write to the DMA chip's register 0: the wide bus most of the time; now and then the narrow one, or a reset. */
static void put_bus(void)
{
    unsigned k = below(16);
    put(1, 0x20, (below(256) & 0xFC) | (k < 12 ? 2 : k < 15 ? 0 : 1 + below(2) * 2));
}

/* A mode, of bytes or of words; one in sixteen has the bit between, and is refused. */
static void put_mode(unsigned words)
{
    put(1, 0x2A, below(3) << 6 | below(4) << 4 | below(3) << 2 | (below(16) == 0) << 1 | words);
}

/* Where a channel begins: within four bytes of the memory's end, or of address 0. */
static void put_address(length memory_length)
{
    unsigned from = (below(4) ? (unsigned)memory_length : 0) + below(9) - 4;
    for (unsigned place = 0; place < 3; place++)
        put(1, 0x24 + place, from >> 8 * place & 255);
}

/* A channel that begins there, and cycles for it: bytes and words, each direction, each mode, upwards and downwards, so that units are inside the memory and
 * outside it, at its last byte and at its length, and words half outside it. Most of the time the bus is free before it and after it, and wide where words are to
 * be moved. */
static void put_units(length memory_length)
{
    unsigned n = below(4), words = below(2), cycles = 2 + below(14);
    if (below(4))
        put_free();
    if (words)
        put_bus();
    put(1, 0x21, n), put(1, 0x22, below(8)), put(1, 0x23, 0);
    put_address(memory_length);
    put_mode(words);
    put(1, 0x28, below(2) << 4), put(1, 0x2F, 15 ^ 1u << n), put(3, 2, 1u << n);
    while (cycles--)
        put_cycle(below(16) == 0, below(256), below(256));
    if (below(16))
        put_free();
}

/* One record for the DMA chip, or an address: four channels at work, of bytes and of words, on a bus that is wide or narrow. */
static void put_channels(length memory_length)
{
    unsigned k = below(32);
    switch (k) {
    case 0: put_bus(); break;
    case 1: put(1, 0x20, 0); break;
    case 2:
    case 3: put(1, 0x21, below(8)); break;
    case 4:
    case 5: put(1, 0x22 + below(2), below(2)); break;
    case 6:
    case 7: put_address(memory_length); break;
    case 8:
    case 9:
    case 10: put_mode(below(3) != 0); break;
    case 11: put(1, 0x28, below(2) << 4 | (below(8) == 0) << 2); break;
    case 12: put(1, 0x2F, below(4) ? 0 : below(16)); break;
    case 13:
    case 14: put(3, 2, below(16)); break;
    case 15:
    case 16: put(2, 0x21 + below(15), 0); break;
    case 17: put_free(); break;
    default: put_cycle(below(16) == 0, below(256), below(256));
    }
}

/* ---- comparison ---- */

static void show(const char *who, const byte *at, int n)
{
    printf("  %s", who);
    for (int i = 0; i < n; i++)
        printf(" %02x", at[i]);
    printf("\n");
}

static void compare(const char *what, length records, length memory_length)
{
    for (length i = 0; i < records; i++)
        if (memcmp(answers[0] + 16 * i, answers[1] + 16 * i, 16)) {
            printf("bench: the boards differ on %s at record %lu\n", what, i);
            for (length j = i < 12 ? 0 : i - 12; j <= i; j++)
                show("record", tape + 8 * j, 8);
            show("proved", answers[0] + 16 * i, 16);
            show("plain ", answers[1] + 16 * i, 16);
            exit(1);
        }
    for (length i = 0; i < memory_length; i++)
        if (memory[0][i] != memory[1][i]) {
            printf("bench: the boards differ on %s in memory at %lu: proved %02x, plain %02x\n", what, i, memory[0][i], memory[1][i]);
            exit(1);
        }
}

/* The bytes behind the lent memory are as they were. */
static void compare_behind(length memory_length)
{
    for (int who = 0; who < 2; who++)
        for (length i = memory_length; i < memory_length + BEHIND; i++)
            if (memory[who][i] != start_memory[i]) {
                printf("bench: after a random tape on %lu bytes of memory, the %s board changed the byte at %lu\n", memory_length, who ? "plain" : "proved", i);
                exit(1);
            }
}

static void same(const char *what, unsigned long is, unsigned long plainly)
{
    if (is != plainly)
        printf("bench: after a random tape the boards differ in %s: proved %lx, plain %lx\n", what, is, plainly), exit(1);
}

static void compare_chips(const char *what, const struct limbusagin_icu *i, const struct plain_pic *p)
{
    static const byte stage[] = {[BEFORE_IW1] = 0, [WANTS_IW2] = 1, [WANTS_IW3] = 4, [WANTS_IW4] = 2, [READY] = 3};
    static const char *const names[] = {"stage", "IW1", "IW2", "self-FI", "vector", "rotation", "reads show ISR", "edge requests", "ISR", "IMR", "lowest"};
    unsigned iw1 = p->page | 0x10u | (unsigned)p->by_level << 3 | (unsigned)p->spaced4 << 2 | !p->extended << 1 | p->wants_iw4;
    const unsigned is[] = {i->stage, i->iw1, i->iw2, i->sfi, i->vector, i->rotation, i->showsisr, i->iw1 & 8 ? 0u : i->edges, i->isr,
                           i->imr, i->lowest};
    const unsigned plainly[] = {stage[p->phase], p->phase == BEFORE_IW1 ? 0 : iw1, p->iw2, p->self_finish, p->vectored, p->rotating,
                                p->shows_service, p->by_level ? 0u : p->pressed, p->service, p->mask, p->bottom};
    for (unsigned f = 0; f < sizeof is / sizeof *is; f++)
        if (is[f] != plainly[f])
            printf("%s: ", names[f]), same(what, is[f], plainly[f]);
}

/* The boards themselves, field by field: edge requests in edge trigger, a latch and half a count while they are in use. */
static void compare_boards(void)
{
    compare_chips("the master", &proved.icu, &plain.pic);
    compare_chips("the slave", &proved.slave, &plain.slave);
    same("INTP", proved.intp, plain.intp);
    same("the slave's lines", proved.slaveintp, plain.slave.lines);
    for (int i = 0; i < 3; i++) {
        const struct limbusagin_counter *c = &proved.timer.counters[i];
        const struct plain_counter *p = &plain.counter[i];
        same("a counter's mode", c->mode, p->mode);
        same("a counter's format", c->format, p->access);
        same("a counter's value", c->value, p->now);
        same("a counter's count", c->count, p->reload);
        same("a counter's flags", c->full | c->pending << 1 | c->trigger << 2 | c->half << 3 | c->latched << 4 | c->second << 5 | c->gate << 6 | c->out << 7,
             p->armed | p->load << 1 | p->retrigger << 2 | p->partial << 3 | p->frozen << 4 | p->upper_next << 5 | p->gate << 6 | p->out << 7);
        same("a counter's parity", c->odd, p->odd);
        same("half a count", c->half ? c->low : 0, p->partial ? p->partial_low : 0);
        same("a latch", c->latched ? c->latch : 0, p->frozen ? p->snapshot : 0);
    }
    const struct limbusagin_dma *d = &proved.dma;
    const struct plain_dma *e = &plain.dma;
    same("the width of the bus", d->wide, e->wide);
    for (int i = 0; i < 4; i++) {
        const struct limbusagin_channel *c = &d->channels[i];
        const struct plain_channel *p = &e->channel[i];
        same("an address", c->current.address, p->address);
        same("a count", c->current.count, p->left);
        same("a base address", c->base.address, p->base_address);
        same("a base count", c->base.count, p->base_left);
        same("a channel's mode", c->mode, p->mode);
        same("a mask", c->masked, e->masked >> i & 1u);
    }
    same("registers 1 and 8", d->selected | d->base << 4 | d->rotate << 5 | d->disabled << 6, e->select | e->only_base << 4 | e->rotate << 5 | e->off << 6);
    same("the first channel", d->first, e->first);
    same("the channel served", d->serving ? d->channel : 255, e->owner);
    same("DMA requests and ends", d->requests << 4 | d->ends, (unsigned)e->requests << 4 | e->ended);
    same("the bytes kept", proved.kept.length, plain.waits);
    for (int i = 0; i < 7; i++)
        same("a byte kept", proved.kept.bytes[i], plain.waiting[i]);
}

/* What the counters of the plain board are at after each lump, by mode: how many, and how many of these each word of `states` is true of. */
enum { MODES = 6, STATES = 7 };
static const char *const states[STATES] = {"counters", "load waits", "trigger waits", "half a count", "latched", "gate low", "OUT low"};
static unsigned long stands[MODES][STATES];

static void note_counters(void)
{
    for (int i = 0; i < 3; i++) {
        const struct plain_counter *c = &plain.counter[i];
        const byte is[STATES] = {1, c->load, c->retrigger, c->partial, c->frozen, !c->gate, !c->out};
        for (int s = 0; c->mode < MODES && s < STATES; s++)
            stands[c->mode][s] += is[s];
    }
}

/* What the acknowledges of a tape came to, and the requests that went away with their line: by the plain board, fed with the tape once more, a record
 * at a time. A request that an advance both made and withdrew shows in OUT0 alone: it rose, and is low. */
enum { CAUSES = 4, CHIPS = 8, WAYS = 4 };
static const char *const causes[CAUSES] = {"INT high", "nothing asked", "masked", "outranked"};
static const char *const chips[CHIPS] = {"acknowledges", "edge", "level", "self-FI", "self-FI with rotation", "vector", "CALL gap 4", "CALL gap 8"};
static const char *const ways[WAYS] = {"by lines", "by a write", "by pulses", "made and withdrawn in one advance"};
static unsigned long answered[CAUSES][CHIPS], withdrawn[WAYS];

static void note_acknowledge(int high)
{
    const struct plain_pic *p = &plain.pic;
    unsigned asks = p->by_level ? p->lines | plain.counter[0].out : p->pressed;
    int cause = high ? 0 : asks == 0 ? 1 : (asks & ~(unsigned)p->mask) == 0 ? 2 : 3;
    const int is[CHIPS] = {1, !p->by_level, p->by_level, p->self_finish, p->self_finish && p->rotating, p->vectored,
                           !p->vectored && p->spaced4, !p->vectored && !p->spaced4};
    for (int c = 0; c < CHIPS; c++)
        answered[cause][c] += is[c] != 0;
}

/* What the two interrupt chips came to: how they were set up at each acknowledge that is not refused for its bytes or the bus, and which of these ways
 * are refused; what became of those with both extended; the moves of the slave's INT; and the IW3s. */
enum { NOT_READY, BOTH_SINGLE, NO_SLAVE, VECTORS, CALLS, FIRST_REFUSED, TO_NO_SLAVE = FIRST_REFUSED, TO_SINGLE, FROM_SINGLE, TWO_MODES, SET_UPS };
static const char *const set_ups[SET_UPS] = {"master not ready", "both single", "single, slave not ready", "both extended, vector", "both extended, CALL",
                                             "extended, slave not ready", "extended, slave single", "single, slave extended", "one vector, one CALL"};
enum { BY_MASTER, BY_SLAVE, BY_SLAVE_AS_7, AS_7, AS_7_SLAVE_HIGH, GIVERS, CHIP_KINDS = 4 };
static const char *const givers[GIVERS] = {"levels 0 to 6", "level 7, slave's INT high", "level 7, slave's INT low", "INT low, slave's INT low",
                                           "INT low, slave's INT high"};
static const char *const chip_kinds[CHIP_KINDS] = {"edge", "level", "self-FI", "self-FI with rotation"};
enum { MOVERS = 3, MOVES = 4 };
static const char *const movers[MOVERS] = {"by a write", "by lines", "by an acknowledge"};
static const char *const moves[MOVES] = {"rises", "falls", "rises with INTP7 high", "falls with INTP7 high"};
static unsigned long stood[SET_UPS], given[GIVERS][1 + 2 * CHIP_KINDS], moved[MOVERS][MOVES], stays, parted, slaves_withdrawn, third[2][2];

static int set_up_now(void)
{
    const struct plain_pic *p = &plain.pic, *s = &plain.slave;
    if (p->phase != READY)
        return NOT_READY;
    if (s->phase != READY)
        return p->extended ? TO_NO_SLAVE : NO_SLAVE;
    if (p->extended != s->extended)
        return p->extended ? TO_SINGLE : FROM_SINGLE;
    return !p->extended ? BOTH_SINGLE : p->vectored != s->vectored ? TWO_MODES : p->vectored ? VECTORS : CALLS;
}

static void note_chip(unsigned long *to, const struct plain_pic *p)
{
    to[0] += !p->by_level, to[1] += p->by_level, to[2] += p->self_finish, to[3] += p->self_finish && p->rotating;
}

/* Before the record is fed; `high` is the master's INT. Whether it is an acknowledge of a request of the slave, by the slave. */
static int note_cascade(const byte *r, const byte *a, int high)
{
    const struct plain_pic *p = &plain.pic, *s = &plain.slave;
    int by = AS_7;
    if (r[0] == 4 && (a[0] == 0 || a[0] == 3)) {
        int now = set_up_now();
        stood[now]++;
        if ((a[0] == 3) != (now == NOT_READY || now >= FIRST_REFUSED))
            printf("bench: an acknowledge has status %d, %s\n", a[0], set_ups[now]), exit(1);
        if (now == VECTORS || now == CALLS) {
            unsigned asks = (p->by_level ? p->lines | plain.counter[0].out : p->pressed) & ~(unsigned)p->mask, n = (p->bottom + 1) & 7;
            while (high && !(asks >> n & 1))
                n = (n + 1) & 7;
            by = !high ? plain.slave_int ? AS_7_SLAVE_HIGH : AS_7 : n != 7 ? BY_MASTER : plain.slave_int ? BY_SLAVE : BY_SLAVE_AS_7;
            given[by][0]++;
            note_chip(given[by] + 1, p), note_chip(given[by] + 1 + CHIP_KINDS, s);
        }
    }
    if (r[0] == 1 && (r[1] == 0x01 || r[1] == 0x31) && (a[0] == 0 || a[0] == 4) && (r[1] == 0x01 ? p : s)->phase == WANTS_IW3)
        third[r[1] == 0x31][a[0] == 4]++;
    return by == BY_SLAVE;
}

/* After it; the board was `was`. */
static void note_slave(const byte *r, const byte *a, const struct plain_board *was, int by_slave)
{
    unsigned gone = was->slave.pressed & ~(unsigned)plain.slave.pressed, by = r[0] == 1 ? 0 : r[0] == 3 ? 1 : 2;
    if (r[0] == 0 || a[0])
        return;
    if (was->slave_int != plain.slave_int)
        moved[by][(was->slave_int != 0) + 2 * (plain.intp >> 7)]++;
    stays += by_slave && plain.slave_int;
    parted += was->slave_int && plain.slave_int && (was->intp ^ plain.intp) >> 7;
    if (r[0] == 3 && !plain.slave.by_level)
        for (; gone; gone &= gone - 1)
            slaves_withdrawn++;
}

/* The units of bytes, by direction and by where their address was; those of words, by direction and by where their pair was, and at which address and which
 * way they came there; and those that the answer tells as outside the memory. A word is half outside where its lower byte is the memory's last one. */
enum { DIRECTIONS = 3, PLACES = 5, PAIRS = 10 };
static const char *const directions[DIRECTIONS] = {"verify", "device to memory", "memory to device"};
static const char *const places[PLACES] = {"before the memory's last byte", "at its last byte", "at its length", "past it", "told as outside"};
static const char *const pairs[PAIRS] = {"before the memory's last pair", "at its last pair", "half outside upwards", "half outside downwards", "past its length", "at its length",
                                         "told as outside", "at an odd address", "at FFFFFEH or FFFFFFH", "at 000000H or 000001H"};
static unsigned long units[DIRECTIONS][PLACES], word_units[DIRECTIONS][PAIRS];

/* What became of the width: writes to register 0, modes, and cycles whose upper byte nobody used. */
enum { BUS_RESET, BUS_RESET_WIDE, BUS_WIDE, BUS_NARROW, BUS_REFUSED, MODE_OF_WORDS, MODE_REFUSED, UPPER_UNUSED, WIDTHS };
static const char *const widths[WIDTHS] = {"reset", "reset to the wide bus", "wide", "narrow", "narrow refused", "modes of words", "modes of words refused on the narrow bus",
                                           "upper bytes that were not used"};
static unsigned long width[WIDTHS];

/* Before the record is fed. */
static void note_unit(const byte *r, const byte *a, length memory_length)
{
    if (r[0] != 6 || a[0])
        return;
    unsigned mode = a[4] == 2 ? plain.dma.channel[a[5]].mode : 0;
    width[UPPER_UNUSED] += r[3] != 0 && (mode & 0x0D) != 0x05;
    if (a[4] != 2)
        return;
    length at = a[8] | (length)a[9] << 8 | (length)a[10] << 16 | (length)a[11] << 24, end = (at | 1) + 1;
    if (!(mode & 1)) {
        unsigned long *to = units[mode >> 2 & 3];
        to[at + 1 < memory_length ? 0 : at + 1 == memory_length ? 1 : at == memory_length ? 2 : 3]++;
        to[4] += a[12];
        return;
    }
    unsigned long *to = word_units[mode >> 2 & 3];
    to[end <= memory_length ? end == memory_length : end == memory_length + 1 ? 2 + (mode >> 5 & 1) : 4 + (end == memory_length + 2)]++;
    to[6] += a[12], to[7] += at & 1, to[8] += at >= 0xFFFFFE, to[9] += at < 2;
}

static void note_width(const byte *r, const byte *a)
{
    if (r[0] != 1 || (a[0] != 0 && a[0] != 4))
        return;
    if (r[1] == 0x20)
        width[r[2] & 1 ? BUS_RESET + (r[2] >> 1 & 1) : r[2] & 2 ? BUS_WIDE : a[0] ? BUS_REFUSED : BUS_NARROW]++;
    if (r[1] == 0x2A && r[2] & 1)
        width[a[0] == 0 ? MODE_OF_WORDS : MODE_REFUSED] += a[0] == 0 || !(r[2] & 2 || r[2] >> 6 == 3 || (r[2] >> 2 & 3) == 3);
}

static void note_records(length records, length memory_length)
{
    byte answer[16], levels = 0, none = 0;
    length taken;
    fresh();
    for (length i = 0; i < records; i++) {
        const byte *r = tape + 8 * i, *a = answers[1] + 16 * i;
        const struct plain_board was = plain;
        unsigned had = plain.pic.pressed, chip = r[0] == 1 && r[1] < 0x10;
        if (r[0] == 4 && a[0] == 0)
            note_acknowledge(levels >> 3 & 1);
        int by_slave = note_cascade(r, a, levels >> 3 & 1);
        note_unit(r, a, memory_length);
        note_width(r, a);
        feed_plain(r, 8, &none, 0, answer, 16, &taken);
        note_slave(r, a, &was, by_slave);
        levels = a[3];
        if (plain.pic.phase != READY || plain.pic.by_level || chip || r[0] == 0 || r[0] == 4)
            continue;
        for (had &= ~(unsigned)plain.pic.pressed; had; had &= had - 1)
            withdrawn[r[0] == 3 ? 0 : r[0] == 1 ? 1 : 2]++;
        withdrawn[3] += r[0] == 5 && a[0] == 0 && (a[4] | a[5]) && !(levels & 1);
    }
}

static void compare_random(unsigned long seed, unsigned long tapes)
{
    unsigned long all = 0, seen[7][8] = {{0}};
    for (unsigned long n = 0; n < tapes; n++) {
        state = seed * 1000003 + n;
        below(2);
        size = 0;
        length memory_length = below(3) == 0 ? 0 : below(2) ? below(200) : 70000 + below(2);
        unsigned wild = below(3) * 4, pulses = below(4) ? 6 : 400, records = 200 + below(3000), timer = below(3) * 40, requests = below(3) * 45;
        unsigned cascade = below(2) * (50 + below(50)), moves = below(2) * (1 + below(3)), channels = below(3) * 20;
        held = slaves_lines = 0;
        if (below(2))
            set_up();
        while (size < 8 * records)
            if (below(100) < moves)
                put_units(memory_length);
            else if (below(100) < channels)
                put_channels(memory_length);
            else if (below(100) < cascade)
                put_cascade(pulses);
            else if (below(100) < requests)
                put_requests(pulses);
            else if (below(100) < timer)
                put_timer(pulses);
            else
                put_mixed(wild, pulses);
        size -= below(8);
        memcpy(memory[0], start_memory, memory_length + BEHIND), memcpy(memory[1], start_memory, memory_length + BEHIND);
        fresh();
        length done[2] = {0, 0};
        for (int who = 0; who < 2; who++)
            for (length at = 0; at < size;) {
                length lump = below(20) == 0 ? below(3000) : below(40), taken;
                lump = lump < size - at ? lump : size - at;
                int status = feed[who](tape + at, lump, memory[who], memory_length, answers[who] + 16 * done[who],
                                       16 * (MOST - done[who]), &taken);
                if (status)
                    printf("bench: status %d of a whole call\n", status), exit(1);
                done[who] += taken;
                at += lump;
                if (feed[who] == feed_plain)
                    note_counters();
            }
        if (done[0] != done[1])
            printf("bench: the boards took %lu and %lu records\n", done[0], done[1]), exit(1);
        compare("a random tape", done[0], memory_length);
        compare_behind(memory_length);
        compare_boards();
        note_records(done[1], memory_length);
        all += done[0];
        for (length i = 0; i < done[0]; i++)
            if (answers[0][16 * i + 1] < 7)
                seen[answers[0][16 * i + 1]][answers[0][16 * i]]++;
    }
    printf("compared: %lu random tapes in random lumps, %lu answers, no difference\n", tapes, all);
    printf("  answers by operation, statuses 0 to 6:\n");
    for (int op = 0; op < 7; op++) {
        printf("  op %d:", op);
        for (int s = 0; s < 7; s++)
            printf(" %lu", seen[op][s]);
        printf("\n");
    }
    printf("  acknowledges taken, by cause:");
    for (int c = 0; c < CHIPS; c++)
        printf("%s %s", c ? "," : "", chips[c]);
    printf("\n");
    for (int c = 0; c < CAUSES; c++) {
        printf("  %s:", causes[c]);
        for (int i = 0; i < CHIPS; i++)
            printf(" %lu", answered[c][i]);
        printf("\n");
    }
    printf("  edge requests that went with their line:");
    for (int w = 0; w < WAYS; w++)
        printf("%s %s %lu", w ? "," : "", ways[w], withdrawn[w]);
    printf("\n");
    printf("  acknowledges by how the chips were set up:");
    for (int c = 0; c < SET_UPS; c++)
        printf("%s %s %lu%s", c ? "," : "", set_ups[c], stood[c], c == NOT_READY || c >= FIRST_REFUSED ? " refused" : "");
    printf("\n  of those with both extended, by what they came to: all");
    for (int c = 0; c < 2 * CHIP_KINDS; c++)
        printf(", %s %s", c < CHIP_KINDS ? "master" : "slave", chip_kinds[c % CHIP_KINDS]);
    printf("\n");
    for (int g = 0; g < GIVERS; g++) {
        printf("  %s:", givers[g]);
        for (int c = 0; c < 1 + 2 * CHIP_KINDS; c++)
            printf(" %lu", given[g][c]);
        printf("\n");
    }
    printf("  moves of the slave's INT:");
    for (int m = 0; m < MOVES; m++)
        printf("%s %s", m ? "," : "", moves[m]);
    printf("\n");
    for (int b = 0; b < MOVERS; b++) {
        printf("  %s:", movers[b]);
        for (int m = 0; m < MOVES; m++)
            printf(" %lu", moved[b][m]);
        printf("\n");
    }
    printf("  it stayed high over an acknowledge of a slave's request %lu, INTP7 moved while it was high %lu; edge requests that a line of the slave took back %lu\n",
           stays, parted, slaves_withdrawn);
    printf("  IW3: master's taken %lu, refused %lu, slave's taken %lu, refused %lu\n", third[0][0], third[0][1], third[1][0], third[1][1]);
    printf("  units of bytes:");
    for (int p = 0; p < PLACES; p++)
        printf("%s %s", p ? "," : "", places[p]);
    printf("\n");
    for (int d = 0; d < DIRECTIONS; d++) {
        printf("  %s:", directions[d]);
        for (int p = 0; p < PLACES; p++)
            printf(" %lu", units[d][p]);
        printf("\n");
    }
    printf("  units of words:");
    for (int p = 0; p < PAIRS; p++)
        printf("%s %s", p ? "," : "", pairs[p]);
    printf("\n");
    for (int d = 0; d < DIRECTIONS; d++) {
        printf("  %s:", directions[d]);
        for (int p = 0; p < PAIRS; p++)
            printf(" %lu", word_units[d][p]);
        printf("\n");
    }
    printf("  writes to register 0:");
    for (int w = 0; w < WIDTHS; w++)
        printf("%s %s %lu", w == MODE_OF_WORDS ? ";" : w ? "," : "", widths[w], width[w]);
    printf("\n");
    printf("  counters after each lump, by mode:");
    for (int s = 0; s < STATES; s++)
        printf("%s %s", s ? "," : "", states[s]);
    printf("\n");
    for (int m = 0; m < MODES; m++) {
        printf("  mode %d:", m);
        for (int s = 0; s < STATES; s++)
            printf(" %lu", stands[m][s]);
        printf("\n");
    }
}

/* ---- times ---- */

static double now(void)
{
    struct moment m;
    clock_gettime(PROCESS_TIME, &m);
    return (double)m.seconds * 1e9 + (double)m.nanoseconds;
}

/* The tape is run in pieces, each on a fresh board, and a piece in lumps (both in bytes). */
static double run(int who, length piece, length lump)
{
    length done = 0, taken, at = 0;
    double begin = now();
    while (at < size) {
        length end = piece < size - at ? at + piece : size;
        fresh();
        while (at < end) {
            length n = lump < end - at ? lump : end - at;
            if (feed[who](tape + at, n, memory[who], MEMORY, answers[who] + 16 * done, 16 * (MOST - done), &taken))
                printf("bench: status 7 of a whole call\n"), exit(1);
            done += taken;
            at += n;
        }
    }
    return now() - begin;
}

static void sort(double *x, int n)
{
    for (int i = 1; i < n; i++)
        for (int j = i; j > 0 && x[j] < x[j - 1]; j--) {
            double y = x[j];
            x[j] = x[j - 1], x[j - 1] = y;
        }
}

enum { NO_MODE, RUNNING, GATES_LOW, TRIGGERED, WAVES };

static double pulses_tape(length advances, length how)
{
    static const byte word[][3] = {{0}, {0x34, 0x74, 0xB0}, {0x34, 0x74, 0xB0}, {0x32, 0x76, 0xBA}, {0x36, 0x76, 0xB8}};
    static const half count[][3] = {{0}, {3, 1000, 0}, {3, 1000, 0}, {40000, 3, 1000}, {3, 1000, 0}};
    size = 0;
    set_up();
    for (unsigned c = 0; how != NO_MODE && c < 3; c++)
        put(1, 0x13, word[how][c]), put(1, 0x10 + c, count[how][c] & 255), put(1, 0x10 + c, count[how][c] >> 8);
    put_advance(1);
    if (how == GATES_LOW)
        put(3, 1, 0);
    for (length i = 0; i < advances; i++) {
        if (how == TRIGGERED)
            put(3, 1, 0), put(3, 1, 7);
        put_advance(65535);
    }
    return (double)advances * 65535;
}

static double reads_tape(length records, length how)
{
    static const byte ports[] = {0x00, 0x01, 0x10, 0x11, 0x12, 0x21, 0x22, 0x23, 0x24, 0x25, 0x26, 0x28, 0x29, 0x2A, 0x2B, 0x2F};
    (void)how;
    size = 0;
    state = 5;
    set_up();
    for (unsigned c = 0; c < 3; c++)
        put(1, 0x13, c << 6 | 0x34), put(1, 0x10 + c, below(256)), put(1, 0x10 + c, below(256));
    put_advance(300);
    for (unsigned r = 2; r < 7; r++)
        put(1, 0x20 + r, below(256));
    while (size < 8 * records)
        put(2, ports[below(16)], 0);
    return (double)records;
}

static double units_tape(length records, length mode)
{
    unsigned words = mode & 1;
    size = 0;
    state = 6;
    put(1, 0x20, words << 1), put(1, 0x22, 0xFF), put(1, 0x23, 0xFF), put(1, 0x2A, (unsigned)mode), put(1, 0x2F, 0x0E), put(3, 2, 1);
    while (size < 8 * records)
        put_cycle(0, below(256), words ? below(256) : 0);
    return (double)records;
}

/* One interrupt chip at work, INT worked out at each record: lines turned over, masks, acknowledges at any time, and finish commands, half of which turn
 * the ranks. */
static double search_tape(length records, length how)
{
    (void)how;
    size = 0;
    state = 9;
    held = 0;
    set_up();
    while (size < 8 * records)
        switch (below(4)) {
        case 0: held ^= 2u << below(7), put(3, 0, held); break;
        case 1: put(1, 0x01, below(256) & below(256)); break;
        case 2: put(4, 0, 0); break;
        default: put(1, 0x00, 0x20 | below(2) << 7);
        }
    return (double)records;
}

/* A slave at work, both chips in vector mode: a line of it rises, is acknowledged, and falls, and both chips get their finish command. */
static double cascade_tape(length records, length how)
{
    (void)how;
    size = 0;
    state = 8;
    put(1, 0x00, 0x11), put(1, 0x01, 0x40), put(1, 0x01, 0x80), put(1, 0x01, 0x01);
    put(1, 0x30, 0x11), put(1, 0x31, 0x48), put(1, 0x31, 0x07), put(1, 0x31, 0x01);
    while (size < 8 * records)
        put(3, 3, 1u << below(8)), put(4, 0, 0), put(3, 3, 0), put(1, 0x30, 0x20), put(1, 0x00, 0x20);
    return (double)(size / 8);
}

/* So many records, the chips set up anew for each piece. */
static double mixed_tape(length records, length piece)
{
    size = 0;
    state = 7;
    while (size < 8 * records) {
        if (size % (8 * piece) == 0)
            set_up();
        put_mixed(3, 4);
    }
    return (double)records;
}

/* The lines: each is a tape, and how it is run. */
struct line {
    const char *kind, *what; /* the kind is empty where instructions are not counted */
    double (*make)(length, length);
    length much, how;   /* what make is given */
    length piece, lump; /* in records; 0 is the whole tape */
};

static const struct line lines[] = {
    {"running", "pulse, three counters running", pulses_tape, 20, RUNNING, 0, 0},
    {"triggered", "pulse, three counters in modes 1, 3 and 5", pulses_tape, 20, TRIGGERED, 0, 0},
    {"waves", "pulse, three counters in modes 3, 3 and 4", pulses_tape, 20, WAVES, 0, 0},
    {"idle", "pulse, idle (no mode set)", pulses_tape, 20, NO_MODE, 0, 0},
    {"gates", "pulse, idle (gates low)", pulses_tape, 20, GATES_LOW, 0, 0},
    {"mixed", "record, mixed", mixed_tape, 200000, 200000, 0, 0},
    {"reads", "record, register reads", reads_tape, 200000, 0, 0, 0},
    {"in", "unit, block, device to memory", units_tape, 200000, 0x94, 0, 0},
    {"out", "unit, block, memory to device", units_tape, 200000, 0x98, 0, 0},
    {"words-in", "unit of a word, block, device to memory", units_tape, 200000, 0x95, 0, 0},
    {"words-out", "unit of a word, block, memory to device", units_tape, 200000, 0x99, 0, 0},
    {"search", "record, requests, masks, acknowledges", search_tape, 200000, 0, 0, 0},
    {"cascade", "record, a slave's requests", cascade_tape, 200000, 0, 0, 0},
    {"", "record, mixed, tapes of 1,000", mixed_tape, MOST, 1000, 1000, 0},
    {"", "record, mixed, tapes of 10,000", mixed_tape, MOST, 10000, 10000, 0},
    {"", "record, mixed, tapes of 100,000", mixed_tape, MOST, 100000, 100000, 0},
    {"", "record, mixed, a tape of 1,000,000", mixed_tape, MOST, MOST, 0, 0},
    {"each", "record, mixed, a call for each", mixed_tape, 200000, 200000, 0, 1},
};
enum { LINES = sizeof lines / sizeof *lines };

static double run_line(const struct line *l, int who)
{
    return run(who, l->piece ? 8 * l->piece : size, l->lump ? 8 * l->lump : size);
}

static void measure(const struct line *l, int repeats)
{
    static double ratio[1000], spent[2][1000];
    double items = l->make(l->much, l->how);
    for (int i = -1; i < repeats; i++) { /* the first is not counted */
        double t[2];
        memcpy(memory[0], start_memory, MEMORY), memcpy(memory[1], start_memory, MEMORY);
        for (int turn = 0; turn < 2; turn++) {
            int who = (i & 1) ^ turn;
            t[who] = run_line(l, who);
        }
        compare(l->what, size / 8, MEMORY);
        if (i < 0)
            continue;
        ratio[i] = t[0] / t[1];
        spent[0][i] = t[0] / items, spent[1][i] = t[1] / items;
    }
    sort(ratio, repeats), sort(spent[0], repeats), sort(spent[1], repeats);
    printf("%-44s %6.2f %6.2f %6.2f   %8.2f %8.2f\n", l->what, ratio[0], ratio[repeats / 2], ratio[repeats - 1], spent[0][repeats / 2],
           spent[1][repeats / 2]);
    fflush(0);
}

static void time_all(int repeats, const char *only)
{
    printf("%-44s %6s %6s %6s   %8s %8s\n", "proved / plain C, and ns for each", "least", "median", "most", "proved", "plain C");
    for (int i = 0; i < LINES; i++)
        if (strstr(lines[i].what, only))
            measure(&lines[i], repeats);
}

static void count(const char *kind, int who)
{
    for (int i = 0; i < LINES; i++)
        if (*kind && !strcmp(lines[i].kind, kind)) {
            double items = lines[i].make(lines[i].much, lines[i].how);
            memcpy(memory[who], start_memory, MEMORY);
            run_line(&lines[i], who);
            printf("%.0f %s\n", items, lines[i].what);
            return;
        }
    printf("driver: %s is not a kind that is counted\n", kind), exit(2);
}

static void list_kinds(void)
{
    for (int i = 0; i < LINES; i++)
        if (*lines[i].kind)
            printf("%s\n", lines[i].kind);
}

int main(int words, char **word)
{
    tape = malloc(8 * MOST + 64);
    start_memory = malloc(MEMORY);
    for (int i = 0; i < 2; i++)
        answers[i] = malloc(16 * MOST), memory[i] = malloc(MEMORY);
    state = 1;
    for (int i = 0; i < MEMORY; i++)
        start_memory[i] = (byte)below(256);
    if (words == 4 && !strcmp(word[1], "compare"))
        compare_random(strtoul(word[2], 0, 10), strtoul(word[3], 0, 10));
    else if ((words == 3 || words == 4) && !strcmp(word[1], "time"))
        time_all((int)strtoul(word[2], 0, 10), words == 4 ? word[3] : "");
    else if (words == 4 && !strcmp(word[1], "count") && (!strcmp(word[3], "proved") || !strcmp(word[3], "plain")))
        count(word[2], !strcmp(word[3], "plain"));
    else if (words == 2 && !strcmp(word[1], "count"))
        list_kinds();
    else
        printf("usage: driver compare SEED TAPES; driver time REPEATS [WORD]; driver count [KIND proved|plain]\n"), exit(2);
    return 0;
}
