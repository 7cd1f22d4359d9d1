/* A plain C board by the project's description of its chips and the decisions in docs/DECISIONS.md: state in one struct that is changed
 * in place, functions over pointers. It is what the bench measures the proved board against, and a third opinion on every answer. (When it was
 * written, the proved board's structs, its loop over pulses and the start of its `intake` had been read, for the header; the code of the chips had not, but
 * for that of an answer's byte 12.) */
#include "board.h"

enum { DONE, BUSY, NO_SUCH, OUT_OF_TURN, NOT_BUILT, COUNT_ONE = 6, REFUSED }; /* 5 is never given */
enum { NO_MODE = 255, NOBODY = 255, NO_LEVEL = 8 };
enum { MASTERS_IW3 = 0x80, SLAVES_IW3 = 0x07 }; /* a slave on line 7; the slave on line 7 */
enum { WORDS = 0x01, WAYS = 0x0C, TO_MEMORY = 0x04, TO_DEVICE = 0x08 }; /* of a channel's mode: its units, and which way they go */

/* ---- the interrupt chips ---- */

/* x with the level after the bottom one at bit 0: bit r is the level of rank r. */
static inline unsigned ranked(unsigned x, unsigned bottom)
{
    unsigned by = (bottom + 1) & 7;
    return (x >> by | x << (8 - by)) & 255;
}

static inline unsigned top_level(unsigned x, unsigned bottom)
{
    return (bottom + 1 + (unsigned)__builtin_ctz(ranked(x, bottom))) & 7;
}

static inline unsigned requests_of(const struct plain_pic *p, unsigned lines)
{
    return p->by_level ? lines : p->pressed;
}

static inline unsigned int_high(const struct plain_pic *p, unsigned lines)
{
    if (p->phase != READY)
        return 0;
    unsigned asks = ranked(requests_of(p, lines) & ~(unsigned)p->mask, p->bottom), busy = ranked(p->service, p->bottom);
    /* the lowest bit of asks is below the lowest of busy */
    return (asks & -asks) != 0 && (busy == 0 || (asks & -asks) < (busy & -busy));
}

/* The lines of `moved` are now as in `is`. While ready, one that rose makes its request and one that fell takes it back; the requests of the
 * others stay. */
static inline void lines_moved(struct plain_pic *p, unsigned moved, unsigned is)
{
    if (p->phase == READY)
        p->pressed = (byte)((p->pressed & ~moved) | (is & moved));
}

static inline void set_lines(struct plain_pic *p, unsigned is)
{
    lines_moved(p, p->lines ^ is, is);
    p->lines = (byte)is;
}

static int finish_word(struct plain_pic *p, unsigned data)
{
    unsigned named = data & 7;
    switch (data >> 5) {
    case 0: p->rotating = 0; break;
    case 4: p->rotating = 1; break;
    case 1:
    case 5:
        if (p->service) {
            unsigned n = top_level(p->service, p->bottom);
            p->service &= (byte)~(1u << n);
            if (data >> 5 == 5)
                p->bottom = (byte)n;
        }
        break;
    case 3: p->service &= (byte)~(1u << named); break;
    case 7: p->service &= (byte)~(1u << named); p->bottom = (byte)named; break;
    case 6: p->bottom = (byte)named; break;
    }
    return DONE;
}

static int pic_write(struct plain_pic *p, unsigned iw3, unsigned a0, unsigned data)
{
    if (a0) {
        switch (p->phase) {
        case BEFORE_IW1: return OUT_OF_TURN;
        case WANTS_IW2: p->iw2 = (byte)data; p->phase = p->extended ? WANTS_IW3 : p->wants_iw4 ? WANTS_IW4 : READY; return DONE;
        case WANTS_IW3:
            if (data != iw3)
                return NOT_BUILT;
            p->phase = p->wants_iw4 ? WANTS_IW4 : READY;
            return DONE;
        case WANTS_IW4: p->self_finish = data >> 1 & 1; p->vectored = data & 1; p->phase = READY; return DONE;
        default: p->mask = (byte)data; return DONE;
        }
    }
    if (data & 0x10) {
        p->page = data & 0xE0;
        p->by_level = data >> 3 & 1;
        p->spaced4 = data >> 2 & 1;
        p->extended = !(data & 2);
        p->wants_iw4 = data & 1;
        p->pressed = p->service = p->mask = 0;
        p->shows_service = p->rotating = p->self_finish = p->vectored = 0;
        p->bottom = 7;
        p->phase = WANTS_IW2;
        return DONE;
    }
    if (p->phase != READY)
        return OUT_OF_TURN;
    if (!(data & 8))
        return finish_word(p, data);
    if (data & 4 || (data & 0x60) == 0x60)
        return NOT_BUILT;
    if (data & 2)
        p->shows_service = data & 1;
    return DONE;
}

static int pic_read(const struct plain_pic *p, unsigned lines, unsigned a0, byte *data)
{
    if (p->phase != READY)
        return OUT_OF_TURN;
    *data = a0 ? p->mask : p->shows_service ? p->service : (byte)requests_of(p, lines);
    return DONE;
}

/* The level that an acknowledge takes. With INT low it is none, and the chip stays as it is. */
static inline unsigned take_level(struct plain_pic *p, unsigned lines)
{
    if (!int_high(p, lines))
        return NO_LEVEL;
    unsigned n = top_level(requests_of(p, lines) & ~(unsigned)p->mask, p->bottom);
    p->pressed &= (byte)~(1u << n);
    if (!p->self_finish)
        p->service |= (byte)(1u << n);
    else if (p->rotating)
        p->bottom = (byte)n;
    return n;
}

/* The vector or the CALL of a level; no level is answered as level 7. */
static inline void give_bytes(const struct plain_pic *p, unsigned n, byte *answer)
{
    if (n == NO_LEVEL)
        n = 7;
    if (p->vectored) {
        answer[2] = (byte)((p->iw2 & 0xF8) | n);
    } else {
        answer[4] = 0xCD;
        answer[5] = p->spaced4 ? (byte)(p->page | n << 2) : (byte)((p->page & 0xC0) | n << 3);
        answer[6] = p->iw2;
    }
}

/* The master's eight lines: OUT0, INTP1-INTP6, and INTP7 or the slave's INT. */
static inline unsigned lines_of(const struct plain_board *b)
{
    return b->pic.lines | b->counter[0].out;
}

/* The slave, or a line of it, is another: its INT is worked out, and the master's line 7 follows. */
static void slave_moved(struct plain_board *b)
{
    b->slave_int = (byte)(int_high(&b->slave, b->slave.lines) << 7);
    set_lines(&b->pic, b->intp | b->slave_int);
}

/* OUT0 was `was`. */
static inline void out0_moved(struct plain_board *b, unsigned was)
{
    lines_moved(&b->pic, was ^ b->counter[0].out, b->counter[0].out);
}

/* Out of turn, unless the master is ready and either neither chip is extended (which a chip is once it is ready) or both are, in one mode. Then the
 * master's level 7 is the slave's to answer. */
static int acknowledge(struct plain_board *b, byte *answer)
{
    struct plain_pic *p = &b->pic, *s = &b->slave;
    if (p->phase != READY || p->extended != (s->phase == READY && s->extended) || (p->extended && p->vectored != s->vectored))
        return OUT_OF_TURN;
    unsigned n = take_level(p, lines_of(b));
    if (n == 7 && p->extended) {
        give_bytes(s, take_level(s, s->lines), answer);
        slave_moved(b);
    } else {
        give_bytes(p, n, answer);
    }
    return DONE;
}

/* ---- the timer ---- */

static int counter_control(struct plain_board *b, unsigned data)
{
    if (data >> 6 == 3)
        return NOT_BUILT;
    struct plain_counter *c = &b->counter[data >> 6];
    unsigned access = data >> 4 & 3, mode = data >> 1 & 7;
    if (access == 0) {
        if (c->mode == NO_MODE)
            return OUT_OF_TURN;
        if (!c->frozen) {
            c->frozen = 1;
            c->snapshot = c->now;
        }
        return DONE;
    }
    if (data & 1)
        return NOT_BUILT;
    if (mode > 5)
        mode -= 4;
    c->mode = (byte)mode;
    c->access = (byte)access;
    c->out = mode != 0;
    c->armed = c->load = c->retrigger = c->partial = c->frozen = c->upper_next = 0;
    return DONE;
}

static int counter_write(struct plain_counter *c, unsigned data)
{
    unsigned n;
    if (c->mode == NO_MODE)
        return OUT_OF_TURN;
    if (c->access == 1) {
        n = data;
    } else if (c->access == 2) {
        n = data << 8;
    } else if (c->partial) {
        n = data << 8 | c->partial_low;
    } else {
        c->partial = 1;
        c->partial_low = (byte)data;
        if (c->mode == 0)
            c->out = 0;
        return DONE;
    }
    if (n == 1 && (c->mode == 2 || c->mode == 3))
        return COUNT_ONE;
    if (c->mode == 0)
        c->out = 0;
    if (c->mode == 0 || c->mode == 4 || !c->armed)
        c->load = 1;
    c->partial = 0;
    c->armed = 1;
    c->reload = (half)n;
    return DONE;
}

static int counter_read(struct plain_counter *c, byte *data)
{
    if (c->mode == NO_MODE)
        return OUT_OF_TURN;
    half from = c->frozen ? c->snapshot : c->now;
    if (c->access == 3 && !c->upper_next) {
        c->upper_next = 1;
        *data = (byte)from;
        return DONE;
    }
    *data = c->access == 1 ? (byte)from : (byte)(from >> 8);
    c->upper_next = 0;
    c->frozen = 0;
    return DONE;
}

/* Mode 3 counts in even numbers. */
static inline void load_even(struct plain_counter *c)
{
    c->odd = c->reload & 1;
    c->now = c->reload & 0xFFFE;
}

static inline void pulse(struct plain_counter *c)
{
    switch (c->mode) {
    case 0:
        if (c->load) {
            c->now = c->reload;
            c->load = 0;
        } else if (c->armed && c->gate && !c->partial) {
            if (--c->now == 0)
                c->out = 1;
        }
        break;
    case 1:
        if (c->retrigger) {
            c->now = c->reload;
            c->load = c->retrigger = 0;
            c->out = 0;
        } else if (c->armed && !c->load) {
            if (--c->now == 0)
                c->out = 1;
        }
        break;
    case 2:
        if (c->load) {
            c->now = c->reload;
            c->load = c->retrigger = 0;
        } else if (c->retrigger) {
            c->now = c->reload;
            c->retrigger = 0;
            c->out = 1;
        } else if (c->armed && c->gate) {
            if (c->now == 1) {
                c->now = c->reload;
                c->out = 1;
            } else if (--c->now == 1) {
                c->out = 0;
            }
        }
        break;
    case 3:
        if (c->load) {
            load_even(c);
            c->load = c->retrigger = 0;
        } else if (c->retrigger) {
            load_even(c);
            c->retrigger = 0;
            c->out = 1;
        } else if (c->armed && c->gate) {
            if (c->now == (c->odd & c->out ? 0 : 2)) {
                load_even(c);
                c->out ^= 1;
            } else {
                c->now -= 2;
            }
        }
        break;
    case 4:
        c->out = 1;
        if (c->load) {
            c->now = c->reload;
            c->load = 0;
        } else if (c->armed && c->gate) {
            if (--c->now == 0)
                c->out = 0;
        }
        break;
    case 5:
        c->out = 1;
        if (c->retrigger) {
            c->now = c->reload;
            c->load = c->retrigger = 0;
        } else if (c->armed && !c->load) {
            if (--c->now == 0)
                c->out = 0;
        }
        break;
    }
}

static void set_gate(struct plain_counter *c, unsigned level)
{
    if (c->gate && !level && (c->mode == 2 || c->mode == 3))
        c->out = 1;
    if (!c->gate && level && c->armed && c->mode != 0 && c->mode != 4)
        c->retrigger = 1;
    c->gate = (byte)level;
}

static void put32(byte *to, word x)
{
    to[0] = (byte)x;
    to[1] = (byte)(x >> 8);
    to[2] = (byte)(x >> 16);
    to[3] = (byte)(x >> 24);
}

static void advance(struct plain_board *b, word pulses, byte *answer)
{
    word rises[3] = {0, 0, 0};
    while (pulses--) {
        byte out0 = b->counter[0].out;
#pragma clang loop unroll(full) /* so that the fields of each counter have fixed places */
        for (int i = 0; i < 3; i++) {
            byte out = b->counter[i].out;
            pulse(&b->counter[i]);
            rises[i] += (word)(b->counter[i].out & ~out);
        }
        if (b->counter[0].out != out0)
            out0_moved(b, out0);
    }
    for (int i = 0; i < 3; i++)
        put32(answer + 4 + 4 * i, rises[i]);
}

/* ---- the DMA chip ---- */

static void dma_reset(struct plain_dma *d)
{
    byte requests = d->requests;
    __builtin_memset(d, 0, sizeof *d);
    d->requests = requests;
    d->masked = 15;
    d->owner = NOBODY;
}

static inline void set_byte(word *x, unsigned place, unsigned data)
{
    *x = (*x & ~(255u << 8 * place)) | data << 8 * place;
}

static inline void set_count_byte(half *x, unsigned place, unsigned data)
{
    *x = (half)((*x & ~(255u << 8 * place)) | data << 8 * place);
}

static int dma_write(struct plain_dma *d, unsigned reg, unsigned data)
{
    struct plain_channel *c = &d->channel[d->select];
    switch (reg) {
    case 0x0: /* the wide bus stays while a channel has words, unless all are reset */
        if (data & 1)
            dma_reset(d);
        else if (!(data & 2) && (d->channel[0].mode | d->channel[1].mode | d->channel[2].mode | d->channel[3].mode) & 1)
            return NOT_BUILT;
        d->wide = data >> 1 & 1;
        return DONE;
    case 0x1:
        d->select = data & 3;
        d->only_base = data >> 2 & 1;
        return DONE;
    case 0x2:
    case 0x3:
        set_count_byte(&c->base_left, reg - 2, data);
        if (!d->only_base)
            set_count_byte(&c->left, reg - 2, data);
        return DONE;
    case 0x4:
    case 0x5:
    case 0x6:
        set_byte(&c->base_address, reg - 4, data);
        if (!d->only_base)
            set_byte(&c->address, reg - 4, data);
        return DONE;
    case 0x8:
        if (data & 0xEB)
            return NOT_BUILT;
        if (!(d->rotate && data & 0x10))
            d->first = 0;
        d->rotate = data >> 4 & 1;
        d->off = data >> 2 & 1;
        return DONE;
    case 0x9:
        return data ? NOT_BUILT : DONE;
    case 0xA:
        if (data & 2 || (data & 1) > d->wide || (data & 0xC0) == 0xC0 || (data & 0x0C) == 0x0C)
            return NOT_BUILT;
        c->mode = (byte)data;
        return DONE;
    case 0xF:
        d->masked = data & 15;
        return DONE;
    }
    return NOT_BUILT; /* C, D, E */
}

static int dma_read(struct plain_dma *d, unsigned reg, byte *data)
{
    const struct plain_channel *c = &d->channel[d->select];
    switch (reg) {
    case 0x1: *data = (byte)(1u << d->select | d->only_base << 4); return DONE;
    case 0x2:
    case 0x3: *data = (byte)((d->only_base ? c->base_left : c->left) >> 8 * (reg - 2)); return DONE;
    case 0x4:
    case 0x5:
    case 0x6: *data = (byte)((d->only_base ? c->base_address : c->address) >> 8 * (reg - 4)); return DONE;
    case 0x8: *data = (byte)(d->rotate << 4 | d->off << 2); return DONE;
    case 0x9: *data = 0; return DONE;
    case 0xA: *data = c->mode; return DONE;
    case 0xB: *data = (byte)(d->requests << 4 | d->ended); d->ended = 0; return DONE;
    case 0xF: *data = d->masked; return DONE;
    }
    return NOT_BUILT;
}

static inline void stop_service(struct plain_dma *d)
{
    if (d->rotate)
        d->first = (d->owner + 1) & 3;
    d->owner = NOBODY;
}

static inline void move_byte(unsigned way, const byte *r, word at, byte *memory, length memory_length, byte *answer)
{
    switch (way) {
    case TO_MEMORY:
        answer[2] = r[2];
        if (at < memory_length)
            memory[at] = r[2];
        else
            answer[12] = 1;
        break;
    case TO_DEVICE:
        if (at < memory_length)
            answer[2] = memory[at];
        else
            answer[2] = 255, answer[12] = 1;
        break;
    }
}

/* A word is the pair from an even address on; at an odd address it is the one that this is the upper half of. If the upper half is there, the lower is too. */
static inline void move_word(unsigned way, const byte *r, word at, byte *memory, length memory_length, byte *answer)
{
    word even = at & ~1u, odd = at | 1;
    switch (way) {
    case TO_MEMORY:
        answer[2] = r[2];
        answer[13] = r[3];
        if (odd < memory_length) {
            memory[even] = r[2];
            memory[odd] = r[3];
        } else {
            answer[12] = 1;
            if (even < memory_length)
                memory[even] = r[2];
        }
        break;
    case TO_DEVICE:
        if (odd < memory_length) {
            answer[2] = memory[even];
            answer[13] = memory[odd];
        } else {
            answer[2] = even < memory_length ? memory[even] : 255;
            answer[13] = 255, answer[12] = 1;
        }
        break;
    }
}

static void dma_cycle(struct plain_dma *d, const byte *r, byte *memory, length memory_length, byte *answer)
{
    if (d->owner == NOBODY) {
        unsigned asks = d->requests & ~(unsigned)d->masked;
        if (d->off || !asks)
            return;
        unsigned n = d->first;
        while (!(asks >> n & 1))
            n = (n + 1) & 3;
        d->owner = (byte)n;
        answer[4] = 1;
        answer[5] = (byte)n;
        return;
    }
    unsigned n = d->owner;
    struct plain_channel *c = &d->channel[n];
    answer[5] = (byte)n;
    if (c->mode >> 6 == 0 && !(d->requests >> n & 1)) {
        answer[4] = 3;
        answer[7] = 1;
        stop_service(d);
        return;
    }
    word at = c->address, step = 1;
    unsigned mode = c->mode;
    answer[4] = 2;
    put32(answer + 8, at);
    if (mode & WORDS) {
        move_word(mode & WAYS, r, at, memory, memory_length, answer);
        step = 2;
    } else {
        move_byte(mode & WAYS, r, at, memory, memory_length, answer);
    }
    unsigned last = c->left == 0 || r[1];
    c->address = (mode & 0x20 ? at - step : at + step) & 0xFFFFFF;
    c->left--;
    if (last) {
        answer[6] = 1;
        d->ended |= (byte)(1u << n);
        if (mode & 0x10) {
            c->address = c->base_address;
            c->left = c->base_left;
        } else {
            d->masked |= (byte)(1u << n);
        }
    }
    if (last || mode >> 6 == 1) {
        answer[7] = 1;
        stop_service(d);
    }
}

/* ---- the board ---- */

void plain_reset(struct plain_board *b)
{
    __builtin_memset(b, 0, sizeof *b);
    b->pic.bottom = b->slave.bottom = 7;
    for (int i = 0; i < 3; i++) {
        b->counter[i].mode = NO_MODE;
        b->counter[i].gate = 1;
    }
    b->dma.masked = 15;
    b->dma.owner = NOBODY;
}

/* Whether the record's own bytes are in order: everything that is status 2. */
static inline int well_formed(const byte *r)
{
    unsigned long all;
    __builtin_memcpy(&all, r, 8);
    switch (r[0]) {
    case 0:
    case 4:
        return all >> 8 == 0;
    case 1:
        if (all >> 24)
            return 0;
        return r[1] <= 1 || (r[1] >= 0x10 && r[1] <= 0x13) || (r[1] >= 0x20 && r[1] <= 0x31 && r[1] != 0x27 && r[1] != 0x2B);
    case 2:
        if (all >> 16)
            return 0;
        return r[1] <= 1 || (r[1] >= 0x10 && r[1] <= 0x12) || (r[1] >= 0x21 && r[1] <= 0x31 && r[1] != 0x27);
    case 3:
        if (all >> 24)
            return 0;
        return (r[1] == 0 && !(r[2] & 1)) || (r[1] == 1 && r[2] < 8) || (r[1] == 2 && r[2] < 16) || r[1] == 3;
    case 5:
        return (all & 0xFFFFFF00) == 0 && all >> 48 == 0;
    case 6:
        return all >> 32 == 0 && r[1] <= 1;
    }
    return 0;
}

static inline int obey(struct plain_board *b, const byte *r, byte *memory, length memory_length, byte *answer)
{
    unsigned out0 = b->counter[0].out;
    int status = DONE;
    if (!well_formed(r))
        return NO_SUCH;
    if (b->dma.owner != NOBODY && (r[0] == 1 || r[0] == 2 || r[0] == 4))
        return BUSY;
    switch (r[0]) {
    case 0: {
        byte waiting[7], waits = b->waits;
        __builtin_memcpy(waiting, b->waiting, 7);
        plain_reset(b);
        __builtin_memcpy(b->waiting, waiting, 7);
        b->waits = waits;
        break;
    }
    case 1:
        if (r[1] < 0x10) {
            status = pic_write(&b->pic, MASTERS_IW3, r[1], r[2]);
        } else if (r[1] < 0x20) {
            status = r[1] == 0x13 ? counter_control(b, r[2]) : counter_write(&b->counter[r[1] & 3], r[2]);
            out0_moved(b, out0);
        } else if (r[1] < 0x30) {
            status = dma_write(&b->dma, r[1] & 15, r[2]);
        } else {
            status = pic_write(&b->slave, SLAVES_IW3, r[1] & 1, r[2]);
            slave_moved(b);
        }
        break;
    case 2:
        if (r[1] < 0x10)
            status = pic_read(&b->pic, lines_of(b), r[1], &answer[2]);
        else if (r[1] < 0x20)
            status = counter_read(&b->counter[r[1] & 3], &answer[2]);
        else if (r[1] < 0x30)
            status = dma_read(&b->dma, r[1] & 15, &answer[2]);
        else
            status = pic_read(&b->slave, b->slave.lines, r[1] & 1, &answer[2]);
        break;
    case 3:
        if (r[1] == 0) {
            b->intp = r[2];
            set_lines(&b->pic, b->intp | b->slave_int);
        } else if (r[1] == 1) {
            for (int i = 0; i < 3; i++)
                set_gate(&b->counter[i], r[2] >> i & 1u);
            out0_moved(b, out0);
        } else if (r[1] == 2) {
            b->dma.requests = r[2];
        } else {
            set_lines(&b->slave, r[2]);
            slave_moved(b);
        }
        break;
    case 4:
        status = acknowledge(b, answer);
        break;
    case 5:
        advance(b, (word)(r[4] | r[5] << 8), answer);
        break;
    case 6:
        dma_cycle(&b->dma, r, memory, memory_length, answer);
        break;
    }
    return status;
}

static inline void run_record(struct plain_board *b, const byte *r, byte *memory, length memory_length, byte *answer)
{
    __builtin_memset(answer, 0, 16);
    answer[0] = (byte)obey(b, r, memory, memory_length, answer);
    answer[1] = r[0];
    answer[3] = (byte)(b->counter[0].out | b->counter[1].out << 1 | b->counter[2].out << 2 | int_high(&b->pic, lines_of(b)) << 3);
}

static inline int pic_in_range(const struct plain_pic *p)
{
    int good = p->phase <= READY && !(p->page & 0x1F) && p->bottom < 8;
    return good && (p->by_level | p->spaced4 | p->extended | p->wants_iw4 | p->self_finish | p->vectored | p->rotating | p->shows_service) < 2;
}

/* Every field is one that a board can have. */
static int in_range(const struct plain_board *b)
{
    const struct plain_dma *d = &b->dma;
    int good = pic_in_range(&b->pic) && pic_in_range(&b->slave) && !(b->intp & 1) && !(b->slave_int & 0x7F) && b->pic.lines == (b->intp | b->slave_int);
    for (int i = 0; i < 3; i++) {
        const struct plain_counter *c = &b->counter[i];
        good = good && (c->mode <= 5 || c->mode == NO_MODE) && c->access < 4;
        good = good && (c->armed | c->load | c->retrigger | c->partial | c->frozen | c->upper_next | c->gate | c->out | c->odd) < 2;
    }
    for (int i = 0; i < 4; i++) {
        const struct plain_channel *c = &d->channel[i];
        good = good && c->address < 1u << 24 && c->base_address < 1u << 24;
        good = good && !(c->mode & 2) && (c->mode & 0xC0) != 0xC0 && (c->mode & 0x0C) != 0x0C;
    }
    good = good && d->select < 4 && (d->wide | d->only_base | d->rotate | d->off) < 2 && d->first < 4 && (d->owner < 4 || d->owner == NOBODY);
    return good && d->requests < 16 && d->ended < 16 && d->masked < 16 && b->waits < 8;
}

int plain_feed(struct plain_board *b, const byte *tape, length tape_length, byte *memory, length memory_length, byte *answers,
               length answers_length, length *records)
{
    *records = 0;
    if (!in_range(b))
        return REFUSED;
    length whole = tape_length / 8 + (tape_length % 8 + b->waits) / 8;
    if (whole > answers_length / 16)
        return REFUSED;
    *records = whole;
    if (whole == 0) {
        for (length i = 0; i < tape_length; i++)
            b->waiting[b->waits++] = tape[i];
        return DONE;
    }
    if (b->waits) {
        byte first[8];
        unsigned had = b->waits;
        __builtin_memcpy(first, b->waiting, had);
        __builtin_memcpy(first + had, tape, 8 - had);
        b->waits = 0;
        run_record(b, first, memory, memory_length, answers);
        tape += 8 - had;
        tape_length -= 8 - had;
        answers += 16;
        whole--;
    }
    for (; whole; whole--) {
        run_record(b, tape, memory, memory_length, answers);
        tape += 8;
        tape_length -= 8;
        answers += 16;
    }
    __builtin_memset(b->waiting, 0, 7);
    __builtin_memcpy(b->waiting, tape, tape_length);
    b->waits = (byte)tape_length;
    return DONE;
}
