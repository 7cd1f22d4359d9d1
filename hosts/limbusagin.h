/* limbusagin.h: the board for programs in C.
 *
 * Link with libhost.a, which `rt lib` in crates/host writes to crates/host/out/. The archive is for x86-64 Linux.
 * The header includes no other, so that it also serves a compiler that comes without C's own headers.
 *
 * A board is a value. A call takes one and gives back the next; nothing is kept in the library, so any number of boards may be
 * in use, and in any number of threads. What each field may hold is listed in docs/RANGES.md.
 *
 * What a host must keep. The library is proved for callers that keep these, and for no others:
 *   - A bool is 0 or 1. A board that comes from limbusagin_fresh or limbusagin_feed, and is passed on as it came, has no other. A
 *     host that makes a board from bytes of a file must see to it. (A number out of its range is no danger: that is status 7.)
 *   - A pointer is not null and points to as many bytes as the length beside it says, also where the length is 0 (then any valid
 *     pointer will do). No length is above PTRDIFF_MAX.
 *   - tape, memory and answers do not overlap, and no other thread uses memory or answers, or writes tape, during a call.
 */
#ifndef LIMBUSAGIN_H
#define LIMBUSAGIN_H

#ifdef __cplusplus
extern "C" {
typedef bool limbusagin_bool;
#define LIMBUSAGIN_ASSERT(what) static_assert(what, #what)
#else
typedef _Bool limbusagin_bool;
#define LIMBUSAGIN_ASSERT(what) _Static_assert(what, #what)
#endif

typedef unsigned char limbusagin_u8;
typedef unsigned short limbusagin_u16;
typedef unsigned int limbusagin_u32;
typedef unsigned long limbusagin_size;

/* The version of these declarations. A host compares it with what limbusagin_version() answers. */
#define LIMBUSAGIN_VERSION 4u

/* Bytes of a record and of its answer. A call that completes k records needs room for 16 * k bytes of answers. */
#define LIMBUSAGIN_RECORD 8u
#define LIMBUSAGIN_ANSWER 16u

/* An interrupt chip, 71059: the master, or the slave on its line 7. */
struct limbusagin_icu {
    limbusagin_u8 stage;       /* 0 no IW1 yet, 1 awaits IW2, 4 awaits IW3, 2 awaits IW4, 3 ready */
    limbusagin_u8 iw1;         /* IW1 as written (D4 is set), 0 before the first */
    limbusagin_u8 iw2;
    limbusagin_bool sfi;       /* IW4: self-FI */
    limbusagin_bool vector;    /* IW4: vector mode, not CALL */
    limbusagin_bool rotation;  /* rotation in self-FI */
    limbusagin_bool showsisr;  /* reads at A0=0 show ISR, not IRR */
    limbusagin_u8 edges;       /* edge requests: a rise sets the line's bit, its fall or its acknowledge clears it */
    limbusagin_u8 isr;
    limbusagin_u8 imr;
    limbusagin_u8 lowest;      /* the lowest-ranked level */
};

/* One counter of the timer, 71054. */
struct limbusagin_counter {
    limbusagin_u8 mode;        /* 0 to 5, or 255: none yet */
    limbusagin_u8 format;      /* 0 none yet, 1 low byte, 2 high byte, 3 both */
    limbusagin_u16 value;      /* the down counter */
    limbusagin_u16 count;      /* the last complete count */
    limbusagin_bool full;      /* a count is complete since the mode word */
    limbusagin_bool pending;   /* a complete count waits for the pulse that transfers it; in modes 1 and 5 that of the first trigger */
    limbusagin_bool trigger;   /* GATE rose: the next pulse of modes 1, 2, 3 and 5 loads the last complete count */
    limbusagin_bool half;      /* a count is half written; its low byte is in low */
    limbusagin_u8 low;
    limbusagin_bool latched;   /* latch holds what reads show */
    limbusagin_u16 latch;
    limbusagin_bool second;    /* the next read of two is the high byte */
    limbusagin_bool gate;
    limbusagin_bool out;
    limbusagin_bool odd;       /* the running count of mode 3 was odd */
};

struct limbusagin_timer {
    struct limbusagin_counter counters[3];
};

/* An address and a count of the DMA chip. */
struct limbusagin_span {
    limbusagin_u32 address;    /* below 2^24 */
    limbusagin_u16 count;
};

struct limbusagin_channel {
    struct limbusagin_span current;
    struct limbusagin_span base;
    limbusagin_u8 mode;        /* register A; D0: its units are words, and else bytes */
    limbusagin_bool masked;
};

/* The DMA chip, 71071. */
struct limbusagin_dma {
    struct limbusagin_channel channels[4];
    limbusagin_bool wide;      /* register 0: the bus of 16 bits, on which a mode of words may be written */
    limbusagin_u8 selected;    /* register 1: the channel of registers 2 to 6 and A */
    limbusagin_bool base;      /* register 1: 2 to 6 are the base alone */
    limbusagin_bool rotate;    /* register 8 */
    limbusagin_bool disabled;  /* register 8 */
    limbusagin_u8 first;       /* the first-ranked channel */
    limbusagin_bool serving;   /* a channel is in service ... */
    limbusagin_u8 channel;     /* ... this one; 0 while none is */
    limbusagin_u8 requests;    /* a bit for each channel */
    limbusagin_u8 ends;        /* a bit for each channel */
};

/* The bytes of a cut record, kept for the next call. Past length they are zero after every call that was taken, and ignored where a board is passed. */
struct limbusagin_kept {
    limbusagin_u8 bytes[7];
    limbusagin_u8 length;
};

struct limbusagin_board {
    struct limbusagin_icu icu; /* the master, at ports 00H and 01H */
    limbusagin_u8 intp;        /* the levels of INTP1 to INTP7; bit 0 is clear, for INTP0 is OUT0 (line 7 is INTP7 or the slave's INT) */
    struct limbusagin_icu slave; /* at ports 30H and 31H */
    limbusagin_u8 slaveintp;   /* the levels of the slave's eight lines */
    struct limbusagin_timer timer;
    struct limbusagin_dma dma;
    struct limbusagin_kept kept;
};

/* What a call comes to. */
struct limbusagin_fed {
    limbusagin_u8 status;      /* 0, or 7: the call was refused */
    limbusagin_size records;   /* records completed: 16 bytes of answers each; 0 with status 7 */
    struct limbusagin_board board; /* the next board; with status 7 the one that was passed */
};

LIMBUSAGIN_ASSERT(sizeof(limbusagin_bool) == 1);
LIMBUSAGIN_ASSERT(sizeof(limbusagin_u16) == 2);
LIMBUSAGIN_ASSERT(sizeof(limbusagin_u32) == 4);
LIMBUSAGIN_ASSERT(sizeof(limbusagin_size) == 8);
LIMBUSAGIN_ASSERT(sizeof(struct limbusagin_icu) == 11);
LIMBUSAGIN_ASSERT(sizeof(struct limbusagin_counter) == 18);
LIMBUSAGIN_ASSERT(sizeof(struct limbusagin_channel) == 20);
LIMBUSAGIN_ASSERT(sizeof(struct limbusagin_dma) == 92);
LIMBUSAGIN_ASSERT(sizeof(struct limbusagin_board) == 180);
LIMBUSAGIN_ASSERT(sizeof(struct limbusagin_fed) == 200);

/* The version of the library: LIMBUSAGIN_VERSION, or it and this header are not of one kind and the host has to be built anew. */
limbusagin_u32 limbusagin_version(void);

/* A board that was just reset, with no bytes kept. */
struct limbusagin_board limbusagin_fresh(void);

/* Whether every field of a board has a value that some board reached from reset has there (docs/RANGES.md). A call on another board is
 * refused with 7, and so is one with too small a buffer: this tells the two apart. It tests numbers; a bool must be 0 or 1 here as in
 * every call. */
limbusagin_bool limbusagin_in_range(struct limbusagin_board board);

/* One call: the bytes of a tape, in any lump, are fed to the board over the lent memory.
 *
 * With k the whole records that the kept bytes and the tape come to, the call writes 16 * k bytes to answers, leaves the rest
 * of that buffer, and answers status 0 and k; up to 7 bytes of a cut record are kept in the board. Memory byte i is address i;
 * addresses at or past the end, memory_length itself too, read FFH and lose writes. Byte 12 of a DMA cycle's answer is 1 if it moved a byte
 * to or from such an address, be it one half of a word alone, else 0; a verify, which uses no memory, has 0.
 *
 * The device gives a DMA cycle the bytes 2 and, for the upper half of a word, 3 of its record. A unit that is a word is the byte of an even address, byte 2 of
 * the answer, and that of the next, byte 13; where bytes 8 to 11 have an odd address, the even one is that below it.
 *
 * Status 7 (a field of the board is out of its range, or 16 * k is above answers_length) has records 0, the board as it was passed, and
 * memory and answers untouched: nothing was taken. */
struct limbusagin_fed limbusagin_feed(struct limbusagin_board board, const limbusagin_u8 *tape, limbusagin_size tape_length,
                                      limbusagin_u8 *memory, limbusagin_size memory_length, limbusagin_u8 *answers,
                                      limbusagin_size answers_length);

#ifdef __cplusplus
}
#endif
#endif
