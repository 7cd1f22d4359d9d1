/* The plain board of the bench: see board.c. */
#ifndef PLAIN_BOARD_H
#define PLAIN_BOARD_H

typedef unsigned char byte;
typedef unsigned short half;
typedef unsigned int word;
typedef unsigned long length;

enum { BEFORE_IW1, WANTS_IW2, WANTS_IW3, WANTS_IW4, READY };

/* An interrupt chip: the master or the slave. */
struct plain_pic {
    byte phase;   /* the next initialization word, or READY */
    byte page;    /* A7-A5, in place */
    byte by_level, spaced4, extended, wants_iw4;
    byte iw2;
    byte self_finish, vectored, rotating, shows_service;
    byte pressed; /* edge requests: of lines that rose while ready, and have not fallen or been acknowledged since */
    byte service, mask, bottom;
    byte lines;   /* the levels of its lines; of the master's, all but OUT0 */
};

struct plain_counter {
    byte mode;    /* 0 to 5, or NO_MODE */
    byte access;  /* 1 low, 2 high, 3 both */
    byte armed;   /* a count is complete */
    byte load;    /* the next pulse transfers; in modes 1 and 5 that of the first trigger */
    byte retrigger;
    byte partial, partial_low;
    byte frozen, upper_next;
    byte gate, out;
    byte odd;     /* mode 3: the count in `now` was odd */
    half now, reload, snapshot;
};

struct plain_channel {
    word address, base_address;
    half left, base_left;
    byte mode;    /* D0: its units are words */
};

struct plain_dma {
    struct plain_channel channel[4];
    byte wide;    /* the bus has 16 bits */
    byte select, only_base, rotate, off, first;
    byte owner;   /* the channel served, or NOBODY */
    byte requests, ended, masked;
};

struct plain_board {
    struct plain_pic pic, slave;
    byte intp, slave_int; /* what the master's lines are joined from: INTP1-INTP7, and the slave's INT at bit 7 */
    struct plain_counter counter[3];
    struct plain_dma dma;
    byte waiting[7], waits; /* a cut record */
};

void plain_reset(struct plain_board *);

/* One call, as document 01 has it: 0 and the records taken, or 7 and 0. The board is changed in place. */
int plain_feed(struct plain_board *, const byte *tape, length tape_length, byte *memory, length memory_length, byte *answers,
               length answers_length, length *records);
#endif
