/*
 * What a listing can begin with, byte by byte, from what a listing is: a line with the count, then as many lines, of cells that go up. All
 * lines that can stand where the text has come to are kept side by side; a byte strikes out those that have another one in its place.
 * Nothing of it is the archive's or the reference's: the names of the registers are those of the tests.
 */
#ifndef BEGINNINGS_H
#define BEGINNINGS_H

#include "words.h"

/* A line that the text can have come to. */
struct line {
    const char *left;    /* what is missing of it, where ? is any hex digit */
    size_t next;         /* the cell behind its own: 0 for the line with the count */
    size_t lines;        /* how many lines come behind it */
    uint32_t value;      /* the number that its digits have made so far */
};

struct beginning {
    size_t length;
    int whole;           /* it is a listing, and can only end */
    size_t count;
    struct line line[CELLS + 1];
    uint8_t state[STATE_BYTES]; /* what the lines so far have listed */
};

void prepare_beginnings(void);

/* The beginning of no bytes. */
void begin(struct beginning *beginning);

/* Takes one more byte, if some listing goes on with it; else answers 0, and the beginning stays. */
int take_byte(struct beginning *beginning, uint8_t byte);

/* Takes bytes as long as some listing goes on with them. */
void take_bytes(struct beginning *beginning, const uint8_t *bytes, size_t count);

#endif
