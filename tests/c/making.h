/* Grants, batches, states, cells and listings by chance: right ones, and right ones damaged in one place. */
#ifndef MAKING_H
#define MAKING_H

#include "words.h"

enum { MOST_MADE_GRANTS = 70, MOST_GRANT_WORDS = GRANT_WORDS * MOST_MADE_GRANTS, MOST_MADE_WORDS = LONGEST_WORDS, MEMORIES = 2 };

/* Some addresses that are granted to a role in a memory, and that a register can hold. */
struct addresses {
    uint32_t address[2 * MOST_MADE_GRANTS];
    uint32_t count;
};

/* The words of a grant list, and addresses by memory and role. */
struct grants {
    uint32_t word[MOST_GRANT_WORDS];
    size_t words;
    struct addresses granted[MEMORIES][4];
};

/* The words of a batch, and what each of them is: a cell's value, a header or a setting. */
enum { IS_HEADER = -1, IS_SETTING = -2 };

struct batch {
    uint32_t word[MOST_MADE_WORDS];
    int what[MOST_MADE_WORDS];
    size_t words;
};

void make_grants(struct grants *grants);
void break_grants(struct grants *grants);

/* At most `most` words, and not many fewer. Each word is right by itself; the pair that the batch leaves need not be. */
void make_batch(struct batch *batch, const struct grants *grants, size_t most);
void damage_batch(struct batch *batch);

/* Changes words of such a batch so that the pair that it leaves of a made state is right too. */
void mend_pair(struct batch *batch, const uint32_t *state, const struct grants *grants);

/* One cell in `every` is marked. */
void make_state(uint32_t *state, const struct grants *grants, uint32_t every);
void damage_state(uint32_t *state);

/* Now and then a few bytes more or fewer, at most `most`. */
size_t some_length(size_t length, size_t most);

/* Both make it in the bytes that a call is lent, and answer how many of them it is lent: grants that are broken now and then, and a state
   that is damaged once in so many; of either now and then a few bytes more or fewer. */
enum { MOST_GRANT_BYTES = 4 * MOST_GRANT_WORDS, MOST_STATE_BYTES = STATE_BYTES + 64 };

size_t make_grant_bytes(uint8_t bytes[MOST_GRANT_BYTES], struct grants *grants);
size_t make_state_bytes(uint8_t bytes[MOST_STATE_BYTES], uint32_t *state, const struct grants *grants, uint32_t damaged_once_in);

/* The number of a cell: mostly of one with an address, sometimes of any, and sometimes a number that no cell has. */
uint32_t make_cell(void);

/* The text has room for as many bytes again. Answers its length then. */
size_t damage_text(uint8_t *text, size_t length);

#endif
