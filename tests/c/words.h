/* Words in bytes, the lowest byte first, and a state as the bytes of its words. */
#ifndef WORDS_H
#define WORDS_H

#include "../../include/irangelda.h"

enum {
    CELLS = IRANGELDA_CELLS, STATE_BYTES = IRANGELDA_STATE_BYTES, LONGEST_WORDS = IRANGELDA_BUFFER_BYTES_MAX / 4,
    GRANT_BYTES = IRANGELDA_GRANT_BYTES, GRANT_WORDS = GRANT_BYTES / 4
};

/* The two cells of the pair: the target's address, and the memory that it is in. */
enum { ADDRESS_CELL = 1, MEMORY_CELL = 2, MEMORY_AT = 20 /* the bit of the memory's number */ };

static inline void put_word(uint8_t *bytes, size_t i, uint32_t word)
{
    bytes[4 * i] = (uint8_t)word;
    bytes[4 * i + 1] = (uint8_t)(word >> 8);
    bytes[4 * i + 2] = (uint8_t)(word >> 16);
    bytes[4 * i + 3] = (uint8_t)(word >> 24);
}

static inline uint32_t get_word(const uint8_t *bytes, size_t i)
{
    return (uint32_t)bytes[4 * i] | (uint32_t)bytes[4 * i + 1] << 8 | (uint32_t)bytes[4 * i + 2] << 16
         | (uint32_t)bytes[4 * i + 3] << 24;
}

static inline void put_words(uint8_t *bytes, const uint32_t *words, size_t count)
{
    for (size_t i = 0; i < count; i++)
        put_word(bytes, i, words[i]);
}

static inline void set_cell(uint8_t *state, size_t cell, uint32_t value)
{
    put_word(state, cell, value);
    put_word(state, CELLS + cell, 1);
}

static inline void clear_cell(uint8_t *state, size_t cell)
{
    put_word(state, cell, 0);
    put_word(state, CELLS + cell, 0);
}

/* The memory that a value of 01.00.51 names: 0 or 1, or 2 or 3, which are none. */
static inline uint32_t memory_named(uint32_t value)
{
    return value >> MEMORY_AT & 3;
}

#endif
