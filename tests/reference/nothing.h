/* Calls that do nothing, in the four shapes of ours: by them the tests and the bench take off what stands around a call. */
#ifndef NOTHING_H
#define NOTHING_H

#include <stddef.h>
#include <stdint.h>

static inline uint64_t nothing_of_six(const uint8_t *a, size_t a_len, const uint8_t *b, size_t b_len, uint8_t *c, size_t c_len)
{
    (void)a, (void)a_len, (void)b, (void)b_len, (void)c, (void)c_len;
    return 0;
}

static inline uint64_t nothing_of_five(const uint8_t *a, size_t a_len, const uint8_t *b, size_t b_len, uint32_t c)
{
    (void)a, (void)a_len, (void)b, (void)b_len, (void)c;
    return 0;
}

static inline uint64_t nothing_of_four(const uint8_t *a, size_t a_len, uint8_t *b, size_t b_len)
{
    (void)a, (void)a_len, (void)b, (void)b_len;
    return 0;
}

static inline uint64_t nothing_of_four_const(const uint8_t *a, size_t a_len, const uint8_t *b, size_t b_len)
{
    (void)a, (void)a_len, (void)b, (void)b_len;
    return 0;
}

#endif
