/* The header as a kernel would use it: in C89, with types of its own and without any other header. It only has to compile. */
typedef unsigned char uint8_t;
typedef unsigned int uint32_t;
typedef unsigned long uint64_t;
typedef unsigned long size_t;

#define IRANGELDA_OWN_TYPES
#include "../../include/irangelda.h"

int accepts(const uint8_t *batch, size_t batch_len, uint8_t *state);

int accepts(const uint8_t *batch, size_t batch_len, uint8_t *state)
{
    uint64_t answer = irangelda_read(batch, batch_len, 0, 0, state, IRANGELDA_STATE_BYTES);
    return IRANGELDA_REASON(answer) == IRANGELDA_OK && IRANGELDA_PLACE(answer) == batch_len / 4;
}
