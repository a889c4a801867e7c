/*
 * The six calls once more, as a careful C programmer writes them: the second opinion that tests/c holds the archive to, and the
 * measure of the bench. include/irangelda.h says what the calls do; nothing else is shared with the archive.
 */
#ifndef CAREFUL_H
#define CAREFUL_H

#include <stddef.h>
#include <stdint.h>

uint64_t careful_read(const uint8_t *batch, size_t batch_len,
                      const uint8_t *grants, size_t grants_len,
                      uint8_t *state, size_t state_len);

uint64_t careful_size(const uint8_t *state, size_t state_len,
                      const uint8_t *grants, size_t grants_len);

uint64_t careful_write(const uint8_t *state, size_t state_len,
                       const uint8_t *grants, size_t grants_len,
                       uint8_t *out, size_t out_len);

uint64_t careful_list(const uint8_t *state, size_t state_len,
                      uint8_t *out, size_t out_len);

uint64_t careful_read_listing(const uint8_t *listing, size_t listing_len,
                              uint8_t *state, size_t state_len);

uint64_t careful_which_grant(const uint8_t *state, size_t state_len,
                             const uint8_t *grants, size_t grants_len,
                             uint32_t cell);

#endif
