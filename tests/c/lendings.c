/* Ways to lend that change no answer: how a buffer is aligned, and a null pointer for an empty one. And lengths that no buffer has: they
   are refused before any byte is looked at. */
#include "cases.h"
#include "check.h"
#include "lent.h"
#include "registers.h"
#include "words.h"
#include <string.h>

enum { LAST = BUFFERS - 1, ROOM = 4096, FULL_WORDS = IRANGELDA_WRITE_WORDS_ENOUGH, FULL_TEXT = IRANGELDA_LIST_BYTES_ENOUGH };

/* Requests from K1 and from a full state, and what is wrong in the bad ones. */
static uint8_t k1_batch[12], k1_state[STATE_BYTES], k1_grant[GRANT_BYTES], short_grant[GRANT_BYTES], memory_1_grant[GRANT_BYTES];
static uint8_t full_batch[4 * FULL_WORDS], bad_batch[4 * FULL_WORDS];
static uint8_t full_state[STATE_BYTES], bad_cell[STATE_BYTES], bad_state[STATE_BYTES];
static uint8_t grants[IRANGELDA_GRANTS_BYTES_MAX], bad_grants[IRANGELDA_GRANTS_BYTES_MAX], out[ROOM];
static uint8_t k1_listing[34], full_listing[FULL_TEXT + 1], bad_listing[FULL_TEXT];
static const uint8_t empty[STATE_BYTES];

struct trial {
    const char *name;
    struct request request;
    unsigned reason;
    uint32_t place;
};

static const struct trial trials[] = {
    { "K1", { READ, { { k1_batch, 12 }, { k1_grant, GRANT_BYTES }, { empty, STATE_BYTES } } }, IRANGELDA_OK, 3 },
    { "K2", { READ, { { k1_batch, 12 }, { short_grant, GRANT_BYTES }, { empty, STATE_BYTES } } }, IRANGELDA_NOT_GRANTED, 2 },
    { "K1 in memory 1", { READ, { { k1_batch, 12 }, { memory_1_grant, GRANT_BYTES }, { full_state, STATE_BYTES } } }, IRANGELDA_OK, 3 },
    { "a bad pair", { READ, { { k1_batch, 12 }, { k1_grant, GRANT_BYTES }, { full_state, STATE_BYTES } } }, IRANGELDA_BAD_PAIR, 3 },
    { "a full state", { READ, { { full_batch, sizeof full_batch }, { grants, sizeof grants }, { empty, STATE_BYTES } } },
      IRANGELDA_OK, FULL_WORDS },
    { "a bad last word", { READ, { { bad_batch, sizeof bad_batch }, { grants, sizeof grants }, { empty, STATE_BYTES } } },
      IRANGELDA_BIT_SET, FULL_WORDS - 1 },
    { "a batch cut short", { READ, { { full_batch, sizeof full_batch - 4 }, { grants, sizeof grants }, { empty, STATE_BYTES } } },
      IRANGELDA_ENDS_INSIDE, FULL_WORDS - 1 },
    { "a bad last grant", { READ, { { full_batch, sizeof full_batch }, { bad_grants, sizeof grants }, { empty, STATE_BYTES } } },
      IRANGELDA_BAD_GRANTS, 0 },
    { "a bad last mark", { READ, { { full_batch, sizeof full_batch }, { grants, sizeof grants }, { bad_state, STATE_BYTES } } },
      IRANGELDA_BAD_STATE, 0 },
    { "K1", { SIZE, { { k1_state, STATE_BYTES }, { k1_grant, GRANT_BYTES }, { NULL, 0 } } }, IRANGELDA_OK, 3 },
    { "a full state", { SIZE, { { full_state, STATE_BYTES }, { grants, sizeof grants }, { NULL, 0 } } }, IRANGELDA_OK, FULL_WORDS },
    { "a bad last cell", { SIZE, { { bad_cell, STATE_BYTES }, { grants, sizeof grants }, { NULL, 0 } } },
      IRANGELDA_NOT_WRITABLE, CELLS - 1 },
    { "a bad last grant", { SIZE, { { full_state, STATE_BYTES }, { bad_grants, sizeof grants }, { NULL, 0 } } },
      IRANGELDA_BAD_GRANTS, 0 },
    { "a bad last mark", { SIZE, { { bad_state, STATE_BYTES }, { grants, sizeof grants }, { NULL, 0 } } }, IRANGELDA_BAD_STATE, 0 },
    { "K1", { WRITE, { { k1_state, STATE_BYTES }, { k1_grant, GRANT_BYTES }, { out, 16 } } }, IRANGELDA_OK, 3 },
    { "a full state", { WRITE, { { full_state, STATE_BYTES }, { grants, sizeof grants }, { out, ROOM } } }, IRANGELDA_OK, FULL_WORDS },
    { "a word too little", { WRITE, { { full_state, STATE_BYTES }, { grants, sizeof grants }, { out, 4 * FULL_WORDS - 4 } } },
      IRANGELDA_NO_ROOM, 0 },
    { "a bad last cell", { WRITE, { { bad_cell, STATE_BYTES }, { grants, sizeof grants }, { out, ROOM } } },
      IRANGELDA_NOT_WRITABLE, CELLS - 1 },
    { "a bad last grant", { WRITE, { { full_state, STATE_BYTES }, { bad_grants, sizeof grants }, { out, ROOM } } },
      IRANGELDA_BAD_GRANTS, 0 },
    { "a bad last mark", { WRITE, { { bad_state, STATE_BYTES }, { grants, sizeof grants }, { out, ROOM } } }, IRANGELDA_BAD_STATE, 0 },
    { "K1", { LIST, { { k1_state, STATE_BYTES }, { NULL, 0 }, { out, 40 } } }, IRANGELDA_OK, 34 },
    { "a full state", { LIST, { { full_state, STATE_BYTES }, { NULL, 0 }, { out, ROOM } } }, IRANGELDA_OK, FULL_TEXT },
    { "a byte too little", { LIST, { { full_state, STATE_BYTES }, { NULL, 0 }, { out, FULL_TEXT - 1 } } }, IRANGELDA_NO_ROOM, 0 },
    { "a bad last mark", { LIST, { { bad_state, STATE_BYTES }, { NULL, 0 }, { out, ROOM } } }, IRANGELDA_BAD_STATE, 0 },
    { "K1", { READ_LISTING, { { k1_listing, 34 }, { NULL, 0 }, { full_state, STATE_BYTES } } }, IRANGELDA_OK, 34 },
    { "a full state", { READ_LISTING, { { full_listing, FULL_TEXT }, { NULL, 0 }, { out, STATE_BYTES } } }, IRANGELDA_OK, FULL_TEXT },
    { "a bad last mark before", { READ_LISTING, { { full_listing, FULL_TEXT }, { NULL, 0 }, { bad_state, STATE_BYTES } } },
      IRANGELDA_OK, FULL_TEXT },
    { "a byte too many", { READ_LISTING, { { full_listing, FULL_TEXT + 1 }, { NULL, 0 }, { out, STATE_BYTES } } },
      IRANGELDA_NOT_A_LISTING, FULL_TEXT },
    { "a listing cut short", { READ_LISTING, { { full_listing, FULL_TEXT - 1 }, { NULL, 0 }, { out, STATE_BYTES } } },
      IRANGELDA_NOT_A_LISTING, FULL_TEXT - 1 },
    { "a bad last digit", { READ_LISTING, { { bad_listing, FULL_TEXT }, { NULL, 0 }, { out, STATE_BYTES } } },
      IRANGELDA_NOT_A_LISTING, FULL_TEXT - 2 },
    { "a state too short", { READ_LISTING, { { full_listing, FULL_TEXT }, { NULL, 0 }, { out, STATE_BYTES - 4 } } },
      IRANGELDA_BAD_STATE, 0 },
    { "K1", { WHICH_GRANT, { { k1_state, STATE_BYTES }, { k1_grant, GRANT_BYTES }, { NULL, 1 } } }, IRANGELDA_OK, 0 },
    { "K2", { WHICH_GRANT, { { k1_state, STATE_BYTES }, { short_grant, GRANT_BYTES }, { NULL, 1 } } }, IRANGELDA_OK, IRANGELDA_NO_GRANT },
    { "the last grant", { WHICH_GRANT, { { full_state, STATE_BYTES }, { grants, sizeof grants }, { NULL, 1 } } },
      IRANGELDA_OK, IRANGELDA_GRANTS_MAX - 1 },
    { "the last cell", { WHICH_GRANT, { { full_state, STATE_BYTES }, { grants, sizeof grants }, { NULL, CELLS - 1 } } },
      IRANGELDA_OK, IRANGELDA_GRANTS_MAX - 2 },
    { "past the last cell", { WHICH_GRANT, { { full_state, STATE_BYTES }, { grants, sizeof grants }, { NULL, 0xffffffff } } },
      IRANGELDA_OK, IRANGELDA_NO_GRANT },
    { "a bad last grant", { WHICH_GRANT, { { full_state, STATE_BYTES }, { bad_grants, sizeof grants }, { NULL, 1 } } },
      IRANGELDA_BAD_GRANTS, 0 },
    { "a bad last mark", { WHICH_GRANT, { { bad_state, STATE_BYTES }, { grants, sizeof grants }, { NULL, 1 } } },
      IRANGELDA_BAD_STATE, 0 }
};

enum { TRIALS = sizeof trials / sizeof *trials };

/* 64 grants, of which the last three are of all memory for each role; the target's is memory 1, which the full state names. */
static void fill_grants(void)
{
    static const uint32_t other[GRANT_WORDS] = { 1, 0x1000, 0x1000, 0x1001, 0 }, all_memory[GRANT_WORDS] = { 1, 0, 0xffffffff, 1, 0 };
    for (uint32_t i = 0; i < IRANGELDA_GRANTS_MAX; i++) {
        uint8_t *grant = grants + GRANT_BYTES * i;
        put_words(grant, i < IRANGELDA_GRANTS_MAX - 3 ? other : all_memory, GRANT_WORDS);
        put_word(grant, 0, 1 + i % 3);
        put_word(grant, 4, i % 3 == 0);
    }
}

/* The words and the listing of the full state are the reference's. */
static void fill(void)
{
    static struct outcome written;
    static const struct request write_full = { WRITE, { { full_state, STATE_BYTES }, { grants, sizeof grants }, { out, ROOM } } };
    static const struct request list_full = { LIST, { { full_state, STATE_BYTES }, { NULL, 0 }, { out, ROOM } } };
    put_words(k1_batch, (const uint32_t[]){ 0x0002043c, 0x00010000, 0x50001000 }, 3);
    put_words(k1_grant, (const uint32_t[]){ 1, 0x00100000, 0x00080000, 0x00080000, 0 }, GRANT_WORDS);
    put_words(short_grant, (const uint32_t[]){ 1, 0x00100000, 0x00080000, 0x00080001, 0 }, GRANT_WORDS);
    put_words(memory_1_grant, (const uint32_t[]){ 1, 0x00100000, 0x00080000, 0x00080000, 1 }, GRANT_WORDS);
    set_cell(k1_state, 1, 0x1000);
    memcpy(k1_listing, "cells=1\nreg=01.00.50 val=00001000\n", sizeof k1_listing);
    for (size_t cell = 0; cell < CELLS; cell++)
        set_cell(full_state, cell, role_of(cell) == NO_ROLE ? value_without_address(cell, 0x2b0a1f35u + 77 * (uint32_t)cell)
                                                            : value_with_address(cell, 0x01234500 + 0x100 * (uint32_t)cell));
    set_cell(full_state, MEMORY_CELL, 0x900000);
    fill_grants();
    for (size_t i = 0; i < ROOM; i++)
        out[i] = (uint8_t)(7 * i + 1);
    perform(&parties[CAREFUL], &write_full, &written);
    memcpy(full_batch, written.after, sizeof full_batch);
    memcpy(bad_batch, full_batch, sizeof bad_batch);
    put_word(bad_batch, FULL_WORDS - 1, get_word(full_batch, FULL_WORDS - 1) | 4);
    memcpy(bad_cell, full_state, STATE_BYTES);
    put_word(bad_cell, CELLS - 1, 4);
    memcpy(bad_state, full_state, STATE_BYTES);
    put_word(bad_state, 2 * CELLS - 1, 2);
    memcpy(bad_grants, grants, sizeof grants);
    put_word(bad_grants, sizeof grants / 4 - 1, 2);
    perform(&parties[CAREFUL], &list_full, &written);
    memcpy(full_listing, written.after, FULL_TEXT);
    full_listing[FULL_TEXT] = '\n';
    memcpy(bad_listing, full_listing, FULL_TEXT);
    bad_listing[FULL_TEXT - 2] = 'F';
}

static struct outcome outcome;

static void answers(const struct party *party, const struct request *request, const struct manner *manners, const char *name,
                    uint32_t place, unsigned reason)
{
    perform_so(party, request, manners, &outcome);
    expect(outcome.answer == (uint64_t)place * 256 + reason, "%s %s, %s, off by %zu %zu %zu, told %zx %zx %zx: reason %u place %u",
           party->name, kind_names[request->kind], name, manners[0].off, manners[1].off, manners[2].off, manners[0].told,
           manners[1].told, manners[2].told, (unsigned)IRANGELDA_REASON(outcome.answer), (unsigned)IRANGELDA_PLACE(outcome.answer));
}

/* ---- each buffer on a multiple of 8 and off by 1 to 7, in all combinations */

enum { OFFS = 8 };

static void alignments(const struct party *party, const struct trial *trial)
{
    static struct outcome reference;
    struct manner manners[BUFFERS];
    for (size_t i = 0; i < BUFFERS; i++)
        manners[i] = (struct manner){ AMONG_GUARDS, 0, trial->request.lent[i].length };
    perform_so(&parties[CAREFUL], &trial->request, manners, &reference);
    for (size_t offs = 0; offs < OFFS * OFFS * OFFS; offs++) {
        manners[0].off = offs % OFFS;
        manners[1].off = offs / OFFS % OFFS;
        manners[2].off = offs / OFFS / OFFS;
        answers(party, &trial->request, manners, trial->name, trial->place, trial->reason);
        expect(memcmp(outcome.after, reference.after, reference.length) == 0, "%s %s, %s, off by %zu %zu %zu: other bytes", party->name,
               kind_names[trial->request.kind], trial->name, manners[0].off, manners[1].off, manners[2].off);
    }
}

/* ---- null pointers */

enum { FIRST = 1, GRANTS = 2, CHANGED = 4 };

/* K1, with nothing lent in place of some buffers; or the empty state, which needs no words but a line. To the listing reader the state is
   what was there before. */
static const struct {
    const char *name;
    enum kind kind;
    const uint8_t *state;
    unsigned nothing, reason;
    uint32_t place;
} nothings[] = {
    { "no batch", READ, k1_state, FIRST, IRANGELDA_OK, 0 },
    { "no grants", READ, k1_state, GRANTS, IRANGELDA_NOT_GRANTED, 2 },
    { "no state", READ, k1_state, CHANGED, IRANGELDA_BAD_STATE, 0 },
    { "no batch, no grants", READ, k1_state, FIRST | GRANTS, IRANGELDA_OK, 0 },
    { "no batch, no state", READ, k1_state, FIRST | CHANGED, IRANGELDA_BAD_STATE, 0 },
    { "no grants, no state", READ, k1_state, GRANTS | CHANGED, IRANGELDA_BAD_STATE, 0 },
    { "nothing", READ, k1_state, FIRST | GRANTS | CHANGED, IRANGELDA_BAD_STATE, 0 },
    { "no state", SIZE, k1_state, FIRST, IRANGELDA_BAD_STATE, 0 },
    { "no grants", SIZE, k1_state, GRANTS, IRANGELDA_NOT_WRITABLE, 1 },
    { "nothing", SIZE, k1_state, FIRST | GRANTS, IRANGELDA_BAD_STATE, 0 },
    { "empty, no grants", SIZE, empty, GRANTS, IRANGELDA_OK, 0 },
    { "no state", WRITE, k1_state, FIRST, IRANGELDA_BAD_STATE, 0 },
    { "no grants", WRITE, k1_state, GRANTS, IRANGELDA_NOT_WRITABLE, 1 },
    { "no room", WRITE, k1_state, CHANGED, IRANGELDA_NO_ROOM, 0 },
    { "no state, no grants", WRITE, k1_state, FIRST | GRANTS, IRANGELDA_BAD_STATE, 0 },
    { "no state, no room", WRITE, k1_state, FIRST | CHANGED, IRANGELDA_BAD_STATE, 0 },
    { "no grants, no room", WRITE, k1_state, GRANTS | CHANGED, IRANGELDA_NOT_WRITABLE, 1 },
    { "nothing", WRITE, k1_state, FIRST | GRANTS | CHANGED, IRANGELDA_BAD_STATE, 0 },
    { "empty, no grants", WRITE, empty, GRANTS, IRANGELDA_OK, 0 },
    { "empty, no room", WRITE, empty, CHANGED, IRANGELDA_OK, 0 },
    { "empty, no grants, no room", WRITE, empty, GRANTS | CHANGED, IRANGELDA_OK, 0 },
    { "no state", LIST, k1_state, FIRST, IRANGELDA_BAD_STATE, 0 },
    { "no room", LIST, k1_state, CHANGED, IRANGELDA_NO_ROOM, 0 },
    { "nothing", LIST, k1_state, FIRST | CHANGED, IRANGELDA_BAD_STATE, 0 },
    { "empty, no room", LIST, empty, CHANGED, IRANGELDA_NO_ROOM, 0 },
    { "no listing", READ_LISTING, k1_state, FIRST, IRANGELDA_NOT_A_LISTING, 0 },
    { "no state", READ_LISTING, k1_state, CHANGED, IRANGELDA_BAD_STATE, 0 },
    { "nothing", READ_LISTING, k1_state, FIRST | CHANGED, IRANGELDA_BAD_STATE, 0 },
    { "no state", WHICH_GRANT, k1_state, FIRST, IRANGELDA_BAD_STATE, 0 },
    { "no grants", WHICH_GRANT, k1_state, GRANTS, IRANGELDA_OK, IRANGELDA_NO_GRANT },
    { "nothing", WHICH_GRANT, k1_state, FIRST | GRANTS, IRANGELDA_BAD_STATE, 0 },
    { "empty, no grants", WHICH_GRANT, empty, GRANTS, IRANGELDA_OK, IRANGELDA_NO_GRANT }
};

static struct request from_k1(enum kind kind, const uint8_t *state)
{
    switch (kind) {
    case READ:
        return (struct request){ READ, { { k1_batch, 12 }, { k1_grant, GRANT_BYTES }, { state, STATE_BYTES } } };
    case SIZE:
        return (struct request){ SIZE, { { state, STATE_BYTES }, { k1_grant, GRANT_BYTES }, { NULL, 0 } } };
    case WRITE:
        return (struct request){ WRITE, { { state, STATE_BYTES }, { k1_grant, GRANT_BYTES }, { out, 12 } } };
    case LIST:
        return (struct request){ LIST, { { state, STATE_BYTES }, { NULL, 0 }, { out, 34 } } };
    case READ_LISTING:
        return (struct request){ READ_LISTING, { { k1_listing, 34 }, { NULL, 0 }, { state, STATE_BYTES } } };
    default:
        return (struct request){ WHICH_GRANT, { { state, STATE_BYTES }, { k1_grant, GRANT_BYTES }, { NULL, 1 } } };
    }
}

static void null_pointers(const struct party *party)
{
    static const enum where wheres[] = { AMONG_GUARDS, AT_FENCE };
    for (size_t row = 0; row < sizeof nothings / sizeof *nothings; row++)
        for (size_t way = 0; way < 2; way++) {
            struct request request = from_k1(nothings[row].kind, nothings[row].state);
            struct manner manners[BUFFERS];
            for (size_t i = 0; i < BUFFERS; i++) {
                int nothing = (nothings[row].nothing >> i & 1) != 0;
                if (nothing)
                    request.lent[i] = (struct bytes){ NULL, 0 };
                manners[i] = (struct manner){ nothing ? NULL_POINTER : wheres[way], 0, request.lent[i].length };
            }
            answers(party, &request, manners, nothings[row].name, nothings[row].place, nothings[row].reason);
        }
}

/* ---- lengths that no buffer has: those that a callee might take for short ones, by too few bits, by a sign or by a product */

#define POWER(n) ((uint64_t)1 << (n))
#define BELOW_ALL(n) (-(uint64_t)(n)) /* 2^64 - n */

/* On top of the true length, */
static const uint64_t too_much[] = {
    POWER(16), POWER(17), POWER(31), POWER(32), POWER(33), POWER(60), POWER(62), POWER(63), POWER(63) + POWER(62)
};

/* and instead of it. */
static const uint64_t too_long[] = {
    POWER(32) - 4, POWER(32), POWER(63) - 4, POWER(63) - 1, POWER(63), POWER(63) + 1, POWER(63) + 4, POWER(63) + 65536,
    BELOW_ALL(POWER(32)), BELOW_ALL(65536), BELOW_ALL(808), BELOW_ALL(16), BELOW_ALL(8), BELOW_ALL(4), BELOW_ALL(3), BELOW_ALL(1)
};

enum { TOO_MUCH = sizeof too_much / sizeof *too_much, TOO_LONG = sizeof too_long / sizeof *too_long };

static size_t length_told(size_t length, size_t which)
{
    return which < TOO_MUCH ? length + too_much[which] : too_long[which - TOO_MUCH];
}

/* The buffers in the set `said` are told to be so long. What there is of them ends at the fence, or none of it can be touched. */
static void told_too_long(const struct party *party, enum kind kind, unsigned said, size_t which, enum where where)
{
    struct request request = from_k1(kind, k1_state);
    struct manner manners[BUFFERS];
    for (size_t i = 0; i < BUFFERS; i++) {
        size_t length = request.lent[i].length;
        manners[i] = (said >> i & 1) != 0 ? (struct manner){ where, 0, length_told(length, which) }
                                          : (struct manner){ AMONG_GUARDS, 0, length };
    }
    answers(party, &request, manners, where == AT_FENCE ? "too long" : "too long and out of reach", 0, IRANGELDA_BAD_BUFFER);
}

static void lengths_of_no_buffer(const struct party *party, enum kind kind)
{
    for (unsigned said = 1; said <= (FIRST | GRANTS | CHANGED); said++) {
        if ((!has_buffer(kind, 1) && (said & GRANTS) != 0) || (!has_buffer(kind, LAST) && (said & CHANGED) != 0))
            continue;
        for (size_t which = 0; which < TOO_MUCH + TOO_LONG; which++) {
            told_too_long(party, kind, said, which, AT_FENCE);
            told_too_long(party, kind, said, which, OUT_OF_REACH);
        }
    }
}

void lendings(void)
{
    fill();
    for (size_t p = 0; p < PARTIES; p++) {
        for (size_t i = 0; i < TRIALS; i++)
            alignments(&parties[p], &trials[i]);
        null_pointers(&parties[p]);
        for (int kind = 0; kind < KINDS; kind++)
            lengths_of_no_buffer(&parties[p], (enum kind)kind);
    }
}
