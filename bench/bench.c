/*
 * Calls one of the six calls a given number of times on one of the bench's inputs: bench WHO LINE TIMES. WHO is `ours` (the
 * archive), `careful` (tests/reference/careful.c) or `nothing` (functions that return at once, so that what the loop itself needs can
 * be taken off). bench/run counts the instructions from outside.
 */
#include "../include/irangelda.h"
#include "../tests/reference/careful.h"
#include "../tests/reference/nothing.h"
#include <stdio.h>
#include <stdlib.h>
#include <string.h>

typedef uint64_t reads(const uint8_t *, size_t, const uint8_t *, size_t, uint8_t *, size_t);
typedef uint64_t sizes(const uint8_t *, size_t, const uint8_t *, size_t);
typedef uint64_t writes(const uint8_t *, size_t, const uint8_t *, size_t, uint8_t *, size_t);
typedef uint64_t lists(const uint8_t *, size_t, uint8_t *, size_t);
typedef uint64_t reads_listing(const uint8_t *, size_t, uint8_t *, size_t);
typedef uint64_t names_grant(const uint8_t *, size_t, const uint8_t *, size_t, uint32_t);

struct calls {
    const char *who;
    reads *read;
    sizes *size;
    writes *write;
    lists *list;
    reads_listing *read_listing;
    names_grant *which_grant;
};

static const struct calls all_calls[] = {
    { "ours", irangelda_read, irangelda_size, irangelda_write, irangelda_list, irangelda_read_listing, irangelda_which_grant },
    { "careful", careful_read, careful_size, careful_write, careful_list, careful_read_listing, careful_which_grant },
    { "nothing", nothing_of_six, nothing_of_four_const, nothing_of_six, nothing_of_four, nothing_of_four, nothing_of_five }
};

enum { CELLS = IRANGELDA_CELLS, TARGET_CELL = 1, LONG_WORDS = 16384, GRANT_BYTES = IRANGELDA_GRANT_BYTES };

/* Aligned alike in every build, so that a count does not hang on where the linker puts things. */
#define LENT _Alignas(64) static

LENT uint8_t batch[4 * LONG_WORDS], grants[IRANGELDA_GRANTS_BYTES_MAX], state[IRANGELDA_STATE_BYTES], out[4096];
LENT uint8_t first_state[IRANGELDA_STATE_BYTES], listing[IRANGELDA_LIST_BYTES_ENOUGH];
static size_t batch_words, grant_count, listing_bytes;

static void put_word(uint8_t *bytes, size_t i, uint32_t word)
{
    for (int k = 0; k < 4; k++)
        bytes[4 * i + (size_t)k] = (uint8_t)(word >> 8 * k);
}

/* ---- grants */

/* All of them are in memory 0. */
static void add_grant(uint32_t role, uint32_t start, uint32_t length, uint32_t reach)
{
    uint8_t *grant = grants + GRANT_BYTES * grant_count++;
    put_word(grant, 0, role);
    put_word(grant, 1, start);
    put_word(grant, 2, length);
    put_word(grant, 3, reach);
    put_word(grant, 4, 0);
}

static void add_matching_target(void)
{
    add_grant(1, 0x00100000, 0x00080000, 0x00080000);
}

/*
 * Grants of `roles` roles in turn from `role` on, of memory that no batch here names: above every address that a batch names, or below
 * every one, so that no order of comparing is favoured.
 */
enum side { ABOVE, BELOW };

static void add_others(int how_many, uint32_t role, uint32_t roles, enum side side)
{
    for (int i = 0; i < how_many; i++) {
        uint32_t start = side == ABOVE ? 0x10000000 + 0x00100000 * (uint32_t)i : 0x00002000 * (uint32_t)i;
        add_grant(role + (uint32_t)i % roles, start, 0x00002000, 0x00001000);
    }
}

static void add_matching(void)
{
    add_matching_target();
    add_grant(2, 0x00200000, 0x00080000, 0x00001000);
    add_grant(3, 0x00300000, 0x00080000, 0x00001000);
}

/* ---- batches and states */

static void add_word(uint32_t word)
{
    put_word(batch, batch_words++, word);
}

/* A value that the cell may hold; the addresses are those that add_matching grants. */
static uint32_t value_for(unsigned cell)
{
    static const uint32_t of_target[4] = { 0x400400, 0x001000, 0xc00000, 0x990000 };
    static const uint32_t of_sample[3] = { 0x3ff2cb, 0x104104, 0x0900ff };
    static const uint32_t of_video[17] = {
        0x07ff07ff, 0x01230456, 0x001fff02,
        0x89001f01, 0x9001ffff, 0xc0200000, 0x00201000, 0x00003ff0, 0xf2133ff0, 0x00202000,
        0x89001f01, 0x9001ffff, 0xc0300000, 0x00301000, 0x00003ff0, 0xf2133ff0, 0x00302000
    };
    if (cell < 4)
        return of_target[cell];
    if (cell < 36)
        return 0x001234 + cell;
    return cell < 84 ? of_sample[(cell - 36) % 3] : of_video[cell - 84];
}

static void full_state(uint8_t *bytes)
{
    for (unsigned cell = 0; cell < CELLS; cell++) {
        put_word(bytes, cell, value_for(cell));
        put_word(bytes, CELLS + cell, 1);
    }
}

static void add_k1(void)
{
    add_word(0x0002043c);
    add_word(0x00010000);
    add_word(0x50001000);
}

/* A 3D packet of `count` parameters that go through the `size` registers of a group in turn. */
static void add_3d(uint32_t setting, unsigned cell, const uint8_t *sub_addresses, unsigned size, unsigned count)
{
    add_word((count + 1) << 16 | 0x043c);
    add_word(setting);
    for (unsigned i = 0; i < count; i++)
        add_word((uint32_t)sub_addresses[i % size] << 24 | value_for(cell + i % size));
}

static void add_target(unsigned count)
{
    static const uint8_t sub_addresses[4] = { 0x3f, 0x50, 0x51, 0x52 };
    add_3d(0x00010000, 0, sub_addresses, 4, count);
}

static void add_stage(unsigned n, unsigned count)
{
    static const uint8_t sub_addresses[2] = { 0x50, 0x51 };
    add_3d(0x00020000 | n << 24, 4 + 2 * n, sub_addresses, 2, count);
}

static void add_sample(unsigned n, unsigned count)
{
    static const uint8_t sub_addresses[3] = { 0x30, 0x31, 0x32 };
    add_3d(0x20020000 | n << 24, 36 + 3 * n, sub_addresses, 3, count);
}

static void add_run(uint32_t offset, unsigned cell, unsigned count)
{
    add_word(count << 16 | offset);
    for (unsigned i = 0; i < count; i++)
        add_word(value_for(cell + i));
}

static uint32_t offset_of(unsigned cell)
{
    return cell < 87 ? 0x2208 + 4 * (cell - 84) : cell < 94 ? 0x23e4 + 4 * (cell - 87) : 0x33e4 + 4 * (cell - 94);
}

/* The words that the writer gives for a full state. */
static void add_full(void)
{
    add_target(4);
    for (unsigned n = 0; n < 16; n++)
        add_stage(n, 2);
    for (unsigned n = 0; n < 16; n++)
        add_sample(n, 3);
    for (unsigned cell = 84; cell < CELLS; cell++)
        add_run(offset_of(cell), cell, 1);
}

/* Packets of every kind: 49 words. */
static void add_mixed(unsigned turn)
{
    unsigned n = turn % 16;
    add_target(4);
    add_stage(n, 2);
    add_stage((n + 5) % 16, 2);
    add_sample(n, 3);
    add_sample((n + 3) % 16, 6);
    add_run(0x2208, 84, 3);
    add_run(0x23e4, 87, 7);
    add_run(0x33ec, 96, 5);
    add_run(0x23f0, 90, 1);
    add_run(0x33e4, 94, 1);
}

/* 3D packets of every kind: 34 words. */
static void add_3d_packets(unsigned turn)
{
    unsigned n = turn % 16;
    add_target(4);
    add_stage(n, 2);
    add_stage((n + 5) % 16, 2);
    add_sample(n, 3);
    add_sample((n + 3) % 16, 6);
    add_sample((n + 9) % 16, 5);
}

/* Video packets of every kind, with addresses of the first scaler only: 32 words. */
static void add_video_packets(unsigned turn)
{
    add_run(0x2208, 84, 3);
    add_run(0x23e4, 87, 7);
    add_run(0x23e8, 88, 6);
    add_run(0x33e4, 94, 2);
    add_run(0x23f0 + 4 * (turn % 4), 90 + turn % 4, 1);
    add_run(0x33f4, 98, 2);
    add_run(0x23fc, 93, 1);
    add_run(0x220c, 85, 2);
}

/* As many packets as fit, but for the last words. */
static void add_long(void (*add_packets)(unsigned))
{
    for (unsigned turn = 0; LONG_WORDS - batch_words >= 64; turn++)
        add_packets(turn);
}

/* And short packets until the length is exact: stages, */
static void add_long_3d(void (*add_packets)(unsigned))
{
    add_long(add_packets);
    while (LONG_WORDS - batch_words > 6)
        add_stage(1, 1);
    add_stage(2, (unsigned)(LONG_WORDS - batch_words) - 2);
}

/* or video registers. */
static void add_long_video(void)
{
    add_long(add_video_packets);
    while (LONG_WORDS - batch_words > 4)
        add_run(0x2210, 86, 1);
    add_run(0x23e4, 87, (unsigned)(LONG_WORDS - batch_words) - 1);
}

/* ---- the lines of the table */

enum kind { READ, SIZE, WRITE, LIST, READ_LISTING, WHICH_GRANT };

struct line {
    const char *name;
    enum kind kind;
    void (*prepare)(void);
    size_t place; /* where it is not the batch's length */
};

static void k1_with_1(void)
{
    add_k1();
    add_matching_target();
}

/* All others are of the target's role, so that each is asked before the match. */
static void k1_with_64(enum side side)
{
    add_k1();
    add_others(63, 1, 1, side);
    add_matching_target();
}

static void k1_with_64_above(void)
{
    k1_with_64(ABOVE);
}

static void k1_with_64_below(void)
{
    k1_with_64(BELOW);
}

static void full_with_3(void)
{
    add_full();
    full_state(first_state);
    add_matching();
}

static void full_with_64(enum side side)
{
    add_full();
    full_state(first_state);
    add_others(61, 1, 3, side);
    add_matching();
}

static void full_with_64_above(void)
{
    full_with_64(ABOVE);
}

static void full_with_64_below(void)
{
    full_with_64(BELOW);
}

/* Only the target's address, as K1 leaves it. */
static void k1_state(void)
{
    put_word(first_state, TARGET_CELL, value_for(TARGET_CELL));
    put_word(first_state, CELLS + TARGET_CELL, 1);
}

static void one_cell(void)
{
    k1_state();
    add_matching();
}

static void query_with_1(void)
{
    k1_state();
    k1_with_1();
}

static void query_with_64_above(void)
{
    k1_state();
    k1_with_64_above();
}

static void query_with_64_below(void)
{
    k1_state();
    k1_with_64_below();
}

static void from_empty(void (*prepare)(void))
{
    prepare();
    memset(first_state, 0, sizeof first_state);
}

static void read_full_with_3(void)
{
    from_empty(full_with_3);
}

static void read_full_with_64_above(void)
{
    from_empty(full_with_64_above);
}

static void read_full_with_64_below(void)
{
    from_empty(full_with_64_below);
}

/* The listing of the state that `prepare` makes, to be read over the empty one. */
static void listing_of(void (*prepare)(void))
{
    prepare();
    listing_bytes = (size_t)(careful_list(first_state, sizeof first_state, listing, sizeof listing) / 256);
    memset(first_state, 0, sizeof first_state);
}

static void full_listing(void)
{
    listing_of(full_with_3);
}

static void one_cell_listing(void)
{
    listing_of(one_cell);
}

static void long_with_3(void)
{
    add_long_3d(add_mixed);
    add_matching();
}

static void long_3d_with_3(void)
{
    add_long_3d(add_3d_packets);
    add_matching();
}

static void long_video_with_1(void)
{
    add_long_video();
    add_grant(2, 0x00200000, 0x00080000, 0x00001000);
}

/* All others are of the first scaler's role, so that each is asked before the match. */
static void long_video_with_64(enum side side)
{
    add_others(63, 2, 1, side);
    long_video_with_1();
}

static void long_video_with_64_above(void)
{
    long_video_with_64(ABOVE);
}

static void long_video_with_64_below(void)
{
    long_video_with_64(BELOW);
}

static const struct line lines[] = {
    { "read-k1-1", READ, k1_with_1, 0 },
    { "read-k1-64-above", READ, k1_with_64_above, 0 },
    { "read-k1-64-below", READ, k1_with_64_below, 0 },
    { "read-full-3", READ, read_full_with_3, 0 },
    { "read-full-64-above", READ, read_full_with_64_above, 0 },
    { "read-full-64-below", READ, read_full_with_64_below, 0 },
    { "read-long", READ, long_with_3, 0 },
    { "read-long-3d", READ, long_3d_with_3, 0 },
    { "read-long-video-1", READ, long_video_with_1, 0 },
    { "read-long-video-64-above", READ, long_video_with_64_above, 0 },
    { "read-long-video-64-below", READ, long_video_with_64_below, 0 },
    { "size-full-3", SIZE, full_with_3, 184 },
    { "size-full-64-above", SIZE, full_with_64_above, 184 },
    { "size-full-64-below", SIZE, full_with_64_below, 184 },
    { "size-one", SIZE, one_cell, 3 },
    { "write-full-3", WRITE, full_with_3, 184 },
    { "write-full-64-above", WRITE, full_with_64_above, 184 },
    { "write-full-64-below", WRITE, full_with_64_below, 184 },
    { "write-one", WRITE, one_cell, 3 },
    { "list-full", LIST, full_with_3, 2568 },
    { "list-one", LIST, one_cell, 34 },
    { "read-listing-full", READ_LISTING, full_listing, 2568 },
    { "read-listing-one", READ_LISTING, one_cell_listing, 34 },
    { "which-1", WHICH_GRANT, query_with_1, 0 },
    { "which-64-above", WHICH_GRANT, query_with_64_above, 63 },
    { "which-64-below", WHICH_GRANT, query_with_64_below, 63 }
};

static uint64_t call(const struct calls *calls, enum kind kind)
{
    memcpy(state, first_state, sizeof state);
    switch (kind) {
    case READ:
        return calls->read(batch, 4 * batch_words, grants, GRANT_BYTES * grant_count, state, sizeof state);
    case SIZE:
        return calls->size(state, sizeof state, grants, GRANT_BYTES * grant_count);
    case WRITE:
        return calls->write(state, sizeof state, grants, GRANT_BYTES * grant_count, out, IRANGELDA_WRITE_BYTES_ENOUGH);
    case LIST:
        return calls->list(state, sizeof state, out, IRANGELDA_LIST_BYTES_ENOUGH);
    case READ_LISTING:
        return calls->read_listing(listing, listing_bytes, state, sizeof state);
    default:
        return calls->which_grant(state, sizeof state, grants, GRANT_BYTES * grant_count, TARGET_CELL);
    }
}

/* A count means nothing if the call was refused. */
static uint64_t wanted(const struct line *line)
{
    size_t place = line->kind == READ ? batch_words : line->place;
    return (uint64_t)place * 256;
}

static int fail(const char *what)
{
    fprintf(stderr, "bench: %s\n", what);
    return 1;
}

int main(int argc, char **argv)
{
    const struct calls *calls = NULL;
    const struct line *line = NULL;
    if (argc != 4)
        return fail("bench WHO LINE TIMES");
    for (size_t i = 0; i < sizeof all_calls / sizeof *all_calls; i++)
        if (strcmp(argv[1], all_calls[i].who) == 0)
            calls = &all_calls[i];
    for (size_t i = 0; i < sizeof lines / sizeof *lines; i++)
        if (strcmp(argv[2], lines[i].name) == 0)
            line = &lines[i];
    if (calls == NULL || line == NULL)
        return fail("no such calls or no such line");
    line->prepare();
    uint64_t given = 0;
    for (long times = atol(argv[3]); times > 0; times--)
        given = call(calls, line->kind);
    if (calls->read != nothing_of_six && given != wanted(line))
        return fail("the call did not answer as it should");
    return 0;
}
