#include "cases.h"
#include "check.h"
#include "lent.h"
#include "words.h"
#include <string.h>

enum { LENT_WORDS = MOST_LENT / 4, OK = IRANGELDA_OK, LAST = BUFFERS - 1, TARGET_CELL = 1 };

/* Contents that are fine at any length at which they can be: writes of 2208; the same grant again and again; a state with 2208, and its
   listing; a state with the address that the grant is of. */
static uint8_t batch[MOST_LENT], grants[MOST_LENT], state[MOST_LENT], out[MOST_LENT], listing[MOST_LENT], target[MOST_LENT];

static void fill(void)
{
    static const uint32_t grant[GRANT_WORDS] = { 1, 0x1000, 0x1000, 1, 0 };
    static const char text[] = "cells=1\nreg=2208 val=00000007\n";
    for (size_t i = 0; i < LENT_WORDS; i++) {
        put_word(batch, i, i % 2 == 0 ? 0x00012208 : 0x00000007);
        put_word(grants, i, grant[i % GRANT_WORDS]);
        put_word(out, i, 0xeeeeeeee);
    }
    set_cell(state, 84, 7);
    set_cell(target, TARGET_CELL, 0x10);
    memset(listing, '\n', sizeof listing);
    memcpy(listing, text, strlen(text));
}

static struct outcome outcome;

static void answers(const struct party *party, const char *what, const struct request *request, uint32_t place, unsigned reason)
{
    perform(party, request, &outcome);
    expect(outcome.answer == (uint64_t)place * 256 + reason, "%s %s, %s, lengths %zu %zu %zu: reason %u place %u", party->name,
           kind_names[request->kind], what, request->lent[0].length, request->lent[1].length, request->lent[2].length,
           (unsigned)IRANGELDA_REASON(outcome.answer), (unsigned)IRANGELDA_PLACE(outcome.answer));
}

/* A request that is answered by success. */
static struct request fine(enum kind kind)
{
    switch (kind) {
    case READ:
        return (struct request){ READ, { { batch, 8 }, { grants, GRANT_BYTES }, { state, STATE_BYTES } } };
    case SIZE:
        return (struct request){ SIZE, { { state, STATE_BYTES }, { grants, GRANT_BYTES }, { NULL, 0 } } };
    case WRITE:
        return (struct request){ WRITE, { { state, STATE_BYTES }, { grants, GRANT_BYTES }, { out, 8 } } };
    case LIST:
        return (struct request){ LIST, { { state, STATE_BYTES }, { NULL, 0 }, { out, 30 } } };
    case READ_LISTING:
        return (struct request){ READ_LISTING, { { listing, 30 }, { NULL, 0 }, { state, STATE_BYTES } } };
    default:
        return (struct request){ WHICH_GRANT, { { target, STATE_BYTES }, { grants, GRANT_BYTES }, { NULL, TARGET_CELL } } };
    }
}

static uint32_t fine_place(enum kind kind)
{
    switch (kind) {
    case READ:
    case SIZE:
    case WRITE:
        return 2;
    case LIST:
    case READ_LISTING:
        return 30;
    default:
        return 0;
    }
}

/* Which buffer is the state. */
static size_t state_buffer(enum kind kind)
{
    return kind == READ || kind == READ_LISTING ? LAST : 0;
}

/* ---- one buffer's length at a time */

struct length {
    size_t length;
    unsigned reason;
    uint32_t place;
};

static void lengths(const struct party *party, enum kind kind, size_t buffer, const struct length *list, size_t count)
{
    for (size_t i = 0; i < count; i++)
        for (int way = 0; way < 8; way++) { /* all ways to lend the buffers, an empty one as a pointer and as null among them */
            struct request request = fine(kind);
            request.lent[buffer].length = list[i].length;
            answers(party, "one length", &request, list[i].place, list[i].reason);
        }
}

#define LENGTHS(party, kind, buffer, list) lengths(party, kind, buffer, list, sizeof(list) / sizeof *(list))

#define NOT_WHOLE_WORDS { 1, 13, 0 }, { 2, 13, 0 }, { 3, 13, 0 }, { 65533, 13, 0 }, { 65534, 13, 0 }, { 65535, 13, 0 }
#define TOO_LONG { 65537, 13, 0 }, { 65538, 13, 0 }, { 65539, 13, 0 }, { 65540, 13, 0 }, { 65544, 13, 0 }, { 65552, 13, 0 }

static void batch_lengths(const struct party *party)
{
    static const struct length list[] = {
        { 0, OK, 0 }, { 4, 10, 1 }, { 5, 13, 0 }, { 6, 13, 0 }, { 7, 13, 0 }, { 8, OK, 2 },
        { 65528, OK, 16382 }, { 65532, 10, 16383 }, { 65536, OK, 16384 }, NOT_WHOLE_WORDS, TOO_LONG
    };
    LENGTHS(party, READ, 0, list);
}

static void grants_lengths(const struct party *party, enum kind kind)
{
    const struct length list[] = {
        { 0, OK, kind == WHICH_GRANT ? IRANGELDA_NO_GRANT : fine_place(kind) },
        { 4, 2, 0 }, { 8, 2, 0 }, { 12, 2, 0 }, { 16, 2, 0 }, { 17, 13, 0 }, { 18, 13, 0 }, { 19, 13, 0 },
        { 20, OK, fine_place(kind) }, { 21, 13, 0 }, { 24, 2, 0 }, { 32, 2, 0 }, { 36, 2, 0 }, { 48, 2, 0 }, { 64, 2, 0 },
        { 80, OK, fine_place(kind) }, { 96, 2, 0 }, { 1008, 2, 0 }, { 1024, 2, 0 }, { 1040, OK, fine_place(kind) },
        { 1260, OK, fine_place(kind) }, { 1264, 2, 0 }, { 1276, 2, 0 }, { 1280, OK, fine_place(kind) }, { 1281, 13, 0 },
        { 1284, 2, 0 }, { 1296, 2, 0 }, { 1300, 2, 0 }, { 1600, 2, 0 }, { 2560, 2, 0 },
        { 65520, 2, 0 }, { 65532, 2, 0 }, { 65536, 2, 0 }, NOT_WHOLE_WORDS, TOO_LONG
    };
    LENGTHS(party, kind, 1, list);
}

static void state_lengths(const struct party *party, enum kind kind)
{
    const struct length list[] = {
        { 0, 1, 0 }, { 4, 1, 0 }, { 404, 1, 0 }, { 804, 1, 0 }, { 805, 13, 0 }, { 806, 13, 0 }, { 807, 13, 0 },
        { 808, OK, fine_place(kind) }, { 809, 13, 0 }, { 810, 13, 0 }, { 811, 13, 0 }, { 812, 1, 0 }, { 1616, 1, 0 },
        { 65532, 1, 0 }, { 65536, 1, 0 }, NOT_WHOLE_WORDS, TOO_LONG
    };
    LENGTHS(party, kind, state_buffer(kind), list);
}

static void writer_room(const struct party *party)
{
    static const struct length list[] = {
        { 0, 11, 0 }, { 4, 11, 0 }, { 5, 13, 0 }, { 6, 13, 0 }, { 7, 13, 0 }, { 8, OK, 2 }, { 9, 13, 0 }, { 12, OK, 2 },
        { 732, OK, 2 }, { 736, OK, 2 }, { 737, 13, 0 }, { 740, OK, 2 }, { 65532, OK, 2 }, { 65536, OK, 2 }, NOT_WHOLE_WORDS, TOO_LONG
    };
    LENGTHS(party, WRITE, LAST, list);
}

/* The lister's room is bytes, and need not be whole words. */
static void lister_room(const struct party *party)
{
    static const struct length list[] = {
        { 0, 11, 0 }, { 1, 11, 0 }, { 2, 11, 0 }, { 3, 11, 0 }, { 4, 11, 0 }, { 28, 11, 0 }, { 29, 11, 0 }, { 30, OK, 30 },
        { 31, OK, 30 }, { 32, OK, 30 }, { 33, OK, 30 }, { 2567, OK, 30 }, { 2568, OK, 30 }, { 2569, OK, 30 },
        { 65533, OK, 30 }, { 65534, OK, 30 }, { 65535, OK, 30 }, { 65536, OK, 30 }, TOO_LONG
    };
    LENGTHS(party, LIST, LAST, list);
}

/* Nor a listing's: what is cut short gives its length, and what goes on behind the end gives the end. */
static void listing_lengths(const struct party *party)
{
    static const struct length list[] = {
        { 0, 19, 0 }, { 1, 19, 1 }, { 2, 19, 2 }, { 3, 19, 3 }, { 4, 19, 4 }, { 7, 19, 7 }, { 8, 19, 8 }, { 27, 19, 27 },
        { 28, 19, 28 }, { 29, 19, 29 }, { 30, OK, 30 }, { 31, 19, 30 }, { 32, 19, 30 }, { 33, 19, 30 }, { 2567, 19, 30 },
        { 2568, 19, 30 }, { 2569, 19, 30 }, { 65532, 19, 30 }, { 65533, 19, 30 }, { 65534, 19, 30 }, { 65535, 19, 30 },
        { 65536, 19, 30 }, TOO_LONG
    };
    LENGTHS(party, READ_LISTING, 0, list);
}

/* ---- the order of 13, 1, 2 and the rest */

static uint8_t bad_state[STATE_BYTES], bad_cell[STATE_BYTES], bad_grant[GRANT_BYTES], bad_batch[8];

static void spoil(void)
{
    memcpy(bad_state, state, STATE_BYTES);
    put_word(bad_state, 0, 1);
    set_cell(bad_cell, 84, 0xffffffff);
    put_word(bad_grant, 0, 4);
    put_word(bad_batch, 0, 0xffffffff);
}

static struct request with(struct request request, size_t buffer, const uint8_t *bytes)
{
    request.lent[buffer].at = bytes;
    return request;
}

static struct request as_long_as(struct request request, size_t buffer, size_t length)
{
    request.lent[buffer].length = length;
    return request;
}

/* Everything else is wrong too: each buffer's length alone still gives 13. */
static void thirteen_first(const struct party *party, struct request all_wrong)
{
    for (size_t buffer = 0; buffer < BUFFERS; buffer++) {
        struct request longer = as_long_as(all_wrong, buffer, 65540), odd = as_long_as(all_wrong, buffer, 7);
        longer.lent[buffer].at = batch;
        odd.lent[buffer].at = batch;
        if (!has_buffer(all_wrong.kind, buffer))
            continue;
        answers(party, "13 first", &longer, 0, 13);
        if (!is_text_buffer(all_wrong.kind, buffer))
            answers(party, "13 first", &odd, 0, 13);
    }
}

static void reader_order(const struct party *party)
{
    struct request batch_wrong = with(fine(READ), 0, bad_batch), grants_wrong = with(batch_wrong, 1, bad_grant);
    struct request all_wrong = with(grants_wrong, LAST, bad_state);
    thirteen_first(party, all_wrong);
    answers(party, "1 before 2", &all_wrong, 0, 1);
    answers(party, "2 before 3", &grants_wrong, 0, 2);
    answers(party, "3", &batch_wrong, 0, 3);
}

/* What the size and the writer ask of a state and its grants; the writer, before it asks for room. */
static void order_up_to_12(const struct party *party, struct request request)
{
    struct request cell_wrong = with(request, 0, bad_cell), grants_wrong = with(cell_wrong, 1, bad_grant);
    struct request all_wrong = with(grants_wrong, 0, bad_state);
    thirteen_first(party, all_wrong);
    answers(party, "1 before 2", &all_wrong, 0, 1);
    answers(party, "2 before 12", &grants_wrong, 0, 2);
    answers(party, "12", &cell_wrong, 84, 12);
}

static void size_order(const struct party *party)
{
    order_up_to_12(party, fine(SIZE));
}

static void writer_order(const struct party *party)
{
    struct request no_room = as_long_as(fine(WRITE), LAST, 0);
    order_up_to_12(party, no_room);
    answers(party, "11", &no_room, 0, 11);
}

static void lister_order(const struct party *party)
{
    struct request no_room = as_long_as(fine(LIST), LAST, 0), all_wrong = with(no_room, 0, bad_state);
    thirteen_first(party, all_wrong);
    answers(party, "1 before 11", &all_wrong, 0, 1);
    answers(party, "11", &no_room, 0, 11);
}

static void listing_reader_order(const struct party *party)
{
    struct request listing_wrong = with(fine(READ_LISTING), 0, batch), all_wrong = as_long_as(listing_wrong, LAST, STATE_BYTES - 4);
    thirteen_first(party, all_wrong);
    answers(party, "1 before 19", &all_wrong, 0, 1);
    answers(party, "19", &listing_wrong, 0, 19);
}

static void query_order(const struct party *party)
{
    struct request grants_wrong = with(fine(WHICH_GRANT), 1, bad_grant), all_wrong = with(grants_wrong, 0, bad_state);
    thirteen_first(party, all_wrong);
    answers(party, "1 before 2", &all_wrong, 0, 1);
    answers(party, "2", &grants_wrong, 0, 2);
}

/* ---- each word of the state, spoilt in turn: 1, but for the listing reader, to which it does not matter */

static void spoilt_states(const struct party *party, enum kind kind)
{
    static const uint32_t bad_marks[] = { 2, 3, 0x100, 0x80000000, 0xffffffff };
    static const uint32_t bad_values[] = { 1, 0x80, 0x80000000, 0xffffffff };
    unsigned reason = kind == READ_LISTING ? OK : 1;
    uint32_t place = kind == READ_LISTING ? fine_place(kind) : 0;
    uint8_t spoilt[STATE_BYTES];
    struct request request = with(fine(kind), state_buffer(kind), spoilt);
    for (size_t cell = 0; cell < CELLS; cell++) {
        for (size_t i = 0; i < sizeof bad_marks / sizeof *bad_marks; i++) {
            memcpy(spoilt, state, STATE_BYTES);
            put_word(spoilt, CELLS + cell, bad_marks[i]);
            answers(party, "a bad mark", &request, place, reason);
        }
        for (size_t i = 0; i < sizeof bad_values / sizeof *bad_values; i++) {
            memcpy(spoilt, state, STATE_BYTES);
            put_word(spoilt, CELLS + cell, 0);
            put_word(spoilt, cell, bad_values[i]);
            answers(party, "a value without a mark", &request, place, reason);
        }
    }
}

/* ---- each grant of a long list, spoilt in turn */

static void spoilt_grants(const struct party *party, enum kind kind)
{
    static const uint32_t bad[GRANT_WORDS][2] = {
        { 0, 4 }, { 0xfffff001, 0xffffffff }, { 0xfffff001, 0xffffffff }, { 0, 0 }, { 2, 0xffffffff }
    };
    uint8_t spoilt[IRANGELDA_GRANTS_BYTES_MAX];
    struct request request = as_long_as(with(fine(kind), 1, spoilt), 1, sizeof spoilt);
    for (size_t word = 0; word < sizeof spoilt / 4; word++)
        for (int which = 0; which < 2; which++) {
            memcpy(spoilt, grants, sizeof spoilt);
            put_word(spoilt, word, bad[word % GRANT_WORDS][which]);
            answers(party, "a bad grant", &request, 0, 2);
        }
}

void limits(void)
{
    fill();
    spoil();
    for (size_t p = 0; p < PARTIES; p++) {
        const struct party *party = &parties[p];
        batch_lengths(party);
        writer_room(party);
        lister_room(party);
        listing_lengths(party);
        reader_order(party);
        size_order(party);
        writer_order(party);
        lister_order(party);
        listing_reader_order(party);
        query_order(party);
        for (int kind = 0; kind < KINDS; kind++) {
            state_lengths(party, (enum kind)kind);
            spoilt_states(party, (enum kind)kind);
            if (has_buffer((enum kind)kind, 1)) {
                grants_lengths(party, (enum kind)kind);
                spoilt_grants(party, (enum kind)kind);
            }
        }
    }
}
