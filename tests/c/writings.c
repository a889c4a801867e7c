#include "cases.h"
#include "check.h"
#include "lent.h"
#include "registers.h"
#include "words.h"
#include <stdio.h>
#include <string.h>

enum { ROOM = 4096, GRANTS = 4 };

/* Every address of the three roles, and the target's in either memory. */
static const uint32_t all_memory[GRANT_WORDS * GRANTS] = {
    1, 0, 0xffffffff, 1, 0, 2, 0, 0xffffffff, 1, 0, 3, 0, 0xffffffff, 1, 0, 1, 0, 0xffffffff, 1, 1
};

static struct bytes all_granted(void)
{
    static uint8_t grants[GRANT_BYTES * GRANTS];
    put_words(grants, all_memory, GRANT_WORDS * GRANTS);
    return (struct bytes){ grants, sizeof grants };
}

static struct outcome outcome;

static uint64_t size_state(const struct party *party, const uint8_t *state)
{
    struct request request = { SIZE, { { state, STATE_BYTES }, all_granted(), { NULL, 0 } } };
    perform(party, &request, &outcome);
    return outcome.answer;
}

static uint64_t write_state(const struct party *party, const uint8_t *state, size_t room)
{
    static uint8_t out[ROOM];
    memset(out, 0xee, room);
    struct request request = { WRITE, { { state, STATE_BYTES }, all_granted(), { out, room } } };
    perform(party, &request, &outcome);
    return outcome.answer;
}

static uint64_t list_state(const struct party *party, const uint8_t *state, size_t room)
{
    static uint8_t out[ROOM];
    memset(out, 0xee, room);
    struct request request = { LIST, { { state, STATE_BYTES }, { NULL, 0 }, { out, room } } };
    perform(party, &request, &outcome);
    return outcome.answer;
}

static void gives(const struct party *party, const char *what, const char *name, uint64_t answer, uint64_t wanted)
{
    expect(answer == wanted, "%s %s %s: answer %llx, not %llx", party->name, what, name, (unsigned long long)answer,
           (unsigned long long)wanted);
}

/* The size is the number of the words. In exactly that room they are written, and in more, but not in one unit less. */
static void writes_exactly(const struct party *party, const char *name, const uint8_t *state, const uint32_t *words, size_t count)
{
    uint8_t bytes[ROOM];
    put_words(bytes, words, count);
    gives(party, "tells the size of", name, size_state(party, state), (uint64_t)count * 256);
    for (size_t more = 0; more <= 8; more += 4) {
        gives(party, "writes", name, write_state(party, state, 4 * count + more), (uint64_t)count * 256);
        expect(memcmp(outcome.after, bytes, 4 * count) == 0, "%s writes %s: other words", party->name, name);
    }
    if (count > 0)
        gives(party, "writes, in too little room,", name, write_state(party, state, 4 * count - 4), IRANGELDA_NO_ROOM);
}

static void lists_exactly(const struct party *party, const char *name, const uint8_t *state, const char *text)
{
    size_t length = strlen(text);
    for (size_t more = 0; more <= 3; more++) {
        gives(party, "lists", name, list_state(party, state, length + more), (uint64_t)length * 256);
        expect(memcmp(outcome.after, text, length) == 0, "%s lists %s: other text", party->name, name);
    }
    gives(party, "lists, in too little room,", name, list_state(party, state, length - 1), IRANGELDA_NO_ROOM);
}

/* What was written leads from the empty state back to the state. */
static void leads_back(const struct party *party, const char *name, const uint8_t *state)
{
    uint64_t words = write_state(party, state, IRANGELDA_WRITE_BYTES_ENOUGH) / 256;
    expect(lead_to(party, (struct bytes){ outcome.after, 4 * words }, all_granted(), state), "%s does not read %s back", party->name,
           name);
}

/* ---- some states, word for word */

static void empty_state(const struct party *party)
{
    static const uint8_t state[STATE_BYTES];
    writes_exactly(party, "the empty state", state, NULL, 0);
    lists_exactly(party, "the empty state", state, "cells=0\n");
    leads_back(party, "the empty state", state);
}

static void k1_state(const struct party *party)
{
    uint8_t state[STATE_BYTES] = { 0 };
    set_cell(state, 1, 0x1000);
    writes_exactly(party, "K1", state, (const uint32_t[]){ 0x0002043c, 0x00010000, 0x50001000 }, 3);
    lists_exactly(party, "K1", state, "cells=1\nreg=01.00.50 val=00001000\n");
    leads_back(party, "K1", state);
}

static void video_state(const struct party *party)
{
    uint8_t state[STATE_BYTES] = { 0 };
    set_cell(state, 90, 0x1abcdef0);
    writes_exactly(party, "a video cell", state, (const uint32_t[]){ 0x000123f0, 0x1abcdef0 }, 2);
    lists_exactly(party, "a video cell", state, "cells=1\nreg=23f0 val=1abcdef0\n");
    leads_back(party, "a video cell", state);
}

static void sparse_state(const struct party *party)
{
    static const uint32_t words[] = {
        0x0003043c, 0x00010000, 0x3f400400, 0x52990000,
        0x0002043c, 0x00020000, 0x51000000,
        0x0003043c, 0x0f020000, 0x5000ffff, 0x51000001,
        0x0003043c, 0x23020000, 0x300002cb, 0x320001ff,
        0x0002043c, 0x2f020000, 0x31004100,
        0x00012208, 0x07ff07ff, 0x000123fc, 0x00000010, 0x000133e4, 0x89001f01, 0x000133fc, 0x1ffffff0
    };
    uint8_t state[STATE_BYTES] = { 0 };
    set_cell(state, 0, 0x400400);
    set_cell(state, 3, 0x990000);
    set_cell(state, 5, 0);
    set_cell(state, 34, 0xffff);
    set_cell(state, 35, 1);
    set_cell(state, 45, 0x2cb);
    set_cell(state, 47, 0x1ff);
    set_cell(state, 82, 0x4100);
    set_cell(state, 84, 0x07ff07ff);
    set_cell(state, 93, 0x10);
    set_cell(state, 94, 0x89001f01);
    set_cell(state, 100, 0x1ffffff0);
    writes_exactly(party, "a sparse state", state, words, sizeof words / sizeof *words);
    lists_exactly(party, "a sparse state", state,
                  "cells=12\n"
                  "reg=01.00.3f val=00400400\n"
                  "reg=01.00.52 val=00990000\n"
                  "reg=02.00.51 val=00000000\n"
                  "reg=02.0f.50 val=0000ffff\n"
                  "reg=02.0f.51 val=00000001\n"
                  "reg=02.23.30 val=000002cb\n"
                  "reg=02.23.32 val=000001ff\n"
                  "reg=02.2f.31 val=00004100\n"
                  "reg=2208 val=07ff07ff\n"
                  "reg=23fc val=00000010\n"
                  "reg=33e4 val=89001f01\n"
                  "reg=33fc val=1ffffff0\n");
    leads_back(party, "a sparse state", state);
}

/* ---- the full state, and each cell alone, against words and text made from the test's own table */

static uint32_t value_for(size_t cell)
{
    uint32_t choice = 0x2b0a1f35u + 77 * (uint32_t)cell;
    return role_of(cell) == NO_ROLE ? value_without_address(cell, choice) : value_with_address(cell, 0x01234500 + 0x100 * (uint32_t)cell);
}

static size_t marked_in_group(const uint8_t *state, size_t cell)
{
    size_t marked = 0;
    for (size_t c = 0; c < CELLS_3D; c++)
        marked += reg_at(c).setting == reg_at(cell).setting && get_word(state, CELLS + c) == 1;
    return marked;
}

static size_t words_of(const uint8_t *state, uint32_t *words)
{
    size_t count = 0;
    uint32_t setting = 0;
    for (size_t cell = 0; cell < CELLS; cell++) {
        struct reg reg = reg_at(cell);
        if (get_word(state, CELLS + cell) == 0)
            continue;
        if (cell >= CELLS_3D) {
            words[count++] = 0x00010000 | reg.offset;
            words[count++] = get_word(state, cell);
            continue;
        }
        if (reg.setting != setting) {
            setting = reg.setting;
            words[count++] = (uint32_t)(marked_in_group(state, cell) + 1) << 16 | 0x043c;
            words[count++] = setting;
        }
        words[count++] = reg.sub_address << 24 | get_word(state, cell);
    }
    return count;
}

static void text_of(const uint8_t *state, char *text)
{
    unsigned count = 0;
    for (size_t cell = 0; cell < CELLS; cell++)
        count += get_word(state, CELLS + cell);
    text += sprintf(text, "cells=%u\n", count);
    for (size_t cell = 0; cell < CELLS; cell++) {
        struct reg reg = reg_at(cell);
        unsigned value = get_word(state, cell);
        if (get_word(state, CELLS + cell) == 0)
            continue;
        if (cell < CELLS_3D)
            text += sprintf(text, "reg=%02x.%02x.%02x val=%08x\n", (unsigned)reg.setting >> 16 & 0xff, (unsigned)reg.setting >> 24,
                            (unsigned)reg.sub_address, value);
        else
            text += sprintf(text, "reg=%04x val=%08x\n", (unsigned)reg.offset, value);
    }
}

static void made_state(const struct party *party, const char *name, const uint8_t *state)
{
    uint32_t words[ROOM / 4];
    char text[ROOM];
    size_t count = words_of(state, words);
    text_of(state, text);
    writes_exactly(party, name, state, words, count);
    lists_exactly(party, name, state, text);
    leads_back(party, name, state);
}

static void full_state(const struct party *party)
{
    uint8_t state[STATE_BYTES];
    for (size_t cell = 0; cell < CELLS; cell++)
        set_cell(state, cell, value_for(cell));
    made_state(party, "a full state", state);
    gives(party, "tells the size of", "a full state", size_state(party, state), 184 * 256);
    expect(write_state(party, state, IRANGELDA_WRITE_BYTES_ENOUGH) == 184 * 256, "%s: a full state is not 184 words", party->name);
    expect(list_state(party, state, IRANGELDA_LIST_BYTES_ENOUGH) == 2568 * 256, "%s: a full state is not 2,568 bytes", party->name);
}

/* Each cell alone, and all but each cell: so every group is seen with each number of marked cells. */
static void one_in_one_out(const struct party *party)
{
    for (size_t cell = 0; cell < CELLS; cell++) {
        uint8_t one[STATE_BYTES] = { 0 }, rest[STATE_BYTES];
        set_cell(one, cell, value_for(cell));
        made_state(party, "a cell alone", one);
        for (size_t c = 0; c < CELLS; c++)
            set_cell(rest, c, value_for(c));
        clear_cell(rest, cell);
        made_state(party, "all cells but one", rest);
    }
}

/* ---- states that cannot be written */

/* 12 at the cell, though a higher cell is bad too: of the size, and of the writer before 11. A lister does not ask what a value means. */
static void bad_cell(const struct party *party, size_t cell, uint32_t value)
{
    uint8_t state[STATE_BYTES] = { 0 };
    set_cell(state, cell, value);
    set_cell(state, 91, 0x0000000f);
    uint64_t wanted = (uint64_t)cell * 256 + IRANGELDA_NOT_WRITABLE;
    char name[64], text[ROOM];
    sprintf(name, "%08x in cell %zu", (unsigned)value, cell);
    gives(party, "tells the size of", name, size_state(party, state), wanted);
    for (size_t room = 0; room <= IRANGELDA_WRITE_BYTES_ENOUGH; room += IRANGELDA_WRITE_BYTES_ENOUGH)
        gives(party, "writes", name, write_state(party, state, room), wanted);
    text_of(state, text);
    lists_exactly(party, "a state that cannot be written", state, text);
}

/* The shrinking filters, every code of 12:10 beside every code of 6:4: if one is 2, both must be. The batch, or 12. */
static void shrinking_filters(const struct party *party)
{
    for (uint32_t s = 0; s <= 3; s++)
        for (uint32_t t = 0; t <= 3; t++) {
            uint32_t value = s << 10 | t << 4;
            uint8_t state[STATE_BYTES] = { 0 };
            if ((s == 2 || t == 2) && s != t) {
                bad_cell(party, 46, value);
                continue;
            }
            set_cell(state, 46, value);
            writes_exactly(party, "shrinking filters", state, (const uint32_t[]){ 0x0002043c, 0x23020000, 0x31000000 | value }, 3);
            leads_back(party, "shrinking filters", state);
        }
}

static void bad_cells(const struct party *party)
{
    for (size_t cell = 0; cell < 91; cell++) {
        uint32_t must_be_clear = reg_at(cell).must_be_clear;
        for (uint32_t bit = 0; bit < 32; bit++)
            if ((must_be_clear >> bit & 1) != 0 || (cell < CELLS_3D && bit >= 24))
                bad_cell(party, cell, value_for(cell) | (uint32_t)1 << bit);
    }
    bad_cell(party, 0, 0x401000);
    bad_cell(party, 2, 0x200000);
    bad_cell(party, 2, 0x300000);
    bad_cell(party, 3, 0x940000);
    bad_cell(party, 36, 0x00000c);
    bad_cell(party, 40, 0x004080);
    bad_cell(party, 83, 0x000004);
    bad_cell(party, 86, 0x00000003);
    bad_cell(party, 89, 0x00000001);
}

static void refuses_ungranted(const struct party *party, const struct request *request, size_t cell)
{
    perform(party, request, &outcome);
    expect(outcome.answer == (uint64_t)cell * 256 + IRANGELDA_NOT_WRITABLE, "%s %s, cell %zu ungranted: answer %llx", party->name,
           kind_names[request->kind], cell, (unsigned long long)outcome.answer);
}

/* The address of each such cell, without a grant; the target's is granted in the other memory. */
static void ungranted_cells(const struct party *party)
{
    for (size_t cell = 0; cell < CELLS; cell++) {
        uint8_t state[STATE_BYTES] = { 0 }, grants[GRANT_BYTES * GRANTS], out[8] = { 0 };
        uint32_t role = role_of(cell);
        if (role == NO_ROLE)
            continue;
        put_words(grants, all_memory, GRANT_WORDS * GRANTS);
        put_word(grants, GRANT_WORDS * (role - 1) + 2, 0x1000);
        set_cell(state, cell, value_with_address(cell, 0x1000));
        struct request write = { WRITE, { { state, STATE_BYTES }, { grants, sizeof grants }, { out, sizeof out } } };
        struct request size = size_for(&write);
        refuses_ungranted(party, &size, cell);
        refuses_ungranted(party, &write, cell);
    }
}

void writings(void)
{
    for (size_t p = 0; p < PARTIES; p++) {
        empty_state(&parties[p]);
        k1_state(&parties[p]);
        video_state(&parties[p]);
        sparse_state(&parties[p]);
        full_state(&parties[p]);
        one_in_one_out(&parties[p]);
        bad_cells(&parties[p]);
        shrinking_filters(&parties[p]);
        ungranted_cells(&parties[p]);
    }
}
