#include "making.h"
#include "chance.h"
#include "registers.h"
#include <string.h>

#define ONE_OF(...) one_of((const uint32_t[]){ __VA_ARGS__ }, (uint32_t)(sizeof((const uint32_t[]){ __VA_ARGS__ }) / sizeof(uint32_t)))

/* Each statement draws at most once before it picks, so that every compiler makes the same. */
static uint32_t one_of(const uint32_t *list, uint32_t count)
{
    return list[below(count)];
}

static const uint64_t memory_end = (uint64_t)1 << 32;

enum { FORMAT_CELL = 3, NOWHERE = MOST_MADE_WORDS /* behind every word */ };

/* ---- grants */

static void add_granted(struct addresses *granted, uint64_t address)
{
    granted->address[granted->count++] = (uint32_t)address;
}

/* The lowest and the highest address of a grant that its registers can hold, if there is one. */
static void note_granted(struct addresses *granted, uint32_t role, uint64_t start, uint64_t length, uint64_t reach)
{
    uint64_t step = role == 1 ? 256 : 16, limit = role == 1 ? memory_end : (uint64_t)1 << 29;
    if (reach > length)
        return;
    uint64_t low = (start + step - 1) / step * step, last = start + length - reach;
    uint64_t high = (last < limit ? last : limit - 1) / step * step;
    if (low > high)
        return;
    add_granted(granted, low);
    add_granted(granted, high);
}

static void add_grant(struct grants *grants)
{
    uint32_t role = 1 + below(3), memory = below(MEMORIES), *word = grants->word + grants->words;
    uint32_t any_start = chance(), any_length = chance();
    uint64_t start = ONE_OF(0, 0x100000, any_start >> 4, any_start >> 3 & 0xfffffff0, any_start, 0xffffff00, 0xffffffff);
    uint64_t length = ONE_OF(0, 1, 0x100, 0x1000, 0x80000, any_length >> 8, any_length, 0xffffffff);
    if (start != 0 && (start + length > memory_end || once_in(10)))
        length = memory_end - start;
    uint64_t reach = ONE_OF(1, 16, 0x100, (uint32_t)length, (uint32_t)length, (uint32_t)length + 1, chance() >> 16);
    if (reach == 0)
        reach = 1;
    if (role != 1)
        memory = 0;
    word[0] = role;
    word[1] = (uint32_t)start;
    word[2] = (uint32_t)length;
    word[3] = (uint32_t)reach;
    word[4] = memory;
    grants->words += GRANT_WORDS;
    note_granted(&grants->granted[memory][role], role, start, length, reach);
}

void make_grants(struct grants *grants)
{
    uint32_t any = below(65), count = ONE_OF(0, 1, 2, 3, 4, 6, 10, any, any, 63, 64);
    grants->words = 0;
    memset(grants->granted, 0, sizeof grants->granted);
    while (count-- > 0)
        add_grant(grants);
}

/* More than 64, or no whole number of them, or one that breaks a rule. */
void break_grants(struct grants *grants)
{
    static const uint32_t fine[GRANT_WORDS] = { 2, 0, 0x1000, 1, 0 };
    size_t kept = grants->words;
    if (kept == 0 || once_in(4)) {
        size_t wanted = once_in(2) ? kept + 1 + below(GRANT_WORDS - 1) : GRANT_WORDS * (65 + below(3));
        for (size_t i = kept; i < wanted; i++)
            grants->word[i] = fine[i % GRANT_WORDS];
        grants->words = wanted;
        return;
    }
    uint32_t *word = grants->word + GRANT_WORDS * below((uint32_t)kept / GRANT_WORDS);
    switch (below(5)) {
    case 0:
        word[0] = ONE_OF(0, 4, 0x101, 0x80000001, chance());
        break;
    case 1:
        word[1] = (uint32_t)(memory_end - word[2]) + 1;
        break;
    case 2:
        word[2] = (uint32_t)(memory_end - word[1]) + 1;
        break;
    case 3:
        word[3] = 0;
        break;
    default: /* a memory that there is not, or not for a scaler */
        word[4] = word[0] != 1 && once_in(2) ? 1 : ONE_OF(2, 3, 0x100, 0x80000000, 0xffffffff, chance());
    }
}

/* ---- values */

static int has_address(const struct grants *grants, uint32_t role, uint32_t memory)
{
    return memory < MEMORIES && grants->granted[memory][role].count > 0;
}

static int has_value(size_t cell, const struct grants *grants)
{
    uint32_t role = role_of(cell);
    return role == NO_ROLE || has_address(grants, role, 0) || has_address(grants, role, 1);
}

/* A value with an address that is granted in this memory, where there is one. */
static uint32_t value_in(uint32_t memory, size_t cell, const struct grants *grants)
{
    const struct addresses *granted = &grants->granted[memory][role_of(cell)];
    return value_with_address(cell, one_of(granted->address, granted->count));
}

static uint32_t value_for(size_t cell, const struct grants *grants)
{
    uint32_t role = role_of(cell), memory = below(MEMORIES);
    if (role == NO_ROLE)
        return value_without_address(cell, chance());
    uint32_t value = value_in(has_address(grants, role, memory) ? memory : 1 - memory, cell, grants);
    return cell == 89 || cell == 96 ? value | (chance() & 0xc0000000) : value;
}

/* ---- batches */

static void add_word(struct batch *batch, uint32_t word, int what)
{
    batch->word[batch->words] = word;
    batch->what[batch->words++] = what;
}

struct group {
    size_t first, size;
};

static struct group some_group(void)
{
    switch (below(3)) {
    case 0:
        return (struct group){ 0, 4 };
    case 1:
        return (struct group){ STAGES_AT + 2 * below(16), 2 };
    default:
        return (struct group){ SAMPLES_AT + 3 * below(16), 3 };
    }
}

static void add_3d(struct batch *batch, const struct grants *grants, size_t left)
{
    struct group group = some_group();
    uint32_t count = ONE_OF(1, 1, 2, 2, 3, 4, 6, 1 + below(112), 112);
    if (count + 2 > left)
        count = (uint32_t)left - 2;
    add_word(batch, (count + 1) << 16 | 0x043c, IS_HEADER);
    add_word(batch, reg_at(group.first).setting, IS_SETTING);
    while (count > 0) {
        size_t cell = group.first + below((uint32_t)group.size);
        if (!has_value(cell, grants))
            continue;
        add_word(batch, reg_at(cell).sub_address << 24 | value_for(cell, grants), (int)cell);
        count--;
    }
}

static void add_run(struct batch *batch, const struct grants *grants, size_t left)
{
    size_t cell = CELLS_3D + below(CELLS - CELLS_3D), most = row_from(cell) < left ? row_from(cell) : left - 1, count = 0;
    while (count < most && has_value(cell + count, grants))
        count++;
    if (count == 0)
        return;
    count = once_in(2) ? count : 1 + below((uint32_t)count);
    add_word(batch, (uint32_t)count << 16 | reg_at(cell).offset, IS_HEADER);
    for (size_t i = 0; i < count; i++)
        add_word(batch, value_for(cell + i, grants), (int)(cell + i));
}

void make_batch(struct batch *batch, const struct grants *grants, size_t most)
{
    batch->words = 0;
    while (most - batch->words >= 3) {
        if (once_in(2))
            add_3d(batch, grants, most - batch->words);
        else
            add_run(batch, grants, most - batch->words);
    }
}

static size_t last_write(const struct batch *batch, int cell)
{
    size_t behind = batch->words;
    while (behind > 0 && batch->what[behind - 1] != cell)
        behind--;
    return behind > 0 ? behind - 1 : NOWHERE;
}

static void put_memory(uint32_t *value, uint32_t memory)
{
    *value = (*value & ~((uint32_t)3 << MEMORY_AT)) | memory << MEMORY_AT;
}

/* Only the memory is written: one in which the address is granted that is there. */
static void mend_memory(uint32_t *word, uint32_t target, const struct grants *grants)
{
    for (uint32_t memory = 0; memory < MEMORIES; memory++)
        for (uint32_t i = 0; i < grants->granted[memory][1].count; i++)
            if (grants->granted[memory][1].address[i] / 256 == target)
                put_memory(word, memory);
}

/* In place of addresses, formats. */
static void write_no_address(struct batch *batch)
{
    for (size_t i = 0; i < batch->words; i++)
        if (batch->what[i] == ADDRESS_CELL) {
            batch->word[i] = reg_at(FORMAT_CELL).sub_address << 24 | value_without_address(FORMAT_CELL, chance());
            batch->what[i] = FORMAT_CELL;
        }
}

void mend_pair(struct batch *batch, const uint32_t *state, const struct grants *grants)
{
    size_t address_at = last_write(batch, ADDRESS_CELL), memory_at = last_write(batch, MEMORY_CELL);
    uint32_t memory = memory_named(memory_at != NOWHERE ? batch->word[memory_at] : state[MEMORY_CELL]);
    if (address_at == NOWHERE && memory_at != NOWHERE && state[CELLS + ADDRESS_CELL] == 1)
        mend_memory(&batch->word[memory_at], state[ADDRESS_CELL], grants);
    if (address_at == NOWHERE)
        return;
    if (!has_address(grants, 1, memory) && memory_at != NOWHERE) {
        memory = 1 - memory;
        put_memory(&batch->word[memory_at], memory);
    }
    if (has_address(grants, 1, memory))
        batch->word[address_at] = reg_at(ADDRESS_CELL).sub_address << 24 | value_in(memory, ADDRESS_CELL, grants);
    else /* the memory that is there has none */
        write_no_address(batch);
}

/* A word that stands where it stood but is no longer right, in a way that its own reasons name. */
static uint32_t spoilt(uint32_t word, int what)
{
    if (what == IS_HEADER)
        return once_in(2) ? word ^ (uint32_t)1 << below(16)
                          : (word & 0xffff) | ONE_OF(0, 1, 2, 3, 8, 113, 114, 0x100, 0x8000, 0xffff) << 16;
    uint32_t any = chance();
    if (what == IS_SETTING)
        return ONE_OF(word ^ (uint32_t)1 << any % 32, 0x00000000, 0x00020000 | any << 24, 0x01010000, 0x00030000, 0xfe100000);
    uint32_t must_be_clear = reg_at((size_t)what).must_be_clear;
    int in_3d = what < CELLS_3D;
    switch (below(5)) {
    case 0:
        return in_3d ? (word & 0xffffff) | ONE_OF(0x3f, 0x50, 0x51, 0x52, 0x30, 0x31, 0x32, 0x33, any >> 24) << 24 : any;
    case 1:
        return word | (must_be_clear & (uint32_t)1 << any % 32);
    case 2:
        return word | (must_be_clear & any);
    case 3: /* other bits, so that what is refused is the value or the address */
        return word ^ (any & ~must_be_clear & (in_3d ? 0xffffff : 0xffffffff));
    default: /* a little more or less than a limit or the edge of a grant */
        return word + ONE_OF(1, 0x10, 0x40, 0x1000, 0x10000, 0xffffffff, 0xfffffff0);
    }
}

/* Any place, or one where a reader that goes by pieces would begin a new one. */
static size_t some_place(size_t words)
{
    size_t border = ONE_OF(113, 114, 115, 128, 256, 512, 1024, 2048, 4096, 8192), place = border - 1 + below(3);
    return place < words && once_in(2) ? place : below((uint32_t)words);
}

static void remove_word(struct batch *batch, size_t place)
{
    batch->words--;
    memmove(batch->word + place, batch->word + place + 1, (batch->words - place) * sizeof *batch->word);
}

void damage_batch(struct batch *batch)
{
    if (batch->words == 0)
        return;
    size_t place = some_place(batch->words), memory_at = last_write(batch, MEMORY_CELL);
    uint32_t *word = batch->word + place;
    switch (below(11)) {
    case 0:
        *word ^= (uint32_t)1 << below(32);
        break;
    case 1:
        *word = chance();
        break;
    case 2:
        *word = batch->word[below((uint32_t)batch->words)];
        break;
    case 3:
        batch->words = place;
        break;
    case 4:
        remove_word(batch, place);
        break;
    case 5: /* the other memory, if the batch names one */
        if (memory_at != NOWHERE)
            batch->word[memory_at] ^= (uint32_t)1 << MEMORY_AT;
        break;
    default:
        *word = spoilt(*word, batch->what[place]);
    }
}

/* ---- states */

/* An address is there, so one of the memories has some. */
static void mend_state_pair(uint32_t *state, const struct grants *grants)
{
    uint32_t memory = memory_named(state[MEMORY_CELL]);
    if (!has_address(grants, 1, memory)) {
        memory = 1 - memory;
        put_memory(&state[MEMORY_CELL], memory);
        state[CELLS + MEMORY_CELL] = 1;
    }
    state[ADDRESS_CELL] = value_in(memory, ADDRESS_CELL, grants);
}

void make_state(uint32_t *state, const struct grants *grants, uint32_t every)
{
    memset(state, 0, STATE_BYTES);
    for (size_t cell = 0; cell < CELLS; cell++)
        if (once_in(every) && has_value(cell, grants)) {
            state[cell] = value_for(cell, grants);
            state[CELLS + cell] = 1;
        }
    if (state[CELLS + ADDRESS_CELL] == 1)
        mend_state_pair(state, grants);
}

void damage_state(uint32_t *state)
{
    size_t cell = below(CELLS);
    uint32_t any = chance(), bit = below(32);
    switch (below(7)) {
    case 0:
        state[CELLS + cell] ^= (uint32_t)1 << bit;
        break;
    case 1:
        state[cell] ^= (uint32_t)1 << bit;
        break;
    case 2:
        state[cell] = any;
        break;
    case 3:
        state[CELLS + cell] = any >> bit;
        break;
    case 4: /* another memory for the target, or none */
        state[CELLS + MEMORY_CELL] = 1;
        put_memory(&state[MEMORY_CELL], any % 4);
        break;
    default: /* a mark, and a value that its register may not hold */
        state[CELLS + cell] = 1;
        state[cell] = spoilt(state[cell], (int)cell);
        if (cell < CELLS_3D && !once_in(4))
            state[cell] &= 0xffffff;
    }
}

/* ---- bytes of grants and states */

size_t some_length(size_t length, size_t most)
{
    size_t off = 1 + below(4);
    if (!once_in(60))
        return length;
    if (once_in(3))
        return length < off ? 0 : length - off;
    return length + off <= most ? length + off : most;
}

size_t make_grant_bytes(uint8_t bytes[MOST_GRANT_BYTES], struct grants *grants)
{
    make_grants(grants);
    if (once_in(20))
        break_grants(grants);
    put_words(bytes, grants->word, grants->words);
    return some_length(4 * grants->words, MOST_GRANT_BYTES);
}

size_t make_state_bytes(uint8_t bytes[MOST_STATE_BYTES], uint32_t *state, const struct grants *grants, uint32_t damaged_once_in)
{
    static const uint32_t every[4] = { 1, 2, 4, 30 };
    make_state(state, grants, every[below(4)]);
    if (once_in(damaged_once_in))
        damage_state(state);
    put_words(bytes, state, 2 * CELLS);
    return some_length(STATE_BYTES, MOST_STATE_BYTES);
}

/* ---- cells */

uint32_t make_cell(void)
{
    uint32_t any = chance(), shift = below(32);
    switch (below(8)) {
    case 0:
        return any >> shift;
    case 1:
        return below(2 * CELLS + 2);
    default:
        return ONE_OF(1, 1, 1, 89, 90, 93, 96, 97, 100);
    }
}

/* ---- listings */

static uint8_t some_byte(void)
{
    static const char in_listings[] = "0123456789abcdefcellsregval=. \n";
    uint32_t any = chance();
    return once_in(4) ? (uint8_t)(any >> 24) : (uint8_t)in_listings[below(sizeof in_listings - 1)];
}

static size_t insert_bytes(uint8_t *text, size_t length, size_t place, const uint8_t *bytes, size_t count)
{
    memmove(text + place + count, text + place, length - place);
    memcpy(text + place, bytes, count);
    return length + count;
}

static size_t remove_bytes(uint8_t *text, size_t length, size_t place, size_t count)
{
    memmove(text + place, text + place + count, length - place - count);
    return length - count;
}

/* Where the line ends in which this place is. */
static size_t end_of_line(const uint8_t *text, size_t length, size_t place)
{
    while (place < length && text[place++] != '\n')
        ;
    return place;
}

size_t damage_text(uint8_t *text, size_t length)
{
    size_t place = below((uint32_t)length), from = end_of_line(text, length, place), to = end_of_line(text, length, from);
    uint8_t byte = some_byte(), line[64];
    switch (below(9)) {
    case 0:
        return place;
    case 1:
        return remove_bytes(text, length, place, 1);
    case 2:
        return insert_bytes(text, length, place, &byte, 1);
    case 3: /* a line is gone, */
        return remove_bytes(text, length, from, to - from);
    case 4: /* or there twice, or elsewhere as well */
        if (to - from > sizeof line)
            return length;
        memcpy(line, text + from, to - from);
        return insert_bytes(text, length, end_of_line(text, length, below((uint32_t)length)), line, to - from);
    case 5: /* another count */
        text[6 + below(3)] = byte;
        return length;
    case 6:
        text[length] = byte;
        return length + 1;
    default:
        text[place] = byte;
        return length;
    }
}
