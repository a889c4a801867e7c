#include "cases.h"
#include "check.h"
#include "lent.h"
#include "registers.h"
#include "words.h"
#include <string.h>

/* Every address of the three roles that a register can hold. A target is in memory 0, since each register is written alone. */
enum { GRANTS = 3 };
static const uint32_t all_memory[GRANT_WORDS * GRANTS] = { 1, 0, 0xffffffff, 1, 0, 2, 0, 0xffffffff, 1, 0, 3, 0, 0xffffffff, 1, 0 };

/* The shortest batch that writes a value to a cell, and its length in words. */
static size_t batch_for(size_t cell, uint32_t value, uint8_t *batch)
{
    struct reg reg = reg_at(cell);
    if (cell >= CELLS_3D) {
        put_words(batch, (const uint32_t[]){ 0x00010000 | reg.offset, value }, 2);
        return 2;
    }
    put_words(batch, (const uint32_t[]){ 0x0002043c, reg.setting, reg.sub_address << 24 | value }, 3);
    return 3;
}

static struct outcome outcome;

static size_t write_to(const struct party *party, size_t cell, uint32_t value)
{
    static const uint8_t empty[STATE_BYTES];
    uint8_t batch[12], grants[GRANT_BYTES * GRANTS];
    size_t words = batch_for(cell, value, batch);
    put_words(grants, all_memory, GRANT_WORDS * GRANTS);
    struct request request = { READ, { { batch, 4 * words }, { grants, sizeof grants }, { empty, STATE_BYTES } } };
    perform(party, &request, &outcome);
    return words;
}

static void lands(const struct party *party, size_t cell, uint32_t value)
{
    uint8_t after[STATE_BYTES] = { 0 };
    uint64_t words = write_to(party, cell, value);
    set_cell(after, cell, value);
    expect(outcome.answer == words * 256, "%s, cell %zu: %08x answers %llx", party->name, cell, (unsigned)value,
           (unsigned long long)outcome.answer);
    expect(memcmp(outcome.after, after, STATE_BYTES) == 0, "%s, cell %zu: %08x landed elsewhere", party->name, cell, (unsigned)value);
}

/* Reason 7 at the last word. */
static void bit_is_refused(const struct party *party, size_t cell, uint32_t value)
{
    uint64_t words = write_to(party, cell, value);
    expect(outcome.answer == (words - 1) * 256 + IRANGELDA_BIT_SET, "%s, cell %zu: %08x answers %llx", party->name, cell,
           (unsigned)value, (unsigned long long)outcome.answer);
}

enum { CHOICES = 40 };

/* Small choices reach each entry of the first lists, the spread ones the rest. */
static uint32_t choice(uint32_t i)
{
    return i < CHOICES / 2 ? i : i * 0x9e3779b9u;
}

static uint32_t some_value(size_t cell, uint32_t i)
{
    uint32_t address = choice(i) & (cell == 1 ? 0x7fffff00 : 0x1ffffff0);
    return role_of(cell) == NO_ROLE ? value_without_address(cell, choice(i)) : value_with_address(cell, address);
}

/* ---- the value rules, said plainly */

static uint32_t bits(uint32_t value, int high, int low)
{
    return value >> low & (((uint32_t)2 << (high - low)) - 1);
}

/* A five-bit code, and as bits the three-bit codes that may stand behind it. */
static int format_permitted(uint32_t byte)
{
    static const struct {
        uint32_t code, with;
    } formats[] = {
        { 2, 1 << 5 | 1 << 6 }, { 6, 1 << 0 }, { 17, 0x2f }, { 21, 0x2f }, { 25, 0x2f }, { 28, 0x2f }, { 19, 0x07 }, { 27, 0x07 },
        { 29, 0x07 }, { 23, 0x0f }, { 30, 1 << 0 | 1 << 4 | 1 << 5 }
    };
    for (size_t i = 0; i < sizeof formats / sizeof *formats; i++)
        if (formats[i].code == byte >> 3)
            return (formats[i].with >> (byte & 7) & 1) != 0;
    return 0;
}

/* If one of two filters is linear anisotropy, code 2, both must be. */
static int pair_permitted(uint32_t s, uint32_t t)
{
    if (s == 2 || t == 2)
        return s == 2 && t == 2;
    return 1;
}

static int filters_permitted(uint32_t v)
{
    uint32_t depth = bits(v, 3, 0);
    return bits(v, 20, 16) <= 16 && bits(v, 15, 13) <= 3 && bits(v, 12, 10) <= 3 && bits(v, 9, 7) <= 3 && bits(v, 6, 4) <= 3
        && (depth == 0 || depth == 1 || depth == 2 || depth == 4) && pair_permitted(bits(v, 15, 13), bits(v, 9, 7))
        && pair_permitted(bits(v, 12, 10), bits(v, 6, 4));
}

static int code_permitted(uint32_t code)
{
    return code <= 3 || code == 7;
}

static int mapping_permitted(uint32_t v)
{
    return bits(v, 21, 19) <= 1 && bits(v, 18, 16) <= 1 && code_permitted(bits(v, 8, 6)) && code_permitted(bits(v, 5, 3))
        && code_permitted(bits(v, 2, 0));
}

static int value_permitted(size_t cell, uint32_t v)
{
    switch (cell) {
    case 0:
        return bits(v, 22, 12) <= 1024 && bits(v, 10, 0) <= 1024;
    case 2:
        return bits(v, 21, 20) <= 1;
    case 3:
        return format_permitted(bits(v, 23, 16));
    case 36:
        return bits(v, 11, 6) <= 11 && bits(v, 5, 0) <= 11;
    case 37:
        return filters_permitted(v);
    case 38:
        return mapping_permitted(v);
    default: /* 86 */
        return bits(v, 1, 0) != 3;
    }
}

/* Every value of some bits of a cell, none of which must be clear: 0 or 8. */
static void every_value(const struct party *party, size_t cell, int high, int low)
{
    for (uint32_t x = 0; x < (uint32_t)2 << (high - low); x++) {
        uint64_t words = write_to(party, cell, x << low);
        uint64_t wanted = value_permitted(cell, x << low) ? words * 256 : (words - 1) * 256 + IRANGELDA_BAD_VALUE;
        expect(outcome.answer == wanted, "%s, cell %zu: %08x answers %llx", party->name, cell, (unsigned)(x << low),
               (unsigned long long)outcome.answer);
    }
}

static void value_rules(const struct party *party)
{
    every_value(party, 0, 22, 12);
    every_value(party, 0, 10, 0);
    every_value(party, 2, 21, 20);
    every_value(party, 3, 23, 16);
    every_value(party, 36, 11, 0);
    every_value(party, 37, 20, 16);
    every_value(party, 37, 15, 4);
    every_value(party, 37, 3, 0);
    every_value(party, 38, 21, 16);
    every_value(party, 38, 8, 0);
    every_value(party, 86, 1, 0);
}

void registers(void)
{
    for (size_t p = 0; p < PARTIES; p++) {
        value_rules(&parties[p]);
        for (size_t cell = 0; cell < CELLS; cell++) {
            for (uint32_t i = 0; i < CHOICES; i++)
                lands(&parties[p], cell, some_value(cell, i));
            for (uint32_t bit = 0; bit < 32; bit++)
                if ((reg_at(cell).must_be_clear >> bit & 1) != 0)
                    bit_is_refused(&parties[p], cell, (uint32_t)1 << bit);
        }
    }
}
