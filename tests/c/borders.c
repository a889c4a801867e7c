/* A word of each kind at places where a reader that goes by pieces might begin a new one: it is read, refused and missed there as
   anywhere else. */
#include "cases.h"
#include "check.h"
#include "lent.h"
#include "registers.h"
#include "words.h"
#include <string.h>

enum { IS_HEADER = -1, IS_SETTING = -2, MOST_PARAMETERS = 112, EVERY_PLACE_TO = 1100 };

enum { GRANTS = 4 };
static const uint32_t grant_words[GRANT_WORDS * GRANTS] = {
    1, 0x1000, 0x1000, 1, 0, 1, 0x1000, 0x1000, 1, 1, 2, 0x1000, 0x1000, 1, 0, 3, 0x1000, 0x1000, 1, 0
};

/* The batch that is being put together, and the state that it leaves of the empty one. */
static uint8_t batch[IRANGELDA_BUFFER_BYTES_MAX], grants[GRANT_BYTES * GRANTS], left[STATE_BYTES];
static size_t words;

static void add(uint32_t word)
{
    put_word(batch, words++, word);
}

static void add_value(size_t cell, uint32_t value)
{
    add(cell < CELLS_3D ? reg_at(cell).sub_address << 24 | value : value);
    set_cell(left, cell, value);
}

static uint32_t good_value(size_t cell)
{
    return role_of(cell) == NO_ROLE ? value_without_address(cell, 0x00001234) : value_with_address(cell, 0x1700);
}

/* ---- packets of two and three words, to come to any place */

enum { THREE_WORD_CELL = 35 };

static void add_filler(size_t two_word_cell, size_t count)
{
    if (count % 2 == 1) {
        add(0x0002043c);
        add(reg_at(THREE_WORD_CELL).setting);
        add_value(THREE_WORD_CELL, (uint32_t)words % 0x10000);
        count -= 3;
    }
    for (; count > 0; count -= 2) {
        add(0x00010000 | reg_at(two_word_cell).offset);
        add_value(two_word_cell, (uint32_t)words % 0x800);
    }
}

/* ---- the packet */

/* A packet of `size` values, of which number `which` goes to `cell`, and the rest to other registers. */
struct packet {
    size_t cell, size, which;
};

/* Another register of the same type and sub-type. */
static size_t neighbour(size_t cell)
{
    return reg_at(cell + 1).setting == reg_at(cell).setting ? cell + 1 : cell - 1;
}

static void add_packet(struct packet p)
{
    struct reg reg = reg_at(p.cell);
    if (p.cell >= CELLS_3D) {
        size_t first = p.cell - p.which;
        add((uint32_t)p.size << 16 | reg_at(first).offset);
        for (size_t i = 0; i < p.size; i++)
            add_value(first + i, good_value(first + i));
        return;
    }
    add((uint32_t)(p.size + 1) << 16 | 0x043c);
    add(reg.setting);
    for (size_t i = 0; i < p.size; i++) {
        size_t cell = i == p.which ? p.cell : neighbour(p.cell);
        add_value(cell, good_value(cell));
    }
}

/* How many words of the packet stand before the word that is looked at. */
static size_t words_before(struct packet p, int what)
{
    if (what == IS_HEADER)
        return 0;
    return what == IS_SETTING ? 1 : p.cell < CELLS_3D ? 2 + p.which : 1 + p.which;
}

/* ---- the calls */

static struct outcome outcome;

static void expect_read(const struct party *party, size_t length, uint64_t answer, const uint8_t *after, size_t place)
{
    static const uint8_t empty[STATE_BYTES];
    struct request request = { READ, { { batch, 4 * length }, { grants, sizeof grants }, { empty, STATE_BYTES } } };
    perform(party, &request, &outcome);
    expect(outcome.answer == answer, "%s, a word at place %zu of %zu: reason %u place %u", party->name, place, length,
           (unsigned)IRANGELDA_REASON(outcome.answer), (unsigned)IRANGELDA_PLACE(outcome.answer));
    expect(memcmp(outcome.after, after, STATE_BYTES) == 0, "%s, a word at place %zu of %zu: the state after", party->name, place,
           length);
}

/* The word at the place is refused when it is `word`. */
static void refused_as(const struct party *party, size_t place, uint32_t word, unsigned reason)
{
    static const uint8_t empty[STATE_BYTES];
    uint32_t good = get_word(batch, place);
    put_word(batch, place, word);
    expect_read(party, words, (uint64_t)place * 256 + reason, empty, place);
    put_word(batch, place, good);
}

static void refused_value(const struct party *party, size_t place, size_t cell)
{
    uint32_t good = get_word(batch, place), must_be_clear = reg_at(cell).must_be_clear;
    if (must_be_clear != 0)
        refused_as(party, place, good | (must_be_clear & -must_be_clear), IRANGELDA_BIT_SET);
    if (cell < CELLS_3D)
        refused_as(party, place, good | 0xff000000, IRANGELDA_NO_REGISTER);
    if (role_of(cell) != NO_ROLE)
        refused_as(party, place, good + 0x1000, IRANGELDA_NOT_GRANTED);
}

static void refused_here(const struct party *party, size_t place, size_t cell, int what)
{
    switch (what) {
    case IS_HEADER:
        refused_as(party, place, get_word(batch, place) ^ 1, IRANGELDA_BAD_OFFSET);
        refused_as(party, place, get_word(batch, place) & 0xffff, IRANGELDA_BAD_COUNT);
        break;
    case IS_SETTING:
        refused_as(party, place, get_word(batch, place) ^ 0x80, IRANGELDA_BAD_SETTING);
        break;
    default:
        refused_value(party, place, cell);
    }
}

static void word_at(const struct party *party, size_t place, struct packet p, int what)
{
    static const uint8_t empty[STATE_BYTES];
    size_t before = words_before(p, what), two_word_cell = p.cell >= 84 && p.cell <= 86 ? 88 : 85;
    size_t packet_words = p.size + (p.cell < CELLS_3D ? 2 : 1);
    if (place < before || place - before == 1 || place - before + packet_words + 2 > LONGEST_WORDS)
        return;
    words = 0;
    memset(left, 0, sizeof left);
    add_filler(two_word_cell, place - before);
    add_packet(p);
    add_filler(two_word_cell, 2);
    expect_read(party, words, (uint64_t)words * 256, left, place);
    refused_here(party, place, p.cell, what);
    if (what != IS_HEADER)
        expect_read(party, place, (uint64_t)place * 256 + IRANGELDA_ENDS_INSIDE, empty, place);
}

/* ---- what goes where */

static const size_t cells_3d[] = { 0, 1, 2, 3, 10, 11, 45, 46, 47 };

static void all_3d_at(const struct party *party, size_t place)
{
    static const size_t shapes[][2] = { { 1, 0 }, { MOST_PARAMETERS, 0 }, { MOST_PARAMETERS, 57 }, { MOST_PARAMETERS, 111 } };
    for (size_t i = 0; i < sizeof cells_3d / sizeof *cells_3d; i++)
        for (size_t shape = 0; shape < sizeof shapes / sizeof *shapes; shape++) {
            struct packet p = { cells_3d[i], shapes[shape][0], shapes[shape][1] };
            word_at(party, place, p, (int)p.cell);
            if (shape < 2) {
                word_at(party, place, p, IS_HEADER);
                word_at(party, place, p, IS_SETTING);
            }
        }
}

static size_t row_start(size_t cell)
{
    return cell < 87 ? 84 : cell < 94 ? 87 : 94;
}

static void all_video_at(const struct party *party, size_t place)
{
    for (size_t cell = CELLS_3D; cell < CELLS; cell++) {
        size_t first = row_start(cell);
        struct packet alone = { cell, 1, 0 }, in_row = { cell, row_from(first), cell - first };
        word_at(party, place, alone, (int)cell);
        word_at(party, place, in_row, (int)cell);
        word_at(party, place, alone, IS_HEADER);
    }
}

/* One kind of word at each place, another at the next. */
static void some_at(const struct party *party, size_t place)
{
    size_t cell = place * 37 % CELLS, first = cell < CELLS_3D ? cell : row_start(cell);
    struct packet p = cell < CELLS_3D ? (struct packet){ cell, 1 + place % MOST_PARAMETERS, place % (1 + place % MOST_PARAMETERS) }
                                      : (struct packet){ cell, row_from(first), cell - first };
    word_at(party, place, p, (int)cell);
}

void borders(void)
{
    static const size_t places[] = { 64, 113, 114, 115, 116, 128, 256, 512, 1024, 2048, 4096, 8192, 16382 };
    put_words(grants, grant_words, GRANT_WORDS * GRANTS);
    for (size_t p = 0; p < PARTIES; p++) {
        for (size_t i = 0; i < sizeof places / sizeof *places; i++)
            for (size_t place = places[i] - 1; place <= places[i] + 1; place++) {
                all_3d_at(&parties[p], place);
                all_video_at(&parties[p], place);
            }
        for (size_t place = 1; place <= EVERY_PLACE_TO; place++)
            some_at(&parties[p], place);
    }
}
