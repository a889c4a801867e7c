/* The pair of 01.00.50 and 01.00.51: the target's address, and the memory that it is in. States, batches and grants in every combination,
   against a judgement of this file's own, which knows the rules of these two registers and no others. */
#include "cases.h"
#include "check.h"
#include "lent.h"
#include "registers.h"
#include "words.h"
#include <stdio.h>
#include <string.h>

enum { LAST = BUFFERS - 1, MOST_GRANTS = IRANGELDA_GRANTS_MAX, NO_GRANT = IRANGELDA_NO_GRANT, NO_CELL = -1 };

#define ALL_MEMORY 0xffffffff /* but a byte: the longest length */

/* ---- grants */

struct grant {
    uint32_t role, start, length, reach, memory;
};

struct list {
    const char *name;
    size_t count;
    struct grant grant[MOST_GRANTS];
};

/* Values of 01.00.50, for addresses 256 times as high, and what most lists below grant of them. */
enum { IN_0 = 0x1000, IN_1 = 0x2000, IN_BOTH = 0x3000, IN_NONE = 0x4000 };

#define AROUND(value, memory) { 1, 256 * (value), 0x1000, 0x100, memory }
#define EVERYWHERE(role, memory) { role, 0, ALL_MEMORY, 1, memory }

enum { BOTH_MEMORIES = 3, ALL_OF_BOTH = 5, OTHER_ROLES = 7 };

static const struct list lists[] = {
    { "no grants", 0, { AROUND(IN_0, 0) } },
    { "memory 0 alone", 2, { AROUND(IN_0, 0), AROUND(IN_BOTH, 0) } },
    { "memory 1 alone", 2, { AROUND(IN_1, 1), AROUND(IN_BOTH, 1) } },
    [BOTH_MEMORIES] = { "both memories", 4, { AROUND(IN_BOTH, 1), AROUND(IN_0, 0), AROUND(IN_1, 1), AROUND(IN_BOTH, 0) } },
    { "the same range in both", 2, { { 1, 256 * IN_0, 256 * (IN_NONE - IN_0), 1, 1 }, { 1, 256 * IN_0, 256 * (IN_NONE - IN_0), 1, 0 } } },
    [ALL_OF_BOTH] = { "all of both", 2, { EVERYWHERE(1, 0), EVERYWHERE(1, 1) } },
    { "all of memory 1", 2, { AROUND(IN_0, 0), EVERYWHERE(1, 1) } },
    [OTHER_ROLES] = { "other roles alone", 2, { EVERYWHERE(2, 0), EVERYWHERE(3, 0) } },
    { "other roles and memory 1", 3, { EVERYWHERE(3, 0), AROUND(IN_1, 1), EVERYWHERE(2, 0) } },
    { "no room in memory 1", 2, { AROUND(IN_0, 0), { 1, 256 * IN_0, 0x1000, 0x1001, 1 } } }
};

enum { LISTS = sizeof lists / sizeof *lists };

static uint8_t grant_bytes[(MOST_GRANTS + 6) * GRANT_BYTES];

static struct bytes lend_grants(const struct list *list)
{
    for (size_t i = 0; i < list->count; i++) {
        struct grant grant = list->grant[i];
        put_words(grant_bytes + GRANT_BYTES * i, (const uint32_t[]){ grant.role, grant.start, grant.length, grant.reach, grant.memory },
                  GRANT_WORDS);
    }
    return (struct bytes){ grant_bytes, GRANT_BYTES * list->count };
}

/* ---- the judgement: whole numbers, in 64 bits */

/* The lowest grant that admits the address of a value in a memory. */
static uint32_t admitting(const struct list *list, uint32_t value, uint32_t memory)
{
    uint64_t address = 256 * (uint64_t)value;
    for (uint32_t i = 0; i < list->count; i++) {
        struct grant grant = list->grant[i];
        uint64_t end = (uint64_t)grant.start + grant.length;
        if (grant.role == 1 && grant.memory == memory && grant.start <= address && address + grant.reach <= end)
            return i;
    }
    return NO_GRANT;
}

static int is_marked(const uint8_t *state, size_t cell)
{
    return get_word(state, CELLS + cell) == 1;
}

static uint32_t memory_in(const uint8_t *state)
{
    return is_marked(state, MEMORY_CELL) ? memory_named(get_word(state, MEMORY_CELL)) : 0;
}

static uint32_t admitting_in(const struct list *list, const uint8_t *state)
{
    return is_marked(state, ADDRESS_CELL) ? admitting(list, get_word(state, ADDRESS_CELL), memory_in(state)) : NO_GRANT;
}

static int is_good_pair(const struct list *list, const uint8_t *state)
{
    return !is_marked(state, ADDRESS_CELL) || admitting_in(list, state) != NO_GRANT;
}

/* ---- batches: words, each with the cell that it writes */

enum { MOST_WORDS = 16 };

struct batch {
    uint32_t word[MOST_WORDS];
    int cell[MOST_WORDS];
    size_t words;
};

static void add_word(struct batch *batch, uint32_t word, int cell)
{
    batch->word[batch->words] = word;
    batch->cell[batch->words++] = cell;
}

static void add_packet(struct batch *batch, uint32_t parameters)
{
    add_word(batch, (parameters + 1) << 16 | 0x043c, NO_CELL);
    add_word(batch, 0x00010000, NO_CELL);
}

struct judged {
    uint64_t answer;
    uint8_t after[STATE_BYTES];
    int wrote_address, wrote_memory;
    int was_bad, was_good; /* the pair, behind some word before the last */
};

static uint64_t answer_at(size_t place, unsigned reason)
{
    return (uint64_t)place * 256 + reason;
}

/* What the batch makes of the state; its headers and settings are right. */
static void judge(struct judged *judged, const struct batch *batch, const struct list *list, const uint8_t *before)
{
    *judged = (struct judged){ .answer = (uint64_t)batch->words * 256 };
    memcpy(judged->after, before, STATE_BYTES);
    for (size_t i = 0; i < batch->words; i++) {
        uint32_t value = batch->word[i] & 0xffffff;
        if (batch->cell[i] == NO_CELL)
            continue;
        if (batch->cell[i] == ADDRESS_CELL && admitting(list, value, 0) == NO_GRANT && admitting(list, value, 1) == NO_GRANT) {
            judged->answer = answer_at(i, IRANGELDA_NOT_GRANTED);
            return;
        }
        set_cell(judged->after, (size_t)batch->cell[i], value);
        judged->wrote_address |= batch->cell[i] == ADDRESS_CELL;
        judged->wrote_memory |= batch->cell[i] == MEMORY_CELL;
        judged->was_bad |= i + 1 < batch->words && !is_good_pair(list, judged->after);
        judged->was_good |= i + 1 < batch->words && is_good_pair(list, judged->after);
    }
    if ((judged->wrote_address || judged->wrote_memory) && !is_good_pair(list, judged->after))
        judged->answer = answer_at(batch->words, IRANGELDA_BAD_PAIR);
}

/* ---- the calls */

static struct outcome outcome;

static const uint8_t *state_of(const struct request *request)
{
    return request->lent[request->kind == READ ? LAST : 0].at;
}

static void answers(const struct party *party, const char *what, const struct request *request, uint64_t answer)
{
    const uint8_t *state = state_of(request);
    perform(party, request, &outcome);
    expect(outcome.answer == answer, "%s %s, %s, where cells 1 and 2 hold %x and %x: reason %u place %u, not %u %u", party->name,
           kind_names[request->kind], what, (unsigned)get_word(state, ADDRESS_CELL), (unsigned)get_word(state, MEMORY_CELL),
           (unsigned)IRANGELDA_REASON(outcome.answer), (unsigned)IRANGELDA_PLACE(outcome.answer), (unsigned)IRANGELDA_REASON(answer),
           (unsigned)IRANGELDA_PLACE(answer));
}

static void all_answer(const char *what, const struct request *request, uint64_t answer)
{
    for (size_t p = 0; p < PARTIES; p++)
        answers(&parties[p], what, request, answer);
}

/* And the state or the words that they leave. */
static void all_leave(const char *what, const struct request *request, uint64_t answer, const uint8_t *left, size_t length)
{
    for (size_t p = 0; p < PARTIES; p++) {
        answers(&parties[p], what, request, answer);
        expect(memcmp(outcome.after, left, length) == 0, "%s %s, %s: left something else", parties[p].name, kind_names[request->kind],
               what);
    }
}

/* ---- states */

/* What 01.00.50 and 01.00.51 can hold before a batch; the first stands for nothing. */
static const uint32_t addresses[] = { 0, IN_0, IN_1, IN_BOTH, IN_NONE, 0x01000000 | IN_0, 0x80000000 | IN_1, 0xffffffff };
static const uint32_t memories[] = {
    0, 0x00000000, 0x00100000, 0x00200000, 0x00300000, 0x00c00000, 0x00d00000, 0xff0fffff, 0xff1fffff, 0xffefffff, 0xffffffff
};

enum { ADDRESSES = sizeof addresses / sizeof *addresses, MEMORIES = sizeof memories / sizeof *memories, STATES = ADDRESSES * MEMORIES };

static void put_pair(uint8_t *state, size_t number)
{
    if (number % ADDRESSES != 0)
        set_cell(state, ADDRESS_CELL, addresses[number % ADDRESSES]);
    if (number / ADDRESSES != 0)
        set_cell(state, MEMORY_CELL, memories[number / ADDRESSES]);
}

/* ---- the reader: every state, every list, every row of up to three writes */

enum { LETTERS = 7, MOST_WRITES = 3, ROWS = LETTERS * LETTERS * LETTERS };

static const struct {
    int cell;
    uint32_t word;
} letters[LETTERS] = {
    { ADDRESS_CELL, 0x50000000 | IN_0 }, { ADDRESS_CELL, 0x50000000 | IN_1 }, { ADDRESS_CELL, 0x50000000 | IN_BOTH },
    { ADDRESS_CELL, 0x50000000 | IN_NONE }, { MEMORY_CELL, 0x51000000 }, { MEMORY_CELL, 0x51100000 }, { 0, 0x3f400400 }
};

/* The writes in one packet, or each in a packet of its own. */
static struct batch row_of(size_t row, uint32_t writes, int apart)
{
    struct batch batch = { .words = 0 };
    for (uint32_t i = 0; i < writes; i++, row /= LETTERS) {
        if (i == 0 || apart)
            add_packet(&batch, apart ? 1 : writes);
        add_word(&batch, letters[row % LETTERS].word, letters[row % LETTERS].cell);
    }
    return batch;
}

/* What there was among them. */
enum sort {
    TAKEN_IN_0, TAKEN_IN_1, TAKEN_WITHOUT_ADDRESS, TAKEN_BESIDE_A_BAD_PAIR, TAKEN_AFTER_A_BAD_PAIR, BAD_BY_ADDRESS, BAD_BY_MEMORY,
    BAD_BY_BOTH, BAD_AS_IT_WAS, BAD_AFTER_A_GOOD_PAIR, BAD_IN_NO_MEMORY, BAD_PAST_MEMORY, NOT_GRANTED, SORTS
};

static const char *const sort_names[SORTS] = {
    "accepted in memory 0", "accepted in memory 1", "accepted without an address", "accepted beside a bad pair that it does not write",
    "accepted, and the pair was bad in between", "14, the address is written", "14, the memory is written", "14, both are written",
    "14, and nothing would change", "14, and the pair was good in between", "14, in a memory that there is not",
    "14, the address is past 2^32", "9"
};

static unsigned long sorted[SORTS];

static void sort_taken(const struct judged *judged, const struct list *list)
{
    int wrote = judged->wrote_address || judged->wrote_memory, has_address = is_marked(judged->after, ADDRESS_CELL);
    sorted[TAKEN_IN_0] += wrote && has_address && memory_in(judged->after) == 0;
    sorted[TAKEN_IN_1] += wrote && has_address && memory_in(judged->after) == 1;
    sorted[TAKEN_WITHOUT_ADDRESS] += wrote && !has_address;
    sorted[TAKEN_BESIDE_A_BAD_PAIR] += !wrote && !is_good_pair(list, judged->after);
    sorted[TAKEN_AFTER_A_BAD_PAIR] += wrote && judged->was_bad;
}

static void sort_bad(const struct judged *judged, const uint8_t *before)
{
    sorted[BAD_BY_ADDRESS] += !judged->wrote_memory;
    sorted[BAD_BY_MEMORY] += !judged->wrote_address;
    sorted[BAD_BY_BOTH] += judged->wrote_address && judged->wrote_memory;
    sorted[BAD_AS_IT_WAS] += memcmp(judged->after, before, STATE_BYTES) == 0;
    sorted[BAD_AFTER_A_GOOD_PAIR] += judged->was_good;
    sorted[BAD_IN_NO_MEMORY] += memory_in(judged->after) > 1;
    sorted[BAD_PAST_MEMORY] += get_word(judged->after, ADDRESS_CELL) > 0xffffff;
}

static void sort_judged(const struct judged *judged, const struct list *list, const uint8_t *before)
{
    switch (IRANGELDA_REASON(judged->answer)) {
    case IRANGELDA_OK:
        sort_taken(judged, list);
        break;
    case IRANGELDA_BAD_PAIR:
        sort_bad(judged, before);
        break;
    default:
        sorted[NOT_GRANTED]++;
    }
}

static void read_batch(const struct batch *batch, const struct list *list, const uint8_t *before)
{
    static struct judged judged;
    uint8_t bytes[4 * MOST_WORDS];
    judge(&judged, batch, list, before);
    sort_judged(&judged, list, before);
    put_words(bytes, batch->word, batch->words);
    struct request request = { READ, { { bytes, 4 * batch->words }, lend_grants(list), { before, STATE_BYTES } } };
    int taken = IRANGELDA_REASON(judged.answer) == IRANGELDA_OK;
    all_leave(list->name, &request, judged.answer, taken ? judged.after : before, STATE_BYTES);
}

static void read_rows(const struct list *list, const uint8_t *before)
{
    size_t rows = 1;
    for (uint32_t writes = 0; writes <= MOST_WRITES; writes++, rows *= LETTERS)
        for (size_t row = 0; row < rows; row++)
            for (int apart = 0; apart <= (writes > 1); apart++) {
                struct batch batch = row_of(row, writes, apart);
                read_batch(&batch, list, before);
            }
}

static void every_reading(void)
{
    for (size_t number = 0; number < STATES; number++) {
        uint8_t before[STATE_BYTES] = { 0 };
        set_cell(before, 3, 0x890000);
        set_cell(before, 100, 0x10);
        put_pair(before, number);
        for (size_t i = 0; i < LISTS; i++)
            read_rows(&lists[i], before);
    }
    printf("pairs that were read:\n");
    for (int i = 0; i < SORTS; i++) {
        printf("%12lu %s\n", sorted[i], sort_names[i]);
        expect(sorted[i] > 0, "pairs: \"%s\" never came", sort_names[i]);
    }
}

/* ---- every other register: the pair is not looked at, whatever is there */

static void write_other(size_t cell, const uint8_t *before)
{
    struct reg reg = reg_at(cell);
    uint32_t value = role_of(cell) == NO_ROLE ? value_without_address(cell, 0) : value_with_address(cell, 0x00100000);
    uint8_t bytes[12], after[STATE_BYTES];
    size_t words = cell < CELLS_3D ? 3 : 2;
    if (cell < CELLS_3D)
        put_words(bytes, (const uint32_t[]){ 0x0002043c, reg.setting, reg.sub_address << 24 | value }, 3);
    else
        put_words(bytes, (const uint32_t[]){ 0x00010000 | reg.offset, value }, 2);
    memcpy(after, before, STATE_BYTES);
    set_cell(after, cell, value);
    struct request request = { READ, { { bytes, 4 * words }, lend_grants(&lists[OTHER_ROLES]), { before, STATE_BYTES } } };
    all_leave("another register", &request, answer_at(words, 0), after, STATE_BYTES);
}

static void other_registers(void)
{
    for (size_t number = 0; number < STATES; number++)
        for (size_t cell = 0; cell < CELLS; cell++) {
            uint8_t before[STATE_BYTES] = { 0 };
            put_pair(before, number);
            if (cell != ADDRESS_CELL && cell != MEMORY_CELL)
                write_other(cell, before);
        }
}

/* ---- what goes before 14 */

/* Words behind a pair that is bad, and the answer: places are counted from the first of them. */
static const struct {
    const char *name;
    size_t words;
    uint32_t word[4];
    unsigned reason;
    size_t place;
} tails[] = {
    { "nothing", 0, { 0 }, 14, 0 },
    { "a video packet", 2, { 0x00012208, 0x00000007 }, 14, 2 },
    { "another register", 3, { 0x0002043c, 0x00010000, 0x3f400400 }, 14, 3 },
    { "the same memory again", 3, { 0x0002043c, 0x00010000, 0x51100000 }, 14, 3 },
    { "the memory that grants it", 3, { 0x0002043c, 0x00010000, 0x51000000 }, 0, 3 },
    { "an address that is granted", 3, { 0x0002043c, 0x00010000, 0x50000000 | IN_1 }, 0, 3 },
    { "3", 1, { 0x00010440 }, 3, 0 },
    { "4", 1, { 0x00002208 }, 4, 0 },
    { "4 in 3D", 1, { 0x0001043c }, 4, 0 },
    { "5", 2, { 0x0002043c, 0x00030000 }, 5, 1 },
    { "6", 3, { 0x0002043c, 0x00010000, 0x53000000 }, 6, 2 },
    { "7", 3, { 0x0002043c, 0x00010000, 0x51000001 }, 7, 2 },
    { "7 before 8", 3, { 0x0002043c, 0x00010000, 0x51300001 }, 7, 2 },
    { "8, memory 2", 3, { 0x0002043c, 0x00010000, 0x51200000 }, 8, 2 },
    { "8, memory 3", 3, { 0x0002043c, 0x00010000, 0x51f00000 }, 8, 2 },
    { "9", 3, { 0x0002043c, 0x00010000, 0x50000000 | IN_NONE }, 9, 2 },
    { "9, and a word is missing", 3, { 0x0003043c, 0x00010000, 0x50000000 | IN_NONE }, 9, 2 },
    { "10 behind a header", 1, { 0x0002043c }, 10, 1 },
    { "10 behind a video header", 1, { 0x00022208 }, 10, 1 },
    { "10 behind a setting", 2, { 0x0002043c, 0x00010000 }, 10, 2 },
    { "10 behind the same memory again", 3, { 0x0003043c, 0x00010000, 0x51100000 }, 10, 3 },
    { "10 behind the memory that grants it", 3, { 0x0003043c, 0x00010000, 0x51000000 }, 10, 3 }
};

/* A bad pair under the list of both memories: written at once, or made of what is there and what is written. */
static const struct {
    uint32_t address, memory; /* before; 0 is unmarked */
    size_t words;
    uint32_t word[4];
} heads[] = {
    { 0, 0, 4, { 0x0003043c, 0x00010000, 0x51100000, 0x50000000 | IN_0 } },
    { IN_0, 0, 3, { 0x0002043c, 0x00010000, 0x51100000 } },
    { 0, 0x00100000, 3, { 0x0002043c, 0x00010000, 0x50000000 | IN_0 } }
};


static void before_14(void)
{
    for (size_t h = 0; h < sizeof heads / sizeof *heads; h++)
        for (size_t t = 0; t < sizeof tails / sizeof *tails; t++) {
            uint8_t bytes[4 * 8], before[STATE_BYTES] = { 0 };
            size_t words = heads[h].words + tails[t].words;
            put_words(bytes, heads[h].word, heads[h].words);
            put_words(bytes + 4 * heads[h].words, tails[t].word, tails[t].words);
            if (heads[h].address != 0)
                set_cell(before, ADDRESS_CELL, heads[h].address);
            if (heads[h].memory != 0)
                set_cell(before, MEMORY_CELL, heads[h].memory);
            struct request request = { READ, { { bytes, 4 * words }, lend_grants(&lists[BOTH_MEMORIES]), { before, STATE_BYTES } } };
            all_answer(tails[t].name, &request, answer_at(heads[h].words + tails[t].place, tails[t].reason));
        }
}

/* 13, 1 and 2 before all of it. */
static void before_all(void)
{
    uint8_t bytes[16], before[STATE_BYTES] = { 0 }, bad_state[STATE_BYTES] = { 0 };
    put_words(bytes, heads[0].word, 4);
    put_word(bad_state, 50, 1);
    struct request request = { READ, { { bytes, 16 }, lend_grants(&lists[BOTH_MEMORIES]), { before, STATE_BYTES } } };
    all_answer("14", &request, answer_at(4, 14));
    request.lent[1].length -= 4;
    all_answer("2 before 14", &request, 2);
    request.lent[LAST].at = bad_state;
    all_answer("1 before 2", &request, 1);
    request.lent[0].length -= 1;
    all_answer("13 before 1", &request, 13);
}

/* ---- the place is the length of the batch, however long it is and wherever the pair stands in it */

static uint8_t long_batch[IRANGELDA_BUFFER_BYTES_MAX];

/* Each of them answers where the next word comes. */
static size_t put_write(size_t at, uint32_t word)
{
    put_words(long_batch + 4 * at, (const uint32_t[]){ 0x0002043c, 0x00010000, word }, 3);
    return at + 3;
}

static size_t put_filler(size_t at, size_t words)
{
    for (size_t end = at + words; at < end; at += 2)
        put_words(long_batch + 4 * at, (const uint32_t[]){ 0x00012208, 0x00000007 }, 2);
    return at;
}

static void read_long(size_t length, size_t between)
{
    static const uint8_t empty[STATE_BYTES];
    size_t at = put_write(put_filler(put_write(0, 0x50000000 | IN_0), between), 0x51100000);
    put_filler(at, length - at);
    struct request request = { READ, { { long_batch, 4 * length }, lend_grants(&lists[BOTH_MEMORIES]), { empty, STATE_BYTES } } };
    all_answer("a long batch", &request, answer_at(length, 14));
    request.lent[1] = lend_grants(&lists[ALL_OF_BOTH]);
    all_answer("a long batch that is granted", &request, answer_at(length, 0));
}

static void long_batches(void)
{
    static const size_t lengths[] = { 6, 8, 10, 64, 128, 254, 256, 258, 512, 1024, 4096, 8192, 16382, 16384 };
    for (size_t i = 0; i < sizeof lengths / sizeof *lengths; i++)
        for (size_t quarter = 0; quarter <= 4; quarter++)
            read_long(lengths[i], (lengths[i] - 6) * quarter / 8 * 2);
}

/* ---- the size and the writer: 12 at the lowest cell that cannot be written, and cell 1 cannot be where the pair is bad */

/* What cell 0 holds: nothing, a value that may be written, and one that may not. */
static const uint32_t first_values[] = { 0, 0x400400, 0x401000 };

enum { FIRST_VALUES = sizeof first_values / sizeof *first_values, BAD_FIRST = FIRST_VALUES - 1 };

static int is_good_memory(const uint8_t *state)
{
    uint32_t value = get_word(state, MEMORY_CELL);
    return !is_marked(state, MEMORY_CELL) || (value <= 0xffffff && (value & 0x0fffff) == 0 && memory_named(value) <= 1);
}

/* The words of cells 0 to 2. */
static size_t words_of(const uint8_t *state, uint32_t *words)
{
    static const uint32_t sub_addresses[] = { 0x3f000000, 0x50000000, 0x51000000 };
    size_t count = 2;
    for (size_t cell = 0; cell <= MEMORY_CELL; cell++)
        if (is_marked(state, cell))
            words[count++] = sub_addresses[cell] | get_word(state, cell);
    words[0] = (uint32_t)(count - 1) << 16 | 0x043c;
    words[1] = 0x00010000;
    return count == 2 ? 0 : count;
}

static void leads_back(const struct list *list, const uint8_t *state, const uint8_t *words, size_t count)
{
    static const uint8_t empty[STATE_BYTES];
    struct request request = { READ, { { words, 4 * count }, lend_grants(list), { empty, STATE_BYTES } } };
    all_leave(list->name, &request, answer_at(count, 0), state, STATE_BYTES);
}

static void write_state(const struct list *list, const uint8_t *state, size_t first)
{
    uint32_t words[5];
    uint8_t expected[20], out[20];
    size_t count = words_of(state, words);
    memset(out, 0xee, sizeof out);
    memset(expected, 0xee, sizeof expected);
    struct request request = { WRITE, { { state, STATE_BYTES }, lend_grants(list), { out, sizeof out } } }, size = size_for(&request);
    if (first == BAD_FIRST || !is_good_pair(list, state) || !is_good_memory(state)) {
        size_t cell = first == BAD_FIRST ? 0 : is_good_pair(list, state) ? MEMORY_CELL : ADDRESS_CELL;
        all_answer(list->name, &size, answer_at(cell, IRANGELDA_NOT_WRITABLE));
        all_leave(list->name, &request, answer_at(cell, IRANGELDA_NOT_WRITABLE), expected, sizeof expected);
        request.lent[LAST].length = 0;
        all_answer("12 before 11", &request, answer_at(cell, IRANGELDA_NOT_WRITABLE));
        return;
    }
    put_words(expected, words, count);
    all_answer(list->name, &size, answer_at(count, 0));
    all_leave(list->name, &request, answer_at(count, 0), expected, sizeof expected);
    leads_back(list, state, expected, count);
}

static void every_writing(void)
{
    for (size_t number = 0; number < STATES; number++)
        for (size_t first = 0; first < FIRST_VALUES; first++)
            for (size_t i = 0; i < LISTS; i++) {
                uint8_t state[STATE_BYTES] = { 0 };
                if (first != 0)
                    set_cell(state, 0, first_values[first]);
                put_pair(state, number);
                write_state(&lists[i], state, first);
            }
}

/* ---- the query: the lowest grant in the memory that is named */

static void every_query(void)
{
    for (size_t number = 0; number < STATES; number++)
        for (size_t i = 0; i < LISTS; i++) {
            uint8_t state[STATE_BYTES] = { 0 };
            put_pair(state, number);
            struct request request = { WHICH_GRANT, { { state, STATE_BYTES }, lend_grants(&lists[i]), { NULL, ADDRESS_CELL } } };
            all_answer(lists[i].name, &request, answer_at(admitting_in(&lists[i], state), 0));
        }
}

/* ---- a pair under a list: all four calls */

static void ask_all(const struct list *list, uint32_t value, uint32_t memory)
{
    static const uint8_t empty[STATE_BYTES];
    uint8_t batch[16], state[STATE_BYTES] = { 0 }, out[16] = { 0 };
    uint32_t number = admitting(list, value, memory);
    struct bytes grants = lend_grants(list);
    put_words(batch, (const uint32_t[]){ 0x0003043c, 0x00010000, 0x50000000 | value, 0x51000000 | memory << MEMORY_AT }, 4);
    set_cell(state, ADDRESS_CELL, value);
    set_cell(state, MEMORY_CELL, memory << MEMORY_AT);
    struct request read = { READ, { { batch, 16 }, grants, { empty, STATE_BYTES } } };
    struct request write = { WRITE, { { state, STATE_BYTES }, grants, { out, 16 } } }, size = size_for(&write);
    struct request query = { WHICH_GRANT, { { state, STATE_BYTES }, grants, { NULL, ADDRESS_CELL } } };
    int somewhere = admitting(list, value, 0) != NO_GRANT || admitting(list, value, 1) != NO_GRANT;
    if (number != NO_GRANT) {
        all_leave(list->name, &read, answer_at(4, 0), state, STATE_BYTES);
        all_answer(list->name, &size, answer_at(4, 0));
        all_leave(list->name, &write, answer_at(4, 0), batch, 16);
    } else {
        all_leave(list->name, &read, somewhere ? answer_at(4, 14) : answer_at(2, 9), empty, STATE_BYTES);
        all_answer(list->name, &size, answer_at(ADDRESS_CELL, 12));
        all_leave(list->name, &write, answer_at(ADDRESS_CELL, 12), out, 16);
    }
    all_answer(list->name, &query, answer_at(number, 0));
}

/* ---- one grant that admits the address in its memory, at each place of a list of 64; the others do not, but mostly elsewhere */

static struct grant other_grant(uint32_t memory, uint32_t turn)
{
    static const struct grant others[] = {
        EVERYWHERE(2, 0), EVERYWHERE(3, 0), AROUND(IN_1, 0), AROUND(IN_NONE, 1), { 1, 256 * IN_0, 0x1000, 0x1001, 0 },
        { 1, 256 * IN_0, 0, 1, 1 }
    };
    uint32_t kinds = sizeof others / sizeof *others;
    return turn % (kinds + 1) < kinds ? others[turn % (kinds + 1)] : (struct grant)AROUND(IN_0, 1 - memory);
}

static void each_place(uint32_t memory)
{
    static struct list list = { "one of 64", MOST_GRANTS, { AROUND(0, 0) } };
    for (uint32_t place = 0; place < MOST_GRANTS; place++) {
        for (uint32_t i = 0; i < MOST_GRANTS; i++)
            list.grant[i] = other_grant(memory, i + place);
        list.grant[place] = (struct grant)AROUND(IN_0, memory);
        ask_all(&list, IN_0, memory);
        list.grant[place].memory = 1 - memory;
        ask_all(&list, IN_0, memory);
        list.grant[place].memory = memory;
        list.count = place;
        ask_all(&list, IN_0, memory);
        list.count = MOST_GRANTS;
    }
}

/* As many grants of one memory as a list holds, and none of the other. */
static void full_lists(uint32_t memory)
{
    static struct list list = { "64 of one memory", MOST_GRANTS, { AROUND(0, 0) } };
    for (uint32_t i = 0; i < MOST_GRANTS; i++)
        list.grant[i] = (struct grant)AROUND(0x100 * i, memory);
    for (uint32_t i = 0; i <= MOST_GRANTS; i++) {
        ask_all(&list, 0x100 * i, memory);
        ask_all(&list, 0x100 * i, 1 - memory);
    }
}

/* ---- both ends of a grant, where the other memory is granted as a whole */

static void both_ends(uint32_t memory)
{
    static const struct grant edges[] = {
        { 1, 0x00100000, 0x2000, 0x100, 0 }, { 1, 0x00100001, 0x2000, 0x100, 0 }, { 1, 0x000fffff, 0x2000, 0x100, 0 },
        { 1, 0x00100000, 0x1fff, 0x100, 0 }, { 1, 0x00100000, 0x2001, 0x100, 0 }, { 1, 0x00100000, 0x2000, 0x101, 0 },
        { 1, 0x00100000, 0x2000, 0x2000, 0 }, { 1, 0x00100000, 0x2000, 0x2001, 0 }, { 1, 0x00100000, 1, 1, 0 }, { 1, 0x00100000, 0, 1, 0 },
        { 1, 0, 0x100, 0x100, 0 }, { 1, 0, ALL_MEMORY, 0xffffffff, 0 }, { 1, 0, ALL_MEMORY, 0xffffff00, 0 },
        { 1, 1, ALL_MEMORY, 0x100, 0 }, { 1, 1, ALL_MEMORY, 0x101, 0 }, { 1, 0xffffff00, 0x100, 0x100, 0 },
        { 1, 0xffffff00, 0x100, 0x101, 0 }, { 1, 0x80000000, 0x80000000, 0x7fffff00, 0 }
    };
    for (size_t i = 0; i < sizeof edges / sizeof *edges; i++) {
        struct list list = { "both ends", 2, { EVERYWHERE(1, 1 - memory), edges[i] } };
        list.grant[1].memory = memory;
        for (uint32_t near = 0; near < 5; near++) {
            uint32_t last = edges[i].start + edges[i].length - edges[i].reach;
            ask_all(&list, (edges[i].start / 256 + near - 2) & 0xffffff, memory);
            ask_all(&list, (last / 256 + near - 2) & 0xffffff, memory);
        }
    }
}

/* Half in a grant of one memory, half in one of the other: nowhere as a whole. */
static void half_in_each(void)
{
    static const struct list list = { "half in each", 2, { { 1, 0x000fff00, 0x180, 0x100, 0 }, { 1, 0x00100080, 0x180, 0x100, 1 } } };
    for (uint32_t value = 0x0ffe; value <= 0x1002; value++) {
        ask_all(&list, value, 0);
        ask_all(&list, value, 1);
    }
}

/* ---- the rules of the list: memory is 0 or 1, and 0 for a scaler */

static const enum kind kinds_with_grants[] = { READ, SIZE, WRITE, WHICH_GRANT };

/* From the empty state every call answers 0, and the query 64, if the list is right. */
static void with_list(const char *what, struct bytes grants, int is_right)
{
    static const uint8_t empty[STATE_BYTES], out[4];
    for (size_t i = 0; i < sizeof kinds_with_grants / sizeof *kinds_with_grants; i++) {
        struct request request = { kinds_with_grants[i], { { empty, STATE_BYTES }, grants, { out, 0 } } };
        if (request.kind == READ) {
            request.lent[0] = (struct bytes){ out, 0 };
            request.lent[LAST] = (struct bytes){ empty, STATE_BYTES };
        }
        all_answer(what, &request, is_right ? answer_at(request.kind == WHICH_GRANT ? NO_GRANT : 0, 0) : IRANGELDA_BAD_GRANTS);
    }
}

static void memories_of_grants(void)
{
    static const uint32_t memories_told[] = { 0, 1, 2, 3, 4, 0x100, 0x101, 0x10000, 0x10001, 0x80000000, 0x80000001, 0xffffffff };
    static struct list list = { "memories", MOST_GRANTS, { AROUND(0, 0) } };
    for (uint32_t place = 0; place < MOST_GRANTS; place++)
        for (uint32_t role = 0; role <= 4; role++)
            for (size_t k = 0; k < sizeof memories_told / sizeof *memories_told; k++) {
                uint32_t memory = memories_told[k];
                for (uint32_t i = 0; i < MOST_GRANTS; i++)
                    list.grant[i] = (struct grant)EVERYWHERE(1 + i % 3, i % 3 == 0 ? i / 3 % 2 : 0);
                list.grant[place] = (struct grant)EVERYWHERE(role, memory);
                with_list("a memory", lend_grants(&list), (role == 1 && memory <= 1) || ((role == 2 || role == 3) && memory == 0));
            }
}

/* Every length in whole words: 20 bytes for each of 0 to 64 grants, and no other. Every word is 1, so that a grant is right wherever it
   begins. */
static void lengths_of_lists(void)
{
    for (size_t i = 0; i < sizeof grant_bytes / 4; i++)
        put_word(grant_bytes, i, 1);
    for (size_t length = 0; length <= sizeof grant_bytes; length += 4)
        with_list("a length", (struct bytes){ grant_bytes, length }, length % 20 == 0 && length <= 1280);
}

void pairs(void)
{
    every_reading();
    other_registers();
    before_14();
    before_all();
    long_batches();
    every_writing();
    every_query();
    for (uint32_t memory = 0; memory <= 1; memory++) {
        each_place(memory);
        full_lists(memory);
        both_ends(memory);
    }
    half_in_each();
    memories_of_grants();
    lengths_of_lists();
}
