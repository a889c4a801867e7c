/* The query: which grant it names, and when it names none. The answers are written down or come from the rules as a plain loop, and
   those that are written down are held to the loop as well. */
#include "cases.h"
#include "chance.h"
#include "check.h"
#include "lent.h"
#include "making.h"
#include "registers.h"
#include "words.h"
#include <stdio.h>
#include <string.h>

enum { NO_GRANT = IRANGELDA_NO_GRANT, MOST_GRANTS = IRANGELDA_GRANTS_MAX, ADDRESS_CELLS = 7 };

#define ALL_MEMORY 0xffffffff /* but a byte: the longest length */

static const uint32_t address_cells[ADDRESS_CELLS] = { 1, 89, 90, 93, 96, 97, 100 };

/* Numbers that no cell has: behind the last cell; where a mark lies, for a callee that looks there; and those that are a cell's in 8,
   16 or 30 bits, or with a sign. */
static const uint32_t no_cells[] = {
    101, 102, 103, 127, 128, 190, 191, 194, 197, 198, 201, 202, 203, 255, 256, 257, 345, 356, 404, 808, 0xffff, 0x10000, 0x10001,
    0x10059, 0x10064, 0x1000001, 0x3fffffff, 0x40000000, 0x40000001, 0x40000059, 0x40000064, 0x7fffffff, 0x80000000, 0x80000001,
    0x80000059, 0x80000064, 0xc0000001, 0xffffff01, 0xffffff9b, 0xfffffffe, 0xffffffff
};

enum { NO_CELLS = sizeof no_cells / sizeof *no_cells };

/* ---- the rules: whole numbers, in 64 bits */

static const uint64_t memory_end = (uint64_t)1 << 32;

struct grant {
    uint32_t role, start, length, reach, memory;
};

static struct grant grant_at(const uint8_t *list, size_t number)
{
    const uint8_t *words = list + GRANT_BYTES * number;
    return (struct grant){ get_word(words, 0), get_word(words, 1), get_word(words, 2), get_word(words, 3), get_word(words, 4) };
}

static int has_room(struct grant grant)
{
    return grant.reach <= grant.length;
}

static int covers(struct grant grant, uint64_t address)
{
    return grant.start <= address && address + grant.reach <= (uint64_t)grant.start + grant.length;
}

static uint64_t address_in(uint32_t cell, uint32_t value)
{
    return cell == 1 ? (uint64_t)value * 256 : value / 16 % 0x2000000 * 16;
}

static int is_word_buffer(struct bytes bytes)
{
    return bytes.length <= IRANGELDA_BUFFER_BYTES_MAX && bytes.length % 4 == 0;
}

static int is_state(struct bytes bytes)
{
    if (bytes.length != STATE_BYTES)
        return 0;
    for (size_t cell = 0; cell < CELLS; cell++) {
        uint32_t value = get_word(bytes.at, cell), mark = get_word(bytes.at, CELLS + cell);
        if (mark > 1 || (mark == 0 && value != 0))
            return 0;
    }
    return 1;
}

static int is_grant_list(struct bytes bytes)
{
    if (bytes.length % GRANT_BYTES != 0 || bytes.length / GRANT_BYTES > MOST_GRANTS)
        return 0;
    for (size_t i = 0; i < bytes.length / GRANT_BYTES; i++) {
        struct grant grant = grant_at(bytes.at, i);
        if (grant.role < 1 || grant.role > 3 || (uint64_t)grant.start + grant.length > memory_end || grant.reach == 0)
            return 0;
        if (grant.memory > 1 || (grant.role != 1 && grant.memory != 0))
            return 0;
    }
    return 1;
}

/* The memory in which the address of a cell has to be granted: 2 and 3 are no grant's. */
static uint32_t memory_for(const uint8_t *of, uint32_t cell)
{
    return cell == ADDRESS_CELL ? memory_named(get_word(of, MEMORY_CELL)) : 0;
}

static int is_for(struct grant grant, const uint8_t *of, uint32_t cell)
{
    return grant.role == role_of(cell) && grant.memory == memory_for(of, cell);
}

/* Of a state and a list that are fine. */
static uint32_t named(const uint8_t *of, struct bytes list, uint32_t cell)
{
    if (cell >= CELLS || get_word(of, CELLS + cell) == 0 || role_of(cell) == NO_ROLE)
        return NO_GRANT;
    uint64_t address = address_in(cell, get_word(of, cell));
    for (uint32_t i = 0; i < list.length / GRANT_BYTES; i++)
        if (is_for(grant_at(list.at, i), of, cell) && covers(grant_at(list.at, i), address))
            return i;
    return NO_GRANT;
}

static uint64_t by_the_rules(const struct request *request)
{
    if (!is_word_buffer(request->lent[0]) || !is_word_buffer(request->lent[1]))
        return IRANGELDA_BAD_BUFFER;
    if (!is_state(request->lent[0]))
        return IRANGELDA_BAD_STATE;
    if (!is_grant_list(request->lent[1]))
        return IRANGELDA_BAD_GRANTS;
    return (uint64_t)named(request->lent[0].at, request->lent[1], (uint32_t)request->lent[2].length) * 256;
}

/* ---- the calls */

static struct outcome outcome;

/* The state and the grants that are being asked about. */
static uint8_t state[STATE_BYTES], grants[IRANGELDA_GRANTS_BYTES_MAX];
static size_t count;

static void begin(void)
{
    memset(state, 0, sizeof state);
    count = 0;
}

static void add_grant_in(uint32_t memory, uint32_t role, uint32_t start, uint32_t length, uint32_t reach)
{
    put_words(grants + GRANT_BYTES * count++, (const uint32_t[]){ role, start, length, reach, memory }, GRANT_WORDS);
}

static void add_grant(uint32_t role, uint32_t start, uint32_t length, uint32_t reach)
{
    add_grant_in(0, role, start, length, reach);
}

static void name_memory(uint32_t memory)
{
    set_cell(state, MEMORY_CELL, memory << MEMORY_AT);
}

static void all_answer(const char *what, const struct request *request, uint64_t answer)
{
    size_t cell = request->lent[2].length;
    expect(by_the_rules(request) == answer, "the rules, %s, cell %zx: not %llx", what, cell, (unsigned long long)answer);
    for (size_t p = 0; p < PARTIES; p++) {
        perform(&parties[p], request, &outcome);
        expect(outcome.answer == answer, "%s, %s, cell %zx: reason %u place %u, not %u %u", parties[p].name, what, cell,
               (unsigned)IRANGELDA_REASON(outcome.answer), (unsigned)IRANGELDA_PLACE(outcome.answer),
               (unsigned)IRANGELDA_REASON(answer), (unsigned)IRANGELDA_PLACE(answer));
    }
}

static struct request asking(uint32_t cell)
{
    return (struct request){ WHICH_GRANT, { { state, STATE_BYTES }, { grants, GRANT_BYTES * count }, { NULL, cell } } };
}

static void names(const char *what, uint32_t cell, uint32_t number)
{
    struct request request = asking(cell);
    all_answer(what, &request, (uint64_t)number * 256);
}

/* ---- lists written down, with one marked cell */

#define AT(role) AT_IN(0, role)
#define AT_IN(memory, role) { role, 0x00100000, 0x00001000, 0x00000100, memory }
#define BEHIND(role) BEHIND_IN(0, role)
#define BEHIND_IN(memory, role) { role, 0x00100800, 0x00001000, 0x00000100, memory }
#define ELSEWHERE(role) { role, 0x00200000, 0x00001000, 0x00000001, 0 }
#define TOO_FAR_REACHING(role) { role, 0x00100000, 0x00001000, 0x00001001, 0 }
#define EMPTY(role) { role, 0x00100000, 0x00000000, 0x00000001, 0 }
#define EVERYWHERE(role) EVERYWHERE_IN(0, role)
#define EVERYWHERE_IN(memory, role) { role, 0, ALL_MEMORY, 1, memory }
#define TO_THE_END(role) { role, 1, ALL_MEMORY, 1, 0 }

static const struct {
    const char *name;
    uint32_t cell, value;
    size_t grants;
    struct grant grant[4];
    uint32_t number;
} examples[] = {
    { "K1", 1, 0x1000, 1, { { 1, 0x00100000, 0x00080000, 0x00080000, 0 } }, 0 },
    { "K2", 1, 0x1000, 1, { { 1, 0x00100000, 0x00080000, 0x00080001, 0 } }, NO_GRANT },
    { "K3", 1, 0x1000, 0, { EMPTY(1) }, NO_GRANT },

    /* Several at once, and others between. */
    { "in both of two", 1, 0x1008, 2, { AT(1), BEHIND(1) }, 0 },
    { "in both of two, the other way round", 1, 0x1008, 2, { BEHIND(1), AT(1) }, 0 },
    { "only in the first of two", 1, 0x1007, 2, { AT(1), BEHIND(1) }, 0 },
    { "only in the second of two", 1, 0x1010, 2, { AT(1), BEHIND(1) }, 1 },
    { "only in the second, the other way round", 1, 0x1007, 2, { BEHIND(1), AT(1) }, 1 },
    { "the narrower one first", 1, 0x1000, 2, { AT(1), EVERYWHERE(1) }, 0 },
    { "the wider one first", 1, 0x1000, 2, { EVERYWHERE(1), AT(1) }, 0 },
    { "equal grants", 1, 0x1000, 4, { AT(1), AT(1), AT(1), AT(1) }, 0 },
    { "equal grants behind another", 1, 0x1000, 4, { ELSEWHERE(1), AT(1), AT(1), AT(1) }, 1 },
    { "a reach too long, then a shorter one", 1, 0x1001, 2, { { 1, 0x00100000, 0x1000, 0x1000, 0 }, AT(1) }, 1 },
    { "half in each of two", 1, 0x1000, 2, { { 1, 0x000fff00, 0x180, 0x100, 0 }, { 1, 0x00100080, 0x180, 0x100, 0 } }, NO_GRANT },
    { "one without room before it", 1, 0x1000, 2, { TOO_FAR_REACHING(1), AT(1) }, 1 },
    { "an empty one before it", 1, 0x1000, 2, { EMPTY(1), AT(1) }, 1 },
    { "three before it", 1, 0x1000, 4, { TOO_FAR_REACHING(1), EMPTY(1), ELSEWHERE(1), AT(1) }, 3 },
    { "without room or empty", 1, 0x1000, 2, { TOO_FAR_REACHING(1), EMPTY(1) }, NO_GRANT },
    { "others' before it", 1, 0x1000, 3, { EVERYWHERE(2), EVERYWHERE(3), AT(1) }, 2 },
    { "others' before and behind it", 1, 0x1000, 3, { EVERYWHERE(2), AT(1), EVERYWHERE(3) }, 1 },
    { "others' alone", 1, 0x1000, 2, { EVERYWHERE(2), EVERYWHERE(3) }, NO_GRANT },
    { "others' without room before it", 1, 0x1000, 4, { TOO_FAR_REACHING(3), EMPTY(2), TOO_FAR_REACHING(2), AT(1) }, 3 },
    { "first scaler, the third grant", 90, 0x00100010, 4, { EVERYWHERE(1), EVERYWHERE(3), AT(2), EVERYWHERE(2) }, 2 },
    { "first scaler, others' alone", 93, 0x00100010, 2, { EVERYWHERE(1), EVERYWHERE(3) }, NO_GRANT },
    { "second scaler, the last grant", 97, 0x00100010, 4, { EVERYWHERE(1), TOO_FAR_REACHING(3), EVERYWHERE(2), AT(3) }, 3 },
    { "second scaler, others' alone", 100, 0x00100010, 2, { EVERYWHERE(2), EVERYWHERE(1) }, NO_GRANT },

    /* Sums up to 2^32 and past it. */
    { "the end of memory", 1, 0xffffff, 1, { { 1, 0xffffff00, 0x100, 0x100, 0 } }, 0 },
    { "past the end of memory", 1, 0xffffff, 1, { { 1, 0xffffff00, 0x100, 0x101, 0 } }, NO_GRANT },
    { "address and reach wrap", 1, 0xffffff, 1, { { 1, 0, ALL_MEMORY, 0xffffff00, 0 } }, NO_GRANT },
    { "address and reach are 2^32", 1, 0xffffff, 1, { { 1, 1, ALL_MEMORY, 0x100, 0 } }, 0 },
    { "address and reach are 2^32 + 1", 1, 0xffffff, 1, { { 1, 1, ALL_MEMORY, 0x101, 0 } }, NO_GRANT },
    { "address and reach are 2^32, and the end is less", 1, 0xffffff, 1, { { 1, 0, ALL_MEMORY, 0x100, 0 } }, NO_GRANT },
    { "the whole memory but a byte", 1, 0xffffff, 1, { { 1, 0, ALL_MEMORY, 0xff, 0 } }, 0 },
    { "a long reach", 1, 0x000001, 1, { { 1, 0x100, 0xffffff00, 0xffffff00, 0 } }, 0 },
    { "a long reach, and one more", 1, 0x000001, 1, { { 1, 0x100, 0xffffff00, 0xffffff01, 0 } }, NO_GRANT },
    { "a long reach, a step on", 1, 0x000002, 1, { { 1, 0x100, 0xffffff00, 0xffffff00, 0 } }, NO_GRANT },
    { "the longest reach", 1, 0, 1, { { 1, 0, ALL_MEMORY, 0xffffffff, 0 } }, 0 },
    { "the longest reach, a step on", 1, 1, 1, { { 1, 0, ALL_MEMORY, 0xffffffff, 0 } }, NO_GRANT },
    { "a scaler's last address", 100, 0x1ffffff0, 1, { { 3, 0x1ffffff0, 0xe0000010, 0xe0000010, 0 } }, 0 },
    { "a scaler's last address, and one more", 100, 0x1ffffff0, 1, { { 3, 0x1ffffff0, 0xe0000010, 0xe0000011, 0 } }, NO_GRANT },
    { "a scaler's address and reach are 2^32", 89, 0x1ffffff0, 1, { { 2, 0, ALL_MEMORY, 0xe0000010, 0 } }, NO_GRANT },
    { "a scaler's address and reach are one less", 89, 0x1ffffff0, 1, { { 2, 0, ALL_MEMORY, 0xe000000f, 0 } }, 0 },

    /* Target values of 2^24 or more: their addresses are past all memory, whatever the low bits are. */
    { "value FFFFFF", 1, 0x00ffffff, 2, { EVERYWHERE(1), TO_THE_END(1) }, 0 },
    { "value FFFFFF and a grant to the end", 1, 0x00ffffff, 2, { AT(1), TO_THE_END(1) }, 1 },
    { "value 1000000", 1, 0x01000000, 2, { EVERYWHERE(1), TO_THE_END(1) }, NO_GRANT },
    { "value 1001000", 1, 0x01001000, 4, { AT(1), EVERYWHERE(1), TO_THE_END(1), { 1, 0x00100000, 1, 1, 0 } }, NO_GRANT },
    { "value 1FFFFFF", 1, 0x01ffffff, 2, { EVERYWHERE(1), { 1, 0xffffff00, 0x100, 0x100, 0 } }, NO_GRANT },
    { "value 80001000", 1, 0x80001000, 3, { AT(1), EVERYWHERE(1), TO_THE_END(1) }, NO_GRANT },
    { "value FFFFFFFF", 1, 0xffffffff, 3, { EVERYWHERE(1), TO_THE_END(1), { 1, 0xffffffff, 1, 1, 0 } }, NO_GRANT },

    /* Scaler values with other bits. */
    { "23EC, bits 31:30", 89, 0xc0100010, 1, { { 2, 0x00100010, 1, 1, 0 } }, 0 },
    { "23EC, all other bits", 89, 0xe010001f, 1, { { 2, 0x00100010, 1, 1, 0 } }, 0 },
    { "33FC, all bits", 100, 0xffffffff, 1, { { 3, 0x1ffffff0, 1, 1, 0 } }, 0 },
    { "33FC, all bits, the memory above", 100, 0xffffffff, 1, { { 3, 0x1ffffff1, 0xe000000f, 1, 0 } }, NO_GRANT },
    { "23F0, all other bits and address 0", 90, 0xe000000f, 1, { { 2, 0, 1, 1, 0 } }, 0 }
};

static void add_grants(const struct grant *list, size_t how_many)
{
    for (size_t i = 0; i < how_many; i++)
        add_grant_in(list[i].memory, list[i].role, list[i].start, list[i].length, list[i].reach);
}

static void try_examples(void)
{
    for (size_t i = 0; i < sizeof examples / sizeof *examples; i++) {
        begin();
        set_cell(state, examples[i].cell, examples[i].value);
        add_grants(examples[i].grant, examples[i].grants);
        names(examples[i].name, examples[i].cell, examples[i].number);
    }
}

/* ---- lists written down for the target: the number in each memory, 0 to 3 */

static const struct {
    const char *name;
    uint32_t value;
    size_t grants;
    struct grant grant[4];
    uint32_t numbers[4];
} by_memory[] = {
    { "no grants", 0x1000, 0, { EMPTY(1) }, { NO_GRANT, NO_GRANT, NO_GRANT, NO_GRANT } },
    { "memory 0 alone", 0x1000, 1, { AT(1) }, { 0, NO_GRANT, NO_GRANT, NO_GRANT } },
    { "memory 1 alone", 0x1000, 1, { AT_IN(1, 1) }, { NO_GRANT, 0, NO_GRANT, NO_GRANT } },
    { "the same range in both", 0x1000, 2, { AT(1), AT_IN(1, 1) }, { 0, 1, NO_GRANT, NO_GRANT } },
    { "the same range in both, the other way round", 0x1000, 2, { AT_IN(1, 1), AT(1) }, { 1, 0, NO_GRANT, NO_GRANT } },
    { "two in each", 0x1008, 4, { AT(1), BEHIND_IN(1, 1), BEHIND(1), AT_IN(1, 1) }, { 0, 1, NO_GRANT, NO_GRANT } },
    { "two in each, behind one another", 0x1008, 4, { AT_IN(1, 1), BEHIND_IN(1, 1), BEHIND(1), AT(1) }, { 2, 0, NO_GRANT, NO_GRANT } },
    { "the second of each", 0x1007, 4, { BEHIND(1), BEHIND_IN(1, 1), AT_IN(1, 1), AT(1) }, { 3, 2, NO_GRANT, NO_GRANT } },
    { "everywhere in the other", 0x1000, 2, { EVERYWHERE_IN(1, 1), AT(1) }, { 1, 0, NO_GRANT, NO_GRANT } },
    { "half in each memory", 0x1000, 2, { { 1, 0x000fff00, 0x180, 0x100, 0 }, { 1, 0x00100080, 0x180, 0x100, 1 } },
      { NO_GRANT, NO_GRANT, NO_GRANT, NO_GRANT } },
    { "others' before it", 0x1000, 4, { EVERYWHERE(2), EVERYWHERE(3), AT_IN(1, 1), AT(1) }, { 3, 2, NO_GRANT, NO_GRANT } },
    { "others' alone", 0x1000, 2, { EVERYWHERE(2), EVERYWHERE(3) }, { NO_GRANT, NO_GRANT, NO_GRANT, NO_GRANT } },
    { "value 1001000", 0x01001000, 2, { EVERYWHERE(1), EVERYWHERE_IN(1, 1) }, { NO_GRANT, NO_GRANT, NO_GRANT, NO_GRANT } },
    { "value FFFFFFFF", 0xffffffff, 2, { EVERYWHERE(1), EVERYWHERE_IN(1, 1) }, { NO_GRANT, NO_GRANT, NO_GRANT, NO_GRANT } }
};

/* Whatever else stands in the cell of the memory. */
static void try_memories(void)
{
    static const uint32_t others[] = { 0, 0x00c00000, 0x000fffff, 0xff000000, 0xffcfffff };
    for (size_t i = 0; i < sizeof by_memory / sizeof *by_memory; i++) {
        begin();
        add_grants(by_memory[i].grant, by_memory[i].grants);
        set_cell(state, ADDRESS_CELL, by_memory[i].value);
        names(by_memory[i].name, ADDRESS_CELL, by_memory[i].numbers[0]);
        for (uint32_t memory = 0; memory < 4; memory++)
            for (size_t k = 0; k < sizeof others / sizeof *others; k++) {
                set_cell(state, MEMORY_CELL, memory << MEMORY_AT | others[k]);
                names(by_memory[i].name, ADDRESS_CELL, by_memory[i].numbers[memory]);
            }
        clear_cell(state, ADDRESS_CELL);
        name_memory(1);
        names("no address in memory 1", ADDRESS_CELL, NO_GRANT);
    }
}

/* A scaler's grant is in memory 0, whatever the target's memory is. */
static void scalers_and_memories(uint32_t cell)
{
    for (uint32_t memory = 0; memory < 4; memory++) {
        begin();
        name_memory(memory);
        add_grant_in(1, 1, 0, ALL_MEMORY, 1);
        add_grant(role_of(cell), 0x00100000, 0x1000, 1);
        set_cell(state, cell, value_with_address(cell, 0x00100000));
        names("beside a memory", cell, cell == ADDRESS_CELL ? (memory == 1 ? 0 : memory == 0 ? 1 : NO_GRANT) : 1);
    }
}

/* ---- the match at each number */

enum { ASKED = 0x00345600 }; /* an address that each of the cells can hold */

/* Whose address is asked about, and in which memory: for a scaler it is 0. */
struct asked {
    uint32_t cell, memory;
};

/* A grant of the role that admits the address: of a few kinds in turn. */
static void add_match(struct asked asked, uint32_t turn)
{
    uint32_t role = role_of(asked.cell), memory = asked.memory;
    switch (turn % 3) {
    case 0:
        add_grant_in(memory, role, ASKED, 1, 1);
        break;
    case 1:
        add_grant_in(memory, role, ASKED - 0x1000, 0x2000, 0x1000);
        break;
    default:
        add_grant_in(memory, role, 0, ALL_MEMORY, 0x10);
    }
}

/* One that does not: of another role, without room, not there, or in the other memory. */
static void add_other(struct asked asked, uint32_t turn)
{
    uint32_t role = role_of(asked.cell), memory = asked.memory;
    switch (turn % 7) {
    case 0:
        add_grant(role % 3 + 1, 0, ALL_MEMORY, 1);
        break;
    case 1:
        add_grant_in(memory, role, ASKED, 0x100, 0x101);
        break;
    case 2:
        add_grant((role + 1) % 3 + 1, ASKED, 1, 1);
        break;
    case 3:
        add_grant_in(memory, role, ASKED + 1, 0x1000, 1);
        break;
    case 4:
        add_grant_in(memory, role, ASKED, 0, 1);
        break;
    case 5:
        add_grant_in(memory, role, 0, ASKED, 1);
        break;
    default:
        add_grant_in(1 - memory, 1, ASKED, 0x1000, 1);
    }
}

/* The grants from 0 to 63 whose numbers are in the set match. */
static void ask_with_matches(const char *what, struct asked asked, uint64_t set, uint32_t number)
{
    begin();
    name_memory(asked.memory);
    set_cell(state, asked.cell, value_with_address(asked.cell, ASKED));
    for (uint32_t i = 0; i < MOST_GRANTS; i++)
        if ((set >> i & 1) != 0)
            add_match(asked, i);
        else
            add_other(asked, i + number); /* so that each kind stands at each number */
    names(what, asked.cell, number);
}

static void each_number(struct asked asked)
{
    const uint64_t one = 1, all = ~(uint64_t)0;
    ask_with_matches("no match", asked, 0, NO_GRANT);
    for (uint32_t number = 0; number < MOST_GRANTS; number++) {
        ask_with_matches("one match", asked, one << number, number);
        count = number + 1;
        names("one match, the last", asked.cell, number);
        count = number;
        names("the match is cut off", asked.cell, NO_GRANT);
        ask_with_matches("a match here and behind", asked, all << number, number);
        ask_with_matches("a match here and at the end", asked, one << number | one << (MOST_GRANTS - 1), number);
        for (uint32_t second = number + 1; second < MOST_GRANTS; second += 1 + number % 7)
            ask_with_matches("two matches", asked, one << number | one << second, number);
    }
}

/* ---- each cell, and numbers that no cell has */

/* Every address is granted to each role and in each memory, and no two of them by the same grant. */
enum { NUMBER_FOR_3, NUMBER_FOR_1, NUMBER_FOR_2, NUMBER_IN_1, ALL_GRANTS };

static uint32_t number_for(uint32_t cell)
{
    static const uint32_t numbers[4] = { [NO_ROLE] = NO_GRANT, NUMBER_FOR_1, NUMBER_FOR_2, NUMBER_FOR_3 };
    static const uint32_t in_memories[4] = { NUMBER_FOR_1, NUMBER_IN_1, NO_GRANT, NO_GRANT };
    return cell == ADDRESS_CELL ? in_memories[memory_named(get_word(state, MEMORY_CELL))] : numbers[role_of(cell)];
}

static void begin_with_all_memory(void)
{
    begin();
    add_grant(3, 0, ALL_MEMORY, 1);
    add_grant(1, 0, ALL_MEMORY, 1);
    add_grant(2, 0, ALL_MEMORY, 1);
    add_grant_in(1, 1, 0, ALL_MEMORY, 1);
}

static void fill_state(uint32_t value)
{
    for (size_t cell = 0; cell < CELLS; cell++)
        set_cell(state, cell, value);
}

static void each_cell(void)
{
    static const uint32_t values[] = { 0, 1, 0x10, 0x1000, 0x00100000, 0x00234567, 0x00cfffff, 0x00dfffff, 0x00ffffff };
    for (size_t i = 0; i < sizeof values / sizeof *values; i++)
        for (uint32_t cell = 0; cell < CELLS; cell++) {
            begin_with_all_memory();
            set_cell(state, cell, values[i]);
            names("a cell alone", cell, number_for(cell));
            fill_state(values[i]);
            names("a cell among all", cell, number_for(cell));
            clear_cell(state, cell);
            names("an unmarked cell among all others", cell, NO_GRANT);
        }
}

/* A register that holds no address, whatever its value is; also one that the target's register could not hold. */
static void no_address(void)
{
    static const uint32_t values[] = { 0x01000000, 0x12345678, 0x1ffffff0, 0x80000001, 0xffffffff };
    for (size_t i = 0; i < sizeof values / sizeof *values; i++)
        for (uint32_t cell = 0; cell < CELLS; cell++) {
            begin_with_all_memory();
            set_cell(state, cell, values[i]);
            names("a value", cell, cell == 1 ? NO_GRANT : number_for(cell));
        }
}

static void no_such_cell(void)
{
    for (size_t i = 0; i < NO_CELLS; i++) {
        begin_with_all_memory();
        names("no cell, the empty state", no_cells[i], NO_GRANT);
        fill_state(0x1000);
        names("no cell, a full state", no_cells[i], NO_GRANT);
        fill_state(0);
        names("no cell, a full state of zeros", no_cells[i], NO_GRANT);
    }
}

/* Address 0 is granted: the mark alone tells. */
static void zeros(uint32_t cell)
{
    begin();
    add_grant(role_of(cell) % 3 + 1, 0, 0x100, 1);
    add_grant(role_of(cell), 0, 0x100, 0x100);
    names("unmarked, and 0 is granted", cell, NO_GRANT);
    set_cell(state, cell, 0);
    names("0, and it is granted", cell, 1);
    count = 1;
    names("0, and it is granted to another", cell, NO_GRANT);
}

/* ---- the bits of a value */

/* What of a value is address, typed from docs/RULES.md. */
static uint32_t address_bits(uint32_t cell)
{
    return cell == 1 ? 0xffffffff : 0x1ffffff0;
}

static void each_bit(uint32_t cell)
{
    uint32_t value = value_with_address(cell, ASKED), others = ~address_bits(cell);
    for (uint32_t bit = 0; bit < 32; bit++) {
        uint32_t flipped = value ^ (uint32_t)1 << bit;
        int is_address = (address_bits(cell) >> bit & 1) != 0;
        begin();
        add_grant(role_of(cell), ASKED, 1, 1);
        set_cell(state, cell, flipped);
        names("another bit", cell, is_address ? NO_GRANT : 0);
        set_cell(state, cell, flipped | others);
        names("another bit, and all that are no address", cell, is_address ? NO_GRANT : 0);
    }
    if (others == 0)
        return;
    begin();
    add_grant(role_of(cell), ASKED | 0x0000000f, 1, 1);
    add_grant(role_of(cell), ASKED | 0xe0000000, 1, 1);
    add_grant(role_of(cell), ASKED | others, 1, 1);
    set_cell(state, cell, value | others);
    names("the whole value is granted", cell, NO_GRANT);
}

/* ---- both ends of a grant */

/* The first and the last address that it admits, each with so many steps more: a target's registers go by 256, a scaler's by 16. */
static const struct {
    const char *name;
    uint32_t start, length, reach, first;
    int first_steps;
    uint32_t last;
    int last_steps;
} edges[] = {
    { "a grant", 0x00100000, 0x2000, 0x100, 0x00100000, 0, 0x00101f00, 0 },
    { "a start one higher", 0x00100001, 0x2000, 0x100, 0x00100000, 1, 0x00101f00, 0 },
    { "a start one lower", 0x000fffff, 0x2000, 0x100, 0x00100000, 0, 0x00101f00, -1 },
    { "a length one less", 0x00100000, 0x1fff, 0x100, 0x00100000, 0, 0x00101f00, -1 },
    { "a length one more", 0x00100000, 0x2001, 0x100, 0x00100000, 0, 0x00101f00, 0 },
    { "a reach one less", 0x00100000, 0x2000, 0xff, 0x00100000, 0, 0x00101f00, 0 },
    { "a reach one more", 0x00100000, 0x2000, 0x101, 0x00100000, 0, 0x00101f00, -1 },
    { "reach 1", 0x00100000, 0x2000, 1, 0x00100000, 0, 0x00102000, -1 },
    { "all of it", 0x00100000, 0x2000, 0x2000, 0x00100000, 0, 0x00100000, 0 },
    { "a byte", 0x00100000, 1, 1, 0x00100000, 0, 0x00100000, 0 },
    { "to the end of memory", 0x00100000, 0xfff00000, 0xffe00000, 0x00100000, 0, 0x00200000, 0 },
    { "to the end of memory, less one", 0x00100000, 0xffefffff, 0xffe00000, 0x00100000, 0, 0x00200000, -1 }
};

static void names_at(const char *what, uint32_t cell, uint32_t address, uint32_t number)
{
    set_cell(state, cell, value_with_address(cell, address));
    names(what, cell, number);
}

static void both_ends(uint32_t cell)
{
    uint32_t step = cell == 1 ? 256 : 16;
    for (size_t i = 0; i < sizeof edges / sizeof *edges; i++) {
        uint32_t first = edges[i].first + step * (uint32_t)edges[i].first_steps;
        uint32_t last = edges[i].last + step * (uint32_t)edges[i].last_steps;
        begin();
        add_grant(role_of(cell), edges[i].start, edges[i].length, edges[i].reach);
        names_at(edges[i].name, cell, first, 0);
        names_at(edges[i].name, cell, first - step, NO_GRANT);
        names_at(edges[i].name, cell, last, 0);
        names_at(edges[i].name, cell, last + step, NO_GRANT);
    }
    for (uint32_t reach = 1; reach != 0; reach *= 2) {
        begin();
        add_grant(role_of(cell), 0x00100000, 0, reach);
        add_grant(role_of(cell), 0x00100000, reach - 1, reach);
        names_at("no length", cell, 0x00100000, NO_GRANT);
        names_at("no length", cell, 0x00100000 - step, NO_GRANT);
    }
}

/* ---- refusals: 13, then 1, then 2, whatever the cell is */

static void refused(const char *what, uint32_t cell, struct bytes asked_state, struct bytes asked_grants, unsigned reason)
{
    struct request request = { WHICH_GRANT, { asked_state, asked_grants, { NULL, cell } } };
    all_answer(what, &request, reason);
}

static void refusals(uint32_t cell)
{
    static uint8_t bad_state[STATE_BYTES], bad_grant[2 * GRANT_BYTES], long_buffer[IRANGELDA_BUFFER_BYTES_MAX + 4];
    struct bytes good = { state, STATE_BYTES }, cut = { state, STATE_BYTES - 4 }, odd = { state, STATE_BYTES - 1 };
    struct bytes bad = { bad_state, STATE_BYTES }, too_long = { long_buffer, sizeof long_buffer };
    struct bytes good_list = { grants, ALL_GRANTS * GRANT_BYTES }, bad_list = { bad_grant, sizeof bad_grant };
    struct bytes cut_list = { grants, good_list.length - 4 }, odd_list = { grants, good_list.length - 1 };
    begin_with_all_memory();
    fill_state(0x1000);
    put_word(bad_state, CELLS, 2);
    memcpy(bad_grant, grants, GRANT_BYTES);
    refused("13 for the state", cell, odd, good_list, 13);
    refused("13 for the state before 2", cell, odd, bad_list, 13);
    refused("13 for the grants", cell, good, odd_list, 13);
    refused("13 for the grants before 1", cell, bad, odd_list, 13);
    refused("13 for the grants before 1, cut", cell, cut, odd_list, 13);
    refused("13 for a long state", cell, too_long, bad_list, 13);
    refused("13 for long grants", cell, bad, too_long, 13);
    refused("1, a bad mark", cell, bad, good_list, 1);
    refused("1, cut", cell, cut, good_list, 1);
    refused("1 before 2", cell, bad, bad_list, 1);
    refused("1 before 2, cut", cell, cut, cut_list, 1);
    refused("2, a bad second grant", cell, good, bad_list, 2);
    refused("2, cut", cell, good, cut_list, 2);
    refused("nothing wrong", cell, good, good_list, number_for(cell) * 256);
}

static void all_refusals(void)
{
    for (uint32_t cell = 0; cell < CELLS; cell++)
        refusals(cell);
    for (size_t i = 0; i < NO_CELLS; i++)
        refusals(no_cells[i]);
}

/* ---- made-up calls: addresses and grants within a few pages, so that they often meet */

enum { MADE_UP = 300000, PAGE = 4096, MANY = 1000 };

/* What there was among them. */
enum sort {
    NAMED, NAMED_BEHIND_ANOTHERS, NAMED_BEHIND_NO_ROOM, NAMED_BEHIND_A_MISS, NAMED_AND_ONE_MORE, NAMED_BY_THE_LAST,
    NAMED_WITH_OTHER_BITS, NAMED_IN_1, NAMED_BEHIND_OTHER_MEMORY, IS_NO_CELL, IS_UNMARKED, IS_NO_ADDRESS, IS_PAST_MEMORY,
    ADMITTED_BY_NONE, ADMITTED_FOR_ANOTHER, ADMITTED_IN_OTHER_MEMORY, ADMITTED_IN_NO_MEMORY, FOR_1, FOR_2, FOR_13, SORTS
};

static const char *const sort_names[SORTS] = {
    "a grant is named", "  behind another role's that covers it", "  behind one without room", "  behind one that misses it",
    "  before one that admits it too", "  the last of several", "  by a value with other bits", "  in memory 1",
    "  behind one that covers it in the other memory", "no such cell", "an unmarked cell", "no address", "an address past 2^32",
    "no grant admits it", "  but another role's covers it", "  but one covers it in the other memory",
    "  but one would in a memory that there is", "reason 1", "reason 2", "reason 13"
};

static unsigned long sorted[SORTS];

static struct grants made;
static uint32_t made_state[2 * CELLS];
static uint8_t made_state_bytes[STATE_BYTES + 8], made_grant_bytes[4 * MOST_GRANT_WORDS];

/* What a list has around the grant that is named. */
static void sort_named(const struct request *request, uint32_t cell, uint32_t number)
{
    const uint8_t *list = request->lent[1].at;
    size_t grants_there = request->lent[1].length / GRANT_BYTES;
    uint64_t address = address_in(cell, get_word(request->lent[0].at, cell));
    int anothers = 0, no_room = 0, misses = 0, more = 0, elsewhere = 0;
    for (size_t i = 0; i < grants_there; i++) {
        struct grant grant = grant_at(list, i);
        int is_of_role = grant.role == role_of(cell), fits = is_for(grant, request->lent[0].at, cell);
        if (i < number) {
            anothers |= !is_of_role && covers(grant, address);
            elsewhere |= is_of_role && !fits && covers(grant, address);
            no_room |= fits && !has_room(grant);
            misses |= fits && has_room(grant);
        } else if (i > number) {
            more |= fits && covers(grant, address);
        }
    }
    sorted[NAMED]++;
    sorted[NAMED_BEHIND_ANOTHERS] += anothers;
    sorted[NAMED_BEHIND_NO_ROOM] += no_room;
    sorted[NAMED_BEHIND_A_MISS] += misses;
    sorted[NAMED_AND_ONE_MORE] += more;
    sorted[NAMED_BY_THE_LAST] += number > 0 && number + 1 == grants_there;
    sorted[NAMED_IN_1] += grant_at(list, number).memory == 1;
    sorted[NAMED_BEHIND_OTHER_MEMORY] += elsewhere;
    sorted[NAMED_WITH_OTHER_BITS] += (get_word(request->lent[0].at, cell) & ~address_bits(cell)) != 0;
}

static void sort_unnamed(const struct request *request, uint32_t cell)
{
    const uint8_t *asked_state = request->lent[0].at;
    if (cell >= CELLS) {
        sorted[IS_NO_CELL]++;
    } else if (get_word(asked_state, CELLS + cell) == 0) {
        sorted[IS_UNMARKED]++;
    } else if (role_of(cell) == NO_ROLE) {
        sorted[IS_NO_ADDRESS]++;
    } else if (address_in(cell, get_word(asked_state, cell)) >= memory_end) {
        sorted[IS_PAST_MEMORY]++;
    } else {
        int for_another = 0, elsewhere = 0;
        for (size_t i = 0; i < request->lent[1].length / GRANT_BYTES; i++) {
            struct grant grant = grant_at(request->lent[1].at, i);
            int is_covered = covers(grant, address_in(cell, get_word(asked_state, cell)));
            for_another |= is_covered && grant.role != role_of(cell);
            elsewhere |= is_covered && grant.role == role_of(cell);
        }
        sorted[ADMITTED_BY_NONE]++;
        sorted[ADMITTED_FOR_ANOTHER] += for_another;
        sorted[ADMITTED_IN_OTHER_MEMORY] += elsewhere && memory_for(asked_state, cell) <= 1;
        sorted[ADMITTED_IN_NO_MEMORY] += elsewhere && memory_for(asked_state, cell) > 1;
    }
}

static void sort_call(const struct request *request, uint64_t answer)
{
    uint32_t cell = (uint32_t)request->lent[2].length, place = IRANGELDA_PLACE(answer);
    switch (IRANGELDA_REASON(answer)) {
    case IRANGELDA_OK:
        if (place < NO_GRANT)
            sort_named(request, cell, place);
        else
            sort_unnamed(request, cell);
        break;
    case IRANGELDA_BAD_STATE:
        sorted[FOR_1]++;
        break;
    case IRANGELDA_BAD_GRANTS:
        sorted[FOR_2]++;
        break;
    default:
        sorted[FOR_13]++;
    }
}

/* At the beginning of memory, somewhere, at the end of what a scaler can hold, and at the end of memory. */
static uint32_t some_base(void)
{
    static const uint32_t bases[] = { 0, 0x00345000, 0x1ffff000, 0x20000000, 0xfffff000 };
    return bases[below(sizeof bases / sizeof *bases)];
}

/* Now and then past all memory, or with bits that are no address. */
static uint32_t value_near(uint32_t cell, uint32_t base)
{
    uint32_t address = base + below(PAGE), bit = (uint32_t)1 << (24 + below(8)), others = chance() & ~address_bits(cell);
    if (cell == 1)
        return once_in(8) ? address / 256 | bit : address / 256;
    return (address & address_bits(cell)) | (once_in(2) ? others : 0);
}

static void make_state_near(uint32_t base)
{
    memset(made_state, 0, sizeof made_state);
    for (uint32_t cell = 0; cell < CELLS; cell++)
        if (!once_in(6)) {
            made_state[cell] = role_of(cell) == NO_ROLE ? chance() : value_near(cell, base);
            made_state[CELLS + cell] = 1;
        }
    if (once_in(2)) /* a memory that there is */
        made_state[MEMORY_CELL] &= ~((uint32_t)2 << MEMORY_AT);
}

/* A start as a target's address can be, as a scaler's can be, or any; half of them where a scaler's value has its address. */
static uint64_t start_near(uint32_t base)
{
    static const uint32_t steps[] = { 0xffffff00, 0xfffffff0, 0xffffffff };
    uint32_t start = base + below(PAGE);
    start &= steps[below(sizeof steps / sizeof *steps)];
    return once_in(2) ? start : start & 0x1fffffff;
}

static void add_grant_near(uint32_t base)
{
    static const uint32_t lengths[] = { 0, 1, 0x10, 0x100, 0x200, 0x1000, 0x10000, ALL_MEMORY };
    uint32_t role = 1 + below(3), memory = below(2), some_reach = 1 + below(0x200), *word = made.word + made.words;
    uint64_t start = start_near(base), length = lengths[below(sizeof lengths / sizeof *lengths)];
    if (start + length > memory_end)
        length = memory_end - start;
    const uint64_t reaches[] = { 1, 0x10, 0x100, length, length + 1, some_reach };
    uint32_t reach = (uint32_t)reaches[below(sizeof reaches / sizeof *reaches)];
    word[0] = role;
    word[1] = (uint32_t)start;
    word[2] = (uint32_t)length;
    word[3] = reach == 0 ? 1 : reach;
    word[4] = role == 1 ? memory : 0;
    made.words += GRANT_WORDS;
}

static void make_grants_near(uint32_t base)
{
    static const uint32_t counts[] = { 0, 1, 2, 3, 4, 5, 6, 8, 12, 20, 63, 64 };
    made.words = 0;
    for (uint32_t left = counts[below(sizeof counts / sizeof *counts)]; left > 0; left--)
        add_grant_near(base);
}

static size_t length_or_so(size_t length)
{
    uint32_t off = below(8);
    return once_in(50) && length + off >= 4 ? length + off - 4 : length;
}

static void made_up_query(void)
{
    uint32_t base = some_base();
    make_grants_near(base);
    make_state_near(base);
    if (once_in(20))
        break_grants(&made);
    if (once_in(20))
        damage_state(made_state);
    put_words(made_grant_bytes, made.word, made.words);
    put_words(made_state_bytes, made_state, 2 * CELLS);
    struct request request = { WHICH_GRANT, { { made_state_bytes, 0 }, { made_grant_bytes, 0 }, { NULL, 0 } } };
    request.lent[0].length = length_or_so(STATE_BYTES);
    request.lent[1].length = length_or_so(4 * made.words);
    request.lent[2].length = make_cell();
    uint64_t answer = by_the_rules(&request);
    sort_call(&request, answer);
    all_answer("made up", &request, answer);
}

static void made_up_queries(void)
{
    for (int i = 0; i < MADE_UP; i++)
        made_up_query();
    printf("made-up queries:\n");
    for (int i = 0; i < SORTS; i++) {
        printf("%12lu %s\n", sorted[i], sort_names[i]);
        expect(sorted[i] >= MANY, "made-up queries: \"%s\" came only %lu times", sort_names[i], sorted[i]);
    }
}

/* ---- what a batch wrote has a grant */

enum { BATCHES = 20000 };

static struct batch batch;
static uint8_t batch_bytes[IRANGELDA_BUFFER_BYTES_MAX];
static unsigned long written;

/* From the words of the grant itself, beside what all answer. */
static void has_its_grant(const struct party *party, struct request *request, uint32_t cell)
{
    request->lent[2].length = cell;
    perform(party, request, &outcome);
    unsigned number = IRANGELDA_PLACE(outcome.answer), reason = IRANGELDA_REASON(outcome.answer);
    expect(reason == IRANGELDA_OK && number < made.words / GRANT_WORDS, "%s, cell %u is written: reason %u place %u", party->name,
           (unsigned)cell, reason, number);
    if (number >= made.words / GRANT_WORDS)
        return;
    struct grant grant = grant_at(made_grant_bytes, number);
    uint64_t address = address_in(cell, get_word(made_state_bytes, cell));
    expect(grant.role == role_of(cell), "%s, cell %u is written: grant %u has another role", party->name, (unsigned)cell, number);
    expect(grant.memory == memory_for(made_state_bytes, cell), "%s, cell %u is written: grant %u is in another memory", party->name,
           (unsigned)cell, number);
    expect(covers(grant, address), "%s, cell %u is written: grant %u does not cover it", party->name, (unsigned)cell, number);
}

static void after_a_batch(void)
{
    static const uint32_t every[3] = { 1, 4, 30 };
    make_grants(&made);
    make_batch(&batch, &made, below(80));
    make_state(made_state, &made, every[below(3)]);
    mend_pair(&batch, made_state, &made);
    put_words(batch_bytes, batch.word, batch.words);
    put_words(made_grant_bytes, made.word, made.words);
    put_words(made_state_bytes, made_state, 2 * CELLS);
    struct bytes list = { made_grant_bytes, 4 * made.words };
    struct request read = { READ, { { batch_bytes, 4 * batch.words }, list, { made_state_bytes, STATE_BYTES } } };
    struct request query = { WHICH_GRANT, { { made_state_bytes, STATE_BYTES }, list, { NULL, 0 } } };
    perform(&parties[ARCHIVE], &read, &outcome);
    expect(outcome.answer == (uint64_t)batch.words * 256, "a batch before the queries: %llx", (unsigned long long)outcome.answer);
    memcpy(made_state_bytes, outcome.after, STATE_BYTES);
    for (size_t i = 0; i < batch.words; i++)
        if (batch.what[i] >= 0 && role_of((size_t)batch.what[i]) != NO_ROLE) {
            written++;
            for (size_t p = 0; p < PARTIES; p++)
                has_its_grant(&parties[p], &query, (uint32_t)batch.what[i]);
            all_answer("a cell is written", &query, by_the_rules(&query));
        }
}

static void after_batches(void)
{
    for (int i = 0; i < BATCHES; i++)
        after_a_batch();
    printf("written addresses asked about: %lu\n", written);
    expect(written >= MANY, "only %lu addresses were written", written);
}

void queries(void)
{
    try_examples();
    try_memories();
    each_cell();
    no_address();
    no_such_cell();
    for (size_t i = 0; i < ADDRESS_CELLS; i++) {
        each_number((struct asked){ address_cells[i], 0 });
        scalers_and_memories(address_cells[i]);
        zeros(address_cells[i]);
        each_bit(address_cells[i]);
        both_ends(address_cells[i]);
    }
    each_number((struct asked){ ADDRESS_CELL, 1 });
    all_refusals();
    made_up_queries();
    after_batches();
}
