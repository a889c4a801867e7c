/* The size, and the writer beside it. The size tells what a count by the marks tells, and the writer's answer follows from the size's and
   the room: in no room, and in rooms around each number that could be taken for the one that is needed. */
#include "cases.h"
#include "check.h"
#include "lent.h"
#include "making.h"
#include "registers.h"
#include <stdio.h>
#include <string.h>

enum { MADE_UP = 30000, MANY = 100, REASONS = 14, MOST_ROOM = IRANGELDA_WRITE_BYTES_ENOUGH + 4 };

/* ---- what the writer answers */

/* 13 for the room goes before all. Then the writer refuses what the size refuses; gives 11 if the room has fewer words than the size
   tells; and else gives the size's answer. The room is in bytes. */
static uint64_t by_size_and_room(uint64_t size, size_t room)
{
    if (room > IRANGELDA_BUFFER_BYTES_MAX || room % 4 != 0)
        return IRANGELDA_BAD_BUFFER;
    if (IRANGELDA_REASON(size) != IRANGELDA_OK)
        return size;
    return room / 4 < size / 256 ? IRANGELDA_NO_ROOM : size;
}

/* ---- how many words a state takes, by its marks and the test's own table */

static int is_marked(const uint8_t *state, size_t cell)
{
    return get_word(state, CELLS + cell) == 1;
}

static int is_well_formed(struct bytes state)
{
    if (state.length != STATE_BYTES)
        return 0;
    for (size_t cell = 0; cell < CELLS; cell++)
        if (!is_marked(state.at, cell) && (get_word(state.at, CELLS + cell) != 0 || get_word(state.at, cell) != 0))
            return 0;
    return 1;
}

static int is_first_of_setting(const uint8_t *state, size_t cell)
{
    for (size_t before = 0; before < cell; before++)
        if (is_marked(state, before) && reg_at(before).setting == reg_at(cell).setting)
            return 0;
    return 1;
}

/* Two for each marked video cell; for each setting that has a marked cell two, and one for each of these cells. */
static size_t words_by_marks(const uint8_t *state)
{
    size_t words = 0;
    for (size_t cell = 0; cell < CELLS; cell++)
        if (is_marked(state, cell))
            words += cell >= CELLS_3D ? 2 : is_first_of_setting(state, cell) ? 3 : 1;
    return words;
}

/* ---- the calls, counted */

static struct outcome outcome;
static unsigned long given[PARTIES][KINDS][REASONS];

static uint64_t ask(const struct party *party, const struct request *request)
{
    perform(party, request, &outcome);
    if (outcome.answer % 256 < REASONS)
        given[party - parties][request->kind][outcome.answer % 256]++;
    return outcome.answer;
}

/* What is in the room before is no batch: words that are not written do not lead back. */
static void writes_in(const struct party *party, const char *name, struct request write, uint64_t size, size_t room)
{
    static uint8_t out[MOST_ROOM];
    memset(out, 0xee, sizeof out);
    write.lent[2] = (struct bytes){ out, room };
    uint64_t wanted = by_size_and_room(size, room), answer = ask(party, &write);
    expect(answer == wanted, "%s writes %s in %zu bytes: reason %u place %u, where the size has reason %u place %u", party->name, name,
           room, (unsigned)IRANGELDA_REASON(answer), (unsigned)IRANGELDA_PLACE(answer), (unsigned)IRANGELDA_REASON(size),
           (unsigned)IRANGELDA_PLACE(size));
    if (answer == wanted && IRANGELDA_REASON(answer) == IRANGELDA_OK)
        expect(lead_to(party, (struct bytes){ outcome.after, 4 * IRANGELDA_PLACE(answer) }, write.lent[1], write.lent[0].at),
               "%s writes %s in %zu bytes: does not lead back", party->name, name, room);
}

/* In one word less than so many, in as many, and in one more. */
static void writes_around(const struct party *party, const char *name, const struct request *write, uint64_t size, size_t words)
{
    for (size_t room = words == 0 ? 0 : words - 1; room <= words + 1; room++)
        writes_in(party, name, *write, size, 4 * room);
}

/* The size is what the marks tell. Where it refuses a state, the writer does so in less room than the marks tell, and in more. */
static void beside_the_marks(const struct party *party, const char *name, const struct request *write, uint64_t size)
{
    size_t words = words_by_marks(write->lent[0].at);
    if (IRANGELDA_REASON(size) == IRANGELDA_OK)
        expect(size == (uint64_t)words * 256, "%s, size of %s: %u, by the marks %zu", party->name, name,
               (unsigned)IRANGELDA_PLACE(size), words);
    else
        writes_around(party, name, write, size, words);
}

/* Answers what the size does. Around its place there is room for what it tells, or for as many words as the number of a bad cell. */
static uint64_t size_and_writer(const struct party *party, const char *name, const struct request *write)
{
    struct request request = size_for(write);
    uint64_t size = ask(party, &request), place = size / 256;
    unsigned reason = IRANGELDA_REASON(size);
    int is_state = is_well_formed(write->lent[0]);
    expect(reason == IRANGELDA_BAD_BUFFER || (reason == IRANGELDA_BAD_STATE) == !is_state, "%s, size of %s: reason %u", party->name,
           name, reason);
    expect(place <= IRANGELDA_WRITE_WORDS_ENOUGH, "%s, size of %s: place %llx", party->name, name, (unsigned long long)place);
    if (place > IRANGELDA_WRITE_WORDS_ENOUGH)
        return size;
    if (is_state)
        beside_the_marks(party, name, write, size);
    writes_in(party, name, *write, size, 0);
    writes_in(party, name, *write, size, 4 * place + 1);
    writes_in(party, name, *write, size, IRANGELDA_WRITE_BYTES_ENOUGH);
    writes_around(party, name, write, size, place);
    return size;
}

/* ---- K42 to K51 */

/* Some cells that hold a value, with a mark; and no grant, or that of K1 with a reach. */
static const struct {
    const char *name;
    size_t cells, cell[2];
    uint32_t value, mark;
    size_t grants;
    uint32_t reach;
    unsigned reason;
    uint32_t place;
} known[] = {
    { "K42", 0, { 0 }, 0, 0, 0, 0, IRANGELDA_OK, 0 },
    { "K43", 1, { 1 }, 0x001000, 1, 1, 0x00080000, IRANGELDA_OK, 3 },
    { "K44", 2, { 4, 5 }, 0, 1, 0, 0, IRANGELDA_OK, 4 },
    { "K45", 2, { 5, 6 }, 0, 1, 0, 0, IRANGELDA_OK, 6 },
    { "K46", 2, { 83, 84 }, 0, 1, 0, 0, IRANGELDA_OK, 5 },
    { "K47", 2, { 84, 85 }, 0, 1, 0, 0, IRANGELDA_OK, 4 },
    { "K48", 1, { 1 }, 0x001000, 1, 0, 0, IRANGELDA_NOT_WRITABLE, 1 },
    { "K49", 1, { 46 }, 0x000800, 1, 0, 0, IRANGELDA_NOT_WRITABLE, 46 },
    { "K50", 1, { 1 }, 0x001000, 0, 1, 0x00080000, IRANGELDA_BAD_STATE, 0 },
    { "K51", 1, { 1 }, 0x001000, 1, 1, 0, IRANGELDA_BAD_GRANTS, 0 }
};

static void known_sizes(const struct party *party)
{
    for (size_t row = 0; row < sizeof known / sizeof *known; row++) {
        uint8_t state[STATE_BYTES] = { 0 }, grant[GRANT_BYTES];
        for (size_t i = 0; i < known[row].cells; i++) {
            put_word(state, known[row].cell[i], known[row].value);
            put_word(state, CELLS + known[row].cell[i], known[row].mark);
        }
        put_words(grant, (const uint32_t[]){ 1, 0x00100000, 0x00080000, known[row].reach, 0 }, GRANT_WORDS);
        struct request write = { WRITE, { { state, STATE_BYTES }, { grant, GRANT_BYTES * known[row].grants }, { NULL, 0 } } };
        uint64_t size = size_and_writer(party, known[row].name, &write);
        expect(size == (uint64_t)known[row].place * 256 + known[row].reason, "%s, size of %s: reason %u place %u", party->name,
               known[row].name, (unsigned)IRANGELDA_REASON(size), (unsigned)IRANGELDA_PLACE(size));
    }
}

/* ---- made-up states and grants */

static void made_up_size(void)
{
    static struct grants grants;
    static uint32_t state[2 * CELLS];
    static uint8_t grant_bytes[MOST_GRANT_BYTES], state_bytes[MOST_STATE_BYTES];
    struct request write = { WRITE, { { state_bytes, 0 }, { grant_bytes, 0 }, { NULL, 0 } } };
    write.lent[1].length = make_grant_bytes(grant_bytes, &grants);
    write.lent[0].length = make_state_bytes(state_bytes, state, &grants, 3);
    for (size_t p = 0; p < PARTIES; p++)
        size_and_writer(&parties[p], "a made-up state", &write);
}

static void look_at_counts(size_t p)
{
    static const struct {
        enum kind kind;
        unsigned reason;
    } wanted[] = { { SIZE, 0 }, { SIZE, 1 }, { SIZE, 2 }, { SIZE, 12 }, { SIZE, 13 }, { WRITE, 0 }, { WRITE, 11 } };
    for (size_t i = 0; i < sizeof wanted / sizeof *wanted; i++) {
        const char *kind = kind_names[wanted[i].kind];
        unsigned long times = given[p][wanted[i].kind][wanted[i].reason];
        printf("%12lu %s %s, reason %u\n", times, parties[p].name, kind, wanted[i].reason);
        expect(times >= MANY, "%s %s: reason %u came only %lu times", parties[p].name, kind, wanted[i].reason, times);
    }
}

void sizes(void)
{
    for (size_t p = 0; p < PARTIES; p++)
        known_sizes(&parties[p]);
    for (int i = 0; i < MADE_UP; i++)
        made_up_size();
    printf("sizes, and writes in rooms around them:\n");
    for (size_t p = 0; p < PARTIES; p++)
        look_at_counts(p);
}
