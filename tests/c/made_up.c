#include "cases.h"
#include "chance.h"
#include "check.h"
#include "lent.h"
#include "making.h"
#include <stdio.h>
#include <string.h>

enum { READS = 70000, SIZES = 50000, WRITES = 50000, LISTS = 30000, READ_LISTINGS = 50000, QUERIES = 50000, REASONS = 20, MANY = 100 };

static unsigned long given[KINDS][REASONS];

/* Which reasons a call can give, as bits. */
static const unsigned can_give[KINDS] = {
    1u << 0 | 1u << 1 | 1u << 2 | 1u << 3 | 1u << 4 | 1u << 5 | 1u << 6 | 1u << 7 | 1u << 8 | 1u << 9 | 1u << 10 | 1u << 13 | 1u << 14,
    1u << 0 | 1u << 1 | 1u << 2 | 1u << 12 | 1u << 13,
    1u << 0 | 1u << 1 | 1u << 2 | 1u << 11 | 1u << 12 | 1u << 13,
    1u << 0 | 1u << 1 | 1u << 11 | 1u << 13,
    1u << 0 | 1u << 1 | 1u << 13 | 1u << 19,
    1u << 0 | 1u << 1 | 1u << 2 | 1u << 13
};

static struct grants grants;
static struct batch batch;
static uint32_t state[2 * CELLS];

/* The bytes that are handed over. */
static uint8_t batch_bytes[MOST_LENT], grant_bytes[MOST_GRANT_BYTES], state_bytes[MOST_STATE_BYTES], out_bytes[MOST_LENT];
static uint8_t text_bytes[MOST_LENT];

static struct outcome ours, theirs;

static void count_answer(enum kind kind, uint64_t answer)
{
    if (answer % 256 < REASONS)
        given[kind][answer % 256]++;
}

/* The other party gives the archive's answer and leaves the archive's bytes. */
static void agrees(const struct party *party, const struct request *request)
{
    const char *kind = kind_names[request->kind];
    perform(party, request, &theirs);
    expect(ours.answer == theirs.answer, "made-up %s: archive answers reason %u place %u, %s reason %u place %u", kind,
           (unsigned)(ours.answer % 256), (unsigned)(ours.answer / 256), party->name, (unsigned)(theirs.answer % 256),
           (unsigned)(theirs.answer / 256));
    expect(memcmp(ours.after, theirs.after, ours.length) == 0, "made-up %s: archive and %s leave different bytes", kind, party->name);
}

static void both_agree(const struct request *request)
{
    perform(&parties[ARCHIVE], request, &ours);
    count_answer(request->kind, ours.answer);
    agrees(&parties[CAREFUL], request);
}

static struct bytes grants_lent(void)
{
    return (struct bytes){ grant_bytes, make_grant_bytes(grant_bytes, &grants) };
}

static struct bytes state_lent(uint32_t damaged_once_in)
{
    return (struct bytes){ state_bytes, make_state_bytes(state_bytes, state, &grants, damaged_once_in) };
}

/* Mostly short, some long enough to be read in pieces, a few as long as they may be. */
static size_t some_batch_length(void)
{
    if (once_in(150))
        return 4096 + below(LONGEST_WORDS - 4096) + 1;
    return once_in(8) ? 100 + below(1200) : below(48);
}

/* ---- what made-up batches do to the pair */

enum sort { PAIR_IN_0, PAIR_IN_1, ADDRESS_ALONE_IN_1, MEMORY_1_ALONE, PAIRS_REFUSED, SORTS };

static const char *const sort_names[SORTS] = {
    "accepted, with the pair written in memory 0", "accepted, with the pair written in memory 1", "  the address alone",
    "  the memory alone", "refused for the pair"
};

static unsigned long sorted[SORTS];

static int writes_cell(int cell)
{
    for (size_t i = 0; i < batch.words; i++)
        if (batch.what[i] == cell)
            return 1;
    return 0;
}

/* Of a batch that was not damaged, so that it is known what its words are. */
static void sort_pair(void)
{
    int address = writes_cell(ADDRESS_CELL), memory = writes_cell(MEMORY_CELL);
    sorted[PAIRS_REFUSED] += IRANGELDA_REASON(ours.answer) == IRANGELDA_BAD_PAIR;
    if (IRANGELDA_REASON(ours.answer) != IRANGELDA_OK || !(address || memory) || get_word(ours.after, CELLS + ADDRESS_CELL) == 0)
        return;
    if (memory_named(get_word(ours.after, MEMORY_CELL)) == 0) {
        sorted[PAIR_IN_0]++;
        return;
    }
    sorted[PAIR_IN_1]++;
    sorted[ADDRESS_ALONE_IN_1] += !memory;
    sorted[MEMORY_1_ALONE] += !address;
}

static void look_at_pairs(void)
{
    printf("made-up batches and the pair:\n");
    for (int i = 0; i < SORTS; i++) {
        printf("%12lu %s\n", sorted[i], sort_names[i]);
        expect(sorted[i] >= MANY, "made-up read: \"%s\" came only %lu times", sort_names[i], sorted[i]);
    }
}

/* The batch is made for the state, in two of three calls so that the pair is right. */
static void made_up_read(void)
{
    struct request request = { READ, { { batch_bytes, 0 }, grants_lent(), { state_bytes, 0 } } };
    int damaged = !once_in(3);
    request.lent[2] = state_lent(30);
    make_batch(&batch, &grants, some_batch_length());
    if (!once_in(3))
        mend_pair(&batch, state, &grants);
    if (damaged)
        damage_batch(&batch);
    put_words(batch_bytes, batch.word, batch.words);
    request.lent[0].length = some_length(4 * batch.words, sizeof batch_bytes);
    both_agree(&request);
    if (!damaged)
        sort_pair();
}

static void made_up_size(void)
{
    struct request request = { SIZE, { { state_bytes, 0 }, grants_lent(), { NULL, 0 } } };
    request.lent[0] = state_lent(3);
    both_agree(&request);
}

/* The room that careful.c says is needed, where it says so. */
static size_t room_needed(const struct request *request)
{
    struct request roomy = *request;
    roomy.lent[2] = (struct bytes){ out_bytes, 4096 };
    perform(&parties[CAREFUL], &roomy, &theirs);
    return theirs.answer % 256 == IRANGELDA_OK ? theirs.answer / 256 * (request->kind == WRITE ? 4 : 1) : 0;
}

static size_t some_room(const struct request *request, size_t unit)
{
    size_t needed = room_needed(request);
    switch (below(8)) {
    case 0:
        return needed;
    case 1:
        return needed + unit;
    case 2:
        return needed >= unit ? needed - unit : 0;
    case 3:
        return unit * below((uint32_t)(needed / unit) + 1);
    case 4:
        return once_in(8) ? 65536 : once_in(8) ? 65540 : unit == 4 ? IRANGELDA_WRITE_BYTES_ENOUGH : IRANGELDA_LIST_BYTES_ENOUGH;
    default:
        return needed + unit * below(40);
    }
}

static void fill_room(size_t length)
{
    uint8_t byte = (uint8_t)chance();
    for (size_t i = 0; i < length; i++)
        out_bytes[i] = (uint8_t)(byte + 7 * i);
}

/* What the archive wrote leads its reader from the empty state back. */
static void reads_back(const struct request *written)
{
    struct bytes words = { ours.after, 4 * (size_t)(ours.answer / 256) };
    expect(lead_to(&parties[ARCHIVE], words, written->lent[1], state_bytes), "made-up write: does not lead back");
}

static void made_up_write(void)
{
    struct request request = { WRITE, { { state_bytes, 0 }, grants_lent(), { out_bytes, 0 } } };
    request.lent[0] = state_lent(3);
    request.lent[2].length = some_length(some_room(&request, 4), sizeof out_bytes);
    fill_room(request.lent[2].length);
    both_agree(&request);
    if (ours.answer % 256 == IRANGELDA_OK && ours.answer / 256 * 4 <= IRANGELDA_WRITE_BYTES_ENOUGH)
        reads_back(&request);
}

static void made_up_list(void)
{
    grants_lent();
    struct request request = { LIST, { state_lent(3), { NULL, 0 }, { out_bytes, 0 } } };
    request.lent[2].length = some_room(&request, 1);
    fill_room(request.lent[2].length);
    both_agree(&request);
}

/* The careful listing of a state, which may be one with values that no listing has. */
static size_t listing_of_a_state(void)
{
    grants_lent();
    state_lent(6);
    struct request request = { LIST, { { state_bytes, STATE_BYTES }, { NULL, 0 }, { out_bytes, IRANGELDA_LIST_BYTES_ENOUGH } } };
    perform(&parties[CAREFUL], &request, &theirs);
    size_t length = theirs.answer % 256 == IRANGELDA_OK ? theirs.answer / 256 : 0;
    memcpy(text_bytes, theirs.after, length);
    return length;
}

/* The buffer of the state holds something before that is no state. */
static void made_up_read_listing(void)
{
    size_t length = listing_of_a_state();
    for (int times = once_in(4) ? 0 : once_in(4) ? 2 : 1; times > 0 && length > 0; times--)
        length = damage_text(text_bytes, length);
    if (once_in(200))
        length = IRANGELDA_BUFFER_BYTES_MAX + below(3);
    fill_room(STATE_BYTES + 64);
    struct request request = { READ_LISTING,
                               { { text_bytes, length }, { NULL, 0 }, { out_bytes, some_length(STATE_BYTES, STATE_BYTES + 64) } } };
    both_agree(&request);
}

static void made_up_query(void)
{
    struct request request = { WHICH_GRANT, { { state_bytes, 0 }, grants_lent(), { NULL, 0 } } };
    request.lent[0] = state_lent(3);
    request.lent[2].length = make_cell();
    both_agree(&request);
}

/* No call can give 15 to 18. */
static int is_reason(int reason)
{
    unsigned calls = 0;
    for (int kind = 0; kind < KINDS; kind++)
        calls |= can_give[kind];
    return (calls >> reason & 1) != 0;
}

static void print_counts(void)
{
    printf("made-up calls by reason:\n%12s", "");
    for (int reason = 0; reason < REASONS; reason++)
        if (is_reason(reason))
            printf(" %7d", reason);
    printf("\n");
    for (int kind = 0; kind < KINDS; kind++) {
        printf("%12s", kind_names[kind]);
        for (int reason = 0; reason < REASONS; reason++)
            if (is_reason(reason))
                printf(" %7lu", given[kind][reason]);
        printf("\n");
    }
}

static void look_at_counts(void)
{
    for (int kind = 0; kind < KINDS; kind++)
        for (int reason = 0; reason < REASONS; reason++)
            if ((can_give[kind] >> reason & 1) != 0)
                expect(given[kind][reason] >= MANY, "made-up %s: reason %d came only %lu times", kind_names[kind], reason,
                       given[kind][reason]);
            else
                expect(given[kind][reason] == 0, "made-up %s: reason %d came %lu times", kind_names[kind], reason, given[kind][reason]);
}

void made_up(void)
{
    for (int i = 0; i < READS; i++)
        made_up_read();
    look_at_pairs();
    for (int i = 0; i < SIZES; i++)
        made_up_size();
    for (int i = 0; i < WRITES; i++)
        made_up_write();
    for (int i = 0; i < LISTS; i++)
        made_up_list();
    for (int i = 0; i < READ_LISTINGS; i++)
        made_up_read_listing();
    for (int i = 0; i < QUERIES; i++)
        made_up_query();
    print_counts();
    look_at_counts();
}
