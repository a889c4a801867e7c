#define _GNU_SOURCE
#include "lent.h"
#include "../../include/irangelda.h"
#include "../reference/careful.h"
#include "../reference/nothing.h"
#include "check.h"
#include <signal.h>
#include <stdio.h>
#include <stdlib.h>
#include <string.h>
#include <sys/mman.h>
#include <ucontext.h>
#include <unistd.h>

enum { PAGE = 4096, GUARD = 64, GUARD_BYTE = 0x5c, PAINT = 0xa5, STACK_BYTES = 4 * PAGE, SIGNAL_BYTES = 16 * PAGE, RETURN_ADDRESS = 8 };

const struct party parties[PARTIES] = {
    [ARCHIVE] = { "archive", irangelda_read, irangelda_size, irangelda_write, irangelda_list, irangelda_read_listing,
                  irangelda_which_grant },
    [CAREFUL] = { "careful", careful_read, careful_size, careful_write, careful_list, careful_read_listing, careful_which_grant }
};

const char *const kind_names[KINDS] = {
    [READ] = "read", [SIZE] = "size", [WRITE] = "write", [LIST] = "list", [READ_LISTING] = "read listing",
    [WHICH_GRANT] = "which grant"
};

int has_buffer(enum kind kind, size_t buffer)
{
    switch (buffer) {
    case 0:
        return 1;
    case 1:
        return kind == READ || kind == SIZE || kind == WRITE || kind == WHICH_GRANT;
    default:
        return kind != SIZE && kind != WHICH_GRANT;
    }
}

int is_text_buffer(enum kind kind, size_t buffer)
{
    return (kind == LIST && buffer == BUFFERS - 1) || (kind == READ_LISTING && buffer == 0);
}

/* ---- memory between two pages that cannot be touched */

static uint8_t *fenced(size_t length)
{
    uint8_t *low = mmap(NULL, length + 2 * PAGE, PROT_NONE, MAP_PRIVATE | MAP_ANONYMOUS, -1, 0);
    if (low == MAP_FAILED || mprotect(low + PAGE, length, PROT_READ | PROT_WRITE) != 0) {
        perror("no memory");
        exit(1);
    }
    return low + PAGE;
}

enum { ROOM = (MOST_LENT + 2 * GUARD + PAGE - 1) / PAGE * PAGE };

static uint8_t *rooms[BUFFERS];
static uint8_t guards[GUARD]; /* what guard bytes look like */

/* A buffer in its room, with as many guard bytes before and behind it, and the length that the call is told. */
struct place {
    uint8_t *at;
    size_t length, before, behind, told;
};

static struct place place_for(size_t which, size_t length, struct manner manner)
{
    uint8_t *room = rooms[which];
    switch (manner.where) {
    case AMONG_GUARDS:
        return (struct place){ room + GUARD + manner.off, length, GUARD, GUARD - 16, manner.told };
    case AT_FENCE:
        return (struct place){ room + ROOM - length, length, GUARD, 0, manner.told };
    case OUT_OF_REACH:
        return (struct place){ room + ROOM, 0, 0, 0, manner.told };
    default:
        return (struct place){ NULL, 0, 0, 0, manner.told };
    }
}

static struct place lend(size_t which, struct bytes bytes, struct manner manner)
{
    struct place place = place_for(which, bytes.length, manner);
    if (place.at == NULL)
        return place;
    memcpy(place.at - place.before, guards, place.before);
    memcpy(place.at + place.length, guards, place.behind);
    if (place.length != 0)
        memcpy(place.at, bytes.at, place.length);
    return place;
}

static int are_guards(const uint8_t *bytes, size_t length)
{
    return memcmp(bytes, guards, length) == 0;
}

static int guards_whole(const struct place *place)
{
    return place->at == NULL
        || (are_guards(place->at - place->before, place->before) && are_guards(place->at + place->length, place->behind));
}

static int same(const struct place *place, struct bytes bytes, size_t from)
{
    return from >= place->length || memcmp(place->at + from, bytes.at + from, place->length - from) == 0;
}

/* ---- stacks */

static const struct party nobody = { "nobody", nothing_of_six, nothing_of_four_const, nothing_of_six, nothing_of_four, nothing_of_four,
                                     nothing_of_five };

/* A stack for each party and kind of call, and one for nobody. Painted once: what is left of the paint tells the deepest use. */
static uint8_t *stacks[PARTIES + 1][KINDS];

static size_t number_of(const struct party *party)
{
    return party == &nobody ? PARTIES : (size_t)(party - parties);
}

static size_t depth(const struct party *party, enum kind kind)
{
    const uint8_t *stack = stacks[number_of(party)][kind];
    size_t untouched = 0;
    while (untouched < STACK_BYTES && stack[untouched] == PAINT)
        untouched++;
    return STACK_BYTES - untouched;
}

size_t stack_used(const struct party *party, enum kind kind)
{
    return depth(party, kind) - depth(&nobody, kind) + RETURN_ADDRESS;
}

/* ---- the call */

static struct {
    const struct party *party;
    enum kind kind;
    struct place places[BUFFERS];
    uint64_t answer;
} under_way;

static ucontext_t caller, callee;

static void call(void)
{
    const struct party *party = under_way.party;
    const struct place *p = under_way.places;
    switch (under_way.kind) {
    case READ:
        under_way.answer = party->read(p[0].at, p[0].told, p[1].at, p[1].told, p[2].at, p[2].told);
        break;
    case SIZE:
        under_way.answer = party->size(p[0].at, p[0].told, p[1].at, p[1].told);
        break;
    case WRITE:
        under_way.answer = party->write(p[0].at, p[0].told, p[1].at, p[1].told, p[2].at, p[2].told);
        break;
    case LIST:
        under_way.answer = party->list(p[0].at, p[0].told, p[2].at, p[2].told);
        break;
    case READ_LISTING:
        under_way.answer = party->read_listing(p[0].at, p[0].told, p[2].at, p[2].told);
        break;
    default:
        under_way.answer = party->which_grant(p[0].at, p[0].told, p[1].at, p[1].told, (uint32_t)p[2].told);
    }
}

static void call_on_own_stack(void)
{
    if (getcontext(&callee) != 0)
        exit(1);
    callee.uc_stack.ss_sp = stacks[number_of(under_way.party)][under_way.kind];
    callee.uc_stack.ss_size = STACK_BYTES;
    callee.uc_link = &caller;
    makecontext(&callee, call, 0);
    if (swapcontext(&caller, &callee) != 0)
        exit(1);
}

/* A touch of memory that was not lent ends the tests, but not before it is said whose it was. */
static void say_who_touched(int signal)
{
    const struct place *p = under_way.places;
    printf("failed: %s %s, told %zx %zx %zx: touched memory that was not lent\n", under_way.party->name, kind_names[under_way.kind],
           p[0].told, p[1].told, p[2].told);
    _exit(signal);
}

static void prepare_for_touches(void)
{
    struct sigaction action = { .sa_handler = say_who_touched, .sa_flags = SA_ONSTACK };
    stack_t own = { .ss_sp = fenced(SIGNAL_BYTES), .ss_size = SIGNAL_BYTES };
    if (sigaltstack(&own, NULL) != 0 || sigaction(SIGSEGV, &action, NULL) != 0) {
        perror("no signals");
        exit(1);
    }
}

static size_t bytes_written(enum kind kind, uint64_t answer)
{
    size_t place = IRANGELDA_PLACE(answer);
    switch (kind) {
    case WRITE:
        return 4 * place;
    case LIST:
        return place;
    default:
        return IRANGELDA_STATE_BYTES;
    }
}

static void look_around(const struct request *request)
{
    const char *who = under_way.party->name, *what = kind_names[request->kind];
    const struct place *places = under_way.places;
    uint64_t answer = under_way.answer;
    for (size_t i = 0; i < BUFFERS; i++)
        expect(guards_whole(&places[i]), "%s %s: a guard byte of buffer %zu changed", who, what, i);
    expect(same(&places[0], request->lent[0], 0), "%s %s: the first buffer changed", who, what);
    expect(same(&places[1], request->lent[1], 0), "%s %s: the grants changed", who, what);
    if (IRANGELDA_REASON(answer) != IRANGELDA_OK)
        expect(same(&places[2], request->lent[2], 0), "%s %s: refused, and a byte changed", who, what);
    else
        expect(same(&places[2], request->lent[2], bytes_written(request->kind, answer)), "%s %s: wrote past its end", who, what);
}

void perform_so(const struct party *party, const struct request *request, const struct manner *manners, struct outcome *outcome)
{
    under_way.party = party;
    under_way.kind = request->kind;
    for (size_t i = 0; i < BUFFERS; i++) {
        struct manner manner = manners[i];
        if (!has_buffer(request->kind, i))
            manner.where = NULL_POINTER; /* a number may be told; nothing is lent */
        under_way.places[i] = lend(i, request->lent[i], manner);
    }
    call_on_own_stack();
    look_around(request);
    outcome->answer = under_way.answer;
    outcome->length = under_way.places[2].length;
    if (outcome->length != 0)
        memcpy(outcome->after, under_way.places[2].at, outcome->length);
}

static struct manner manner_of(struct bytes bytes, unsigned turn)
{
    struct manner manner = { AMONG_GUARDS, turn / 2 % 16, bytes.length };
    if (turn % 2 == 1)
        manner.where = bytes.length == 0 ? NULL_POINTER : AT_FENCE;
    return manner;
}

void perform(const struct party *party, const struct request *request, struct outcome *outcome)
{
    static unsigned turns[PARTIES + 1];
    struct manner manners[BUFFERS];
    unsigned turn = turns[number_of(party)]++;
    for (size_t i = 0; i < BUFFERS; i++)
        manners[i] = manner_of(request->lent[i], turn >> i);
    perform_so(party, request, manners, outcome);
}

struct request size_for(const struct request *write)
{
    return (struct request){ SIZE, { write->lent[0], write->lent[1], { NULL, 0 } } };
}

int lead_to(const struct party *party, struct bytes words, struct bytes grants, const uint8_t *state)
{
    static const uint8_t empty[IRANGELDA_STATE_BYTES];
    static struct outcome left;
    struct request request = { READ, { words, grants, { empty, sizeof empty } } };
    perform(party, &request, &left);
    return left.answer == words.length / 4 * 256 && memcmp(left.after, state, sizeof empty) == 0;
}

void prepare_lending(void)
{
    memset(guards, GUARD_BYTE, GUARD);
    prepare_for_touches();
    for (size_t i = 0; i < BUFFERS; i++)
        rooms[i] = fenced(ROOM);
    for (size_t party = 0; party <= PARTIES; party++)
        for (size_t kind = 0; kind < KINDS; kind++) {
            stacks[party][kind] = fenced(STACK_BYTES);
            memset(stacks[party][kind], PAINT, STACK_BYTES);
        }
    static struct outcome unused;
    static const uint8_t no_bytes[1];
    for (int kind = 0; kind < KINDS; kind++) {
        struct request request = { (enum kind)kind, { { no_bytes, 0 }, { no_bytes, 0 }, { no_bytes, 0 } } };
        perform(&nobody, &request, &unused);
    }
}
