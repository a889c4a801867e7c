/*
 * A call with everything around it watched. Each buffer lies between guard bytes, or ends where memory that cannot be touched begins;
 * the call runs on a stack of its own. After each call: the guards are whole, what is lent for reading is as it was, a refusal has
 * changed nothing, and a success nothing past the end of what it wrote.
 */
#ifndef LENT_H
#define LENT_H

#include <stddef.h>
#include <stdint.h>

enum kind { READ, SIZE, WRITE, LIST, READ_LISTING, WHICH_GRANT, KINDS };

/* The longest buffer of any test is a little longer than the calls take. */
enum { BUFFERS = 3, MOST_LENT = 65536 + 64 };

struct bytes {
    const uint8_t *at;
    size_t length;
};

/* Read: batch, grants, state. Write: state, grants, out. List: state, nothing, out. Read a listing: listing, nothing, state. The last is
   the one that the call may change. Size: state, grants, and no third. Which grant: the same, and in place of the third's length stands
   the cell's number. */
struct request {
    enum kind kind;
    struct bytes lent[BUFFERS];
};

struct outcome {
    uint64_t answer;
    size_t length;
    uint8_t after[MOST_LENT];
};

/* Who answers: the archive, which is what is tested, and the C version of the reference folder, careful.c. */
struct party {
    const char *name;
    uint64_t (*read)(const uint8_t *, size_t, const uint8_t *, size_t, uint8_t *, size_t);
    uint64_t (*size)(const uint8_t *, size_t, const uint8_t *, size_t);
    uint64_t (*write)(const uint8_t *, size_t, const uint8_t *, size_t, uint8_t *, size_t);
    uint64_t (*list)(const uint8_t *, size_t, uint8_t *, size_t);
    uint64_t (*read_listing)(const uint8_t *, size_t, uint8_t *, size_t);
    uint64_t (*which_grant)(const uint8_t *, size_t, const uint8_t *, size_t, uint32_t);
};

enum { ARCHIVE, CAREFUL, PARTIES };
extern const struct party parties[PARTIES];
extern const char *const kind_names[KINDS];

/* Not every kind of call takes grants, and the size and the query have no third buffer. */
int has_buffer(enum kind kind, size_t buffer);

/* A buffer of words has a length that is a multiple of 4; one of text has any. */
int is_text_buffer(enum kind kind, size_t buffer);

void prepare_lending(void);

/* In turn among guards, at each distance, and at the fence; an empty buffer in turn as some place and as a null pointer. Eight calls of
   one party go through all ways to lend three buffers. */
void perform(const struct party *party, const struct request *request, struct outcome *outcome);

/* The size, asked of what a writer is lent: its state and its grants. */
struct request size_for(const struct request *write);

/* Whether these words, read under these grants, lead from the empty state to this one. */
int lead_to(const struct party *party, struct bytes words, struct bytes grants, const uint8_t *state);

/* Where a buffer lies, and what the call is told of its length. */
enum where {
    AMONG_GUARDS,
    AT_FENCE,     /* it ends where memory that cannot be touched begins */
    OUT_OF_REACH, /* it would begin there: none of its bytes can be touched, and none is looked at afterwards */
    NULL_POINTER  /* for an empty buffer */
};

struct manner {
    enum where where;
    size_t off;  /* among guards: how many bytes behind a multiple of 64, at most 15 */
    size_t told;
};

void perform_so(const struct party *party, const struct request *request, const struct manner *manners, struct outcome *outcome);

/* The most bytes of stack that any call of this kind has used so far, its return address among them. */
size_t stack_used(const struct party *party, enum kind kind);

#endif
