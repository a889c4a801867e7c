#include "cases.h"
#include "check.h"
#include "lent.h"
#include "words.h"
#include <string.h>

enum { MOST_WORDS = 12, MOST_WRITES = 3, NO_CELL = -1 };

struct write {
    int cell;
    uint32_t value;
};

/* A batch and its grants, what the reader answers, and what it leaves of the empty state. */
struct reading {
    const char *name;
    size_t words, grants;
    uint32_t batch[MOST_WORDS], grant[3][GRANT_WORDS];
    unsigned reason;
    uint32_t place;
    size_t writes;
    struct write write[MOST_WRITES];
};

#define GRANT_IN(memory, role, start, length, reach) { role, start, length, reach, memory }
#define GRANT(role, start, length, reach) GRANT_IN(0, role, start, length, reach)
#define NO_GRANT { GRANT(0, 0, 0, 0) }
#define NOTHING { { NO_CELL, 0 } }
#define K1_GRANT 1
#define K1_GRANT_IS { GRANT(1, 0x00100000, 0x00080000, 0x00080000) }

/* A packet of one parameter. */
#define ACCEPTED(name, setting, word, cell, value) \
    { name, 3, K1_GRANT, { 0x0002043c, setting, word }, K1_GRANT_IS, 0, 3, 1, { { cell, value } } }
#define REFUSED(name, setting, word, reason) \
    { name, 3, K1_GRANT, { 0x0002043c, setting, word }, K1_GRANT_IS, reason, 2, 0, NOTHING }
#define HEADER(name, header, reason, place) \
    { name, 1, K1_GRANT, { header }, K1_GRANT_IS, reason, place, 0, NOTHING }

/* A target address and one grant. */
#define ADDRESS_ACCEPTED(name, word, start, length, reach) \
    { name, 3, 1, { 0x0002043c, 0x00010000, word }, { GRANT(1, start, length, reach) }, 0, 3, 1, { { 1, (word) & 0xffffff } } }
#define ADDRESS_REFUSED(name, word, start, length, reach) \
    { name, 3, 1, { 0x0002043c, 0x00010000, word }, { GRANT(1, start, length, reach) }, 9, 2, 0, NOTHING }

/* Both words of a pair, for the address of K1, which is granted in one memory. */
#define PAIR_ACCEPTED(name, first, second, memory) \
    { name, 4, 1, { 0x0003043c, 0x00010000, first, second }, { GRANT_IN(memory, 1, 0x00100000, 0x00080000, 0x00080000) }, 0, 4, 2, \
      { { 1, 0x001000 }, { 2, (memory) << 20 } } }
#define PAIR_REFUSED(name, first, second, memory) \
    { name, 4, 1, { 0x0003043c, 0x00010000, first, second }, { GRANT_IN(memory, 1, 0x00100000, 0x00080000, 0x00080000) }, 14, 4, 0, \
      NOTHING }

/* A list of one grant before the batch of K4, which needs none. */
#define GRANT_FINE(name, role, start, length, reach) \
    { name, 3, 1, { 0x0002043c, 0x00010000, 0x3f400400 }, { GRANT(role, start, length, reach) }, 0, 3, 1, { { 0, 0x400400 } } }
#define GRANT_BAD_IN(memory, name, role, start, length, reach) \
    { name, 3, 1, { 0x0002043c, 0x00010000, 0x3f400400 }, { GRANT_IN(memory, role, start, length, reach) }, 2, 0, 0, NOTHING }
#define GRANT_BAD(name, role, start, length, reach) GRANT_BAD_IN(0, name, role, start, length, reach)

static const struct reading all_readings[] = {
    ACCEPTED("K1", 0x00010000, 0x50001000, 1, 0x001000),
    ADDRESS_REFUSED("K2", 0x50001000, 0x00100000, 0x00080000, 0x00080001),
    { "K3", 3, 0, { 0x0002043c, 0x00010000, 0x50001000 }, NO_GRANT, 9, 2, 0, NOTHING },
    ACCEPTED("K4", 0x00010000, 0x3f400400, 0, 0x400400),
    REFUSED("K5", 0x00010000, 0x3f000401, 8),
    REFUSED("K6", 0x00010000, 0x3f000800, 7),
    ACCEPTED("K7", 0x00010000, 0x52990000, 3, 0x990000),
    REFUSED("K8", 0x00010000, 0x52940000, 8),
    ACCEPTED("K9", 0x23020000, 0x31004100, 46, 0x004100),
    REFUSED("K10", 0x23020000, 0x31004080, 8),
    REFUSED("K11", 0x23020000, 0x50000001, 6),
    ACCEPTED("K12", 0x03020000, 0x50000001, 10, 0x000001),

    ACCEPTED("levels 11 and 11", 0x23020000, 0x300002cb, 45, 0x0002cb),
    REFUSED("level 12", 0x23020000, 0x3000000c, 8),
    ACCEPTED("mapping 7, 7, 7", 0x23020000, 0x320001ff, 47, 0x0001ff),
    REFUSED("mapping 4", 0x23020000, 0x32000004, 8),

    HEADER("3D, count 1", 0x0001043c, 4, 0),
    HEADER("3D, count 0", 0x0000043c, 4, 0),
    HEADER("3D, count 114", 0x0072043c, 4, 0),
    HEADER("3D, count 113", 0x0071043c, 10, 1),
    HEADER("a whole row of the first scaler", 0x000723e4, 10, 1),
    HEADER("one past that row", 0x000823e4, 4, 0),
    HEADER("a row that ends one too late", 0x000223fc, 4, 0),
    HEADER("a whole row of the second scaler", 0x000733e4, 10, 1),
    HEADER("one past the second", 0x000833e4, 4, 0),
    HEADER("three from 2208", 0x00032208, 10, 1),
    HEADER("four from 2208", 0x00042208, 4, 0),
    HEADER("video, count 0", 0x00002208, 4, 0),
    HEADER("a count whose run wraps 16 bits", 0xffff2208, 4, 0),
    HEADER("before the first scaler", 0x000123e0, 3, 0),
    HEADER("the original of a 3D offset", 0x0001041c, 3, 0),
    HEADER("an offset between two registers", 0x000123e5, 3, 0),
    HEADER("3 before 4", 0x00000440, 3, 0),
    HEADER("the original of the first scaler", 0x000103e4, 3, 0),
    HEADER("no third scaler", 0x000143e4, 3, 0),
    HEADER("2208 has no second copy", 0x00013208, 3, 0),

    { "the empty batch", 0, 0, { 0 }, NO_GRANT, 0, 0, 0, NOTHING },
    { "a header and a setting, then the end", 2, 0, { 0x0002043c, 0x00010000 }, NO_GRANT, 10, 2, 0, NOTHING },
    { "a bad setting at the end of a short batch", 2, 0, { 0x0002043c, 0x00030000 }, NO_GRANT, 5, 1, 0,
      NOTHING },
    { "a bad word before the end of a short batch", 3, 0, { 0x0004043c, 0x00010000, 0x53000000 }, NO_GRANT, 6, 2, 0,
      NOTHING },
    { "a good packet before a bad one", 6, 0, { 0x0002043c, 0x00010000, 0x3f400400, 0x0002043c, 0x00010000, 0x3f000401 },
      NO_GRANT, 8, 5, 0, NOTHING },
    { "a good packet before half a packet", 5, 0, { 0x0002043c, 0x00010000, 0x3f400400, 0x0002043c, 0x00010000 },
      NO_GRANT, 10, 5, 0, NOTHING },
    { "two packets", 5, 0, { 0x0002043c, 0x00010000, 0x3f400400, 0x00012208, 0x07ff07ff }, NO_GRANT, 0, 5, 2,
      { { 0, 0x400400 }, { 84, 0x07ff07ff } } },
    { "the last write holds", 5, 0, { 0x0004043c, 0x00020000, 0x50000001, 0x51000002, 0x50000003 }, NO_GRANT, 0, 5, 2,
      { { 4, 3 }, { 5, 2 } } },
    { "data that looks like a header", 4, 0, { 0x000223e4, 0x00000001, 0x00000000, 0x0000043c }, NO_GRANT, 4, 3, 0,
      NOTHING },
    { "a run over two registers", 3, 0, { 0x00022208, 0x00000001, 0x00000002 }, NO_GRANT, 0, 3, 2,
      { { 84, 1 }, { 85, 2 } } },

    /* Settings. */
    { "type 00", 3, 0, { 0x0002043c, 0x00000000, 0x3f400400 }, NO_GRANT, 5, 1, 0, NOTHING },
    { "setting, HParaAdr 1", 3, 0, { 0x0002043c, 0x00010001, 0x3f400400 }, NO_GRANT, 5, 1, 0, NOTHING },
    { "setting, HParaOS 1", 3, 0, { 0x0002043c, 0x00010100, 0x3f400400 }, NO_GRANT, 5, 1, 0, NOTHING },
    { "type 01, sub-type 01", 3, 0, { 0x0002043c, 0x01010000, 0x3f400400 }, NO_GRANT, 5, 1, 0, NOTHING },
    { "type 02, sub-type 10", 3, 0, { 0x0002043c, 0x10020000, 0x50000001 }, NO_GRANT, 5, 1, 0, NOTHING },
    { "type 02, sub-type 1F", 3, 0, { 0x0002043c, 0x1f020000, 0x50000001 }, NO_GRANT, 5, 1, 0, NOTHING },
    { "type 02, sub-type 30", 3, 0, { 0x0002043c, 0x30020000, 0x30000000 }, NO_GRANT, 5, 1, 0, NOTHING },
    { "type 02, sub-type FE", 3, 0, { 0x0002043c, 0xfe020000, 0x30000000 }, NO_GRANT, 5, 1, 0, NOTHING },
    ACCEPTED("type 02, sub-type 0F", 0x0f020000, 0x51000001, 35, 1),
    ACCEPTED("type 02, sub-type 2F", 0x2f020000, 0x32000001, 83, 1),

    /* 02.2n.31: the two enlarging filters; the two shrinking ones, K24 to K29; and each limit. */
    REFUSED("15:13 is 2 alone", 0x20020000, 0x31004000, 8),
    REFUSED("9:7 is 2 alone", 0x20020000, 0x31000100, 8),
    REFUSED("K24, 12:10 is 2 and 6:4 is 0", 0x23020000, 0x31000800, 8),
    REFUSED("K24, 12:10 is 2 and 6:4 is 1", 0x23020000, 0x31000810, 8),
    REFUSED("K24, 12:10 is 2 and 6:4 is 3", 0x23020000, 0x31000830, 8),
    REFUSED("K25, 6:4 is 2 and 12:10 is 0", 0x23020000, 0x31000020, 8),
    REFUSED("K25, 6:4 is 2 and 12:10 is 1", 0x23020000, 0x31000420, 8),
    REFUSED("K25, 6:4 is 2 and 12:10 is 3", 0x23020000, 0x31000c20, 8),
    ACCEPTED("K26, both are 2", 0x23020000, 0x31000820, 46, 0x000820),
    ACCEPTED("K27, both are 0", 0x23020000, 0x31000000, 46, 0x000000),
    ACCEPTED("K27, 12:10 is 1", 0x23020000, 0x31000400, 46, 0x000400),
    ACCEPTED("K27, 12:10 is 3", 0x23020000, 0x31000c00, 46, 0x000c00),
    ACCEPTED("K27, 6:4 is 1", 0x23020000, 0x31000010, 46, 0x000010),
    ACCEPTED("K27, 6:4 is 3", 0x23020000, 0x31000030, 46, 0x000030),
    REFUSED("K28, the enlarging ones and 12:10 are 2", 0x23020000, 0x31004900, 8),
    REFUSED("K28, the enlarging ones and 6:4 are 2", 0x23020000, 0x31004120, 8),
    ACCEPTED("K29, all four are 2", 0x23020000, 0x31004920, 46, 0x004920),
    ACCEPTED("ratio 16", 0x20020000, 0x31100000, 37, 0x100000),
    REFUSED("ratio 17", 0x20020000, 0x31110000, 8),
    REFUSED("15:13 is 4", 0x20020000, 0x31008000, 8),
    REFUSED("depth 3", 0x20020000, 0x31000003, 8),
    ACCEPTED("depth 4", 0x20020000, 0x31000004, 37, 0x000004),
    REFUSED("depth 5", 0x20020000, 0x31000005, 8),
    REFUSED("7 before 8", 0x20020000, 0x31200003, 7),
    REFUSED("memory 2", 0x00010000, 0x51200000, 8),
    REFUSED("memory 3", 0x00010000, 0x51300000, 8),
    REFUSED("7 before 8, memory", 0x00010000, 0x51200001, 7),
    REFUSED("7 in memory 1", 0x00010000, 0x51180000, 7),
    ACCEPTED("memory 1, and no address", 0x00010000, 0x51100000, 2, 0x100000),
    ACCEPTED("bits 23:22 of 51", 0x00010000, 0x51c00000, 2, 0xc00000),
    ACCEPTED("bits 23:22 of 51, and memory 1", 0x00010000, 0x51d00000, 2, 0xd00000),

    /* The pair of address and memory: what it is behind the last word counts. */
    PAIR_ACCEPTED("K1 in memory 0", 0x51000000, 0x50001000, 0),
    PAIR_ACCEPTED("K1 in memory 1", 0x51100000, 0x50001000, 1),
    PAIR_ACCEPTED("K1 in memory 1, the address first", 0x50001000, 0x51100000, 1),
    PAIR_REFUSED("K1 in memory 1, granted in memory 0", 0x51100000, 0x50001000, 0),
    PAIR_REFUSED("the same, the address first", 0x50001000, 0x51100000, 0),
    PAIR_REFUSED("K1 in memory 0, granted in memory 1", 0x51000000, 0x50001000, 1),
    PAIR_REFUSED("the same, and bits 23:22", 0x51c00000, 0x50001000, 1),
    { "the last memory holds", 5, 1, { 0x0004043c, 0x00010000, 0x51100000, 0x50001000, 0x51000000 }, K1_GRANT_IS, 0, 5, 2,
      { { 1, 0x001000 }, { 2, 0x000000 } } },
    { "the last memory does not grant it", 5, 1, { 0x0004043c, 0x00010000, 0x51000000, 0x50001000, 0x51100000 }, K1_GRANT_IS, 14, 5, 0,
      NOTHING },
    { "9 before 14", 4, 1, { 0x0003043c, 0x00010000, 0x51100000, 0x50000fff }, K1_GRANT_IS, 9, 3, 0, NOTHING },
    { "10 before 14", 4, 1, { 0x0004043c, 0x00010000, 0x51100000, 0x50001000 }, K1_GRANT_IS, 10, 4, 0, NOTHING },
    { "a later packet before 14", 5, 1, { 0x0003043c, 0x00010000, 0x51100000, 0x50001000, 0x00002208 }, K1_GRANT_IS, 4, 4, 0, NOTHING },
    { "14 behind other packets", 9, 1,
      { 0x0003043c, 0x00010000, 0x51100000, 0x50001000, 0x00012208, 0x07ff07ff, 0x0002043c, 0x00010000, 0x3f400400 }, K1_GRANT_IS,
      14, 9, 0, NOTHING },
    { "each in a packet of its own", 6, 1, { 0x0002043c, 0x00010000, 0x51100000, 0x0002043c, 0x00010000, 0x50001000 }, K1_GRANT_IS,
      14, 6, 0, NOTHING },

    /* Address and reach at the edges of a grant, and sums that wrap 32 bits. */
    ADDRESS_ACCEPTED("the last address that fits", 0x50001001, 0x00100000, 0x00000200, 0x00000100),
    ADDRESS_REFUSED("reach one more", 0x50001001, 0x00100000, 0x00000200, 0x00000101),
    ADDRESS_REFUSED("one step before the grant", 0x50000fff, 0x00100000, 0x00000200, 0x00000001),
    ADDRESS_REFUSED("a start one past the address", 0x50001000, 0x00100001, 0x00080000, 0x00000001),
    ADDRESS_ACCEPTED("the end of memory", 0x50ffffff, 0xffffff00, 0x00000100, 0x00000100),
    ADDRESS_REFUSED("past the end of memory", 0x50ffffff, 0xffffff00, 0x00000100, 0x00000101),
    ADDRESS_REFUSED("address and reach wrap", 0x50ffffff, 0x00000000, 0xffffffff, 0xffffff00),
    ADDRESS_ACCEPTED("the whole memory but a byte", 0x50fffffe, 0x00000000, 0xffffffff, 0x00000001),
    ADDRESS_REFUSED("an empty grant", 0x50001000, 0x00100000, 0x00000000, 0x00000001),
    { "another role's grant", 3, 2, { 0x0002043c, 0x00010000, 0x50001000 },
      { GRANT(2, 0, 0xffffffff, 1), GRANT(3, 0, 0xffffffff, 1) }, 9, 2, 0, NOTHING },
    { "half in each of two grants", 3, 2, { 0x0002043c, 0x00010000, 0x50001000 },
      { GRANT(1, 0x00100000, 0x80, 0x100), GRANT(1, 0x00100080, 0x80, 0x100) }, 9, 2, 0, NOTHING },
    { "the third grant", 3, 3, { 0x0002043c, 0x00010000, 0x50001000 },
      { GRANT(1, 0, 1, 1), GRANT(2, 0, 1, 1), GRANT(1, 0x00100000, 0x100, 0x100) }, 0, 3, 1, { { 1, 0x001000 } } },

    /* Scaler addresses: bits 28:4. */
    { "first scaler", 2, 1, { 0x000123f0, 0x00100010 }, { GRANT(2, 0x00100010, 1, 1) }, 0, 2, 1, { { 90, 0x00100010 } } },
    { "first scaler, not granted", 2, 1, { 0x000123f0, 0x00100010 }, { GRANT(2, 0x00100011, 16, 1) }, 9, 1, 0, NOTHING },
    { "first scaler, the second's grant", 2, 1, { 0x000123f0, 0x00100010 }, { GRANT(3, 0x00100010, 1, 1) }, 9, 1, 0,
      NOTHING },
    { "second scaler", 2, 1, { 0x000133fc, 0x1ffffff0 }, { GRANT(3, 0x1ffffff0, 16, 16) }, 0, 2, 1, { { 100, 0x1ffffff0 } } },
    { "second scaler, the first's grant", 2, 1, { 0x000133fc, 0x1ffffff0 }, { GRANT(2, 0x1ffffff0, 16, 16) }, 9, 1, 0,
      NOTHING },
    { "23EC, bits 31:30 are no part of the address", 2, 1, { 0x000123ec, 0xc0100010 }, { GRANT(2, 0x00100010, 1, 1) }, 0, 2, 1,
      { { 89, 0xc0100010 } } },
    { "location bits: 8", 2, 1, { 0x000123ec, 0x00100011 }, { GRANT(2, 0x00100010, 1, 1) }, 8, 1, 0, NOTHING },
    { "7 before 8 before 9", 2, 1, { 0x000123ec, 0x20000005 }, { GRANT(2, 0x00100010, 1, 1) }, 7, 1, 0, NOTHING },
    { "8 before 9", 2, 1, { 0x000123ec, 0x00000001 }, { GRANT(2, 0x00100010, 1, 1) }, 8, 1, 0, NOTHING },
    { "2210, bits 1:0 are 2", 2, 0, { 0x00012210, 0x00000002 }, NO_GRANT, 0, 2, 1, { { 86, 2 } } },
    { "2210, bits 1:0 are 3", 2, 0, { 0x00012210, 0x00000003 }, NO_GRANT, 8, 1, 0, NOTHING },

    /* The rules of the grant list. */
    GRANT_FINE("an end of 2^32", 1, 0x80000000, 0x80000000, 1),
    GRANT_BAD("an end of 2^32 + 1", 1, 0x80000001, 0x80000000, 1),
    GRANT_FINE("start FFFFFFFF, length 1", 3, 0xffffffff, 1, 1),
    GRANT_BAD("start FFFFFFFF, length 2", 3, 0xffffffff, 2, 1),
    GRANT_FINE("a reach beyond the length", 2, 0, 0, 0xffffffff),
    GRANT_BAD("reach 0", 2, 0, 16, 0),
    GRANT_BAD("role 0", 0, 0, 16, 1),
    GRANT_BAD("role 4", 4, 0, 16, 1),
    GRANT_BAD("role 257", 257, 0, 16, 1),
    GRANT_BAD_IN(2, "a target in memory 2", 1, 0, 16, 1),
    GRANT_BAD_IN(256, "a target in memory 256", 1, 0, 16, 1),
    GRANT_BAD_IN(0xffffffff, "a target in memory FFFFFFFF", 1, 0, 16, 1),
    GRANT_BAD_IN(1, "the first scaler in memory 1", 2, 0, 16, 1),
    GRANT_BAD_IN(1, "the second scaler in memory 1", 3, 0, 16, 1)
};

static void leave(uint8_t *state, const struct reading *r)
{
    for (size_t i = 0; i < r->writes; i++)
        set_cell(state, (size_t)r->write[i].cell, r->write[i].value);
}

static void read_from(const struct party *party, const struct reading *r, const uint8_t *before)
{
    static struct outcome outcome;
    uint8_t batch[4 * MOST_WORDS], grants[3 * GRANT_BYTES], after[STATE_BYTES];
    put_words(batch, r->batch, r->words);
    put_words(grants, r->grant[0], GRANT_WORDS * r->grants);
    memcpy(after, before, STATE_BYTES);
    leave(after, r);
    struct request request = { READ, { { batch, 4 * r->words }, { grants, GRANT_BYTES * r->grants }, { before, STATE_BYTES } } };
    perform(party, &request, &outcome);
    expect(IRANGELDA_REASON(outcome.answer) == (enum irangelda_reason)r->reason && IRANGELDA_PLACE(outcome.answer) == r->place,
           "%s, %s: reason %u place %u", party->name, r->name, (unsigned)IRANGELDA_REASON(outcome.answer),
           (unsigned)IRANGELDA_PLACE(outcome.answer));
    expect(memcmp(outcome.after, after, STATE_BYTES) == 0, "%s, %s: the state after", party->name, r->name);
}

/* From the empty state, and from one whose other cells must stay; 01.00.51 has memory 0 there too. */
static void read_with(const struct party *party, const struct reading *r)
{
    uint8_t state[STATE_BYTES] = { 0 };
    read_from(party, r, state);
    for (size_t cell = 0; cell < CELLS; cell += 2)
        set_cell(state, cell, 0xfecd0000 + (uint32_t)cell);
    read_from(party, r, state);
}

/* K1 once more with its bytes written out, so that the order of the bytes in a word is plain. */
static void read_plain_bytes(const struct party *party)
{
    static const uint8_t batch[12] = { 0x3c, 0x04, 0x02, 0x00, 0x00, 0x00, 0x01, 0x00, 0x00, 0x10, 0x00, 0x50 };
    static const uint8_t grant[20] = { 1, 0, 0, 0, 0, 0, 0x10, 0, 0, 0, 0x08, 0, 0, 0, 0x08, 0, 0, 0, 0, 0 };
    static struct outcome outcome;
    uint8_t before[STATE_BYTES] = { 0 }, after[STATE_BYTES] = { 0 };
    after[4 * 1 + 1] = 0x10;
    after[4 * (101 + 1)] = 1;
    struct request request = { READ, { { batch, 12 }, { grant, 20 }, { before, STATE_BYTES } } };
    perform(party, &request, &outcome);
    expect(outcome.answer == 3 * 256, "%s, K1 in bytes: %llu", party->name, (unsigned long long)outcome.answer);
    expect(memcmp(outcome.after, after, STATE_BYTES) == 0, "%s, K1 in bytes: the state after", party->name);
}

void readings(void)
{
    for (size_t p = 0; p < PARTIES; p++) {
        for (size_t i = 0; i < sizeof all_readings / sizeof *all_readings; i++)
            read_with(&parties[p], &all_readings[i]);
        read_plain_bytes(&parties[p]);
    }
}
