/*
 * The six calls as a careful C programmer writes them, from docs/RULES.md alone: its rules in its order and words, each reason
 * returned where it is found. The shape is one that is quick, and the rest is left to the compiler.
 *
 * The reader goes through the batch once, works on a copy of the state and hands the copy back only when the whole batch was fine.
 * The size asks everything of a state that the writer does, but for the room. The writer and the lister have checked everything, the
 * room too, before they put down the first byte. The listing reader goes through the text once and fills a state of its own, which it
 * hands over only at the end. So a refusal changes nothing. The query goes through the grants once, and changes nothing at all.
 */
#include "careful.h"
#include <string.h>

#if !defined(__BYTE_ORDER__) || __BYTE_ORDER__ != __ORDER_LITTLE_ENDIAN__
#error "words are loaded as they lie: a little-endian machine is needed"
#endif

enum reason {
    OK, BAD_STATE, BAD_GRANTS, BAD_OFFSET, BAD_COUNT, BAD_SETTING, NO_REGISTER, BIT_SET, BAD_VALUE, NOT_GRANTED, ENDS_INSIDE,
    NO_ROOM, NOT_WRITABLE, BAD_BUFFER, BAD_PAIR, NOT_A_LISTING = 19
};

enum {
    CELLS = 101, STATE_BYTES = 4 * 2 * CELLS,
    TARGET_ADDRESS = 1, TARGET_MEMORY = 2, FIRST_STAGE = 4, FIRST_SAMPLE = 36, FIRST_VIDEO = 84, /* cells */
    TARGET_SIZE = 4, STAGE_SIZE = 2, SAMPLE_SIZE = 3,     /* registers of each */
    STAGES = 16, SAMPLES = 16,
    GRANT_WORDS = 5, MOST_GRANTS = 64, MEMORIES = 2,
    MOST_BYTES = 65536,
    OFFSET_3D = 0x043c
};

/* ---- words */

static inline uint32_t load(const uint8_t *words, size_t i)
{
    uint32_t word;
    memcpy(&word, words + 4 * i, 4);
    return word;
}

static inline void store(uint8_t *words, size_t i, uint32_t word)
{
    memcpy(words + 4 * i, &word, 4);
}

static inline uint32_t bits(uint32_t word, int high, int low)
{
    return word >> low & (((uint32_t)2 << (high - low)) - 1);
}

static inline uint64_t answer(size_t place, enum reason reason)
{
    return (uint64_t)place * 256 + reason;
}

static inline int is_word_buffer(size_t length)
{
    return length <= MOST_BYTES && length % 4 == 0;
}

/* ---- the state: 101 values, then 101 marks */

static inline uint32_t value_of(const uint8_t *state, size_t cell)
{
    return load(state, cell);
}

static inline uint32_t mark_of(const uint8_t *state, size_t cell)
{
    return load(state, CELLS + cell);
}

static inline void set_cell(uint8_t *state, size_t cell, uint32_t value)
{
    store(state, cell, value);
    store(state, CELLS + cell, 1);
}

/*
 * Each mark is 0 or 1 and an unmarked value is 0. There is no early way out, so that the compiler can take several cells at once; and
 * a product, since gcc makes a branch of a choice where the call stores nothing, as the query, and then takes one at a time.
 */
static inline int is_well_formed(const uint8_t *state)
{
    uint32_t marks = 0, unmarked_values = 0;
    for (size_t cell = 0; cell < CELLS; cell++) {
        uint32_t value = value_of(state, cell), mark = mark_of(state, cell);
        marks |= mark;
        unmarked_values |= (mark == 0) * value;
    }
    return marks <= 1 && unmarked_values == 0;
}

static inline int is_state(const uint8_t *state, size_t length)
{
    return length == STATE_BYTES && is_well_formed(state);
}

/* ---- the grants */

/*
 * The addresses that a grant grants: from start on, as many more as its length leaves beside its reach. An address is one of them
 * exactly if address - start <= width. The difference may wrap: start + width is below 2^32, so an address below start then gives
 * more than width.
 */
struct range {
    uint32_t start, width;
};

struct ranges {
    size_t count;
    struct range range[MOST_GRANTS];
};

struct grants {
    struct ranges target[MEMORIES], first_scaler, second_scaler;
};

/* The scalers are granted memory 0 alone. */
static inline struct ranges *ranges_of(struct grants *grants, uint32_t role, uint32_t memory)
{
    switch (role) {
    case 1:
        return memory == 0 ? &grants->target[0] : memory == 1 ? &grants->target[1] : NULL;
    case 2:
        return memory == 0 ? &grants->first_scaler : NULL;
    case 3:
        return memory == 0 ? &grants->second_scaler : NULL;
    default:
        return NULL;
    }
}

/* Looks at each grant once and keeps it by its role and its memory. Returns 0 if the list breaks its rules. */
static inline int keep_grants(struct grants *kept, const uint8_t *grants, size_t words)
{
    for (size_t memory = 0; memory < MEMORIES; memory++)
        kept->target[memory].count = 0;
    kept->first_scaler.count = 0;
    kept->second_scaler.count = 0;
    if (words % GRANT_WORDS != 0 || words > MOST_GRANTS * GRANT_WORDS)
        return 0;
    for (size_t i = 0; i < words; i += GRANT_WORDS) {
        struct ranges *ranges = ranges_of(kept, load(grants, i), load(grants, i + 4));
        uint32_t start = load(grants, i + 1), length = load(grants, i + 2), reach = load(grants, i + 3);
        if (ranges == NULL || (uint64_t)start + length > (uint64_t)1 << 32 || reach < 1)
            return 0;
        if (reach <= length) /* else it grants no address */
            ranges->range[ranges->count++] = (struct range){ start, length - reach };
    }
    return 1;
}

static inline int is_granted(const struct ranges *ranges, uint32_t address)
{
    for (size_t i = 0; i < ranges->count; i++)
        if (address - ranges->range[i].start <= ranges->range[i].width)
            return 1;
    return 0;
}

/* In whichever memory. */
static inline int is_granted_target(const struct grants *grants, uint32_t address)
{
    return is_granted(&grants->target[0], address) || is_granted(&grants->target[1], address);
}

/* ---- the registers: OK if a value may be written, else the reason why not */

static const uint8_t bytes_per_pixel[256] = {
    [0x15] = 2, [0x16] = 2,
    [0x30] = 2,
    [0x88] = 2, [0x89] = 2, [0x8a] = 2, [0x8b] = 2, [0x8d] = 2,
    [0x98] = 4, [0x99] = 4, [0x9a] = 4,
    [0xa8] = 2, [0xa9] = 2, [0xaa] = 2, [0xab] = 2, [0xad] = 2,
    [0xb8] = 4, [0xb9] = 4, [0xba] = 4, [0xbb] = 4,
    [0xc8] = 2, [0xc9] = 2, [0xca] = 2, [0xcb] = 2, [0xcd] = 2,
    [0xd8] = 4, [0xd9] = 4, [0xda] = 4,
    [0xe0] = 2, [0xe1] = 2, [0xe2] = 2, [0xe3] = 2, [0xe5] = 2,
    [0xe8] = 4, [0xe9] = 4, [0xea] = 4,
    [0xf0] = 2, [0xf4] = 4, [0xf5] = 4
};

/* The checks of 3D registers look at bits 23:0 of the word alone, so a whole parameter can be handed to them. */

/* Type 01, sub-type 00 */
static inline enum reason check_target(uint32_t sub_address, uint32_t word, const struct grants *grants)
{
    switch (sub_address) {
    case 0x3f:
        if ((word & 0x800800) != 0)
            return BIT_SET;
        return bits(word, 22, 12) <= 1024 && bits(word, 10, 0) <= 1024 ? OK : BAD_VALUE;
    case 0x50:
        return is_granted_target(grants, bits(word, 23, 0) * 256) ? OK : NOT_GRANTED;
    case 0x51:
        if ((word & 0x0fffff) != 0)
            return BIT_SET;
        return bits(word, 21, 20) < MEMORIES ? OK : BAD_VALUE;
    case 0x52:
        if ((word & 0x006fff) != 0)
            return BIT_SET;
        return bytes_per_pixel[bits(word, 23, 16)] != 0 ? OK : BAD_VALUE;
    default:
        return NO_REGISTER;
    }
}

/* Type 02, sub-types 00 to 0F */
static inline enum reason check_stage(uint32_t sub_address, uint32_t word)
{
    switch (sub_address) {
    case 0x50:
    case 0x51:
        return (word & 0xff0000) == 0 ? OK : BIT_SET;
    default:
        return NO_REGISTER;
    }
}

static inline int is_depth_code(uint32_t code)
{
    return code == 0 || code == 1 || code == 2 || code == 4;
}

static inline int obeys_rule_31(uint32_t word)
{
    return bits(word, 20, 16) <= 16
        && bits(word, 15, 13) <= 3 && bits(word, 12, 10) <= 3 && bits(word, 9, 7) <= 3 && bits(word, 6, 4) <= 3
        && is_depth_code(bits(word, 3, 0))
        && (bits(word, 15, 13) == 2) == (bits(word, 9, 7) == 2)
        && (bits(word, 12, 10) == 2) == (bits(word, 6, 4) == 2);
}

static inline int is_mapping_code(uint32_t code)
{
    return code <= 3 || code == 7;
}

static inline int obeys_rule_32(uint32_t word)
{
    return bits(word, 21, 19) <= 1 && bits(word, 18, 16) <= 1
        && is_mapping_code(bits(word, 8, 6)) && is_mapping_code(bits(word, 5, 3)) && is_mapping_code(bits(word, 2, 0));
}

/* Type 02, sub-types 20 to 2F */
static inline enum reason check_sample(uint32_t sub_address, uint32_t word)
{
    switch (sub_address) {
    case 0x30:
        if ((word & 0xc00000) != 0)
            return BIT_SET;
        return bits(word, 11, 6) <= 11 && bits(word, 5, 0) <= 11 ? OK : BAD_VALUE;
    case 0x31:
        if ((word & 0xe00000) != 0)
            return BIT_SET;
        return obeys_rule_31(word) ? OK : BAD_VALUE;
    case 0x32:
        if ((word & 0xc0fe00) != 0)
            return BIT_SET;
        return obeys_rule_32(word) ? OK : BAD_VALUE;
    default:
        return NO_REGISTER;
    }
}

static inline enum reason check_scaler_address(uint32_t word, uint32_t must_be_clear, const struct ranges *ranges)
{
    if ((word & must_be_clear) != 0)
        return BIT_SET;
    if (bits(word, 1, 0) != 0)
        return BAD_VALUE;
    return is_granted(ranges, bits(word, 28, 4) << 4) ? OK : NOT_GRANTED;
}

static inline enum reason check_video(size_t cell, uint32_t word, const struct grants *grants)
{
    switch (cell) {
    case 84:
    case 85:
        return (word & 0xf800f800) == 0 ? OK : BIT_SET;
    case 86:
        if ((word & 0xffe000fc) != 0)
            return BIT_SET;
        return bits(word, 1, 0) != 3 ? OK : BAD_VALUE;
    case 87:
    case 94:
        return (word & 0x76ffe0fe) == 0 ? OK : BIT_SET;
    case 88:
    case 95:
        return (word & 0x6ffe0000) == 0 ? OK : BIT_SET;
    case 89:
        return check_scaler_address(word, 0x2000000c, &grants->first_scaler);
    case 96:
        return check_scaler_address(word, 0x2000000c, &grants->second_scaler);
    case 90:
    case 93:
        return check_scaler_address(word, 0xe000000c, &grants->first_scaler);
    case 97:
    case 100:
        return check_scaler_address(word, 0xe000000c, &grants->second_scaler);
    case 91:
    case 98:
        return (word & 0xffffc00f) == 0 ? OK : BIT_SET;
    default: /* 92, 99 */
        return (word & 0x0decc00f) == 0 ? OK : BIT_SET;
    }
}

/* ---- the pair: the target's address, and the memory that it is in */

static inline int is_24_bits(uint32_t value)
{
    return value < (uint32_t)1 << 24;
}

/* An unmarked value is 0, and so names memory 0. A state may come with 2 or 3, which name none. */
static inline uint32_t target_memory(const uint8_t *state)
{
    return bits(value_of(state, TARGET_MEMORY), 21, 20);
}

static inline int is_pair_granted(const uint8_t *state, const struct grants *grants)
{
    uint32_t value = value_of(state, TARGET_ADDRESS), memory = target_memory(state);
    return mark_of(state, TARGET_ADDRESS) == 0
        || (is_24_bits(value) && memory < MEMORIES && is_granted(&grants->target[memory], value * 256));
}

/* ---- the reader */

static inline uint32_t sub_address_of(uint32_t word)
{
    return bits(word, 31, 24);
}

static inline uint32_t data_of(uint32_t word)
{
    return bits(word, 23, 0);
}

/*
 * Each of the following reads the words of a packet into the state and answers OK, or refuses. `end` is where the packet ends, or the
 * batch if that is sooner. The cells of a stage or a sample follow each other as their sub-addresses do.
 */

static inline size_t target_cell(uint32_t sub_address)
{
    switch (sub_address) {
    case 0x3f:
        return 0;
    case 0x50:
        return TARGET_ADDRESS;
    case 0x51:
        return TARGET_MEMORY;
    default: /* 52 */
        return 3;
    }
}

/* Says also whether it wrote a cell of the pair. */
static inline uint64_t read_target(const uint8_t *batch, size_t first, size_t end, const struct grants *grants, uint8_t *state,
                                   int *wrote_pair)
{
    for (size_t at = first; at < end; at++) {
        uint32_t word = load(batch, at);
        enum reason reason = check_target(sub_address_of(word), word, grants);
        if (reason != OK)
            return answer(at, reason);
        size_t cell = target_cell(sub_address_of(word));
        set_cell(state, cell, data_of(word));
        if (cell == TARGET_ADDRESS || cell == TARGET_MEMORY)
            *wrote_pair = 1;
    }
    return OK;
}

static inline uint64_t read_stage(const uint8_t *batch, size_t first, size_t end, uint32_t n, uint8_t *state)
{
    size_t first_cell = FIRST_STAGE + STAGE_SIZE * n;
    for (size_t at = first; at < end; at++) {
        uint32_t word = load(batch, at);
        enum reason reason = check_stage(sub_address_of(word), word);
        if (reason != OK)
            return answer(at, reason);
        set_cell(state, first_cell + sub_address_of(word) - 0x50, data_of(word));
    }
    return OK;
}

static inline uint64_t read_sample(const uint8_t *batch, size_t first, size_t end, uint32_t n, uint8_t *state)
{
    size_t first_cell = FIRST_SAMPLE + SAMPLE_SIZE * n;
    for (size_t at = first; at < end; at++) {
        uint32_t word = load(batch, at);
        enum reason reason = check_sample(sub_address_of(word), word);
        if (reason != OK)
            return answer(at, reason);
        set_cell(state, first_cell + sub_address_of(word) - 0x30, data_of(word));
    }
    return OK;
}

static inline uint64_t read_3d(const uint8_t *batch, size_t header_at, size_t end, uint32_t count, const struct grants *grants,
                               uint8_t *state, int *wrote_pair)
{
    size_t setting_at = header_at + 1, first = header_at + 2;
    if (count < 2 || count > 113)
        return answer(header_at, BAD_COUNT);
    if (setting_at == end)
        return OK;
    uint32_t setting = load(batch, setting_at), n = bits(setting, 27, 24);
    if (setting == 0x00010000)
        return read_target(batch, first, end, grants, state, wrote_pair);
    switch (setting & 0xf0ffffff) { /* all but n, which may be anything */
    case 0x00020000:
        return read_stage(batch, first, end, n, state);
    case 0x20020000:
        return read_sample(batch, first, end, n, state);
    default:
        return answer(setting_at, BAD_SETTING);
    }
}

/* The cell of a video register, or CELLS if the offset names none. */
static inline size_t video_cell(uint32_t offset)
{
    if (offset % 4 != 0)
        return CELLS;
    if (offset >= 0x2208 && offset <= 0x2210)
        return 84 + (offset - 0x2208) / 4;
    if (offset >= 0x23e4 && offset <= 0x23fc)
        return 87 + (offset - 0x23e4) / 4;
    if (offset >= 0x33e4 && offset <= 0x33fc)
        return 94 + (offset - 0x33e4) / 4;
    return CELLS;
}

/* The cell behind the last one that a run from this one on can reach. */
static inline size_t run_end(size_t cell)
{
    return cell < 87 ? 87 : cell < 94 ? 94 : CELLS;
}

static inline uint64_t read_video(const uint8_t *batch, size_t header_at, size_t end, uint32_t count, size_t cell,
                                  const struct grants *grants, uint8_t *state)
{
    if (cell == CELLS)
        return answer(header_at, BAD_OFFSET);
    if (count < 1 || count > run_end(cell) - cell)
        return answer(header_at, BAD_COUNT);
    for (size_t at = header_at + 1; at < end; at++, cell++) {
        uint32_t word = load(batch, at);
        enum reason reason = check_video(cell, word, grants);
        if (reason != OK)
            return answer(at, reason);
        set_cell(state, cell, word);
    }
    return OK;
}

static inline uint64_t read_batch(const uint8_t *batch, size_t words, const struct grants *grants, uint8_t *state)
{
    size_t at = 0;
    int wrote_pair = 0;
    while (at < words) {
        uint32_t header = load(batch, at), count = bits(header, 31, 16), offset = bits(header, 15, 0);
        size_t next = at + 1 + count, end = next < words ? next : words;
        uint64_t refusal = offset == OFFSET_3D ? read_3d(batch, at, end, count, grants, state, &wrote_pair)
                                               : read_video(batch, at, end, count, video_cell(offset), grants, state);
        if (refusal != OK)
            return refusal;
        at = next;
    }
    if (at != words)
        return answer(words, ENDS_INSIDE);
    return answer(words, wrote_pair && !is_pair_granted(state, grants) ? BAD_PAIR : OK);
}

uint64_t careful_read(const uint8_t *batch, size_t batch_len,
                      const uint8_t *grants, size_t grants_len,
                      uint8_t *state, size_t state_len)
{
    struct grants kept;
    uint8_t after[STATE_BYTES];
    if (!is_word_buffer(batch_len) || !is_word_buffer(grants_len) || !is_word_buffer(state_len))
        return answer(0, BAD_BUFFER);
    if (!is_state(state, state_len))
        return answer(0, BAD_STATE);
    if (!keep_grants(&kept, grants, grants_len / 4))
        return answer(0, BAD_GRANTS);
    memcpy(after, state, STATE_BYTES);
    uint64_t given = read_batch(batch, batch_len / 4, &kept, after);
    if (given % 256 == OK)
        memcpy(state, after, STATE_BYTES);
    return given;
}

/* ---- the registers in cell order, for the writer and the lister */

static const uint8_t target_addresses[TARGET_SIZE] = { 0x3f, 0x50, 0x51, 0x52 };
static const uint8_t stage_addresses[STAGE_SIZE] = { 0x50, 0x51 };
static const uint8_t sample_addresses[SAMPLE_SIZE] = { 0x30, 0x31, 0x32 };

static inline uint32_t video_offset(size_t cell)
{
    if (cell < 87)
        return 0x2208 + 4 * (uint32_t)(cell - 84);
    if (cell < 94)
        return 0x23e4 + 4 * (uint32_t)(cell - 87);
    return 0x33e4 + 4 * (uint32_t)(cell - 94);
}

static inline size_t marked_from(const uint8_t *state, size_t first, size_t size)
{
    size_t marked = 0;
    for (size_t i = 0; i < size; i++)
        marked += mark_of(state, first + i);
    return marked;
}

/* ---- the writer */

/* Of the target's address the pair asks all that its register does, and the memory besides. */
static inline int can_write_target(const uint8_t *state, size_t cell, size_t i, const struct grants *grants)
{
    uint32_t value = value_of(state, cell);
    if (cell == TARGET_ADDRESS)
        return is_pair_granted(state, grants);
    return mark_of(state, cell) == 0 || (is_24_bits(value) && check_target(target_addresses[i], value, grants) == OK);
}

static inline int can_write_stage(const uint8_t *state, size_t cell, size_t i)
{
    uint32_t value = value_of(state, cell);
    return mark_of(state, cell) == 0 || (is_24_bits(value) && check_stage(stage_addresses[i], value) == OK);
}

static inline int can_write_sample(const uint8_t *state, size_t cell, size_t i)
{
    uint32_t value = value_of(state, cell);
    return mark_of(state, cell) == 0 || (is_24_bits(value) && check_sample(sample_addresses[i], value) == OK);
}

static inline int can_write_video(const uint8_t *state, size_t cell, const struct grants *grants)
{
    return mark_of(state, cell) == 0 || check_video(cell, value_of(state, cell), grants) == OK;
}

/* The lowest cell that cannot be written, or CELLS. */
static inline size_t lowest_bad_cell(const uint8_t *state, const struct grants *grants)
{
    size_t cell = 0;
    for (size_t i = 0; i < TARGET_SIZE; i++, cell++)
        if (!can_write_target(state, cell, i, grants))
            return cell;
    for (size_t n = 0; n < STAGES; n++)
        for (size_t i = 0; i < STAGE_SIZE; i++, cell++)
            if (!can_write_stage(state, cell, i))
                return cell;
    for (size_t n = 0; n < SAMPLES; n++)
        for (size_t i = 0; i < SAMPLE_SIZE; i++, cell++)
            if (!can_write_sample(state, cell, i))
                return cell;
    for (; cell < CELLS; cell++)
        if (!can_write_video(state, cell, grants))
            return cell;
    return CELLS;
}

/* A header, a setting and the marked cells, if there are any. */
static inline size_t words_of_group(const uint8_t *state, size_t first, size_t size)
{
    size_t marked = marked_from(state, first, size);
    return marked == 0 ? 0 : 2 + marked;
}

static inline size_t words_needed(const uint8_t *state)
{
    size_t words = words_of_group(state, 0, TARGET_SIZE);
    for (size_t n = 0; n < STAGES; n++)
        words += words_of_group(state, FIRST_STAGE + STAGE_SIZE * n, STAGE_SIZE);
    for (size_t n = 0; n < SAMPLES; n++)
        words += words_of_group(state, FIRST_SAMPLE + SAMPLE_SIZE * n, SAMPLE_SIZE);
    return words + 2 * marked_from(state, FIRST_VIDEO, CELLS - FIRST_VIDEO);
}

/* Each of the following puts words behind the `words` that are there, and returns how many are there then. */

static inline size_t put_group(uint8_t *out, size_t words, const uint8_t *state, uint32_t setting, size_t first, size_t size,
                               const uint8_t *sub_addresses)
{
    size_t marked = marked_from(state, first, size);
    if (marked == 0)
        return words;
    store(out, words++, (uint32_t)(1 + marked) << 16 | OFFSET_3D);
    store(out, words++, setting);
    for (size_t i = 0; i < size; i++)
        if (mark_of(state, first + i) != 0)
            store(out, words++, (uint32_t)sub_addresses[i] << 24 | value_of(state, first + i));
    return words;
}

static inline size_t put_video(uint8_t *out, size_t words, const uint8_t *state, size_t cell)
{
    if (mark_of(state, cell) == 0)
        return words;
    store(out, words++, (uint32_t)1 << 16 | video_offset(cell));
    store(out, words++, value_of(state, cell));
    return words;
}

static inline size_t put_state(uint8_t *out, const uint8_t *state)
{
    size_t words = put_group(out, 0, state, 0x00010000, 0, TARGET_SIZE, target_addresses);
    for (uint32_t n = 0; n < STAGES; n++)
        words = put_group(out, words, state, n << 24 | 0x00020000, FIRST_STAGE + STAGE_SIZE * n, STAGE_SIZE, stage_addresses);
    for (uint32_t n = 0; n < SAMPLES; n++)
        words = put_group(out, words, state, n << 24 | 0x20020000, FIRST_SAMPLE + SAMPLE_SIZE * n, SAMPLE_SIZE, sample_addresses);
    for (size_t cell = FIRST_VIDEO; cell < CELLS; cell++)
        words = put_video(out, words, state, cell);
    return words;
}

/* All that is asked of a state and its grants: a refusal, or OK at the number of words that the state takes. */
static inline uint64_t size_in_words(const uint8_t *state, size_t state_len, const uint8_t *grants, size_t grants_len)
{
    struct grants kept;
    if (!is_state(state, state_len))
        return answer(0, BAD_STATE);
    if (!keep_grants(&kept, grants, grants_len / 4))
        return answer(0, BAD_GRANTS);
    size_t bad = lowest_bad_cell(state, &kept);
    if (bad != CELLS)
        return answer(bad, NOT_WRITABLE);
    return answer(words_needed(state), OK);
}

uint64_t careful_size(const uint8_t *state, size_t state_len,
                      const uint8_t *grants, size_t grants_len)
{
    if (!is_word_buffer(state_len) || !is_word_buffer(grants_len))
        return answer(0, BAD_BUFFER);
    return size_in_words(state, state_len, grants, grants_len);
}

uint64_t careful_write(const uint8_t *state, size_t state_len,
                       const uint8_t *grants, size_t grants_len,
                       uint8_t *out, size_t out_len)
{
    if (!is_word_buffer(state_len) || !is_word_buffer(grants_len) || !is_word_buffer(out_len))
        return answer(0, BAD_BUFFER);
    uint64_t size = size_in_words(state, state_len, grants, grants_len);
    if (size % 256 != OK)
        return size;
    if (out_len / 4 < size / 256)
        return answer(0, NO_ROOM);
    return answer(put_state(out, state), OK);
}

/* ---- the lister */

/* Each of the following puts text down and returns where it ends. */

static inline uint8_t *put_text(uint8_t *out, const char *text)
{
    size_t length = strlen(text);
    memcpy(out, text, length);
    return out + length;
}

static inline uint8_t *put_hex(uint8_t *out, uint32_t number, int digits)
{
    static const char digit[] = "0123456789abcdef";
    for (int i = digits - 1; i >= 0; i--)
        *out++ = (uint8_t)digit[number >> 4 * i & 15];
    return out;
}

static inline uint8_t *put_value(uint8_t *out, uint32_t value)
{
    out = put_text(out, " val=");
    out = put_hex(out, value, 8);
    return put_text(out, "\n");
}

static inline uint8_t *put_3d_line(uint8_t *out, uint32_t type, uint32_t sub_type, uint32_t sub_address, uint32_t value)
{
    out = put_text(out, "reg=");
    out = put_hex(out, type, 2);
    out = put_text(out, ".");
    out = put_hex(out, sub_type, 2);
    out = put_text(out, ".");
    out = put_hex(out, sub_address, 2);
    return put_value(out, value);
}

static inline uint8_t *put_video_line(uint8_t *out, uint32_t offset, uint32_t value)
{
    out = put_text(out, "reg=");
    out = put_hex(out, offset, 4);
    return put_value(out, value);
}

static inline uint8_t *put_group_lines(uint8_t *out, const uint8_t *state, uint32_t type, uint32_t sub_type, size_t first, size_t size,
                                       const uint8_t *sub_addresses)
{
    for (size_t i = 0; i < size; i++)
        if (mark_of(state, first + i) != 0)
            out = put_3d_line(out, type, sub_type, sub_addresses[i], value_of(state, first + i));
    return out;
}

static inline uint8_t *put_lines(uint8_t *out, const uint8_t *state)
{
    out = put_group_lines(out, state, 0x01, 0x00, 0, TARGET_SIZE, target_addresses);
    for (uint32_t n = 0; n < STAGES; n++)
        out = put_group_lines(out, state, 0x02, n, FIRST_STAGE + STAGE_SIZE * n, STAGE_SIZE, stage_addresses);
    for (uint32_t n = 0; n < SAMPLES; n++)
        out = put_group_lines(out, state, 0x02, 0x20 + n, FIRST_SAMPLE + SAMPLE_SIZE * n, SAMPLE_SIZE, sample_addresses);
    for (size_t cell = FIRST_VIDEO; cell < CELLS; cell++)
        if (mark_of(state, cell) != 0)
            out = put_video_line(out, video_offset(cell), value_of(state, cell));
    return out;
}

static inline size_t digits_of(size_t count)
{
    return count < 10 ? 1 : count < 100 ? 2 : 3;
}

static inline uint8_t *put_count(uint8_t *out, size_t count)
{
    out = put_text(out, "cells=");
    if (count >= 100)
        *out++ = (uint8_t)('0' + count / 100);
    if (count >= 10)
        *out++ = (uint8_t)('0' + count / 10 % 10);
    *out++ = (uint8_t)('0' + count % 10);
    return put_text(out, "\n");
}

enum { COUNT_LINE_BUT_DIGITS = 7, LINE_3D = 26, LINE_VIDEO = 22 };

uint64_t careful_list(const uint8_t *state, size_t state_len,
                      uint8_t *out, size_t out_len)
{
    if (!is_word_buffer(state_len) || out_len > MOST_BYTES)
        return answer(0, BAD_BUFFER);
    if (!is_state(state, state_len))
        return answer(0, BAD_STATE);
    size_t in_3d = marked_from(state, 0, FIRST_VIDEO), in_video = marked_from(state, FIRST_VIDEO, CELLS - FIRST_VIDEO);
    size_t count = in_3d + in_video;
    if (out_len < COUNT_LINE_BUT_DIGITS + digits_of(count) + LINE_3D * in_3d + LINE_VIDEO * in_video)
        return answer(0, NO_ROOM);
    uint8_t *end = put_lines(put_count(out, count), state);
    return answer((size_t)(end - out), OK);
}

/* ---- the listing reader */

enum { NO_DIGIT = 16, VALUE_DIGITS = 8, VALUE_DIGITS_3D = 6 /* the others are 0 */ };

static inline uint32_t digit_of(uint8_t byte)
{
    return byte >= '0' && byte <= '9' ? byte - (uint32_t)'0' : byte >= 'a' && byte <= 'f' ? byte - (uint32_t)'a' + 10 : NO_DIGIT;
}

/* The following look at bytes that are there. */

static inline int is_text(const uint8_t *at, const char *text)
{
    return memcmp(at, text, strlen(text)) == 0;
}

/* Whether so many hex digits stand there, and their number. */
static inline int is_hex(const uint8_t *at, int digits, uint32_t *number)
{
    *number = 0;
    for (int i = 0; i < digits; i++) {
        uint32_t digit = digit_of(at[i]);
        if (digit == NO_DIGIT)
            return 0;
        *number = *number << 4 | digit;
    }
    return 1;
}

/* The cell of a 3D register, or CELLS if there is none of that name. */
static inline size_t cell_3d(uint32_t type, uint32_t sub_type, uint32_t sub_address)
{
    if (type == 0x01 && sub_type == 0x00) {
        if (sub_address == 0x3f || (sub_address >= 0x50 && sub_address <= 0x52))
            return target_cell(sub_address);
    } else if (type == 0x02 && sub_type < STAGES) {
        if (sub_address == 0x50 || sub_address == 0x51)
            return FIRST_STAGE + STAGE_SIZE * sub_type + (sub_address - 0x50);
    } else if (type == 0x02 && sub_type >= 0x20 && sub_type < 0x20 + SAMPLES) {
        if (sub_address >= 0x30 && sub_address <= 0x32)
            return FIRST_SAMPLE + SAMPLE_SIZE * (sub_type - 0x20) + (sub_address - 0x30);
    }
    return CELLS;
}

/* What stands in a line behind the name. */
static inline int read_value(const uint8_t *at, uint32_t *value)
{
    return is_text(at, " val=") && is_hex(at + 5, VALUE_DIGITS, value) && at[13] == '\n';
}

/* Each of the following gives the cell whose line stands there, and its value, or CELLS if there is none. */

static inline size_t read_3d_line(const uint8_t *line, uint32_t *value)
{
    uint32_t type, sub_type, sub_address;
    if (!is_hex(line + 4, 2, &type) || line[6] != '.' || !is_hex(line + 7, 2, &sub_type) || line[9] != '.'
        || !is_hex(line + 10, 2, &sub_address))
        return CELLS;
    size_t cell = cell_3d(type, sub_type, sub_address);
    if (cell == CELLS || !read_value(line + 12, value) || !is_24_bits(*value))
        return CELLS;
    return cell;
}

static inline size_t read_video_line(const uint8_t *line, uint32_t *value)
{
    uint32_t offset;
    if (!is_hex(line + 4, 4, &offset))
        return CELLS;
    size_t cell = video_cell(offset);
    if (cell == CELLS || !read_value(line + 8, value))
        return CELLS;
    return cell;
}

static inline size_t read_line(const uint8_t *line, size_t length, uint32_t *value)
{
    if (length < LINE_VIDEO || !is_text(line, "reg="))
        return CELLS;
    if (line[6] != '.')
        return read_video_line(line, value);
    return length < LINE_3D ? CELLS : read_3d_line(line, value);
}

static inline size_t line_bytes(size_t cell)
{
    return cell < FIRST_VIDEO ? LINE_3D : LINE_VIDEO;
}

/* ---- where a line that does not fit goes wrong */

static void put_line(uint8_t *out, size_t cell)
{
    if (cell < FIRST_STAGE)
        put_3d_line(out, 0x01, 0x00, target_addresses[cell], 0);
    else if (cell < FIRST_SAMPLE)
        put_3d_line(out, 0x02, (uint32_t)(cell - FIRST_STAGE) / STAGE_SIZE, stage_addresses[(cell - FIRST_STAGE) % STAGE_SIZE], 0);
    else if (cell < FIRST_VIDEO)
        put_3d_line(out, 0x02, 0x20 + (uint32_t)(cell - FIRST_SAMPLE) / SAMPLE_SIZE,
                    sample_addresses[(cell - FIRST_SAMPLE) % SAMPLE_SIZE], 0);
    else
        put_video_line(out, video_offset(cell), 0);
}

/* How many of the bytes a line of this cell begins with. The digits that its width leaves open may be any. */
static size_t agreeing(const uint8_t *bytes, size_t length, size_t cell)
{
    uint8_t line[LINE_3D];
    size_t last = line_bytes(cell) - 1, digits = cell < FIRST_VIDEO ? VALUE_DIGITS_3D : VALUE_DIGITS, i;
    put_line(line, cell);
    for (i = 0; i <= last && i < length; i++) {
        int is_digit = i >= last - digits && i < last;
        if (is_digit ? digit_of(bytes[i]) == NO_DIGIT : bytes[i] != line[i])
            break;
    }
    return i;
}

/* The same for the cells from `first` to `last`: the most of them. */
static size_t most_agreeing(const uint8_t *bytes, size_t length, size_t first, size_t last)
{
    size_t most = 0;
    for (size_t cell = first; cell <= last; cell++) {
        size_t so_many = agreeing(bytes, length, cell);
        if (so_many > most)
            most = so_many;
    }
    return most;
}

/* How many of the bytes the text begins with. */
static size_t agreeing_text(const uint8_t *bytes, size_t length, const char *text)
{
    size_t i = 0;
    while (i < length && text[i] != 0 && bytes[i] == (uint8_t)text[i])
        i++;
    return i;
}

/* ---- a whole listing */

/* Reads the first line. Answers OK, the count and where the next line begins, or refuses. */
static inline uint64_t read_count(const uint8_t *listing, size_t length, size_t *count, size_t *next)
{
    static const char key[] = "cells=";
    size_t first_digit = strlen(key), number = 0, at = first_digit;
    if (length < first_digit || !is_text(listing, key))
        return answer(agreeing_text(listing, length, key), NOT_A_LISTING);
    for (; at < length && listing[at] >= '0' && listing[at] <= '9'; at++) {
        int leading_zero = number == 0 && at > first_digit;
        number = 10 * number + (listing[at] - (size_t)'0');
        if (leading_zero || number > CELLS)
            return answer(at, NOT_A_LISTING);
    }
    if (at == first_digit || at == length || listing[at] != '\n')
        return answer(at, NOT_A_LISTING);
    *count = number;
    *next = at + 1;
    return OK;
}

/* Reads `count` lines from `at` to the end into an empty state. */
static inline uint64_t read_lines(const uint8_t *listing, size_t length, size_t at, size_t count, uint8_t *state)
{
    size_t first = 0; /* the lowest cell that may come next */
    for (; count > 0; count--) {
        uint32_t value;
        size_t last = CELLS - count; /* the highest: the lines behind it need cells too */
        size_t cell = read_line(listing + at, length - at, &value);
        if (cell == CELLS || cell < first || cell > last)
            return answer(at + most_agreeing(listing + at, length - at, first, last), NOT_A_LISTING);
        set_cell(state, cell, value);
        first = cell + 1;
        at += line_bytes(cell);
    }
    return answer(at, at == length ? OK : NOT_A_LISTING);
}

uint64_t careful_read_listing(const uint8_t *listing, size_t listing_len,
                              uint8_t *state, size_t state_len)
{
    uint8_t listed[STATE_BYTES] = { 0 };
    size_t count, at;
    if (listing_len > MOST_BYTES || !is_word_buffer(state_len))
        return answer(0, BAD_BUFFER);
    if (state_len != STATE_BYTES)
        return answer(0, BAD_STATE);
    uint64_t refusal = read_count(listing, listing_len, &count, &at);
    if (refusal != OK)
        return refusal;
    uint64_t given = read_lines(listing, listing_len, at, count, listed);
    if (given % 256 == OK)
        memcpy(state, listed, STATE_BYTES);
    return given;
}

/* ---- the query */

enum { NO_ROLE, NO_GRANT = MOST_GRANTS };

/* The role of the address that the register of a cell holds. */
static inline uint32_t role_of(uint32_t cell)
{
    switch (cell) {
    case TARGET_ADDRESS:
        return 1;
    case 89:
    case 90:
    case 93:
        return 2;
    case 96:
    case 97:
    case 100:
        return 3;
    default: /* it holds none, or there is no such cell */
        return NO_ROLE;
    }
}

struct asked {
    uint32_t role, memory;
    uint64_t address; /* a target's may be one past all memory: a state can hold more than 24 bits */
};

static inline struct asked asked_of(const uint8_t *state, uint32_t cell)
{
    uint32_t role = role_of(cell);
    if (role == NO_ROLE || mark_of(state, cell) == 0)
        return (struct asked){ NO_ROLE, 0, 0 };
    uint32_t value = value_of(state, cell);
    if (role == 1)
        return (struct asked){ role, target_memory(state), (uint64_t)value * 256 };
    return (struct asked){ role, 0, bits(value, 28, 4) << 4 };
}

/*
 * Looks at each of the caller's grants once, since what the reader keeps of them has no numbers, and remembers the first that admits
 * what is asked. No grant has NO_ROLE.
 */
static inline uint64_t find_grant(const uint8_t *grants, size_t words, struct asked asked)
{
    size_t found = NO_GRANT;
    if (words % GRANT_WORDS != 0 || words > MOST_GRANTS * GRANT_WORDS)
        return answer(0, BAD_GRANTS);
    for (size_t i = 0; i < words; i += GRANT_WORDS) {
        uint32_t role = load(grants, i), memory = load(grants, i + 4), memories = role == 1 ? MEMORIES : 1;
        uint64_t start = load(grants, i + 1), end = start + load(grants, i + 2), reach = load(grants, i + 3);
        if (role < 1 || role > 3 || end > (uint64_t)1 << 32 || reach < 1 || memory >= memories)
            return answer(0, BAD_GRANTS);
        if (found == NO_GRANT && role == asked.role && memory == asked.memory && start <= asked.address && asked.address + reach <= end)
            found = i / GRANT_WORDS;
    }
    return answer(found, OK);
}

uint64_t careful_which_grant(const uint8_t *state, size_t state_len,
                             const uint8_t *grants, size_t grants_len,
                             uint32_t cell)
{
    if (!is_word_buffer(state_len) || !is_word_buffer(grants_len))
        return answer(0, BAD_BUFFER);
    if (!is_state(state, state_len))
        return answer(0, BAD_STATE);
    return find_grant(grants, grants_len / 4, asked_of(state, cell));
}
