/*
 * The C of docs/DRIVER.md, on a chip that is an array: tests/c/run takes the page's blocks of C into driver_page.c. Two programs take
 * turns; after each step the chip holds what the driver keeps for the one whose turn it is, and no address of the other.
 */
#include "check.h"
#include "registers.h"
#include <stdio.h>
#include <stdlib.h>
#include <string.h>

#include "driver_page.c"

enum { CELLS = IRANGELDA_CELLS, STATE_BYTES = IRANGELDA_STATE_BYTES };

/* ---- what the page's code calls */

static struct {
    uint32_t value[CELLS];
    int written[CELLS];
} chip;

static const struct client *limits_of;
static unsigned reason, place, copies, ring_puts, locked;
static int ring_is_full, no_limits, chip_hangs, memory_is_out;
static size_t lengths_allocated;

void complain(enum irangelda_reason r, uint32_t p)
{
    reason = r;
    place = p;
}

uint8_t *private_copy(const void *from_program, size_t len)
{
    uint8_t *copy = memory_is_out ? NULL : malloc(len);
    copies++;
    if (copy != NULL)
        memcpy(copy, from_program, len);
    return copy;
}

uint8_t *allocate(size_t len)
{
    lengths_allocated += len;
    return memory_is_out ? NULL : malloc(len);
}

void release(uint8_t *batch) { free(batch); }
void lock(void) { expect(locked++ == 0, "driver: locked twice"); }
void unlock(void) { expect(locked-- == 1, "driver: unlocked without a lock"); }

int wait_until_idle(void)
{
    expect(locked == 1, "driver: waits without the lock");
    return chip_hangs ? -1 : 0;
}

int set_limits(const struct client *client)
{
    expect(turn == 0, "driver: limits change in somebody's turn");
    limits_of = client;
    return no_limits ? -1 : 0;
}

static uint32_t word_at(const uint8_t *bytes, size_t i)
{
    return (uint32_t)bytes[4 * i] | (uint32_t)bytes[4 * i + 1] << 8 | (uint32_t)bytes[4 * i + 2] << 16 | (uint32_t)bytes[4 * i + 3] << 24;
}

/* A register is written, whoever's words these are. */
static void obey(uint32_t setting, uint32_t name, uint32_t value)
{
    for (size_t cell = 0; cell < CELLS; cell++) {
        struct reg reg = reg_at(cell);
        if (reg.setting == setting && name == (setting != 0 ? reg.sub_address : reg.offset)) {
            chip.value[cell] = value;
            chip.written[cell] = 1;
            return;
        }
    }
    expect(0, "driver: the chip has no register %x under %x", name, setting);
}

int ring_put(const uint8_t *bytes, size_t len)
{
    expect(locked == 1, "driver: ring_puts without the lock");
    if (ring_is_full)
        return -1;
    ring_puts++;
    for (size_t at = 0; at < len / 4;) {
        uint32_t header = word_at(bytes, at), offset = header & 0xffff;
        size_t next = at + 1 + (header >> 16);
        expect(next <= len / 4, "driver: a packet is cut off in the ring");
        uint32_t setting = offset == 0x043c ? word_at(bytes, ++at) : 0;
        for (at++; at < next; at++) {
            uint32_t word = word_at(bytes, at);
            if (setting != 0) {
                obey(setting, word >> 24, word & 0xffffff);
            } else {
                obey(0, offset, word);
                offset += 4;
            }
        }
    }
    return 0;
}

/* ---- two programs */

enum { CHART = 0x00400000, CAPTIONS = 0x04400000, TARGET_REACH = 0x00300000, SCALER_REACH = 0x00903600 };

static struct client chart, captions;

/* The target at `memory`, and the scalers' buffers behind it. */
static void start(struct client *client, uint32_t memory)
{
    uint32_t first = memory + TARGET_REACH, second = first + SCALER_REACH;
    memset(client, 0, sizeof *client);
    add_grant(client, IRANGELDA_ROLE_TARGET, memory, TARGET_REACH, TARGET_REACH, IRANGELDA_MEMORY_LOCAL);
    add_grant(client, IRANGELDA_ROLE_FIRST_SCALER, first, SCALER_REACH, SCALER_REACH, IRANGELDA_MEMORY_LOCAL);
    add_grant(client, IRANGELDA_ROLE_SECOND_SCALER, second, SCALER_REACH, SCALER_REACH, IRANGELDA_MEMORY_LOCAL);
    house(client->state, memory, first, second);
}

static void reset(void)
{
    memset(&chip, 0, sizeof chip);
    turn = 0;
}

static enum outcome send(struct client *client, const uint32_t *words, size_t count)
{
    uint8_t bytes[64];
    for (size_t i = 0; i < count; i++)
        put_word(bytes, i, words[i]);
    reason = place = 0;
    return submit(client, bytes, 4 * count);
}

static uint32_t address_on_chip(size_t cell) { return cell == 1 ? chip.value[cell] * 256 : chip.value[cell] & 0x1ffffff0; }

/* The chip is what the driver keeps for the client, register for register, and its limits are the client's. */
static void holds(const struct client *client, uint32_t memory, const char *when)
{
    expect(turn == client && limits_of == client, "driver, %s: another's turn, or another's limits", when);
    for (size_t cell = 0; cell < CELLS; cell++) {
        expect(chip.written[cell] && chip.value[cell] == word_at(client->state, cell), "driver, %s: cell %zu has %x", when, cell,
               chip.value[cell]);
        if (role_of(cell) != NO_ROLE)
            expect(address_on_chip(cell) >= memory && address_on_chip(cell) < memory + TARGET_REACH + 2 * SCALER_REACH,
                   "driver, %s: cell %zu holds %x, an address of another's", when, cell, address_on_chip(cell));
    }
}

/* A step that must leave chip and state as they were. */
static void nothing_happens(enum outcome got, enum outcome wanted, const struct client *before, const struct client *after, unsigned puts_before,
                            const char *when)
{
    expect(got == wanted, "driver, %s: outcome %d", when, (int)got);
    expect(ring_puts == puts_before, "driver, %s: something went into the ring", when);
    expect(memcmp(before, after, sizeof *before) == 0, "driver, %s: what is kept of the client changed", when);
}

static const uint32_t one_stage[] = { 0x0003043c, 0x03020000, 0x50000001, 0x51000002 }, two_strides[] = { 0x000223f4, 0x00000100, 0x00000200 };
static const uint32_t another_stage[] = { 0x0002043c, 0x04020000, 0x50000007 }, charts_target[] = { 0x0002043c, 0x00010000, 0x50000000 | CHART / 256 };

#define SEND(client, words) send(client, words, sizeof words / sizeof *words)

static void turns(void)
{
    reset();
    start(&chart, CHART);
    start(&captions, CAPTIONS);
    expect(SEND(&chart, one_stage) == DONE, "driver: the chart's batch");
    holds(&chart, CHART, "the chart's turn");
    expect(SEND(&captions, two_strides) == DONE, "driver: the captions' batch");
    holds(&captions, CAPTIONS, "the captions' turn");
    expect(chip.value[91] == 0x100 && chip.value[10] == 0, "driver: the captions' values, and the chart's are gone");
    expect(SEND(&chart, charts_target) == DONE, "driver: the chart's second batch");
    holds(&chart, CHART, "the chart's second turn");
    expect(chip.value[10] == 1 && chip.value[91] == 0, "driver: the chart's values are back");
    expect(SEND(&captions, charts_target) == REFUSED && reason == IRANGELDA_NOT_GRANTED && place == 2, "driver: the chart's target for the captions: %u at %u",
           reason, place);
    holds(&captions, CAPTIONS, "after a refusal");
    reset();
    expect(SEND(&captions, one_stage) == DONE, "driver: a batch after a reset");
    holds(&captions, CAPTIONS, "after a reset");
    expect(submit(&captions, NULL, 0) == DONE, "driver: the empty batch");
    forget(&chart);
    expect(turn == &captions, "driver: another is forgotten");
    forget(&captions);
    expect(turn == 0, "driver: a client is not forgotten");
    expect(SEND(&captions, one_stage) == DONE, "driver: a new client at the same place");
}

static void failures_change_nothing(void)
{
    struct client kept = captions;
    unsigned before = ring_puts, copied = copies;
    static const uint8_t long_batch[IRANGELDA_BUFFER_BYTES_MAX + 4];
    expect(submit(&captions, long_batch, sizeof long_batch) == REFUSED && reason == IRANGELDA_BAD_BUFFER && copies == copied,
           "driver: a batch that is too long is copied");
    expect(submit(&captions, long_batch, 7) == REFUSED && reason == IRANGELDA_BAD_BUFFER && copies == copied, "driver: 7 bytes are copied");

    memory_is_out = 1;
    nothing_happens(SEND(&captions, another_stage), NO_MEMORY, &kept, &captions, before, "out of memory");
    memory_is_out = 0;

    ring_is_full = 1;
    nothing_happens(SEND(&captions, another_stage), RING_FULL, &kept, &captions, before, "the ring is full");
    holds(&captions, CAPTIONS, "the ring was full");
    struct client other = chart;
    nothing_happens(SEND(&chart, another_stage), RING_FULL, &other, &chart, before, "the ring is full at a change");
    expect(turn == 0, "driver: somebody's turn, and the words are not in");
    ring_is_full = 0;
    no_limits = 1;
    nothing_happens(SEND(&chart, another_stage), RING_FULL, &other, &chart, before, "no room for the limits");
    expect(turn == 0, "driver: somebody's turn without limits");
    no_limits = 0;
    expect(SEND(&captions, another_stage) == DONE && chip.value[12] == 7, "driver: once there is room");
    holds(&captions, CAPTIONS, "once there is room");

    before = ring_puts;
    chip_hangs = 1;
    nothing_happens(SEND(&chart, another_stage), CHIP_HUNG, &other, &chart, before, "the chip hangs");
    expect(turn == 0, "driver: somebody's turn on a chip that hangs");
    chip_hangs = 0;
    expect(SEND(&chart, one_stage) == DONE, "driver: once it does not");
    holds(&chart, CHART, "once it does not hang");

    before = ring_puts;
    put_word(captions.state, 1, CHART / 256);
    kept = captions;
    nothing_happens(SEND(&captions, another_stage), REFUSED, &kept, &captions, before, "a state with another's target");
    expect(turn == 0 && reason == IRANGELDA_NOT_WRITABLE && place == 1, "driver: somebody's turn, and the words were refused: %u at %u", reason, place);
}

/* The house's state: 184 words, and 12 where an address of it is not granted. */
static void houses(void)
{
    static const struct {
        uint32_t role, cell;
    } missing[] = { { 1, 1 }, { 2, 89 }, { 3, 96 } };
    uint8_t words[IRANGELDA_WRITE_BYTES_ENOUGH];
    start(&chart, CHART);
    start(&captions, CAPTIONS);
    expect(irangelda_write(chart.state, STATE_BYTES, chart.grants, chart.grants_len, words, sizeof words) == 184 * 256, "driver: the house's words");
    expect(irangelda_write(chart.state, STATE_BYTES, captions.grants, captions.grants_len, words, sizeof words) == 1 * 256 + IRANGELDA_NOT_WRITABLE,
           "driver: the house's words under another's grants");
    for (size_t i = 0; i < 3; i++) {
        struct client poor = chart;
        put_word(poor.grants + IRANGELDA_GRANT_BYTES * i, 0, missing[i].role % 3 + 1);
        expect(irangelda_write(poor.state, STATE_BYTES, poor.grants, poor.grants_len, words, sizeof words)
                   == missing[i].cell * 256 + IRANGELDA_NOT_WRITABLE,
               "driver: without a grant for role %u", missing[i].role);
    }
    struct client full_list = chart;
    while (add_grant(&full_list, 1, 0, 1, 1, 0))
        ;
    expect(full_list.grants_len == IRANGELDA_GRANTS_BYTES_MAX, "driver: a full list of %zu bytes", full_list.grants_len);
}

/* Why the house's state is needed: a program that starts from the empty state gets its turn, and the chart's target is still there. */
static void leftover(void)
{
    reset();
    start(&chart, CHART);
    start(&captions, CAPTIONS);
    memset(captions.state, 0, STATE_BYTES);
    expect(SEND(&chart, charts_target) == DONE && SEND(&captions, one_stage) == DONE, "driver: without the house's state");
    expect(turn == &captions && address_on_chip(1) == CHART, "driver: the chip forgets by itself");
}

/* ---- listings */

static enum outcome restore_text(const char *text, uint8_t *state)
{
    reason = place = 0;
    return restore((const uint8_t *)text, strlen(text), &chart, state);
}

/* A state that is kept comes back from its listing, over whatever was there; what is no listing, or may not be written, is told. */
static void listings(void)
{
    uint8_t text[IRANGELDA_LIST_BYTES_ENOUGH], state[STATE_BYTES], before[STATE_BYTES];
    start(&chart, CHART);
    start(&captions, CAPTIONS);
    expect(SEND(&chart, one_stage) == DONE, "driver: a batch before the listing");
    expect(irangelda_list(chart.state, STATE_BYTES, text, sizeof text) == sizeof text * 256, "driver: the listing of a full state");
    unsigned puts_before = ring_puts;
    struct client kept = chart, others = captions;

    memset(state, 0xee, STATE_BYTES);
    nothing_happens(restore(text, sizeof text, &chart, state), DONE, &kept, &chart, puts_before, "the chart's listing");
    expect(memcmp(state, chart.state, STATE_BYTES) == 0, "driver: another state comes back");
    nothing_happens(restore(text, sizeof text, &captions, state), REFUSED, &others, &captions, puts_before, "the chart's listing for the captions");
    expect(reason == IRANGELDA_NOT_WRITABLE && place == 1, "driver: the chart's target for the captions, from a listing: %u at %u", reason, place);

    memset(state, 0xee, STATE_BYTES);
    memcpy(before, state, STATE_BYTES);
    nothing_happens(restore(text, sizeof text - 7, &chart, state), REFUSED, &kept, &chart, puts_before, "a listing cut short");
    expect(reason == IRANGELDA_NOT_A_LISTING && place == sizeof text - 7, "driver: a listing cut short: %u at %u", reason, place);
    expect(restore_text("cells=0\r\n", state) == REFUSED && reason == IRANGELDA_NOT_A_LISTING && place == 7, "driver: 0Dh: %u at %u", reason, place);
    expect(restore_text("cells=0\n\n", state) == REFUSED && reason == IRANGELDA_NOT_A_LISTING && place == 8, "driver: a line more: %u at %u", reason,
           place);
    expect(memcmp(state, before, STATE_BYTES) == 0, "driver: a refused listing left something");
    expect(restore_text("cells=1\nreg=2210 val=00000003\n", state) == REFUSED && reason == IRANGELDA_NOT_WRITABLE && place == 86,
           "driver: a value that may not be written: %u at %u", reason, place);
    expect(word_at(state, 86) == 3 && word_at(state, CELLS + 86) == 1, "driver: the state of a listing that may not be written");
}

/* ---- grants */

/* The grant behind each address of a program that was just started, under its own grants and under another's. */
static void grants_behind(void)
{
    start(&chart, CHART);
    start(&captions, CAPTIONS);
    for (uint32_t cell = 0; cell <= CELLS; cell++) {
        uint32_t role = cell == 1 ? 1 : cell == 89 || cell == 90 || cell == 93 ? 2 : cell == 96 || cell == 97 || cell == 100 ? 3 : 0;
        uint32_t number = role == 0 ? IRANGELDA_NO_GRANT : role - 1;
        expect(grant_behind(&chart, cell) == number, "driver: the grant behind cell %u is not %u", cell, number);
        struct client stranger = chart;
        memcpy(stranger.grants, captions.grants, sizeof stranger.grants);
        expect(grant_behind(&stranger, cell) == IRANGELDA_NO_GRANT, "driver: another's grant is behind cell %u", cell);
    }
    struct client damaged = chart;
    damaged.state[STATE_BYTES - 1] = 1;
    reason = place = 0;
    expect(grant_behind(&damaged, 1) == IRANGELDA_NO_GRANT && reason == IRANGELDA_BAD_STATE, "driver: a damaged state: %u at %u", reason, place);
}

/* ---- sizes */

/* The words are the writer's in room enough, in memory of just their length. */
static void has_words(const struct client *client, size_t count, const char *what)
{
    uint8_t enough[IRANGELDA_WRITE_BYTES_ENOUGH], *words;
    size_t len, before = lengths_allocated;
    uint64_t answer = irangelda_write(client->state, STATE_BYTES, client->grants, client->grants_len, enough, sizeof enough);
    expect(answer == (uint64_t)count * 256, "driver: the words of %s are not %zu", what, count);
    enum outcome outcome = words_of(client, &words, &len);
    expect(outcome == DONE && len == 4 * count, "driver: the words of %s: outcome %d, %zu bytes", what, (int)outcome, len);
    expect(lengths_allocated == before + len, "driver: allocated for %s: %zu", what, lengths_allocated - before);
    expect((words == NULL) == (len == 0) && (len == 0 || memcmp(words, enough, len) == 0), "driver: other words of %s", what);
    release(words);
}

static void has_no_words(const struct client *client, enum outcome wanted, const char *what)
{
    uint8_t *words;
    size_t len;
    reason = place = 0;
    enum outcome outcome = words_of(client, &words, &len);
    expect(outcome == wanted && words == NULL && len == 0, "driver: words of %s: outcome %d, %zu bytes", what, (int)outcome, len);
}

static void sizes(void)
{
    start(&chart, CHART);
    has_words(&chart, IRANGELDA_WRITE_WORDS_ENOUGH, "a program that was just started");
    struct client small = chart;
    memset(small.state, 0, STATE_BYTES);
    has_words(&small, 0, "a program with the empty state");
    put_word(small.state, CELLS + 84, 1);
    has_words(&small, 2, "a program with one register");
    memory_is_out = 1;
    has_no_words(&small, NO_MEMORY, "a program without memory");
    memory_is_out = 0;
    put_word(small.state, 84, 0xf800f800);
    has_no_words(&small, REFUSED, "a program with a bad register");
    expect(reason == IRANGELDA_NOT_WRITABLE && place == 84, "driver: a bad register, sized: %u at %u", reason, place);
}

int main(void)
{
    turns();
    failures_change_nothing();
    houses();
    leftover();
    listings();
    grants_behind();
    sizes();
    if (failures != 0) {
        printf("the page for drivers: %lu of %lu checks failed\n", failures, checks);
        return 1;
    }
    printf("the page for drivers: all %lu checks passed\n", checks);
    return 0;
}
