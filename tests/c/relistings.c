/* Listings read back, and texts that are none: each party answers what the definition of beginnings.h says, and leaves the state that it
   says, whatever was in the buffer before. */
#include "beginnings.h"
#include "cases.h"
#include "chance.h"
#include "check.h"
#include "lent.h"
#include "registers.h"
#include "words.h"
#include <stdio.h>
#include <string.h>

enum { MOST_TEXT = 4096, NO_CELL = -1 };

static struct outcome outcome;

/* What is in the buffer of the state before a call. None of it may be seen in what is there afterwards. */
static uint8_t before[STATE_BYTES];

static void fill_before(void)
{
    for (size_t i = 0; i < STATE_BYTES / 4; i++)
        put_word(before, i, chance());
}

static void answers(const struct party *party, const char *what, const uint8_t *text, size_t length, uint64_t answer,
                    const uint8_t *after)
{
    struct request request = { READ_LISTING, { { text, length }, { NULL, 0 }, { before, STATE_BYTES } } };
    perform(party, &request, &outcome);
    expect(outcome.answer == answer, "%s, %s of %zu bytes: reason %u place %u, not %u %u", party->name, what, length,
           (unsigned)IRANGELDA_REASON(outcome.answer), (unsigned)IRANGELDA_PLACE(outcome.answer), (unsigned)IRANGELDA_REASON(answer),
           (unsigned)IRANGELDA_PLACE(answer));
    expect(memcmp(outcome.after, after, STATE_BYTES) == 0, "%s, %s of %zu bytes: the state after", party->name, what, length);
}

/* `taken` is what the definition takes of the text. */
static void all_answer(const char *what, const uint8_t *text, size_t length, const struct beginning *taken)
{
    int whole = taken->whole && taken->length == length;
    uint64_t answer = (uint64_t)taken->length * 256 + (whole ? IRANGELDA_OK : IRANGELDA_NOT_A_LISTING);
    fill_before();
    for (size_t p = 0; p < PARTIES; p++)
        answers(&parties[p], what, text, length, answer, whole ? taken->state : before);
}

static struct beginning beginning_of(const uint8_t *text, size_t length)
{
    struct beginning taken;
    begin(&taken);
    take_bytes(&taken, text, length);
    return taken;
}

static void try_text(const char *what, const uint8_t *text, size_t length)
{
    struct beginning taken = beginning_of(text, length);
    all_answer(what, text, length, &taken);
}

/* ---- some texts with their answers, to which the definition is held too */

static const struct {
    const char *text;
    unsigned reason;
    uint32_t place;
    int cell; /* the one cell that is listed, or NO_CELL */
    uint32_t value;
} examples[] = {
    { "", 19, 0, NO_CELL, 0 },
    { "cell", 19, 4, NO_CELL, 0 },
    { "Cells=0\n", 19, 0, NO_CELL, 0 },
    { "cells=", 19, 6, NO_CELL, 0 },
    { "cells=\n", 19, 6, NO_CELL, 0 },
    { "cells=0", 19, 7, NO_CELL, 0 },
    { "cells=0\n", 0, 8, NO_CELL, 0 },
    { "cells=0\n\n", 19, 8, NO_CELL, 0 },
    { "cells=0\nreg=", 19, 8, NO_CELL, 0 },
    { "cells=00\n", 19, 7, NO_CELL, 0 },
    { "cells=01\n", 19, 7, NO_CELL, 0 },
    { "cells=1 \n", 19, 7, NO_CELL, 0 },
    { "cells=a\n", 19, 6, NO_CELL, 0 },
    { "cells=-1\n", 19, 6, NO_CELL, 0 },
    { "cells=1\r\n", 19, 7, NO_CELL, 0 },
    { "cells=102\n", 19, 8, NO_CELL, 0 },
    { "cells=110\n", 19, 8, NO_CELL, 0 },
    { "cells=200\n", 19, 8, NO_CELL, 0 },
    { "cells=1010\n", 19, 9, NO_CELL, 0 },
    { "cells=101\n", 19, 10, NO_CELL, 0 },
    { "cells=101\nreg=01.00.3f", 19, 22, NO_CELL, 0 },
    { "cells=101\nreg=01.00.50", 19, 20, NO_CELL, 0 },
    { "cells=100\nreg=01.00.50", 19, 22, NO_CELL, 0 },
    { "cells=100\nreg=01.00.51", 19, 21, NO_CELL, 0 },
    { "cells=2\nreg=33fc val=00000000\n", 19, 15, NO_CELL, 0 },
    { "cells=1\nreg=33fc val=00000000\n", 0, 30, 100, 0 },
    { "cells=1\nreg=33fc val=00000000\nreg=33fc val=00000000\n", 19, 30, NO_CELL, 0 },
    { "cells=2\nreg=33f8 val=00000000\nreg=33f4", 19, 37, NO_CELL, 0 },
    { "cells=2\nreg=33f8 val=00000000\n", 19, 30, NO_CELL, 0 },
    { "cells=1\nreg=01.00.50 val=01", 19, 26, NO_CELL, 0 },
    { "cells=1\nreg=01.00.50 val=10", 19, 25, NO_CELL, 0 },
    { "cells=1\nreg=01.00.50 val=00ffffff\n", 0, 34, 1, 0xffffff },
    { "cells=1\nreg=01.00.50 val=00001000\n", 0, 34, 1, 0x1000 },
    { "cells=1\nreg=01.00.50 val=00001000\n\n", 19, 34, NO_CELL, 0 },
    { "cells=1\nreg=01.00.50 val=00001000", 19, 33, NO_CELL, 0 },
    { "cells=1\nreg=01.00.50 val=00001000 ", 19, 33, NO_CELL, 0 },
    { "cells=1\nreg=01.00.50 val=000010000\n", 19, 33, NO_CELL, 0 },
    { "cells=1\nreg=01.00.50 val=1000\n", 19, 25, NO_CELL, 0 },
    { "cells=1\nreg=02.10.50", 19, 15, NO_CELL, 0 },
    { "cells=1\nreg=02.0a.30", 19, 18, NO_CELL, 0 },
    { "cells=1\nreg=02.2A.30", 19, 16, NO_CELL, 0 },
    { "cells=1\nreg=02.2f.32 val=00000007\n", 0, 34, 83, 7 },
    { "cells=1\nreg=2208 val=ffffffff\n", 0, 30, 84, 0xffffffff },
    { "cells=1\nreg=2214", 19, 15, NO_CELL, 0 },
    { "cells=1\nreg=33FC", 19, 14, NO_CELL, 0 },
    { "cells=1\nreg=23e4 val=fffffffF\n", 19, 28, NO_CELL, 0 },
    { "cells=1\nreg=23e4 val=0x000000\n", 19, 22, NO_CELL, 0 },
    { "cells=1\nreg=23e4  val=00000000\n", 19, 17, NO_CELL, 0 },
    { "cells=1\n\nreg=23e4 val=00000000\n", 19, 8, NO_CELL, 0 }
};

static void try_examples(void)
{
    for (size_t i = 0; i < sizeof examples / sizeof *examples; i++) {
        const uint8_t *text = (const uint8_t *)examples[i].text;
        size_t length = strlen(examples[i].text);
        uint64_t answer = (uint64_t)examples[i].place * 256 + examples[i].reason;
        uint8_t listed[STATE_BYTES] = { 0 };
        char name[32];
        sprintf(name, "example %zu", i);
        if (examples[i].cell != NO_CELL)
            set_cell(listed, (size_t)examples[i].cell, examples[i].value);
        fill_before();
        for (size_t p = 0; p < PARTIES; p++)
            answers(&parties[p], name, text, length, answer, examples[i].reason == IRANGELDA_OK ? listed : before);
        try_text(name, text, length);
    }
}

/* ---- states of every size, and their listings */

/* As the width of the register lets it be. */
static uint32_t some_value(size_t cell)
{
    static const uint32_t edges[] = { 0, 1, 0x00ffffff, 0x00800000, 0x89abcdef, 0xffffffff, 0x80000000 };
    uint32_t any = chance(), which = below(12);
    uint32_t value = which < sizeof edges / sizeof *edges ? edges[which] : any;
    return cell < CELLS_3D ? value & 0xffffff : value;
}

/* Each set of cells of that size is as likely as any other. */
static void make_listable(uint8_t *state, uint32_t size)
{
    memset(state, 0, STATE_BYTES);
    for (uint32_t cell = 0; cell < CELLS; cell++)
        if (below(CELLS - cell) < size) {
            set_cell(state, cell, some_value(cell));
            size--;
        }
}

/* A text, and where its lines begin. The last entry is where it ends. */
struct text {
    uint8_t byte[MOST_TEXT];
    size_t lines, line[MOST_TEXT / 20];
};

static size_t length_of(const struct text *text)
{
    return text->line[text->lines];
}

static void list_state(const struct party *party, const uint8_t *state, struct text *text)
{
    static const uint8_t out[MOST_TEXT];
    struct request request = { LIST, { { state, STATE_BYTES }, { NULL, 0 }, { out, MOST_TEXT } } };
    perform(party, &request, &outcome);
    size_t length = IRANGELDA_PLACE(outcome.answer);
    memcpy(text->byte, outcome.after, MOST_TEXT);
    text->lines = 0;
    text->line[0] = 0;
    for (size_t i = 0; i < length; i++)
        if (text->byte[i] == '\n')
            text->line[++text->lines] = i + 1;
}

static void make_listing(struct text *text, uint32_t size)
{
    uint8_t state[STATE_BYTES];
    make_listable(state, size);
    list_state(&parties[CAREFUL], state, text);
}

/* List, read back: the same state. List that: the same text. */
static void there_and_back(const struct party *party, uint32_t size)
{
    static struct text text, again;
    uint8_t state[STATE_BYTES];
    make_listable(state, size);
    list_state(party, state, &text);
    fill_before();
    answers(party, "a listing", text.byte, length_of(&text), (uint64_t)length_of(&text) * 256, state);
    list_state(party, outcome.after, &again);
    expect(length_of(&text) == length_of(&again) && memcmp(text.byte, again.byte, length_of(&text)) == 0,
           "%s: a listing of %u cells is another when it was read back", party->name, (unsigned)size);
}

static void try_every_cut(uint32_t size)
{
    static struct text text;
    static struct beginning taken;
    make_listing(&text, size);
    begin(&taken);
    for (size_t length = 0; length < length_of(&text); length++) {
        expect(taken.length == length && !taken.whole, "the definition: a listing of %u cells cut at %zu", (unsigned)size, length);
        all_answer("a cut listing", text.byte, length, &taken);
        take_byte(&taken, text.byte[length]);
    }
    expect(taken.whole, "the definition: a listing of %u cells is none", (unsigned)size);
    all_answer("a listing", text.byte, length_of(&text), &taken);
}

/* ---- one byte is another */

static size_t others_than(uint8_t byte, uint8_t *others)
{
    static const uint8_t bytes[] = { '0', '1', '2', '3', '5', '9', 'a', 'c', 'f', 'g', 'A', 'F', '.', '=', ' ', '\n', '\r', 0, 255 };
    size_t count = 0;
    for (size_t i = 0; i < sizeof bytes; i++)
        if (bytes[i] != byte)
            others[count++] = bytes[i];
    others[count++] = (uint8_t)(byte + 1);
    others[count++] = (uint8_t)(byte - 1);
    others[count++] = byte ^ 0x20; /* the other case */
    others[count++] = byte ^ 0x80;
    return count;
}

static void try_every_change(uint32_t size)
{
    static struct text text;
    static struct beginning taken, changed;
    uint8_t others[32];
    make_listing(&text, size);
    size_t length = length_of(&text);
    begin(&taken);
    for (size_t place = 0; place < length; place++) {
        uint8_t byte = text.byte[place];
        size_t count = others_than(byte, others);
        for (size_t i = 0; i < count; i++) {
            text.byte[place] = others[i];
            changed = taken;
            take_bytes(&changed, text.byte + place, length - place);
            all_answer("a listing with another byte", text.byte, length, &changed);
        }
        text.byte[place] = byte;
        take_byte(&taken, byte);
    }
}

/* Any byte behind the end. */
static void try_behind_the_end(uint32_t size)
{
    static struct text text;
    make_listing(&text, size);
    size_t length = length_of(&text);
    struct beginning taken = beginning_of(text.byte, length);
    for (unsigned byte = 0; byte < 256; byte++) {
        text.byte[length] = (uint8_t)byte;
        all_answer("a listing and a byte", text.byte, length + 1, &taken);
    }
}

/* ---- lines that are not as they should be */

/* A text of some lines of another. */
static void add_line(struct text *text, const struct text *from, size_t line)
{
    size_t at = length_of(text), length = from->line[line + 1] - from->line[line];
    memcpy(text->byte + at, from->byte + from->line[line], length);
    text->line[++text->lines] = at + length;
}

static void no_lines(struct text *text)
{
    text->lines = 0;
    text->line[0] = 0;
}

/* Two lines change places, if they are not the same. */
static void try_exchanged(const struct text *from, size_t one, size_t other)
{
    static struct text text;
    no_lines(&text);
    for (size_t line = 0; line < from->lines; line++)
        add_line(&text, from, line == one ? other : line == other ? one : line);
    try_text("two lines exchanged", text.byte, length_of(&text));
}

static void try_times(const struct text *from, size_t which, int times)
{
    static struct text text;
    no_lines(&text);
    for (size_t line = 0; line < from->lines; line++)
        for (int i = 0; i < (line == which ? times : 1); i++)
            add_line(&text, from, line);
    try_text(times == 0 ? "a line left out" : "a line doubled", text.byte, length_of(&text));
}

static void try_count(const struct text *from, const char *first_line)
{
    static struct text text;
    size_t length = strlen(first_line);
    no_lines(&text);
    memcpy(text.byte, first_line, length);
    text.line[text.lines = 1] = length;
    for (size_t line = 1; line < from->lines; line++)
        add_line(&text, from, line);
    try_text("another count", text.byte, length_of(&text));
}

static void try_counts(const struct text *from, unsigned size)
{
    const unsigned counts[] = { size + 1, size - 1, size + 10, 10 * size, size / 10, 0, 100, 101, 102, 1000 };
    char first_line[32];
    for (size_t i = 0; i < sizeof counts / sizeof *counts; i++) {
        sprintf(first_line, "cells=%u\n", counts[i]);
        try_count(from, first_line);
    }
    sprintf(first_line, "cells=0%u\n", size);
    try_count(from, first_line);
    sprintf(first_line, "cells=%x\n", size);
    try_count(from, first_line);
    sprintf(first_line, "cells=+%u\n", size);
    try_count(from, first_line);
}

static void try_lines(uint32_t size)
{
    static struct text text;
    make_listing(&text, size);
    try_counts(&text, size);
    for (size_t line = 0; line < text.lines; line++) {
        try_times(&text, line, 0);
        try_times(&text, line, 2);
        try_exchanged(&text, line, (line + 1) % text.lines);
        try_exchanged(&text, line, below((uint32_t)text.lines));
    }
}

/* ---- names: every offset of four digits, every sub-type with every sub-address, every sub-address of the target, every type */

/* The digits of the number in place of the ?s, the lowest last. */
static void fill_in(uint8_t *text, const char *form, unsigned number)
{
    for (size_t i = strlen(form); i-- > 0;) {
        text[i] = (uint8_t)form[i];
        if (form[i] == '?') {
            text[i] = (uint8_t)"0123456789abcdef"[number % 16];
            number /= 16;
        }
    }
}

static void try_names(const char *form, unsigned numbers)
{
    static struct beginning common, taken;
    uint8_t text[64];
    size_t length = strlen(form), known = strcspn(form, "?");
    common = beginning_of((const uint8_t *)form, known);
    for (unsigned number = 0; number < numbers; number++) {
        fill_in(text, form, number);
        taken = common;
        take_bytes(&taken, text + known, length - known);
        all_answer("a name", text, length, &taken);
    }
}

static void try_all_names(void)
{
    try_names("cells=1\nreg=???? val=00abcdef\n", 0x10000);
    try_names("cells=1\nreg=02.??.?? val=00abcdef\n", 0x10000);
    try_names("cells=1\nreg=01.00.?? val=00abcdef\n", 0x100);
    try_names("cells=1\nreg=??.00.50 val=00abcdef\n", 0x100);
}

/* Each bit of the value of each cell, alone and with all below it. */
static void try_widths(void)
{
    uint8_t state[STATE_BYTES];
    static struct text text;
    for (size_t cell = 0; cell < CELLS; cell++)
        for (uint32_t bit = 0; bit < 32; bit++) {
            uint32_t value = (uint32_t)1 << bit;
            memset(state, 0, sizeof state);
            set_cell(state, cell, value);
            list_state(&parties[CAREFUL], state, &text);
            try_text("a bit", text.byte, length_of(&text));
            set_cell(state, cell, value | (value - 1));
            list_state(&parties[CAREFUL], state, &text);
            try_text("a value", text.byte, length_of(&text));
        }
}

/* ---- texts that go along with some listing, and leave it somewhere */

static uint8_t some_byte(void)
{
    static const char likely[] = "0123456789abcdefABCDEFcellsregval=.. \n\n";
    uint32_t any = chance();
    return once_in(4) ? (uint8_t)(any >> 24) : (uint8_t)likely[below(sizeof likely - 1)];
}

/* A byte that some listing goes on with. */
static uint8_t byte_of_line(const struct beginning *taken)
{
    const struct line *line = &taken->line[below((uint32_t)taken->count)];
    uint32_t digit = below(16);
    return *line->left == '?' ? (uint8_t)"0123456789abcdef"[digit] : (uint8_t)*line->left;
}

static void try_walk(void)
{
    static struct beginning taken;
    uint8_t text[MOST_TEXT];
    size_t length = 0, most = 1 + below(once_in(20) ? 2600 : 120);
    uint32_t stray = once_in(3) ? 20 : 400;
    begin(&taken);
    while (length < most && taken.length == length && !taken.whole) {
        text[length] = once_in(stray) ? some_byte() : byte_of_line(&taken);
        take_byte(&taken, text[length++]);
    }
    size_t more = below(4) == 0 ? below(40) : 0;
    for (size_t end = length + more; length < end; length++)
        text[length] = some_byte();
    take_bytes(&taken, text + taken.length, length - taken.length);
    all_answer("a walk", text, length, &taken);
}

/* ---- buffers for the state that are none */

static void try_state_lengths(void)
{
    static const struct {
        size_t length;
        unsigned reason;
    } lengths[] = { { 0, 1 }, { 4, 1 }, { 804, 1 }, { 807, 13 }, { 808, 0 }, { 809, 13 }, { 812, 1 }, { 1616, 1 } };
    static const uint8_t buffer[2 * STATE_BYTES];
    static const char *const texts[] = { "", "cells=0\n", "cells=1\n" };
    for (size_t p = 0; p < PARTIES; p++)
        for (size_t i = 0; i < sizeof lengths / sizeof *lengths; i++)
            for (size_t t = 0; t < sizeof texts / sizeof *texts; t++) {
                size_t length = strlen(texts[t]);
                struct request request = { READ_LISTING,
                                           { { (const uint8_t *)texts[t], length }, { NULL, 0 }, { buffer, lengths[i].length } } };
                uint64_t answer = lengths[i].reason != 0 ? lengths[i].reason : length * 256 + (t == 1 ? 0 : IRANGELDA_NOT_A_LISTING);
                perform(&parties[p], &request, &outcome);
                expect(outcome.answer == answer, "%s, a state of %zu bytes, a listing of %zu: answer %llx", parties[p].name,
                       lengths[i].length, length, (unsigned long long)outcome.answer);
            }
}

enum { TIMES = 20, WALKS = 30000 };

void relistings(void)
{
    static const uint32_t to_change[] = { 0, 1, 2, 3, 9, 10, 30, 99, 100, 101 };
    prepare_beginnings();
    try_examples();
    try_state_lengths();
    for (uint32_t size = 0; size <= CELLS; size++) {
        for (int i = 0; i < TIMES; i++)
            for (size_t p = 0; p < PARTIES; p++)
                there_and_back(&parties[p], size);
        try_every_cut(size);
        try_behind_the_end(size);
        try_lines(size);
    }
    for (size_t i = 0; i < sizeof to_change / sizeof *to_change; i++)
        try_every_change(to_change[i]);
    try_all_names();
    try_widths();
    for (int i = 0; i < WALKS; i++)
        try_walk();
}
