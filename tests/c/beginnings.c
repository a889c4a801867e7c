#include "beginnings.h"
#include "registers.h"
#include <stdio.h>
#include <string.h>

static char count_line[CELLS + 1][16], cell_line[CELLS][32];

/* Whether the line of a cell can stand before so many others: one of a higher cell can follow it, and has all the rest behind it. */
static int can_stand[CELLS][CELLS];

static void print_line_of(size_t cell)
{
    struct reg reg = reg_at(cell);
    if (cell < CELLS_3D)
        sprintf(cell_line[cell], "reg=%02x.%02x.%02x val=00??????\n", (unsigned)reg.setting >> 16 & 0xff, (unsigned)reg.setting >> 24,
                (unsigned)reg.sub_address);
    else
        sprintf(cell_line[cell], "reg=%04x val=????????\n", (unsigned)reg.offset);
}

void prepare_beginnings(void)
{
    for (unsigned count = 0; count <= CELLS; count++)
        sprintf(count_line[count], "cells=%u\n", count);
    for (size_t cell = 0; cell < CELLS; cell++) {
        print_line_of(cell);
        can_stand[0][cell] = 1;
    }
    for (size_t lines = 1; lines < CELLS; lines++)
        for (size_t cell = 0; cell < CELLS; cell++)
            for (size_t higher = cell + 1; higher < CELLS; higher++)
                can_stand[lines][cell] |= can_stand[lines - 1][higher];
}

void begin(struct beginning *beginning)
{
    memset(beginning, 0, sizeof *beginning);
    for (size_t count = 0; count <= CELLS; count++)
        beginning->line[beginning->count++] = (struct line){ count_line[count], 0, count, 0 };
}

static int is_digit(uint8_t byte)
{
    return (byte >= '0' && byte <= '9') || (byte >= 'a' && byte <= 'f');
}

static int goes_on(const struct line *line, uint8_t byte)
{
    return *line->left == '?' ? is_digit(byte) : (uint8_t)*line->left == byte;
}

static struct line after_byte(struct line line, uint8_t byte)
{
    if (*line.left == '?')
        line.value = 16 * line.value + (byte <= '9' ? byte - (uint32_t)'0' : byte - (uint32_t)'a' + 10);
    line.left++;
    return line;
}

/* The line is over: what it lists is kept, and each line that can come next takes its place. No other line ends in the same bytes. */
static void end_line(struct beginning *beginning, struct line line)
{
    beginning->count = 0;
    if (line.next > 0)
        set_cell(beginning->state, line.next - 1, line.value);
    if (line.lines == 0) {
        beginning->whole = 1;
        return;
    }
    for (size_t cell = line.next; cell < CELLS; cell++)
        if (can_stand[line.lines - 1][cell])
            beginning->line[beginning->count++] = (struct line){ cell_line[cell], cell + 1, line.lines - 1, 0 };
}

int take_byte(struct beginning *beginning, uint8_t byte)
{
    size_t kept = 0;
    for (size_t i = 0; i < beginning->count; i++)
        if (goes_on(&beginning->line[i], byte))
            beginning->line[kept++] = after_byte(beginning->line[i], byte);
    if (kept == 0)
        return 0;
    beginning->count = kept;
    beginning->length++;
    if (*beginning->line[0].left == 0)
        end_line(beginning, beginning->line[0]);
    return 1;
}

void take_bytes(struct beginning *beginning, const uint8_t *bytes, size_t count)
{
    for (size_t i = 0; i < count; i++)
        if (!take_byte(beginning, bytes[i]))
            return;
}
