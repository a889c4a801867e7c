#include "registers.h"

static const struct reg of_target[4] = {
    { 0x00010000, 0x3f, 0, 0x800800 },
    { 0x00010000, 0x50, 0, 0 },
    { 0x00010000, 0x51, 0, 0x0fffff },
    { 0x00010000, 0x52, 0, 0x006fff }
};

static const struct reg of_video[17] = {
    { 0, 0, 0x2208, 0xf800f800 },
    { 0, 0, 0x220c, 0xf800f800 },
    { 0, 0, 0x2210, 0xffe000fc },
    { 0, 0, 0x23e4, 0x76ffe0fe },
    { 0, 0, 0x23e8, 0x6ffe0000 },
    { 0, 0, 0x23ec, 0x2000000c },
    { 0, 0, 0x23f0, 0xe000000c },
    { 0, 0, 0x23f4, 0xffffc00f },
    { 0, 0, 0x23f8, 0x0decc00f },
    { 0, 0, 0x23fc, 0xe000000c },
    { 0, 0, 0x33e4, 0x76ffe0fe },
    { 0, 0, 0x33e8, 0x6ffe0000 },
    { 0, 0, 0x33ec, 0x2000000c },
    { 0, 0, 0x33f0, 0xe000000c },
    { 0, 0, 0x33f4, 0xffffc00f },
    { 0, 0, 0x33f8, 0x0decc00f },
    { 0, 0, 0x33fc, 0xe000000c }
};

static struct reg stage_reg(uint32_t n, uint32_t which)
{
    return (struct reg){ 0x00020000 | n << 24, 0x50 + which, 0, 0xff0000 };
}

static struct reg sample_reg(uint32_t n, uint32_t which)
{
    static const uint32_t must_be_clear[3] = { 0xc00000, 0xe00000, 0xc0fe00 };
    return (struct reg){ 0x20020000 | n << 24, 0x30 + which, 0, must_be_clear[which] };
}

struct reg reg_at(size_t cell)
{
    if (cell < STAGES_AT)
        return of_target[cell];
    if (cell < SAMPLES_AT)
        return stage_reg((uint32_t)(cell - STAGES_AT) / 2, (uint32_t)(cell - STAGES_AT) % 2);
    if (cell < CELLS_3D)
        return sample_reg((uint32_t)(cell - SAMPLES_AT) / 3, (uint32_t)(cell - SAMPLES_AT) % 3);
    return of_video[cell - CELLS_3D];
}

size_t row_from(size_t cell)
{
    return cell < 87 ? 87 - cell : cell < 94 ? 94 - cell : 101 - cell;
}

uint32_t role_of(size_t cell)
{
    switch (cell) {
    case 1:
        return 1;
    case 89: case 90: case 93:
        return 2;
    case 96: case 97: case 100:
        return 3;
    default:
        return NO_ROLE;
    }
}

uint32_t value_with_address(size_t cell, uint32_t address)
{
    return cell == 1 ? address / 256 : address;
}

/* One of a list, and the rest of the choice for what comes next. */
static uint32_t pick(uint32_t *choice, const uint32_t *list, uint32_t count)
{
    uint32_t taken = list[*choice % count];
    *choice /= count;
    return taken;
}

#define PICK(choice, ...) \
    pick(choice, (const uint32_t[]){ __VA_ARGS__ }, (uint32_t)(sizeof((const uint32_t[]){ __VA_ARGS__ }) / sizeof(uint32_t)))

static uint32_t format_byte(uint32_t choice)
{
    return PICK(&choice, 0x15, 0x16, 0x30, 0x88, 0x89, 0x8a, 0x8b, 0x8d, 0x98, 0x99, 0x9a, 0xa8, 0xa9, 0xaa, 0xab, 0xad, 0xb8, 0xb9,
                0xba, 0xbb, 0xc8, 0xc9, 0xca, 0xcb, 0xcd, 0xd8, 0xd9, 0xda, 0xe0, 0xe1, 0xe2, 0xe3, 0xe5, 0xe8, 0xe9, 0xea, 0xf0,
                0xf4, 0xf5);
}

static uint32_t levels(uint32_t choice)
{
    uint32_t highest = PICK(&choice, 0, 1, 7, 10, 11), lowest = PICK(&choice, 0, 1, 7, 10, 11);
    return (choice % 1024) << 12 | highest << 6 | lowest;
}

/* The filters in S and T, at these bits: linear anisotropy, code 2, stands in both of them or in neither. */
static uint32_t filter_pair(uint32_t *choice, int s_at, int t_at)
{
    uint32_t both_two = PICK(choice, 0, 1);
    uint32_t s = both_two ? 2 : PICK(choice, 0, 1, 3), t = both_two ? 2 : PICK(choice, 0, 1, 3);
    return s << s_at | t << t_at;
}

static uint32_t filters(uint32_t choice)
{
    uint32_t ratio = PICK(&choice, 0, 1, 15, 16);
    uint32_t enlarging = filter_pair(&choice, 13, 7), shrinking = filter_pair(&choice, 10, 4), depth = PICK(&choice, 0, 1, 2, 4);
    return ratio << 16 | enlarging | shrinking | depth;
}

static uint32_t mapping(uint32_t choice)
{
    uint32_t enlarge = PICK(&choice, 0, 1), shrink = PICK(&choice, 0, 1);
    uint32_t r = PICK(&choice, 0, 1, 2, 3, 7), t = PICK(&choice, 0, 1, 2, 3, 7), s = PICK(&choice, 0, 1, 2, 3, 7);
    return enlarge << 19 | shrink << 16 | r << 6 | t << 3 | s;
}

static uint32_t of_sample(size_t which, uint32_t choice)
{
    return which == 0 ? levels(choice) : which == 1 ? filters(choice) : mapping(choice);
}

uint32_t value_without_address(size_t cell, uint32_t choice)
{
    uint32_t first;
    switch (cell) {
    case 0:
        first = PICK(&choice, 0, 1, 512, 1023, 1024);
        return first << 12 | PICK(&choice, 0, 1, 512, 1023, 1024);
    case 2:
        return (choice % 4) << 22 | (choice / 4 % 2) << 20;
    case 3:
        first = PICK(&choice, 0x0000, 0x1000, 0x8000, 0x9000);
        return format_byte(choice) << 16 | first;
    case 86:
        first = PICK(&choice, 0, 1, 2);
        return (choice << 8 & 0x001fff00) | first;
    default:
        break;
    }
    if (cell >= SAMPLES_AT && cell < CELLS_3D)
        return of_sample((cell - SAMPLES_AT) % 3, choice);
    return choice & ~reg_at(cell).must_be_clear & (cell < CELLS_3D ? 0xffffff : 0xffffffff);
}
