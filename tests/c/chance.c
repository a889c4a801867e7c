#include "chance.h"

uint32_t chance(void)
{
    static uint64_t x = 0x1234567890abcdefu;
    x ^= x << 13;
    x ^= x >> 7;
    x ^= x << 17;
    return (uint32_t)(x >> 32);
}

uint32_t below(uint32_t limit)
{
    return (uint32_t)((uint64_t)chance() * limit >> 32);
}

int once_in(uint32_t times)
{
    return below(times) == 0;
}
