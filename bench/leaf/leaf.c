/*
 * Asks the test of the reserved bits of 4,096 words, a given number of times, and prints how many nanoseconds that took: leaf WAY TURNS.
 * WAY is `unseen` or `constant`, after what the compiler of the test knew of the mask; or `nothing-unseen`, `nothing-constant`: the same
 * calls of functions that return at once. bench/leaf/run counts the instructions from outside.
 */
#define _POSIX_C_SOURCE 199309L
#include <inttypes.h>
#include <stdbool.h>
#include <stddef.h>
#include <stdint.h>
#include <stdio.h>
#include <stdlib.h>
#include <string.h>
#include <time.h>

typedef bool of_two(uint32_t value, uint32_t mask);
typedef bool of_one(uint32_t value);

of_two leaf_unseen;
of_one leaf_constant;

enum { WORDS = 4096, MASK = 0x76ffe0fe };

_Alignas(64) static uint32_t words[WORDS];

/* Any words, with the bits of the mask clear. */
static void fill(void)
{
    uint32_t any = 1;
    for (size_t i = 0; i < WORDS; i++) {
        any = any * 1664525 + 1013904223;
        words[i] = any & ~(uint32_t)MASK;
    }
}

static bool nothing_of_two(uint32_t value, uint32_t mask)
{
    (void)value, (void)mask;
    return true;
}

static bool nothing_of_one(uint32_t value)
{
    (void)value;
    return true;
}

/* How many words are clear. One loop for whatever is called, so that what it needs itself can be taken off. */
__attribute__((noinline, noclone)) static size_t by_two(of_two *test)
{
    size_t clear = 0;
    for (size_t i = 0; i < WORDS; i++)
        clear += test(words[i], MASK);
    return clear;
}

__attribute__((noinline, noclone)) static size_t by_one(of_one *test)
{
    size_t clear = 0;
    for (size_t i = 0; i < WORDS; i++)
        clear += test(words[i]);
    return clear;
}

static size_t unseen(void)
{
    return by_two(leaf_unseen);
}

static size_t constant(void)
{
    return by_one(leaf_constant);
}

static size_t nothing_unseen(void)
{
    return by_two(nothing_of_two);
}

static size_t nothing_constant(void)
{
    return by_one(nothing_of_one);
}

static const struct way {
    const char *name;
    size_t (*ask)(void);
    bool tells;
} ways[] = {
    { "unseen", unseen, true },
    { "constant", constant, true },
    { "nothing-unseen", nothing_unseen, false },
    { "nothing-constant", nothing_constant, false }
};

static const struct way *way_called(const char *name)
{
    for (size_t i = 0; i < sizeof ways / sizeof *ways; i++)
        if (strcmp(name, ways[i].name) == 0)
            return &ways[i];
    return NULL;
}

/* Each bit in turn is set in the last word, which then is clear exactly if the mask lacks the bit. */
static bool tells_each_bit(const struct way *way)
{
    uint32_t *last = &words[WORDS - 1], kept = *last;
    bool tells = true;
    for (uint32_t bit = 1; bit != 0; bit <<= 1) {
        *last = kept | bit;
        tells &= (way->ask() == WORDS) == ((MASK & bit) == 0);
    }
    *last = kept;
    return tells;
}

static int64_t now(void)
{
    struct timespec t;
    clock_gettime(CLOCK_MONOTONIC, &t);
    return (int64_t)t.tv_sec * 1000000000 + t.tv_nsec;
}

int main(int argc, char **argv)
{
    const struct way *way = argc == 3 ? way_called(argv[1]) : NULL;
    if (way == NULL) {
        fprintf(stderr, "usage: leaf WAY TURNS\n");
        return 2;
    }
    fill();
    if (way->tells && !tells_each_bit(way)) {
        fprintf(stderr, "leaf: %s does not tell which words are clear\n", way->name);
        return 1;
    }
    size_t turns = strtoul(argv[2], NULL, 10), clear = 0;
    int64_t from = now();
    for (size_t i = 0; i < turns; i++)
        clear += way->ask();
    printf("%" PRId64 "\n", now() - from);
    return clear != turns * WORDS;
}
