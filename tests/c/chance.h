/* Numbers that look like chance and are the same in every run. */
#ifndef CHANCE_H
#define CHANCE_H

#include <stdint.h>

/* 32 bits. */
uint32_t chance(void);

/* A number below `limit`, which is not 0. */
uint32_t below(uint32_t limit);

/* True once in `times`. */
int once_in(uint32_t times);

#endif
