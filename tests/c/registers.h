/* The 101 registers, typed from docs/RULES.md for the tests alone: their names, their must-be-clear bits, and values that they may hold. */
#ifndef REGISTERS_H
#define REGISTERS_H

#include <stddef.h>
#include <stdint.h>

enum { CELLS_3D = 84, STAGES_AT = 4, SAMPLES_AT = 36, NO_ROLE = 0 };

/* A 3D register has a setting and a sub-address, a video register an offset; what does not apply is 0. */
struct reg {
    uint32_t setting, sub_address, offset, must_be_clear;
};

struct reg reg_at(size_t cell);

/* How many video registers stand in a row from a video cell on. */
size_t row_from(size_t cell);

/* The role of the address that a cell holds, or NO_ROLE. */
uint32_t role_of(size_t cell);

/* A value for a cell that holds an address. */
uint32_t value_with_address(size_t cell, uint32_t address);

/* A value for a cell that holds none: `choice` picks one of many, the edges of each rule among them. */
uint32_t value_without_address(size_t cell, uint32_t choice);

#endif
