/* The parts of the test. Each goes through its cases with every party. */
#ifndef CASES_H
#define CASES_H

void readings(void);   /* the cases of docs/RULES.md and likely slips, with the state after */
void registers(void);  /* every register lands in its cell; every must-be-clear bit; every value rule */
void pairs(void);      /* the target's address and its memory, in every combination, against a judgement beside it */
void writings(void);   /* the size, the writer's exact words and the lister's exact bytes; there and back */
void sizes(void);      /* the size, in its cases and of made-up states, and the writer's answer, which follows from it and the room */
void borders(void);    /* every kind of word at places where pieces might begin */
void relistings(void); /* listings read back, and listings damaged in every way, against what some listing begins with */
void limits(void);     /* lengths around reason 13's limits, and the order of 13, 1 and 2 */
void lendings(void);   /* every alignment, null pointers, and lengths that no buffer has */
void made_up(void);    /* many made-up calls, on which the archive and careful.c agree */
void queries(void);    /* which grant is named, and when none is, against the rules as a plain loop */

#endif
