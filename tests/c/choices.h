/* Records and ledgers by choices of types, for the tests of decay work. In a choice, bit t stands for the type at place t. */
#ifndef CHOICES_H
#define CHOICES_H

#include "inputs.h"

enum { NOTHING = 0, EVERYTHING = 255, CHOICES = 256 };

/* The place of inert waste, and the choice of it alone. */
enum { INERT = 5, ONLY_INERT = 1 << INERT };

int has(unsigned choice, int t);
unsigned any_choice(void);

/* How many types of a choice have carbon. */
uint64_t with_carbon(unsigned choice);

/* Gives a record masses of the types of a choice, and of no others. */
void bring(uint8_t *record, unsigned choice);

/* A file whose records all bring the types of a choice, and one whose records bring some types now and then. */
void make_choice(uint8_t *file, size_t count, struct series series, unsigned choice);
void make_sparse(uint8_t *file, size_t count, struct series series);

/* A ledger with stocks of the types of a choice; of the others all was released, or else nothing was brought in. */
void make_stocks(uint8_t *image, struct series series, unsigned choice, int released);

/* A ledger with small stocks of some types, none of some, and any of the others. */
void make_mixed(uint8_t *image, struct series series);

/* What the last run has reported: the number of records taken, and their decay work. */
uint64_t accepted_left(void);
uint64_t work_left(void);

#endif
