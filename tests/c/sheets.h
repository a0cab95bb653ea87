/* A file of periods, nine columns and one call, for the tests of columns. */
#ifndef SHEETS_H
#define SHEETS_H

#include "inputs.h"

#include <stddef.h>
#include <stdint.h>

enum { PERIOD_BYTES = 48, TYPES = 8, FIGURES = TYPES };

/* The file of the next call; it stands at the start. */
extern uint8_t book[(FULL + 6) * PERIOD_BYTES];

/* The record of a period, counted from 1. */
uint8_t *period_of(size_t number);

/* A file of so many records of one kind in one climate; and of any kind and climate. */
void make_book(size_t count, uint64_t kind, uint64_t climate);
void make_any_book(size_t count);

/* Asks for the columns of the file's first bytes, on both sides and compared: with so many places of each column; of all columns;
 * of one, counted from 0, where the others have as many as are needed or a few more; and with as many of all. Then holds the
 * answers to one another. */
void ask_columns(size_t length, const size_t places[]);
void ask_alike(size_t length, size_t places);
void ask_other(size_t length, int column, size_t places);
void ask_roomy(size_t length);

/* The same with all columns in one block. */
void ask_block(size_t length, size_t places);

/* What the last call has left: the number at a place of a column, and the end stock of a type, all counted from 0. */
uint64_t release_left(int column, size_t place);
uint64_t stock_left(int t);

/* Holds the last call to an answer, and to a row: what one period gave in each column. */
void hold_answer(uint64_t refusal);
void hold_row(size_t place, const uint64_t row[]);

#endif
