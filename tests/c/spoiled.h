/* Records that are refused with given numbers. */
#ifndef SPOILED_H
#define SPOILED_H

#include <stdint.h>

enum { WAYS_TO_SPOIL = 6 };

/* Makes a record refused with each number of a choice, if with no earlier one: bit 0 of the choice is for the first number. The
 * numbers stand in the order in which they are tested. Gives the first that was chosen, 0 if none. */
uint8_t spoil(uint8_t *record, const uint8_t in_order[WAYS_TO_SPOIL], unsigned choice);

#endif
