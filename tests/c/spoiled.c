/* Records that are refused with given numbers. */
#include "spoiled.h"

#include "inputs.h"

/* A record that the ledger refuses with 7 or 17 stands where it may: after another, or after the first month of a year. */
static void spoil_once(uint8_t *record, uint8_t number)
{
    switch (number) {
    case 5: break_rule(record, (int)below(4)); break;
    case 23: record[2] = 2; break;
    case 6: add(record, 2, 1 + below(65535)); break;
    case 7: record[3] = (uint8_t)(record[3] % 4 + 1); break;
    case 8: break_rule(record, 8 + (int)below(5)); break;
    case 17: change_year(record, (int)below(CHANGES)); break;
    case 9: break_rule(record, 13); break;
    }
}

/* The earliest way comes last, so that no later one undoes it. */
uint8_t spoil(uint8_t *record, const uint8_t in_order[WAYS_TO_SPOIL], unsigned choice)
{
    uint8_t refused = 0;
    for (int way = WAYS_TO_SPOIL - 1; way >= 0; way--) {
        if ((choice >> way & 1) == 0) continue;
        spoil_once(record, in_order[way]);
        refused = in_order[way];
    }
    return refused;
}
