/* A correction factor from uncertainties in plain C, as a package would have it: the peers that landfill_factor is
 * measured beside. Both refuse as landfill_factor does. In whole numbers the answer is always the same; in doubles it is,
 * unless 100 / (1 + v) is so near to a whole number that rounding decides. */
#ifndef FACTORS_H
#define FACTORS_H

#include <stdint.h>

typedef uint8_t factors_work(uint8_t a, uint8_t b, uint8_t c, uint8_t d, uint8_t e, uint8_t g, uint8_t *factor);

factors_work factors_by_root;  /* equations (3) and (4) of TOOL04 in doubles, with sqrt() and floor() */
factors_work factors_by_count; /* in whole numbers, from 100 percent down to the first that is not too large */

#endif
