/* An entry of the decay table in plain C, as a package would have it: the peer that landfill_entry is measured beside. It
 * answers as landfill_entry does: no entry is so near to a whole number that rounding decides. */
#ifndef LOOK_UPS_H
#define LOOK_UPS_H

#include <stdint.h>

typedef uint32_t look_ups_find(uint8_t kind, uint16_t rate);

look_ups_find look_ups_by_exp; /* in doubles, with exp() and floor() */

#endif
