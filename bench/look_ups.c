/* An entry of the decay table in plain C. */
#include "look_ups.h"

#include <math.h>

uint32_t look_ups_by_exp(uint8_t kind, uint16_t rate)
{
    if (kind < 1 || kind > 2 || rate < 1 || rate > 400) return 0;
    return (uint32_t)floor(1e9 * exp(-rate / (kind == 1 ? 1000.0 : 12000.0)));
}
