/* A correction factor from uncertainties in plain C. */
#include "factors.h"

#include <math.h>

enum { OVER_100 = 18 };

static inline int one_is_over(uint8_t a, uint8_t b, uint8_t c, uint8_t d, uint8_t e, uint8_t g)
{
    return a > 100 || b > 100 || c > 100 || d > 100 || e > 100 || g > 100;
}

static inline double squared(uint8_t percentage)
{
    double fraction = percentage / 100.0;
    return fraction * fraction;
}

uint8_t factors_by_root(uint8_t a, uint8_t b, uint8_t c, uint8_t d, uint8_t e, uint8_t g, uint8_t *factor)
{
    *factor = 0;
    if (one_is_over(a, b, c, d, e, g)) return OVER_100;
    double v = sqrt(squared(a) + squared(b) + squared(c) + squared(d) + squared(e) + squared(g));
    *factor = (uint8_t)floor(100 / (1 + v));
    return 0;
}

/* All fits into 32 bits: S is at most 60000. */
uint8_t factors_by_count(uint8_t a, uint8_t b, uint8_t c, uint8_t d, uint8_t e, uint8_t g, uint8_t *factor)
{
    *factor = 0;
    if (one_is_over(a, b, c, d, e, g)) return OVER_100;
    uint32_t S = a * a + b * b + c * c + d * d + e * e + g * g, p = 100;
    while (p * p * S > (10000 - 100 * p) * (10000 - 100 * p)) p--;
    *factor = (uint8_t)p;
    return 0;
}
