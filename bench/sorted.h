/* A total shared by sorted samples in plain C, as a package would have it: the peer that landfill_masses is measured
 * beside. It refuses and answers as landfill_masses does. */
#ifndef SORTED_H
#define SORTED_H

#include <stddef.h>
#include <stdint.h>

uint8_t sorted_masses(uint8_t kind, uint64_t total, const uint8_t *samples, size_t samples_len, uint32_t masses[8]);

#endif
