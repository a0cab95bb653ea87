/* Yearly totals beside a run in C's doubles, as a package would have them: the peer that landfill_run_months is measured
 * beside. It refuses as doubles_exp_once does, and then adds each output record to its year's slot of 32 bytes. */
#ifndef YEARLY_H
#define YEARLY_H

#include <stddef.h>
#include <stdint.h>

/* totals has 3200 bytes; it goes on from what it holds. */
uint8_t yearly_by_exp(const uint8_t *records, size_t records_len, uint8_t *out, size_t out_len, uint64_t *accepted,
                      uint8_t *totals);

#endif
