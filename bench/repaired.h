/* A shuffled file put right in plain C, as a package would have it: the peer that landfill_repair is measured beside. It
 * refuses, answers and writes as landfill_repair does. */
#ifndef REPAIRED_H
#define REPAIRED_H

#include <stddef.h>
#include <stdint.h>

typedef uint8_t repaired_work(const uint8_t *order, size_t order_len, const uint8_t *file, size_t file_len, uint8_t *out,
                              size_t out_len, uint8_t *report, size_t report_len, uint64_t *changed);

repaired_work repaired_file;

#endif
