/* The same landfill in C's doubles, as packages have it: the peers that the library is measured beside. Each reads
 * records of 48 bytes from the first period on, refuses what refusals 1, 2, 4 to 9 and 17 of documents 01 and 02 refuse, and
 * writes output records of 48 bytes, with 0 for the bound. It answers the refusal, 0 if none. It does not count decay work. */
#ifndef DOUBLES_H
#define DOUBLES_H

#include <stddef.h>
#include <stdint.h>

typedef uint8_t doubles_run(const uint8_t *records, size_t records_len, uint8_t *out, size_t out_len, uint64_t *accepted);

doubles_run doubles_exp_each; /* a stock for each type; exp() for each record and type */
doubles_run doubles_exp_once; /* a stock for each type; exp() for each type, once a run */
doubles_run doubles_equation; /* equation (1) of TOOL04 as it stands there: the double sum anew for each period */

#endif
