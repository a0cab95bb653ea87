/* One call each of the entries that take ledgers and records, on both sides and compared. `damaged` says in how many of a
 * hundred calls what is made of a series is damaged. */
#ifndef OFFERS_H
#define OFFERS_H

#include "inputs.h"

/* Lends so many bytes that start as the image does; those past it are zero or random. */
void lend_image(const uint8_t *image, size_t length);

/* Lends an image of a ledger of the series; a damaged one may have another length. */
void lend_ledger(struct series series, unsigned damaged);

/* Copies the image that the last call has left. */
void keep_image(uint8_t *image);

/* Makes the lent image fresh, or asks for its totals. */
void one_fresh(void);
void one_totals(void);

/* Offers bytes: a record or a file to the lent ledger, or a file to the listing. A longer record has random bytes past 48. */
void take_record(const uint8_t *record, size_t record_len, size_t out_len, size_t answer_len);
void run_records(const uint8_t *records, size_t length, size_t room);
void list_records(const uint8_t *records, size_t length, size_t room);

/* The same with a record or a file that goes on from a series. */
void one_take(struct series series, unsigned damaged, size_t record_len, size_t out_len, size_t answer_len);
void run_file(struct series series, unsigned damaged, size_t length, size_t room);
void one_listing(struct series series, unsigned damaged, size_t length, size_t room);

/* Offers a record to a ledger of its series, by a step and by a run. */
void offer_record(struct series series, const uint8_t *record);

/* Takes an image through a step, or through so many records of a run. */
void take_on(uint8_t *image, const uint8_t *record);
void run_on(uint8_t *image, const uint8_t *records, size_t count);

/* Lends a ledger and runs a file from it. */
void one_run(struct series series, unsigned damaged, size_t length, size_t room);

/* Hands the image, or as much of it as the length lets, to every entry that reads one, with records that its series takes. */
void open_image(const uint8_t *image, size_t length, struct series series);

#endif
