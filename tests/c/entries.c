/* The entries of landfill.h over the rules of reference.c. */
#include "reference.h"

#include <math.h>
#include <stdio.h>
#include <string.h>

enum { LEDGER_BYTES = 200, BYTES = 48, ANSWER_BYTES = 88, LINE_BYTES = 90, MOST_LINES = 1201 };

/* Reads an image; gives NULL where the bytes are none. */
static const struct reference_ledger *opened(struct reference_ledger *ledger, const uint8_t *image, size_t image_len)
{
    if (image_len != LEDGER_BYTES) return NULL;
    ledger->n = (uint16_t)reference_read(image, 2);
    ledger->kind = image[2];
    ledger->climate = image[3];
    ledger->factor = image[4];
    ledger->class = image[5];
    ledger->f = (uint16_t)reference_read(image + 6, 2);
    for (int t = 0; t < 8; t++) {
        ledger->T[t] = reference_read(image + 8 + 8 * t, 8);
        ledger->R[t] = reference_read(image + 72 + 8 * t, 8);
        ledger->released[t] = reference_read(image + 136 + 8 * t, 8);
    }
    return ledger;
}

static void closed(uint8_t *image, const struct reference_ledger *ledger)
{
    reference_write(image, 2, ledger->n);
    image[2] = ledger->kind;
    image[3] = ledger->climate;
    image[4] = ledger->factor;
    image[5] = ledger->class;
    reference_write(image + 6, 2, ledger->f);
    for (int t = 0; t < 8; t++) {
        reference_write(image + 8 + 8 * t, 8, ledger->T[t]);
        reference_write(image + 72 + 8 * t, 8, ledger->R[t]);
        reference_write(image + 136 + 8 * t, 8, ledger->released[t]);
    }
}

uint8_t reference_fresh(uint8_t *ledger, size_t ledger_len)
{
    if (ledger_len != LEDGER_BYTES) return 3;
    memset(ledger, 0, LEDGER_BYTES);
    return 0;
}

static void put_answer(uint8_t *bytes, const struct reference_answer *answer)
{
    for (int t = 0; t < 8; t++) reference_write(bytes + 8 * t, 8, answer->releases[t]);
    reference_write(bytes + 64, 8, answer->x0);
    reference_write(bytes + 72, 8, answer->figure);
    reference_write(bytes + 80, 8, answer->bound);
}

uint8_t reference_take(uint8_t *ledger, size_t ledger_len, const uint8_t *record, size_t record_len, uint8_t *out,
                       size_t out_len, uint8_t *answer, size_t answer_len)
{
    struct reference_ledger book;
    struct reference_answer numbers = {0};
    size_t room = answer_len < ANSWER_BYTES ? 0 : out_len;
    uint8_t refusal = reference_refusal(opened(&book, ledger, ledger_len), record, record_len, room);
    if (refusal == 0) {
        reference_accept(&book, record, out, &numbers);
        closed(ledger, &book);
    }
    if (answer_len >= ANSWER_BYTES) put_answer(answer, &numbers);
    return refusal;
}

uint8_t reference_run(uint8_t *ledger, size_t ledger_len, const uint8_t *records, size_t records_len, uint8_t *out,
                      size_t out_len, uint64_t *accepted, uint64_t *work)
{
    struct reference_ledger book;
    struct reference_answer numbers;
    const struct reference_ledger *open = opened(&book, ledger, ledger_len);
    uint8_t refusal = 0;
    size_t done = 0;
    *work = 0;
    for (*accepted = 0; done < records_len; *accepted += 1, done += BYTES) {
        size_t record_len = records_len - done < BYTES ? records_len - done : BYTES;
        refusal = reference_refusal(open, records + done, record_len, out_len - done);
        if (refusal != 0) break;
        reference_accept(&book, records + done, out + done, &numbers);
        *work += numbers.work;
    }
    if (*accepted > 0) closed(ledger, &book);
    return refusal;
}

uint8_t reference_totals(const uint8_t *ledger, size_t ledger_len, uint64_t *stock, uint64_t *brought,
                         uint64_t *released)
{
    struct reference_ledger book;
    *stock = *brought = *released = 0;
    if (!reference_is_sound(opened(&book, ledger, ledger_len))) return 3;
    *stock = reference_total(book.R);
    *brought = reference_total(book.T);
    *released = reference_total(book.released);
    return 0;
}

uint8_t reference_cell(uint8_t filled, double kg, uint32_t *mass)
{
    *mass = 0;
    if (filled == 0) return 10;
    if (!isfinite(kg) || kg != floor(kg)) return 11;
    if (kg < 0 || kg > 1e9) return 12;
    *mass = (uint32_t)kg;
    return 0;
}

uint8_t reference_point(uint64_t figure, uint64_t bound, double *at, double *low, double *high)
{
    *at = *low = *high = 0;
    if ((unsigned __int128)figure + bound > 9007199254740992u) return 13;
    *at = (double)figure;
    *low = bound > figure ? 0 : (double)(figure - bound);
    *high = (double)(figure + bound);
    return 0;
}

uint8_t reference_listing(const uint8_t *records, size_t records_len, uint8_t *text, size_t text_len, uint64_t *length)
{
    struct reference_ledger book = {0};
    size_t lines = (records_len + BYTES - 1) / BYTES;
    *length = 0;
    if (text_len < (lines < MOST_LINES ? lines : MOST_LINES) * LINE_BYTES) return 2;
    for (size_t done = 0; done < records_len; done += BYTES) {
        struct reference_answer it;
        uint8_t out[BYTES];
        char line[160];
        size_t record_len = records_len - done < BYTES ? records_len - done : BYTES;
        int refusal = reference_refusal(&book, records + done, record_len, BYTES);
        int bytes;
        if (refusal != 0) {
            bytes = snprintf(line, sizeof line, "refused %d at record %zu\n", refusal, done / BYTES + 1);
        } else {
            reference_accept(&book, records + done, out, &it);
            bytes = snprintf(line, sizeof line, "%u %llu %llu %llu %llu\n", (unsigned)book.n, (unsigned long long)it.x0,
                             (unsigned long long)it.figure, (unsigned long long)it.bound,
                             (unsigned long long)reference_total(book.R));
        }
        memcpy(text + *length, line, (size_t)bytes);
        *length += (uint64_t)bytes;
        if (refusal != 0) break;
    }
    return 0;
}
