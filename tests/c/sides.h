/* The two sides of the differential test: the library and the reference get equal copies of every buffer, each between
 * red zones of a fixed pattern, and must leave equal bytes behind. */
#ifndef SIDES_H
#define SIDES_H

#include <stddef.h>
#include <stdint.h>

/* COLUMN is the first of nine places, one for each column. */
enum { COLUMNS = 9 };
enum place {
    LEDGER, RECORDS, OUT, ANSWER, TEXT, SAMPLES, ORDER, REPORT, ELECTRICITY, FUEL,
    COLUMN, STOCKS = COLUMN + COLUMNS, BLOCK, TOTALS, PLACES
};
enum { ZONE = 64, LONGEST = 540000, ROOM = ZONE + 8 + LONGEST + ZONE };

/* The numbers that an entry writes behind pointers stand at the odd places; the even ones are red zones. A place of masses
 * or factors is a row of eight, and where an entry writes one of them, or one byte of another kind, it is the first. */
struct numbers {
    uint64_t whole[11];
    double real[7];
    uint32_t masses[3][8];
    uint8_t factors[3][8];
};

/* A room holds a buffer of bytes, or a list of numbers, which is aligned. */
union room {
    uint8_t bytes[ROOM];
    uint64_t list[ROOM / 8];
};

struct side {
    union room rooms[PLACES];
    struct numbers numbers;
    uint64_t answer;
};

/* What is handed over by value. */
struct given {
    uint8_t kind, filled;
    uint16_t rate;
    double kg;
    uint64_t figure, bound, total;
    uint8_t uncertainties[6]; /* a, b, c, d, e and g: percentages, or from c on codes */
    uint64_t first, last;     /* years */
};

/* The entries of landfill.h, of either side, and its helper that calls one. */
struct entries {
    uint8_t (*fresh)(uint8_t *, size_t);
    uint8_t (*take)(uint8_t *, size_t, const uint8_t *, size_t, uint8_t *, size_t, uint8_t *, size_t);
    uint8_t (*run)(uint8_t *, size_t, const uint8_t *, size_t, uint8_t *, size_t, uint64_t *, uint64_t *);
    uint8_t (*totals)(const uint8_t *, size_t, uint64_t *, uint64_t *, uint64_t *);
    uint32_t (*entry)(uint8_t, uint16_t);
    uint8_t (*cell)(uint8_t, double, uint32_t *);
    uint8_t (*point)(uint64_t, uint64_t, double *, double *, double *);
    uint8_t (*listing)(const uint8_t *, size_t, uint8_t *, size_t, uint64_t *);
    uint8_t (*masses)(uint8_t, uint64_t, const uint8_t *, size_t, uint32_t *);
    uint8_t (*factor)(uint8_t, uint8_t, uint8_t, uint8_t, uint8_t, uint8_t, uint8_t *);
    uint8_t (*factor_by_codes)(uint8_t, uint8_t, uint8_t, uint8_t, uint8_t, uint8_t, uint8_t *);
    uint8_t (*repair)(const uint8_t *, size_t, const uint8_t *, size_t, uint8_t *, size_t, uint8_t *, size_t, uint64_t *);
    uint8_t (*tunisia)(const uint8_t *, size_t, uint64_t, uint64_t, const uint64_t *, size_t, const uint64_t *, size_t,
                       uint64_t *, uint64_t *, int64_t *, uint64_t *, uint64_t *, uint8_t *);
    uint8_t (*columns)(const uint8_t *, size_t, uint64_t *, size_t, uint64_t *, size_t, uint64_t *, size_t, uint64_t *, size_t,
                       uint64_t *, size_t, uint64_t *, size_t, uint64_t *, size_t, uint64_t *, size_t, uint64_t *, size_t,
                       uint64_t *);
    uint8_t (*columns_in)(const uint8_t *, size_t, uint64_t *, size_t, uint64_t *);
    uint8_t (*take_month)(uint8_t *, size_t, uint8_t *, size_t, const uint8_t *, size_t, uint8_t *, size_t, uint8_t *, size_t);
    uint8_t (*run_months)(uint8_t *, size_t, uint8_t *, size_t, const uint8_t *, size_t, uint8_t *, size_t, uint64_t *,
                          uint64_t *);
};

typedef void call(const struct entries *entries, struct side *side);

extern struct given given;

/* Lends a buffer of so many random bytes for the next call, and gives its bytes to be filled. */
uint8_t *lend(enum place place, size_t length);

/* The same for a list of so many numbers. They stay as they were lent until the place is lent again. */
uint64_t *lend_list(enum place place, size_t count);

/* A lent buffer's bytes as one side has them, its length, and its bytes after the last call; the numbers of a lent list, how many
 * there are, and those after the last call; the first, second, .. fifth whole number that the last call has written, its byte,
 * and what it answered. */
uint8_t *at(struct side *side, enum place place);
size_t length_of(enum place place);
const uint8_t *left(enum place place);
uint64_t *list_at(struct side *side, enum place place);
size_t count_of(enum place place);
const uint64_t *list_left(enum place place);
uint64_t number_left(int which);
uint8_t byte_left(void);
uint64_t answer_left(void);

/* Makes the call on both sides and compares; prints the difference in full and ends the program where there is one.
 * After it no buffer is lent. */
void both(const char *name, call *make);

/* Holds a number that the last call has left to what it should be by another way; prints both and ends the program where they
 * differ. */
void hold(const char *name, uint64_t number, uint64_t expected);

/* The same for a number that should be at least so much. */
void hold_at_least(const char *name, uint64_t number, uint64_t least);

/* The number of calls compared. */
uint64_t calls(void);

#endif
