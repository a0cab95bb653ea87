/* The landfill ledger, for C and C++ on x86-64: link liblandfill.a.
 *
 * A site's waste goes in as records of 48 bytes, one a year or one a month. Each accepted record gives the carbon that
 * the site released in that period, the figure in grams CO2e that goes into the methane estimate, and a bound on how far
 * the figure is from the exact formula of TOOL04. All is whole-number arithmetic: every machine gives the same digits.
 * docs/METHOD.md has the method, a site worked by hand, and what to do about each refusal; tests/c/example.c is a first
 * program.
 *
 * What every entry gives:
 * - Every content of the buffers gets an answer. What cannot be taken is refused by number, in a fixed order.
 * - Nothing is kept between calls, nothing is allocated, and different threads may call at once on buffers of their own.
 * - The processor's floating-point modes change no answer: cells are read as bits, and points are exact.
 *
 * What the caller sees to. None of it is tested, and without it nothing is promised:
 * - A buffer is a pointer, then its length in bytes. So many bytes of one object stand there; they may be read, and also
 *   written where the pointer is not to const. electricity and fuel of landfill_tunisia and the nine columns of
 *   landfill_columns point to numbers, and their lengths count numbers. A pointer without a length is to one number; masses
 *   of landfill_masses and stocks of landfill_columns point to eight.
 * - No pointer is NULL, not even where the length is 0.
 * - No two buffers of a call overlap, and no number that the call writes lies in a buffer or in another such number.
 * - Buffers of bytes need no alignment. A number that a pointer is to is aligned as C aligns it.
 * - While a call runs, no other thread writes what it was given, or reads what it may write.
 * The helpers at the end ask the same. They take no length: what they read or write has a fixed size.
 *
 * Numbers in buffers are little-endian. The constants below say where each stands.
 *
 * By year or by month. A ledger is one or the other from its first record to its last, and stays in one climate
 * (refusal 7). A site whose history is known by year and that is monitored by month has two ledgers:
 * - a yearly one for the waste of the years before monitoring. It goes on through the monitored years with records that
 *   bring nothing, since the old waste goes on decaying;
 * - a monthly one for the waste of the monitored months. Its month 1 is the first month of a year of the yearly ledger.
 * Every delivery stands in one of them only. A monitored year then has the yearly ledger's figure for it plus the figures
 * of its twelve months, and its bound is the thirteen bounds added. That is equation (1) of TOOL04 over the old waste plus
 * equation (2) over the new. It gives no figure for a single month, since the old waste has none. TOOL04 has no equation
 * for the two together, so the report has to say how it was done. docs/METHOD.md has the reasons and another way.
 *
 * Months of one year. In a monthly ledger the records that make n 1, 13, 25 and so on each begin a year; the eleven after
 * each of them bring the same correction factor, site class and captured share f as it, else refusal 17. TOOL04 has one of
 * each a year (paragraph 24 and equation (2)). OX, F, DOCf and GWP are free by month. The ledger counts the months, so that
 * a file may begin in the middle of a year; landfill_repeat_year fills in what the next month has to repeat.
 *
 * Sludge. By default the DOC of domestic sludge (type 7) is 5 percent and that of pulp and paper industry sludge (type 8) is 9.
 * A plant that knows its organic dry matter gives it in the record: m, a whole percentage, 1 to 100. The DOC in hundredths of
 * a percent is then 50 * m for type 7, and 900 * m / 35 rounded down for type 8 (TOOL04: 5 * m / 10 and 9 * m / 35 percent).
 * The formula that the bound speaks of has this rounded DOC. m of 10 for type 7 and of 35 for type 8 give the defaults. m of 0
 * gives the default too: it says that nothing was measured, and never that there is no organic matter, so a measured value
 * under 1 percent must not be rounded to 0. m counts for its own record only; the next brings its own, or 0. Records written
 * before there was an m have 0 there, and give what they gave.
 *
 * Shuffled files. Old editions wrote the eight masses of a record in the order of the translated names of the types. Nothing
 * in such a file tells so, and a run may take it as it stands, with wrong figures. So it is put right before it is run, and
 * once only: landfill_repair takes the order of its edition, for each place the type that stood there, and writes the file
 * anew with every mass at its type's place; it also says which masses are others now. The other bytes of a record are copied:
 * m in bytes 12 and 13 belongs to types 7 and 8 wherever the masses stood.
 *
 * Decay work. A host that runs many sites in a batch plans its queue by the number of decay multiplications. landfill_run
 * reports that number: one for each record that it accepts and each waste type of which there is carbon then, old stock or
 * the record's own deposit. A type counts from a delivery until its stock is rounded down to 0, whatever the factors of the
 * records. Inert waste (type 6) has no carbon and never counts. So a host that knows nothing of a site plans 7 for each record
 * and at most 8400 for a run, which is never too few. After a run it knows the number, and plans the site's next run by it: the
 * work of a record changes only where a type comes in or runs out. The numbers of several runs on one ledger add up to the
 * site's work.
 *
 * Reductions in Tunisia. Under the Joint Crediting Mechanism's methodology for Tunisia ("Introduction of semi-aerobic landfill
 * technology in solid waste disposal site", version 01.0), a project reports over a stretch of years what an anaerobic managed
 * site would have emitted, what the semi-aerobic site emits, and the difference. landfill_tunisia works these out from the
 * site's file of yearly records. The figure of year y comes from the carbon released in year y - 1, with the factors of record
 * y; year 1 has figure 0. So the file has a record for each year of the stretch, also for years that bring no waste. The caller
 * enters the grams CO2e of the electricity and the fuel of each year. No year's reference is below its project, so a reduction
 * below zero comes from electricity and fuel alone. The site class of a record is not used here; it still has to be a code.
 *
 * By columns. Newcomers check a ledger with one sheet for each waste type. landfill_columns works a site's file out in that
 * order: all periods of type 1, then all of type 2, and so on; then the figures, by adding across. It gives the same releases,
 * figures and end stocks as landfill_run and landfill_take, by loops of its own, so each way checks the other. The caller lends
 * nine columns of 64-bit numbers: first those of types 1 to 8, by type number, then the one for the figures. Each passes as a
 * pointer and then its number of places, so the columns may lie anywhere and need not have the same length.
 * landfill_columns_in takes them as one block, one column after the other.
 *
 * Yearly totals. Reports go by year, and a monthly ledger takes a record a month. landfill_take_month and landfill_run_months
 * take monthly records as landfill_take and landfill_run do, and also keep the totals of each year in a buffer of the caller's.
 * The buffer has 100 slots of 32 bytes. Year y, counted from the ledger's first month, has slot y - 1: the year's number, the
 * months counted so far, and the x0, the figures and the bounds of these months added. landfill_get_year reads a slot. Start with
 * a fresh ledger and 3200 zeros, and keep the buffer together with the ledger's image.
 * All records of a site go through these two entries. A month that landfill_take or landfill_run takes is missing in its year:
 * - where months 1 to 5 went through landfill_take, month 6 is refused here with 32;
 * - where months 1 to 5 went through these entries and 6 to 12 through landfill_take, month 13 is taken here, since it begins a slot
 *   of its own. Slot 0 keeps five months, and nothing refuses it. So look at the months of a year before you report it.
 *
 * Tonnes. A mass is a whole number of kilograms. Tonnes in a float times 1000 often are not: 2.01 * 1000.0 is
 * 2009.9999999999998. Of the 100,000 values 0.01, 0.02, .. 1000.00 t, 1175 come out so (1.2 %), and landfill_cell refuses
 * them with 11. Round first:
 *     refusal = landfill_cell(1, landfill_kg(tonnes), &mass);
 * where landfill_kg is floor(tonnes * 1000.0 + 0.5) for all that can be a mass. Tonnes with at most three decimals then
 * give exactly the kilograms that were typed. With more decimals the nearest whole kilogram is taken, which is up to half
 * a kilogram off; a package that may not round looks for that first.
 */
#ifndef LANDFILL_H
#define LANDFILL_H

#include <stddef.h>
#include <stdint.h>

#ifdef __cplusplus
extern "C" {
#endif

/* Sizes in bytes, and limits. */
enum {
    LANDFILL_LEDGER_BYTES = 200, /* a ledger image */
    LANDFILL_RECORD_BYTES = 48,  /* a record, and an output record */
    LANDFILL_ANSWER_BYTES = 88,  /* the answer of one step */
    LANDFILL_SAMPLE_BYTES = 16,  /* a sorted sample */
    LANDFILL_ORDER_BYTES = 8,    /* an order of the types */
    LANDFILL_LINE_BYTES = 90,    /* the longest line of the listing, its byte 10 included */
    LANDFILL_RECORDS = 1200,     /* the most records that a ledger takes */
    LANDFILL_LISTING_BYTES = 108090, /* room for the listing of any file: 90 for each of 1201 lines */
    LANDFILL_YEARS = 100,        /* the slots of a buffer of yearly totals */
    LANDFILL_YEAR_BYTES = 32,    /* one slot of it */
    LANDFILL_YEARLY_TOTALS_BYTES = 3200, /* a buffer of yearly totals */
    LANDFILL_MASS_LIMIT = 1000000000 /* the largest mass of one type in one record, and the largest total to share, in kg */
};

/* The most grams CO2e of electricity, and the most of fuel, that landfill_tunisia takes for a year: 10^15. */
#define LANDFILL_GRAMS_LIMIT UINT64_C(1000000000000000)

/* The largest sum in a slot of yearly totals to which a month is added: 10^19. */
#define LANDFILL_SUM_LIMIT UINT64_C(10000000000000000000)

/* Kinds. */
enum { LANDFILL_YEARLY = 1, LANDFILL_MONTHLY = 2 };

/* Climates; temperate stands for boreal or temperate. */
enum {
    LANDFILL_TEMPERATE_DRY = 1,
    LANDFILL_TEMPERATE_WET = 2,
    LANDFILL_TROPICAL_DRY = 3,
    LANDFILL_TROPICAL_WET = 4
};

/* Site classes, which give the methane correction factor. */
enum {
    LANDFILL_ANAEROBIC_MANAGED = 1,    /* 100 % */
    LANDFILL_SEMI_AEROBIC_MANAGED = 2, /* 50 % */
    LANDFILL_UNMANAGED_DEEP = 3,       /* 80 % */
    LANDFILL_UNMANAGED_SHALLOW = 4     /* 40 %, and stockpiles */
};

/* Codes of landfill_factor_by_codes: the lower or the higher value of Table 3 of TOOL04. */
enum { LANDFILL_LOWER = 1, LANDFILL_HIGHER = 2 };

/* Waste types. These numbers never follow a language or a sort. */
enum {
    LANDFILL_WOOD = 1,            /* wood and wood products */
    LANDFILL_PAPER = 2,           /* pulp, paper, cardboard */
    LANDFILL_FOOD = 3,            /* food, beverages, tobacco */
    LANDFILL_TEXTILES = 4,        /* textiles */
    LANDFILL_GARDEN = 5,          /* garden, yard, park */
    LANDFILL_INERT = 6,           /* glass, plastic, metal, inert */
    LANDFILL_DOMESTIC_SLUDGE = 7, /* domestic sludge */
    LANDFILL_PAPER_SLUDGE = 8,    /* pulp and paper industry sludge */
    LANDFILL_TYPES = 8            /* how many there are */
};

/* One record, 48 bytes: where each field starts. */
enum {
    LANDFILL_RECORD_AT_PERIOD = 0,        /* 2 bytes: 1 for the first record, then the next in turn */
    LANDFILL_RECORD_AT_KIND = 2,          /* 1 byte */
    LANDFILL_RECORD_AT_CLIMATE = 3,       /* 1 byte */
    LANDFILL_RECORD_AT_FACTOR = 4,        /* 1 byte: correction factor, percent, 1 to 100 */
    LANDFILL_RECORD_AT_OX = 5,            /* 1 byte: oxidation OX, percent, 0 to 100 */
    LANDFILL_RECORD_AT_F = 6,             /* 1 byte: methane share F, percent, 0 to 100 */
    LANDFILL_RECORD_AT_DOCF = 7,          /* 1 byte: DOCf, percent, 0 to 100 */
    LANDFILL_RECORD_AT_CLASS = 8,         /* 1 byte: site class */
    LANDFILL_RECORD_AT_GWP = 9,           /* 1 byte: warming potential GWP, 1 to 100 */
    LANDFILL_RECORD_AT_CAPTURED = 10,     /* 2 bytes: captured f, hundredths of a percent, 0 to 10000 */
    LANDFILL_RECORD_AT_DOMESTIC_DRY = 12, /* 1 byte: organic dry matter m of type 7, percent, 0 to 100; 0 if not measured */
    LANDFILL_RECORD_AT_PAPER_DRY = 13,    /* 1 byte: organic dry matter m of type 8, percent, 0 to 100; 0 if not measured */
    LANDFILL_RECORD_AT_ZERO = 14,         /* 2 bytes: zero */
    LANDFILL_RECORD_AT_MASSES = 16        /* 32 bytes: the masses of types 1 to 8 in kg, 4 bytes each, 0 to 1,000,000,000 */
};

/* One output record, 48 bytes: where each field starts. */
enum {
    LANDFILL_OUT_AT_PERIOD = 0,  /* 2 bytes */
    LANDFILL_OUT_AT_KIND = 2,    /* 1 byte */
    LANDFILL_OUT_AT_CLIMATE = 3, /* 1 byte */
    LANDFILL_OUT_AT_ZERO = 4,    /* 4 bytes: zero */
    LANDFILL_OUT_AT_X0 = 8,      /* 8 bytes: x0, the carbon released in the period, in mg */
    LANDFILL_OUT_AT_FIGURE = 16, /* 8 bytes: figure, in grams CO2e */
    LANDFILL_OUT_AT_BOUND = 24,  /* 8 bytes: bound, in grams CO2e */
    LANDFILL_OUT_AT_STOCK = 32,  /* 8 bytes: total R, the carbon left, in mg */
    LANDFILL_OUT_AT_BROUGHT = 40 /* 8 bytes: total T, the carbon brought in since the first record, in mg */
};

/* The answer of one step, 88 bytes: where each field starts. */
enum {
    LANDFILL_ANSWER_AT_RELEASES = 0, /* 64 bytes: the carbon that types 1 to 8 released, in mg, 8 bytes each */
    LANDFILL_ANSWER_AT_X0 = 64,      /* 8 bytes: x0, these added, in mg */
    LANDFILL_ANSWER_AT_FIGURE = 72,  /* 8 bytes: figure, in grams CO2e */
    LANDFILL_ANSWER_AT_BOUND = 80    /* 8 bytes: bound, in grams CO2e */
};

/* One slot of yearly totals, 32 bytes: where each field starts. Slot k, from 0 on, starts at byte 32 * k of its buffer. */
enum {
    LANDFILL_YEAR_AT_NUMBER = 0,  /* 4 bytes: the year's number, its slot plus 1; 0 while it has no months */
    LANDFILL_YEAR_AT_MONTHS = 4,  /* 4 bytes: the months counted, 0 to 12 */
    LANDFILL_YEAR_AT_X0 = 8,      /* 8 bytes: x0 of these months added, in mg */
    LANDFILL_YEAR_AT_FIGURE = 16, /* 8 bytes: their figures added, in grams CO2e */
    LANDFILL_YEAR_AT_BOUND = 24   /* 8 bytes: their bounds added, in grams CO2e */
};

/* A ledger image, 200 bytes, is a site's ledger as it can be kept in a file between calls: where each field starts. */
enum {
    LANDFILL_LEDGER_AT_N = 0,         /* 2 bytes: n, the number of accepted records */
    LANDFILL_LEDGER_AT_KIND = 2,      /* 1 byte */
    LANDFILL_LEDGER_AT_CLIMATE = 3,   /* 1 byte */
    LANDFILL_LEDGER_AT_FACTOR = 4,    /* 1 byte: correction factor of the year, percent */
    LANDFILL_LEDGER_AT_CLASS = 5,     /* 1 byte: site class of the year */
    LANDFILL_LEDGER_AT_CAPTURED = 6,  /* 2 bytes: captured f of the year, hundredths of a percent */
    LANDFILL_LEDGER_AT_BROUGHT = 8,   /* 64 bytes: T, the carbon that types 1 to 8 brought in, in mg, 8 bytes each */
    LANDFILL_LEDGER_AT_STOCK = 72,    /* 64 bytes: R, the carbon left of types 1 to 8, in mg, 8 bytes each */
    LANDFILL_LEDGER_AT_RELEASED = 136 /* 64 bytes: the carbon that types 1 to 8 have released so far, in mg, 8 bytes each */
};

/* What a type has released so far is the releases of all accepted records added. The year's factors, bytes 4-7, are those
 * of the year's first month; they stay after its twelfth, until the next record sets them. A yearly ledger has zeros there,
 * and so has a fresh one. An image is refused with 3 exactly where one of these holds:
 * - it is not 200 bytes;
 * - n is over 1200;
 * - n is 0 and any other byte is not;
 * - n is above 0, and the kind is not 1 or 2, the climate not 1 to 4, some T over n * 10^9 * DOC * 100, some R over its T, or
 *   some released plus R not its T, the true sum being meant, which may be over 64 bits
 *   (DOC in hundredths of a percent: 4300, 4000, 1500, 2400, 2000, 0, 5000, 2571 for types 1 to 8; types 7 and 8 have that of
 *   m = 100 here, whatever m was);
 * - n is above 0 and the kind 2, and the year's factor is not 1 to 100, its class not 1 to 4, or its f over 10000;
 * - n is above 0 and the kind 1, and bytes 4-7 are not all zero.
 * Nothing else is tested. An image that was changed within these limits is taken as it stands, so guard the file.
 *
 * An image of 136 bytes, as it was kept before ledgers held what was released, is no image any more: it is refused with 3,
 * as any bytes of another length. Whoever has one runs the site's file of records again, from a fresh ledger: the same
 * records give the same figures, and the new image. Do not fill it up with zeros: as soon as anything was released, that is
 * refused with 3 as well.
 *
 * An image of 200 bytes with zeros in bytes 4-7, as it was kept before ledgers remembered the year's factors, is sound for a
 * yearly ledger, and for one with no records. A monthly one with records is refused with 3, since the year's factors are not
 * in it. Whoever has one runs the site's file of records again, from a fresh ledger: the figures are the same. Where months
 * of one year differ in a factor that they now share, the run stops at the first such month with 17; the year's own factors
 * have to go into its records, and then into the report.
 *
 * An image that was kept before records had an m stays sound. An image that is kept now may be refused with 3 by a library
 * from before, whose ceiling on T has DOC 500 and 900 for types 7 and 8; and a record that has an m is refused by it with 5. */

/* Refusals. The first that holds is the answer, and they are tested in this order: for a record 1, 2, 3, 4, 5, 6, 7, 8, 17, 9;
 * for a total with its samples 14, 15, 16; for uncertainties 18, 19; for a file to repair 20, 21, 22. For landfill_tunisia they
 * are 1, 4, 5, 23, 6, 7, 8, 9 for a record, where 17 cannot come since it is for months, and 24, 25 for a stretch of years. For
 * landfill_columns they are those of a record, but for 2 and 3, which cannot come, and then 26. For landfill_take_month and
 * landfill_run_months they are 28, 1, 2, 3, 4, 5, 27, 6, 7, 8, 17, 9, 32. The numbers have gaps. */
enum {
    LANDFILL_ACCEPTED = 0,           /* not refused */
    LANDFILL_NOT_48_BYTES = 1,       /* the record is not 48 bytes */
    LANDFILL_NO_ROOM = 2,            /* an output is too short */
    LANDFILL_UNSOUND = 3,            /* the ledger image fails a test of the list above */
    LANDFILL_FULL = 4,               /* the ledger has 1200 records */
    LANDFILL_NOT_A_CODE = 5,         /* kind, climate or site class is not a code, or bytes 14 and 15 are not both zero */
    LANDFILL_OUT_OF_TURN = 6,        /* the period is not n + 1 */
    LANDFILL_OTHER_SERIES = 7,       /* kind or climate differs from the ledger's */
    LANDFILL_OUT_OF_RANGE = 8,       /* correction factor, OX, F, DOCf, GWP, f or m is outside its range; m even with mass 0 */
    LANDFILL_MASS_TOO_LARGE = 9,     /* a mass is over 1,000,000,000 kg */
    LANDFILL_CELL_EMPTY = 10,        /* the cell is empty */
    LANDFILL_CELL_NOT_WHOLE = 11,    /* the cell is not a whole number: a fraction, infinite or not a number */
    LANDFILL_CELL_OUTSIDE = 12,      /* the cell is below 0 or above 1,000,000,000 */
    LANDFILL_POINT_TOO_LARGE = 13,   /* figure and bound add up to more than 9,007,199,254,740,992 */
    LANDFILL_TOTAL_TOO_LARGE = 14,   /* the total is over 1,000,000,000 kg */
    LANDFILL_NOT_THE_SAMPLES = 15,   /* the kind is not 1 or 2, or the samples are not whole, or not as many as it asks */
    LANDFILL_SAMPLE_NOT_WHOLE = 16,  /* the fractions of a sample do not add up to 10000 */
    LANDFILL_NOT_THE_YEARS = 17,     /* correction factor, site class or f differs from that of the year's first month */
    LANDFILL_OVER_100 = 18,          /* an uncertainty that was entered as a percentage is over 100 */
    LANDFILL_NOT_A_CHOICE = 19,      /* a code of an uncertainty is not 1 or 2 */
    LANDFILL_NOT_AN_ORDER = 20,      /* the order is not eight bytes, or does not name each of the types 1 to 8 once */
    LANDFILL_NOT_WHOLE_RECORDS = 21, /* the length of the file to repair is not a multiple of 48 */
    LANDFILL_NO_ROOM_FOR_REPAIR = 22, /* the output is shorter than the file, or the report than its number of records */
    LANDFILL_NOT_YEARLY = 23,        /* a monthly record, for landfill_tunisia */
    LANDFILL_NOT_A_STRETCH = 24,     /* there are no years, not all are accepted, or not each has one entry of each kind of grams */
    LANDFILL_GRAMS_TOO_LARGE = 25,   /* an entry of electricity or fuel is over 10^15 grams */
    LANDFILL_COLUMN_TOO_SHORT = 26,  /* a column has fewer places than the file has records */
    LANDFILL_NOT_MONTHLY = 27,       /* a yearly record, for landfill_take_month and landfill_run_months */
    LANDFILL_NOT_YEARLY_TOTALS = 28, /* the buffer of yearly totals is not 3200 bytes */
    LANDFILL_YEAR_DIFFERS = 32       /* the slot of the record's year is damaged, or does not go with the ledger */
};

/* Makes the image a fresh ledger, all zero, and answers 0.
 * Answers 3 and writes nothing when ledger_len is not 200. */
uint8_t landfill_fresh(uint8_t *ledger, size_t ledger_len);

/* Takes one record into the ledger and answers the refusal, 0 if none.
 * out takes the output record, answer the 88 bytes of the answer. Under 48 bytes of out or under 88 of answer is refusal 2.
 * Accepted: the image, the first 48 bytes of out and the first 88 of answer are written; the rest of out and answer stays.
 * Refused: image and out stay as they are; the first 88 bytes of answer become zero, or it stays where it has fewer. */
uint8_t landfill_take(uint8_t *ledger, size_t ledger_len, const uint8_t *record, size_t record_len, uint8_t *out,
                      size_t out_len, uint8_t *answer, size_t answer_len);

/* Takes records one after another, stops at the first that is refused, and answers its refusal, 0 if none.
 * *accepted becomes the number of records taken. The image becomes the ledger after them; with none taken it stays as it
 * is. Output record i stands at out + 48 * (i - 1); the bytes past the last one stay. Bytes at the end that make no whole
 * record are refused with 1. With records_len 0 the answer is 0, and *accepted and *work are 0, whatever the image.
 * *work becomes the decay work of the records taken: one for each of them and each waste type whose stock before the record,
 * with the record's deposit, is above 0. It is at most 7 for each record taken, so at most 8400. Every call sets it: a refusal
 * leaves the work of the records before the refused one, which is 0 where none was taken. A program that was compiled before
 * landfill_run had this pointer must be compiled again. */
uint8_t landfill_run(uint8_t *ledger, size_t ledger_len, const uint8_t *records, size_t records_len, uint8_t *out,
                     size_t out_len, uint64_t *accepted, uint64_t *work);

/* Answers 0, with *stock the carbon left (R), *brought the carbon brought in (T) and *released the carbon released so far,
 * over all types, in mg. Answers 3 with all three 0 when the ledger is unsound. */
uint8_t landfill_totals(const uint8_t *ledger, size_t ledger_len, uint64_t *stock, uint64_t *brought,
                        uint64_t *released);

/* Answers the decay table's entry: what is left of 1,000,000,000 parts after one period, rounded down.
 * kind is 1 by year or 2 by month, rate the yearly rate in thousandths, 1 to 400. Anything else gives 0. */
uint32_t landfill_entry(uint8_t kind, uint16_t rate);

/* Reads a spreadsheet cell as a mass in kg into *mass and answers 0; minus zero is 0.
 * filled is 0 for an empty cell, and kg then counts for nothing; any other value means that the cell holds kg.
 * Answers 10, 11 or 12 with *mass 0 for a cell that gives no mass. */
uint8_t landfill_cell(uint8_t filled, double kg, uint32_t *mass);

/* Makes a chart point of a figure and its bound, in grams CO2e, and answers 0: *at is the figure, *low the figure less
 * the bound, or 0 where the bound is larger, *high the figure plus the bound, each without loss.
 * Answers 13 with all three 0 when figure and bound add up to more than 9,007,199,254,740,992. */
uint8_t landfill_point(uint64_t figure, uint64_t bound, double *at, double *low, double *high);

/* Writes the listing of a file of records, from a fresh ledger and with room for every output record, at the start of
 * text, sets *length to its bytes and answers 0; the bytes of text past it stay, and no byte 0 is added. Each accepted
 * record has a line: period, x0, figure, bound, total R, in plain decimal with one space between. At a refusal comes
 * the line "refused K at record P", and nothing after it. Every line ends with a byte 10.
 * text needs 90 bytes for every 48 bytes begun of records, and 108,090 at most, since record 1201 is refused at the latest.
 * With less, answers 2, writes nothing and sets *length to 0. */
uint8_t landfill_listing(const uint8_t *records, size_t records_len, uint8_t *text, size_t text_len, uint64_t *length);

/* Shares the total of a year or a month, in kg, among the waste types as sorted samples have them, and answers 0: equations
 * (5) to (8) of TOOL04. kind is 1 for a year, with 12 to 400 samples, or 2 for a month, with its three most recent ones.
 * A sample is 16 bytes: the fractions of types 1 to 8 in hundredths of a percent, 2 bytes each, type 1 in bytes 0-1, type 2
 * in bytes 2-3, .. type 8 in bytes 14-15. They add up to 10000. One sample follows the other, with no byte between or after.
 * masses[0] becomes the mass of type 1, .. masses[7] that of type 8, in kg. With Z samples and P(j) the fractions of types 1
 * to j of all samples added, the mass of type j is total * P(j) / (10000 * Z) rounded down, less the same for j - 1. So the
 * masses add up to the total, and each is under 1 kg from its exact share, total times the mean of its fractions.
 * Answers 14 for a total over 1,000,000,000, then 15 for another kind or not the right number of whole samples, then 16 for
 * a sample that does not add up, with all eight masses 0. */
uint8_t landfill_masses(uint8_t kind, uint64_t total, const uint8_t *samples, size_t samples_len,
                        uint32_t masses[LANDFILL_TYPES]);

/* Works the correction factor out from uncertainties and answers 0: equations (3) and (4) of TOOL04, its option 2.
 * a, b, c, d, e and g are whole percentages, 0 to 100: the uncertainty of the masses W (a), of DOC (b), of DOCf (c), of F (d),
 * of the methane correction factor (e) and of the exponential term (g). With S the sum of their squares, *factor becomes
 * the greatest whole p up to 100 with p * p * S <= (10000 - 100 * p)^2. That is 100 / (1 + V) rounded down, where V is the
 * root of S, divided by 100. It is 28 to 100, so that a record takes it (its byte at LANDFILL_RECORD_AT_FACTOR).
 * Answers 18 with *factor 0 when one of the six is over 100. */
uint8_t landfill_factor(uint8_t a, uint8_t b, uint8_t c, uint8_t d, uint8_t e, uint8_t g, uint8_t *factor);

/* The same, where c, d, e and g are chosen as Table 3 of TOOL04 instructs (docs/METHOD.md has when to take which): code 1 takes
 * the lower value, 2 the higher one, of c 5 or 15, of d 0 or 5, of e 0 or 50, of g 5 or 20 percent.
 * a and b are percentages, as above. *factor is what landfill_factor gives for the chosen values; it is 39 to 93.
 * Answers 18 when a or b is over 100, then 19 when a code is not 1 or 2, with *factor 0. */
uint8_t landfill_factor_by_codes(uint8_t a, uint8_t b, uint8_t c, uint8_t d, uint8_t e, uint8_t g, uint8_t *factor);

/* Puts a file right whose masses stood in another order, and answers 0. order is eight bytes: order[0] is the type that stood
 * at place 1, .. order[7] the one at place 8. So 3 1 2 4 5 6 7 8 says that food stood first, then wood, then paper. Each
 * record of out becomes that of file, but for the masses: the one that stood at place p + 1 goes to the place of type
 * order[p]. Bytes 0-15 are copied. Records are not judged: any file of whole records is rewritten, an empty one too.
 * report gets one byte for each record. Its bit t - 1, worth 2^(t - 1), is set exactly when the mass at place t is not the
 * number that stood there before; landfill_get_changed reads it. *changed becomes the number of bits set in these bytes.
 * out needs file_len bytes and report file_len / 48; the bytes of either past its need stay. Repairing out with the inverse
 * order (landfill_invert) brings back the old file byte for byte, with the same report and the same *changed.
 * Answers 20 when order_len is not 8 or order does not name each of the types 1 to 8 once, then 21 when file_len is not a
 * multiple of 48, then 22 when out_len is under file_len or report_len under file_len / 48, with *changed 0; out and report
 * stay as they are. */
uint8_t landfill_repair(const uint8_t *order, size_t order_len, const uint8_t *file, size_t file_len, uint8_t *out,
                        size_t out_len, uint8_t *report, size_t report_len, uint64_t *changed);

/* Works out the reduction over the years first to last of a site under the Tunisian methodology, in grams CO2e, and answers 0.
 * file is the site's yearly records from its first year on, one after another; they are run from a fresh ledger. electricity
 * and fuel have one entry in grams CO2e for each year of the stretch, entry 0 for year first; their lengths count entries,
 * not bytes.
 * Year y takes x0 of record y - 1 (0 in year 1) through the chain of factors of record y, rounding down after each line:
 * - its reference has class 1 in place of the record's, and is then multiplied by 73, divided by 100 and rounded down;
 * - its project has class 2 in place of the record's;
 * - the bound of its project is 3 + B * 4 * GWP / 3000 rounded down, with the GWP of record y and the B of period y - 1, which
 *   is 0 in year 1; the bound of its reference is one gram more.
 * *reference and *project become the figures of the stretch added, *reduction becomes *reference - *project - all electricity
 * - all fuel, and *bound all bounds of reference and project added. The same formulas without rounding give a reduction that
 * differs from *reduction by less than *bound.
 * *years becomes the number of accepted years, which end before the first refused record, and *refused that record's refusal,
 * 0 if none. Records are refused as landfill_run refuses them with room for all output, and a monthly one with 23, after 5
 * and before 6; bytes at the end that make no whole record are refused with 1. A refused record does not refuse a stretch
 * before it: then the answer is 0 and *refused is not.
 * Answers 24 unless 1 <= first <= last <= *years and both lengths are exactly last - first + 1, then 25 when an entry is over
 * 10^15, with *reference, *project, *reduction and *bound 0; *years and *refused are set all the same. */
uint8_t landfill_tunisia(const uint8_t *file, size_t file_len, uint64_t first, uint64_t last, const uint64_t *electricity,
                         size_t electricity_len, const uint64_t *fuel, size_t fuel_len, uint64_t *reference,
                         uint64_t *project, int64_t *reduction, uint64_t *bound, uint64_t *years, uint8_t *refused);

/* Works a site's file out by columns, from a fresh ledger, and answers 0. file is the site's records from its first period on, one
 * after another, by year or by month. The length of a column counts numbers, not bytes.
 * With k records, places 0 to k - 1 of a type's column become the carbon that this type released in each period, in mg, and those
 * of figures become the figures in grams CO2e: what landfill_take answers for the same records. Places from k on stay.
 * stocks[0] becomes R of type 1 after the last record, the carbon left in mg, .. stocks[7] that of type 8.
 * Answers the refusal of the first record that landfill_run refuses from a fresh ledger with room for every output record; bytes
 * at the end that make no whole record are refused with 1, record 1201 with 4. Then answers 26 when one of the nine columns
 * has fewer than k places. In either case no column is written, and all eight stocks become 0. An empty file is accepted with
 * columns of any length, also of 0: no column is written then either, and the stocks are 0. */
uint8_t landfill_columns(const uint8_t *file, size_t file_len, uint64_t *wood, size_t wood_len, uint64_t *paper,
                         size_t paper_len, uint64_t *food, size_t food_len, uint64_t *textiles, size_t textiles_len,
                         uint64_t *garden, size_t garden_len, uint64_t *inert, size_t inert_len,
                         uint64_t *domestic_sludge, size_t domestic_sludge_len, uint64_t *paper_sludge,
                         size_t paper_sludge_len, uint64_t *figures, size_t figures_len,
                         uint64_t stocks[LANDFILL_TYPES]);

/* Takes one monthly record into the ledger as landfill_take does, adds it to its year, and answers the refusal, 0 if none.
 * yearly_totals is the buffer of 3200 bytes that was kept with the ledger, all zero beside a fresh one. The record of period n has
 * slot (n - 1) / 12, rounded down and counted from 0. Accepted: the slot's year becomes the slot plus 1, its months grow by one, and
 * the record's x0, figure and bound are added to its sums; no other byte of yearly_totals is written. Image, out and answer are
 * written as landfill_take writes them.
 * Answers 28 when yearly_totals_len is not 3200, before all that landfill_take tests; 27 for a yearly record, after 5 and before 6;
 * and 32 after all that landfill_take tests, where one of these holds in the record's slot:
 * - its months are not the remainder of n - 1 by 12;
 * - one of its three sums is over 10^19;
 * - its months are above 0, and its year is not the slot plus 1;
 * - its months are 0, and any of its 32 bytes is not 0.
 * The other 99 slots are not looked at. Refused: image, yearly_totals and out stay as they are; the first 88 bytes of answer become
 * zero, or it stays where it has fewer. */
uint8_t landfill_take_month(uint8_t *ledger, size_t ledger_len, uint8_t *yearly_totals, size_t yearly_totals_len,
                            const uint8_t *record, size_t record_len, uint8_t *out, size_t out_len, uint8_t *answer,
                            size_t answer_len);

/* Takes monthly records one after another, each as landfill_take_month takes it, stops at the first that is refused, and answers
 * its refusal, 0 if none. *accepted, *work, the image and out become what landfill_run makes of the records that are taken;
 * yearly_totals has each of them in its year's slot. Bytes at the end that make no whole record are refused with 1.
 * A buffer that is not 3200 bytes is refused with 28 also where records_len is 0, since it belongs to the call and not to a record;
 * *accepted and *work are then 0.
 * With records_len 0 and 3200 bytes the answer is 0, whatever the image and the buffer hold. */
uint8_t landfill_run_months(uint8_t *ledger, size_t ledger_len, uint8_t *yearly_totals, size_t yearly_totals_len,
                            const uint8_t *records, size_t records_len, uint8_t *out, size_t out_len,
                            uint64_t *accepted, uint64_t *work);

/* Helpers, compiled into the caller. They take buffers byte by byte, so that byte order and alignment do not matter. */

/* Writes a number into so many bytes, little-endian. A number too large for them becomes the largest that they hold. */
static inline void landfill_put(uint8_t *bytes, size_t count, uint64_t number)
{
    size_t i;
    for (i = 0; i < count; i++, number >>= 8) bytes[i] = (uint8_t)(number & 255);
    if (number != 0)
        for (i = 0; i < count; i++) bytes[i] = 255;
}

/* Reads so many bytes, at most 8, as a little-endian number. */
static inline uint64_t landfill_get(const uint8_t *bytes, size_t count)
{
    uint64_t number = 0;
    while (count-- > 0) number = number << 8 | bytes[count];
    return number;
}

/* A wider number as the byte that landfill_factor and landfill_factor_by_codes take: over 255 it becomes 255, which they
 * refuse, so that 256 is not taken for 0. A number below 0 becomes 255 too. */
static inline uint8_t landfill_byte(uint64_t number)
{
    return number > 255 ? 255 : (uint8_t)number;
}

/* The fields of a record, wider than its bytes. Masses go by type number: mass[LANDFILL_FOOD]; mass[0] is no type's. The dry
 * matter of sludge stands last, so that lists of values from before it still fit; whoever does not start from {0} has to set it
 * too, and whoever uses the fields again for the next record has to set it anew. */
struct landfill_record {
    uint32_t period, kind, climate;
    uint32_t factor, OX, F, DOCf; /* percent */
    uint32_t site_class, GWP;
    uint32_t captured;                 /* f, hundredths of a percent */
    uint64_t mass[LANDFILL_TYPES + 1]; /* kg */
    uint32_t domestic_dry, paper_dry;  /* m of types 7 and 8, percent; 0 if not measured */
};

/* Writes the 48 bytes of a record. A field that is too large for its bytes is written as the largest number that they
 * hold, which the ledger refuses, so that nothing is taken for a smaller one. With a mass at place 0 the kind is written as
 * 0, which is refused with 5. */
static inline void landfill_put_record(uint8_t *record, const struct landfill_record *fields)
{
    size_t type;
    landfill_put(record + LANDFILL_RECORD_AT_PERIOD, 2, fields->period);
    landfill_put(record + LANDFILL_RECORD_AT_KIND, 1, fields->mass[0] == 0 ? fields->kind : 0);
    landfill_put(record + LANDFILL_RECORD_AT_CLIMATE, 1, fields->climate);
    landfill_put(record + LANDFILL_RECORD_AT_FACTOR, 1, fields->factor);
    landfill_put(record + LANDFILL_RECORD_AT_OX, 1, fields->OX);
    landfill_put(record + LANDFILL_RECORD_AT_F, 1, fields->F);
    landfill_put(record + LANDFILL_RECORD_AT_DOCF, 1, fields->DOCf);
    landfill_put(record + LANDFILL_RECORD_AT_CLASS, 1, fields->site_class);
    landfill_put(record + LANDFILL_RECORD_AT_GWP, 1, fields->GWP);
    landfill_put(record + LANDFILL_RECORD_AT_CAPTURED, 2, fields->captured);
    landfill_put(record + LANDFILL_RECORD_AT_DOMESTIC_DRY, 1, fields->domestic_dry);
    landfill_put(record + LANDFILL_RECORD_AT_PAPER_DRY, 1, fields->paper_dry);
    landfill_put(record + LANDFILL_RECORD_AT_ZERO, 2, 0);
    for (type = 1; type <= LANDFILL_TYPES; type++)
        landfill_put(record + LANDFILL_RECORD_AT_MASSES + 4 * (type - 1), 4, fields->mass[type]);
}

/* Writes the 16 bytes of a sample from fractions by type number: fraction[LANDFILL_FOOD]. A fraction that is too large for 2
 * bytes is written as 65535, and with anything at place 0, which is no type's, all eight are: such a sample is refused with
 * 16. */
static inline void landfill_put_sample(uint8_t *sample, const uint32_t fraction[LANDFILL_TYPES + 1])
{
    size_t type;
    for (type = 1; type <= LANDFILL_TYPES; type++)
        landfill_put(sample + 2 * (type - 1), 2, fraction[0] == 0 ? fraction[type] : 65535);
}

/* Puts the masses that landfill_masses gave into the fields of a record; mass[0] becomes 0. Look at its answer first: the
 * masses of a refused total are all 0, and would be taken for a period without waste. */
static inline void landfill_set_masses(struct landfill_record *fields, const uint32_t masses[LANDFILL_TYPES])
{
    size_t type;
    fields->mass[0] = 0;
    for (type = 1; type <= LANDFILL_TYPES; type++) fields->mass[type] = masses[type - 1];
}

/* Puts what the next record of a ledger image has to repeat into the fields of a record, and answers 1: the correction
 * factor, the site class and the captured share of its year. Answers 0, and the fields stay, where there is nothing to
 * repeat: the next record begins a year, or the ledger is not monthly. It looks at nothing else: landfill_totals says
 * whether the image is sound. */
static inline int landfill_repeat_year(struct landfill_record *fields, const uint8_t *ledger)
{
    if (ledger[LANDFILL_LEDGER_AT_KIND] != LANDFILL_MONTHLY || landfill_get(ledger + LANDFILL_LEDGER_AT_N, 2) % 12 == 0)
        return 0;
    fields->factor = ledger[LANDFILL_LEDGER_AT_FACTOR];
    fields->site_class = ledger[LANDFILL_LEDGER_AT_CLASS];
    fields->captured = (uint32_t)landfill_get(ledger + LANDFILL_LEDGER_AT_CAPTURED, 2);
    return 1;
}

/* Writes the inverse of an order, the one that undoes it: for each type the place where it stood. Whoever knows an edition so,
 * by type and not by place, has the inverse of what landfill_repair takes. For eight bytes that are no order it writes eight
 * zeros, which landfill_repair refuses with 20. */
static inline void landfill_invert(const uint8_t order[LANDFILL_ORDER_BYTES], uint8_t inverse[LANDFILL_ORDER_BYTES])
{
    size_t place, named = 0;
    for (place = 0; place < LANDFILL_TYPES; place++) inverse[place] = 0;
    for (place = 0; place < LANDFILL_TYPES; place++)
        if (order[place] >= 1 && order[place] <= LANDFILL_TYPES) inverse[order[place] - 1] = (uint8_t)(place + 1);
    for (place = 0; place < LANDFILL_TYPES; place++) named += inverse[place] != 0;
    for (place = 0; place < LANDFILL_TYPES && named < LANDFILL_TYPES; place++) inverse[place] = 0;
}

/* Tells by a record's byte in the report of landfill_repair whether the mass of a type, 1 to 8, is another than stood at its
 * place before: 1 if so, else 0. For a number that is no type it gives 0. */
static inline int landfill_get_changed(uint8_t changes, unsigned type)
{
    if (type < 1 || type > LANDFILL_TYPES) return 0;
    return changes >> (type - 1) & 1;
}

/* Calls landfill_columns with nine columns of the same length that lie one after the other in a block of 9 * places numbers:
 * places is the length of one column, not of the block. The release of a type, 1 to 8, in period i + 1 is then
 * block[(type - 1) * places + i], and the figure is block[8 * places + i]. */
static inline uint8_t landfill_columns_in(const uint8_t *file, size_t file_len, uint64_t *block, size_t places,
                                          uint64_t stocks[LANDFILL_TYPES])
{
    return landfill_columns(file, file_len, block, places, block + places, places, block + 2 * places, places,
                            block + 3 * places, places, block + 4 * places, places, block + 5 * places, places,
                            block + 6 * places, places, block + 7 * places, places, block + 8 * places, places, stocks);
}

/* The fields of an output record. */
struct landfill_output {
    uint32_t period, kind, climate;
    uint64_t x0;             /* mg */
    uint64_t figure, bound;  /* grams CO2e */
    uint64_t stock, brought; /* total R and total T, mg */
};

/* Reads the 48 bytes of an output record. */
static inline struct landfill_output landfill_get_output(const uint8_t *out)
{
    struct landfill_output fields;
    fields.period = (uint32_t)landfill_get(out + LANDFILL_OUT_AT_PERIOD, 2);
    fields.kind = out[LANDFILL_OUT_AT_KIND];
    fields.climate = out[LANDFILL_OUT_AT_CLIMATE];
    fields.x0 = landfill_get(out + LANDFILL_OUT_AT_X0, 8);
    fields.figure = landfill_get(out + LANDFILL_OUT_AT_FIGURE, 8);
    fields.bound = landfill_get(out + LANDFILL_OUT_AT_BOUND, 8);
    fields.stock = landfill_get(out + LANDFILL_OUT_AT_STOCK, 8);
    fields.brought = landfill_get(out + LANDFILL_OUT_AT_BROUGHT, 8);
    return fields;
}

/* The carbon that a type, 1 to 8, released, in mg, from the 88 bytes of an answer; 0 for a number that is no type. */
static inline uint64_t landfill_get_release(const uint8_t *answer, unsigned type)
{
    if (type < 1 || type > LANDFILL_TYPES) return 0;
    return landfill_get(answer + LANDFILL_ANSWER_AT_RELEASES + 8 * (type - 1), 8);
}

/* The carbon that a type, 1 to 8, has released so far, in mg, from the 200 bytes of a ledger image; 0 for a number that is no
 * type. It looks at nothing else: landfill_totals says whether the image is sound. */
static inline uint64_t landfill_get_released_so_far(const uint8_t *ledger, unsigned type)
{
    if (type < 1 || type > LANDFILL_TYPES) return 0;
    return landfill_get(ledger + LANDFILL_LEDGER_AT_RELEASED + 8 * (type - 1), 8);
}

/* One year of a buffer of yearly totals. */
struct landfill_year {
    uint32_t number, months;
    uint64_t x0;            /* mg */
    uint64_t figure, bound; /* grams CO2e */
};

/* Reads a year, 1 to 100, from the 3200 bytes of a buffer of yearly totals. A year without months has 0 in every field, and so has
 * a number that is no year. It looks at nothing else: a year that is reported whole has 12 months. */
static inline struct landfill_year landfill_get_year(const uint8_t *yearly_totals, unsigned year)
{
    struct landfill_year fields = {0, 0, 0, 0, 0};
    const uint8_t *slot;
    if (year < 1 || year > LANDFILL_YEARS) return fields;
    slot = yearly_totals + LANDFILL_YEAR_BYTES * (year - 1);
    fields.number = (uint32_t)landfill_get(slot + LANDFILL_YEAR_AT_NUMBER, 4);
    fields.months = (uint32_t)landfill_get(slot + LANDFILL_YEAR_AT_MONTHS, 4);
    fields.x0 = landfill_get(slot + LANDFILL_YEAR_AT_X0, 8);
    fields.figure = landfill_get(slot + LANDFILL_YEAR_AT_FIGURE, 8);
    fields.bound = landfill_get(slot + LANDFILL_YEAR_AT_BOUND, 8);
    return fields;
}

/* Tonnes as a whole number of kilograms, for landfill_cell: the nearest, half a kilogram going up. What can be no mass
 * (below 0, 2,000,000 t or more, not a number) comes back times 1000 as it is, for landfill_cell to refuse. */
static inline double landfill_kg(double tonnes)
{
    double kg = tonnes * 1000.0;
    return kg >= 0.0 && kg < 2000000000.0 ? (double)(uint32_t)(kg + 0.5) : kg;
}

/* A sentence for a refusal's number, to show to a person. Any other number gets one that says that it is no refusal's. */
static inline const char *landfill_refusal_text(unsigned refusal)
{
    switch (refusal) {
    case LANDFILL_ACCEPTED: return "Accepted.";
    case LANDFILL_NOT_48_BYTES: return "The record is not 48 bytes long.";
    case LANDFILL_NO_ROOM: return "There is too little room for the output.";
    case LANDFILL_UNSOUND: return "The ledger is damaged, or is no ledger.";
    case LANDFILL_FULL: return "The ledger is full: it has 1200 records.";
    case LANDFILL_NOT_A_CODE: return "The kind, the climate or the site class is not a code, or bytes 14 and 15 are not zero.";
    case LANDFILL_OUT_OF_TURN: return "The period is not the next in turn.";
    case LANDFILL_OTHER_SERIES: return "The kind or the climate is not that of the records before.";
    case LANDFILL_OUT_OF_RANGE:
        return "The correction factor, OX, F, DOCf, GWP, the captured share or the dry matter of sludge is outside its range.";
    case LANDFILL_MASS_TOO_LARGE: return "A mass is over 1,000,000,000 kg.";
    case LANDFILL_CELL_EMPTY: return "The cell is empty.";
    case LANDFILL_CELL_NOT_WHOLE: return "The cell is not a whole number of kilograms.";
    case LANDFILL_CELL_OUTSIDE: return "The cell is below 0 or above 1,000,000,000 kg.";
    case LANDFILL_POINT_TOO_LARGE: return "Figure and bound are too large to be drawn exactly.";
    case LANDFILL_TOTAL_TOO_LARGE: return "The total is over 1,000,000,000 kg.";
    case LANDFILL_NOT_THE_SAMPLES:
        return "The kind is not a code, or the samples are not 12 to 400 whole ones for a year or 3 for a month.";
    case LANDFILL_SAMPLE_NOT_WHOLE: return "The fractions of a sample do not add up to 100 percent.";
    case LANDFILL_NOT_THE_YEARS:
        return "The correction factor, the site class or the captured share is not that of the year's first month.";
    case LANDFILL_OVER_100: return "An uncertainty is over 100 percent.";
    case LANDFILL_NOT_A_CHOICE: return "A choice between the lower and the higher value is not 1 or 2.";
    case LANDFILL_NOT_AN_ORDER: return "The order does not name each of the eight types once.";
    case LANDFILL_NOT_WHOLE_RECORDS: return "The file is not whole records of 48 bytes.";
    case LANDFILL_NO_ROOM_FOR_REPAIR: return "There is too little room for the repaired file or for its report.";
    case LANDFILL_NOT_YEARLY: return "The record is monthly, where only yearly ones are taken.";
    case LANDFILL_NOT_A_STRETCH:
        return "There are no years, they are not all accepted, or they do not have one entry each of electricity and of fuel.";
    case LANDFILL_GRAMS_TOO_LARGE: return "An entry of electricity or fuel is over 1,000,000,000,000,000 grams.";
    case LANDFILL_COLUMN_TOO_SHORT: return "A column has fewer places than the file has records.";
    case LANDFILL_NOT_MONTHLY: return "The record is yearly, where only monthly ones are taken.";
    case LANDFILL_NOT_YEARLY_TOTALS: return "The buffer of yearly totals is not 3200 bytes long.";
    case LANDFILL_YEAR_DIFFERS: return "The totals of the record's year are damaged, or do not go with the ledger.";
    default: return "No refusal has this number.";
    }
}

#ifdef __cplusplus
}
#endif

#endif
