/* The part of the differential test for months that share the year's factors. */
#ifndef YEARS_H
#define YEARS_H

void all_years(void);

#endif
