/* The part of the differential test for correction factors from uncertainties. */
#ifndef UNCERTAINTIES_H
#define UNCERTAINTIES_H

void all_uncertainties(void);

#endif
