/* The part of the differential test for sludge with a measured dry matter. */
#ifndef SLUDGE_H
#define SLUDGE_H

void all_sludge(void);

#endif
