/* The part of the differential test for sites that bring more waste: no number falls. */
#ifndef MORE_H
#define MORE_H

void all_more(void);

#endif
