/* The part of the differential test for the decay work of a run: what counts, and what a run reports. */
#ifndef WORK_H
#define WORK_H

void all_work(void);     /* work.c */
void all_reported(void); /* reported.c */

#endif
