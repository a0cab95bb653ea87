/* The part of the differential test for yearly totals: what they hold, which slots are taken, and which offers are refused. */
#ifndef YEARLY_TOTALS_H
#define YEARLY_TOTALS_H

void all_yearly_totals(void); /* yearly_totals.c */
void all_slots(void);         /* slots.c */
void all_offered(void);       /* offered.c */

#endif
