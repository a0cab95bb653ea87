/* The part of the differential test for columns: what they hold, and which files and columns are refused. */
#ifndef COLUMNS_H
#define COLUMNS_H

void all_worked(void);  /* worked.c */
void all_columns(void); /* columns.c */
void all_refused(void); /* refused.c */

#endif
