/* The part of the differential test for reductions under the Tunisian method: what years give, which years are accepted, and
 * which stretches are taken. */
#ifndef TUNISIA_H
#define TUNISIA_H

void all_tunisia(void);  /* tunisia.c */
void all_accepted(void); /* accepted.c */
void all_entered(void);  /* entered.c */

#endif
