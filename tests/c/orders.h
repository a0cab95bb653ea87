/* The part of the differential test for shuffled files that are put right. */
#ifndef ORDERS_H
#define ORDERS_H

void all_orders(void);

#endif
