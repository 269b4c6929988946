// The table by which the engine reads fractions of JSON.
#ifndef POWERS_H
#define POWERS_H

#include "wide.h"

enum { LEAST_POWER = -342, MOST_POWER = 325, POWERS = MOST_POWER - LEAST_POWER + 1 };

// The highest 128 bits of each power of 5 from the least on, those below them cut off.
extern wide powers_of_five[POWERS];

void make_powers_of_five(void);

#endif
