// Arithmetic on numbers of 128 bits, which WebAssembly has no instructions for.
#ifndef WIDE_H
#define WIDE_H

#include "types.h"

typedef struct {
  u64 low;
  u64 high;
} wide;

// The low 128 bits of the product.
wide wide_product(wide a, wide b);

// The quotient, and what is left. Division by 0 traps.
wide wide_quotient(wide dividend, wide divisor, wide *rest);

// Shifts by 0 to 127 bits; `wide_shifted_right_signed` fills with the sign.
wide wide_shifted_left(wide a, u32 by);
wide wide_shifted_right(wide a, u32 by);
wide wide_shifted_right_signed(wide a, u32 by);

#endif
