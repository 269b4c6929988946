// Numbers by their bits. The toolchain brings no headers of C with it.
#ifndef TYPES_H
#define TYPES_H

typedef unsigned char u8;
typedef unsigned int u32;
typedef unsigned long u64;
typedef long i64;

_Static_assert(sizeof(u32) == 4 && sizeof(u64) == 8 && sizeof(void *) == 8, "numbers have these bits, and addresses 64");

#endif
