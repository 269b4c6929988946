// What the tests call of the runtime, and an allocation of the library that fails on demand. (The linker's --wrap puts the functions of
// this file in the place of the runtime's.)
#include "heap.h"
#include "wide.h"

#define EXPORT(name) __attribute__((export_name(#name)))

typedef struct {
  u64 is_there;
  u64 address;
} taken;

static u32 left;  // how many allocations until one fails; 0 where none is to
static u64 nowhere[2];

static _Bool fails(void) { return left && --left == 0; }

// The allocation of this number, counted from the next one, will fail. Returns what is left of the number before: 0 where that failed.
EXPORT(fail_allocation) u32 fail_allocation(u32 number) {
  const u32 before = left;
  left = number;
  return before;
}

taken __real_rattle_alloc(u64 size, u64 align);
taken __real_rattle_realloc(void *memory, u64 old_size, u64 size, u64 align);

taken __wrap_rattle_alloc(u64 size, u64 align) {
  return fails() ? (taken){0, (u64)nowhere} : __real_rattle_alloc(size, align);
}

taken __wrap_rattle_realloc(void *memory, u64 old_size, u64 size, u64 align) {
  return fails() ? (taken){0, (u64)nowhere} : __real_rattle_realloc(memory, old_size, size, align);
}

EXPORT(resize) u32 resize(u32 address, u32 size) { return (u32)(u64)heap_resize((void *)(u64)address, size); }
EXPORT(in_use) i64 in_use(void) { return heap_in_use(); }

typedef unsigned __int128 u128;

// At `address` stand two numbers and a shift, each of 128 bits. Behind them go what the compiler's own operators give, which call
// the runtime's functions here: quotient, rest, product, and the three shifts.
EXPORT(calculate) void calculate(u32 address) {
  u128 *at = (u128 *)(u64)address;
  const int by = (int)at[2];
  at[3] = at[0] / at[1];
  at[4] = at[0] % at[1];
  at[5] = at[0] * at[1];
  at[6] = at[0] << by;
  at[7] = at[0] >> by;
  at[8] = (u128)((__int128)at[0] >> by);
}
