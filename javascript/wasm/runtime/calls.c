// What the compiled crate calls: the kit's functions of the heap, and those of C and of the compiler that WebAssembly has no
// instructions for; and what a page calls beside the library's own functions.
#include "heap.h"
#include "powers.h"
#include "wide.h"

#ifndef __wasm_bulk_memory__
#error "copies are instructions of bulk memory, which each browser has had since 2021"
#endif

// ---- the memory of the module

extern u8 __heap_base;

u64 memory_begin(void) { return (u64)&__heap_base; }
u64 memory_end(void) { return __builtin_wasm_memory_size(0) * PAGE; }

// (its answer of 32 bits is -1 where there is no memory, whichever bits stand above it)
_Bool memory_grow(u64 pages) { return (u32)__builtin_wasm_memory_grow(0, pages) != 0xFFFFFFFFU; }

// ---- for the page: addresses are numbers of 32 bits

#define EXPORT(name) __attribute__((export_name(#name)))
#define AT(address) ((void *)(u64)(address))

EXPORT(allocate) u32 allocate(u32 size) { return (u32)(u64)heap_take(size); }
EXPORT(release) void release(u32 address) { heap_give_back(AT(address)); }
EXPORT(keep_below) void keep_below(u32 bytes) { heap_keep_below(bytes); }

// (lower.py makes this one the module's start, and no export)
EXPORT(start) void start(void) { make_powers_of_five(); }

// ---- for the crate: as the kit's code over malloc has it, no size of 0 is asked for, and a pointer is never null

typedef struct {
  u64 is_there;
  u64 address;
} taken;

static u64 nowhere[2];

static taken as_taken(void *memory) { return (taken){memory != 0, (u64)(memory ? memory : nowhere)}; }

taken rattle_alloc(u64 size, u64 align) { return as_taken(heap_take(size ? size : align)); }

taken rattle_realloc(void *memory, u64 old_size, u64 size, u64 align) {
  (void)old_size;
  return as_taken(heap_resize(memory, size ? size : align));
}

void rattle_dealloc(void *memory) {
  if (memory) heap_give_back(memory);
}

// ---- for the compiler

void *memcpy(void *to, const void *from, u64 size) {
  __builtin_memcpy(to, from, size);
  return to;
}

void *memmove(void *to, const void *from, u64 size) {
  __builtin_memmove(to, from, size);
  return to;
}

void *memset(void *to, int byte, u64 size) {
  __builtin_memset(to, byte, size);
  return to;
}

typedef unsigned __int128 u128;

// (a shift would be a call of one of the functions here)
typedef union {
  u128 whole;
  wide parts;
} both;

static wide parts_of(u128 a) { return (both){.whole = a}.parts; }
static u128 whole_of(wide a) { return (both){.parts = a}.whole; }

u128 __multi3(u128 a, u128 b) { return whole_of(wide_product(parts_of(a), parts_of(b))); }

u128 __udivti3(u128 a, u128 b) {
  wide rest;
  return whole_of(wide_quotient(parts_of(a), parts_of(b), &rest));
}

u128 __umodti3(u128 a, u128 b) {
  wide rest;
  wide_quotient(parts_of(a), parts_of(b), &rest);
  return whole_of(rest);
}

u128 __ashlti3(u128 a, int by) { return whole_of(wide_shifted_left(parts_of(a), (u32)by)); }
u128 __lshrti3(u128 a, int by) { return whole_of(wide_shifted_right(parts_of(a), (u32)by)); }
u128 __ashrti3(u128 a, int by) { return whole_of(wide_shifted_right_signed(parts_of(a), (u32)by)); }

// ---- for the changed module: retarget.py says where they stand in

// A number as it is, which the compiler can't see through.
double fence_of_arithmetic(double x) { return x; }

// The bytes of `table` at the places that `places` names; 0 for a place from 16 on.
typedef u8 sixteen __attribute__((vector_size(16)));

sixteen swizzle(sixteen table, sixteen places) {
  sixteen found;
  for (int k = 0; k < 16; k++) found[k] = places[k] < 16 ? table[places[k]] : 0;
  return found;
}
