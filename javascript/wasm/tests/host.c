// The runtime on this machine, for its tests.
//
//   host wide          reads records of two numbers of 128 bits and a shift, and writes the six results of each
//   host powers        writes the table of the powers of 5
//   host heap SEED     300,000 random steps over the heap, whose blocks are filled, looked at again, and walked over
#include <stdio.h>
#include <stdlib.h>
#include <string.h>

#include "heap.h"
#include "powers.h"
#include "wide.h"

// ---- arithmetic

typedef struct {
  wide a, b;
  u64 by;
} given;

static int answer_wide(void) {
  given it;
  while (fread(&it, sizeof it, 1, stdin) == 1) {
    wide rest;
    const u32 by = (u32)it.by;
    const wide quotient = wide_quotient(it.a, it.b, &rest);
    const wide results[] = {quotient, rest, wide_product(it.a, it.b), wide_shifted_left(it.a, by), wide_shifted_right(it.a, by),
                            wide_shifted_right_signed(it.a, by)};
    if (fwrite(results, sizeof results, 1, stdout) != 1) return 1;
  }
  return 0;
}

static int write_powers(void) {
  make_powers_of_five();
  return fwrite(powers_of_five, sizeof powers_of_five, 1, stdout) != 1;
}

// ---- the heap, over a memory that grows up to 64 MiB and that now and then has no more

enum { MOST_PAGES = 1024, STEPS = 300000, MOST_BLOCKS = 4096 };

static _Alignas(PAGE) u8 memory[(u64)MOST_PAGES * PAGE];
static u64 pages = 1;
static u64 seed;

static u64 below(u64 bound) {
  seed ^= seed << 13;
  seed ^= seed >> 7;
  seed ^= seed << 17;
  return seed % bound;
}

u64 memory_begin(void) { return (u64)memory + 40; }
u64 memory_end(void) { return (u64)memory + pages * PAGE; }
_Bool memory_grow(u64 more) {
  if (pages + more > MOST_PAGES || below(10) == 0) return 0;
  pages += more;
  return 1;
}

typedef struct {
  u8 *at;
  u64 size;
  u8 mark;
} block;

static block blocks[MOST_BLOCKS];
static int count;

static void stop(const char *why) {
  fprintf(stderr, "%s\n", why);
  exit(1);
}

static u64 some_size(void) {
  if (below(20)) return below(200);
  return below(8) ? below(20000) : below(2000000);
}

static void look_at(const block *it, u64 size) {
  for (u64 k = 0; k < size; k++)
    if (it->at[k] != it->mark) stop("a byte of a block has changed");
}

static void fill(block *it) {
  if ((u64)it->at % 16) stop("a block isn't at a multiple of 16");
  it->mark = (u8)below(256);
  memset(it->at, it->mark, it->size);
}

static void take(void) {
  block it = {.size = some_size()};
  it.at = heap_take(it.size);
  if (!it.at) return;
  fill(&it);
  blocks[count++] = it;
}

static void resize(block *it) {
  const u64 size = some_size();
  u8 *at = heap_resize(it->at, size);
  if (at) {
    it->at = at;
    look_at(it, size < it->size ? size : it->size);
    it->size = size;
    fill(it);
  }
}

static void give_back(block *it) {
  look_at(it, it->size);
  heap_give_back(it->at);
  *it = blocks[--count];
}

static void step(int number) {
  const u64 takes = number % 40000 < 20000 ? 6 : 3;  // (the heap fills, and empties again)
  const u64 what = below(10);
  if (!count || (what < takes && count < MOST_BLOCKS))
    take();
  else if (what == 9)
    resize(&blocks[below((u64)count)]);
  else
    give_back(&blocks[below((u64)count)]);
  if (number % 100 == 0 && heap_in_use() < 0) stop("the heap is broken");
}

static int walk_heap(const char *from) {
  seed = strtoull(from, 0, 10) * 2654435761U + 1;
  for (int number = 0; number < STEPS; number++) step(number);
  if (heap_take(~(u64)0) || heap_take((u64)MOST_PAGES * PAGE)) stop("a block larger than the memory");
  while (count) give_back(&blocks[0]);
  if (heap_in_use() != 0) stop("something is in use at the end");
  void *all = heap_take(pages * PAGE - 200);
  if (!all) stop("what was given back isn't one block");
  heap_give_back(all);
  return 0;
}

int main(int words, char **word) {
  if (words == 2 && !strcmp(word[1], "wide")) return answer_wide();
  if (words == 2 && !strcmp(word[1], "powers")) return write_powers();
  if (words == 3 && !strcmp(word[1], "heap")) return walk_heap(word[2]);
  stop("usage: host wide, host powers, or host heap SEED");
}
