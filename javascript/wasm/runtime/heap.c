// Blocks lie side by side, each a multiple of 16 bytes long. A block begins with its head, 8 bytes that hold its size and two marks:
// whether it is free, and whether the block before it is. What is handed out lies behind the head, at a multiple of 16.
//
// A free block is in the list of its size's class, and its last 8 bytes are its size again: so the block behind it finds where it
// begins, and two free neighbours become one. Behind all blocks stands a last head with the size 0, which is never free.
#include "heap.h"

typedef struct block block;
struct block {
  u64 head;
  block *next;  // of the list; a block in use has what its owner put there
  block *previous;
};

enum { FREE = 1, AFTER_FREE = 2, MARKS = 15, UNIT = 16, HEAD = 8, LEAST = 32 };
enum { CLASSES = 256, TRIES = 8, GROWTH = 1 << 20 };
// More than the heads and the rounding that a block has beside its size.
enum { BESIDE = 48 };

// Addresses stay so far below 4 GiB that none wraps, also where the stack overflows.
static u64 limit = 0xF0000000U;
static block *last;             // the head behind all blocks; null before the first call
static u64 end;                 // where the memory ends
static block *lists[CLASSES];
static u64 filled[CLASSES / 64];  // which lists have a block

static u64 size_of(const block *at) { return at->head & ~(u64)MARKS; }
static block *moved(block *at, u64 by) { return (block *)((u8 *)at + by); }
static block *behind(block *at) { return moved(at, size_of(at)); }
static u64 *word_before(block *at) { return (u64 *)at - 1; }
static u64 bit_of(u32 class) { return (u64)1 << (class % 64); }

// Sizes of up to 7 units have a class each; from there on eight classes share each power of 2.
static u32 class_of(u64 size) {
  const u64 units = size / UNIT;
  if (units < 8) return (u32)units;
  const u32 exponent = 60U - (u32)__builtin_clzll(units);
  return (exponent + 1) * 8 + (u32)((units >> exponent) & 7);
}

// The least class of which each block has room.
static u32 class_with_room(u64 size) {
  const u64 units = size / UNIT;
  if (units < 8) return (u32)units;
  const u32 exponent = 60U - (u32)__builtin_clzll(units);
  return class_of(size + (((u64)1 << exponent) - 1) * UNIT);
}

static void put_into_list(block *at, u64 size) {
  const u32 class = class_of(size);
  at->head = size | FREE;
  at->next = lists[class];
  at->previous = 0;
  if (at->next) at->next->previous = at;
  lists[class] = at;
  filled[class / 64] |= bit_of(class);
  block *next = behind(at);
  *word_before(next) = size;
  next->head |= AFTER_FREE;
}

static void take_from_list(block *at) {
  const u32 class = class_of(size_of(at));
  if (at->next) at->next->previous = at->previous;
  if (at->previous) {
    at->previous->next = at->next;
    return;
  }
  lists[class] = at->next;
  if (!at->next) filled[class / 64] &= ~bit_of(class);
}

// Frees a block of a size, as one with its free neighbours.
static void set_free(block *at, u64 size) {
  block *next = moved(at, size);
  if (next->head & FREE) {
    take_from_list(next);
    size += size_of(next);
  }
  if (at->head & AFTER_FREE) {
    const u64 before = *word_before(at);
    at = (block *)((u8 *)at - before);
    take_from_list(at);
    size += before;
  }
  put_into_list(at, size);
}

// Makes a block that has so much room one in use of a size, and frees what is left of it.
static void set_used(block *at, u64 room, u64 size) {
  const u64 mark = at->head & AFTER_FREE;
  if (room - size < LEAST) {
    at->head = room | mark;
    behind(at)->head &= ~(u64)AFTER_FREE;
    return;
  }
  at->head = size | mark;
  block *rest = behind(at);
  rest->head = 0;
  set_free(rest, room - size);
}

// Moves the last head to the end of the memory, and frees what lies between.
static void stretch(void) {
  block *at = last;
  const u64 size = end - HEAD - (u64)at;
  if (size < LEAST) return;
  last = moved(at, size);
  last->head = 0;
  set_free(at, size);
}

static _Bool grow_by(u64 pages) {
  if (end + pages * PAGE > limit || !memory_grow(pages)) return 0;
  end += pages * PAGE;
  return 1;
}

// Grows the memory by room for a block of a size, and by more where there is more.
static _Bool grow(u64 size) {
  const u64 wanted = size + BESIDE;
  const u64 pages = (wanted + PAGE - 1) / PAGE;
  return (wanted < GROWTH && grow_by(GROWTH / PAGE)) || grow_by(pages);
}

static _Bool begin(void) {
  const u64 from = ((memory_begin() + UNIT - 1) / UNIT) * UNIT + HEAD;
  end = memory_end();
  if (from + HEAD > end && !grow(0)) return 0;
  last = (block *)from;
  last->head = 0;
  stretch();
  return 1;
}

// A free block with room, or null.
static block *found(u64 size) {
  const u32 class = class_with_room(size);
  u32 word = class / 64;
  u64 lists_with_room = filled[word] & ~(u64)0 << (class % 64);
  while (!lists_with_room && ++word < CLASSES / 64) lists_with_room = filled[word];
  if (lists_with_room) return lists[word * 64 + (u32)__builtin_ctzll(lists_with_room)];
  // one of the size's own class may have room, too
  block *at = lists[class_of(size)];
  for (int tries = 0; at && tries < TRIES; tries++, at = at->next)
    if (size_of(at) >= size) return at;
  return 0;
}

// The size of a block in which so many bytes have room.
static u64 size_for(u64 bytes) {
  return bytes <= LEAST - HEAD ? LEAST : (bytes + HEAD + UNIT - 1) / UNIT * UNIT;
}

static block *block_of(void *memory) { return (block *)((u64 *)memory - 1); }
static void *memory_of(block *at) { return (u64 *)at + 1; }

void *heap_take(u64 size) {
  if (size > limit || (!last && !begin())) return 0;
  const u64 wanted = size_for(size);
  block *at = found(wanted);
  if (!at && grow(wanted)) {
    stretch();
    at = found(wanted);
  }
  if (!at) return 0;
  take_from_list(at);
  set_used(at, size_of(at), wanted);
  return memory_of(at);
}

void heap_give_back(void *memory) {
  block *at = block_of(memory);
  set_free(at, size_of(at));
}

static void *moved_to_larger(void *memory, u64 has, u64 size) {
  void *to = heap_take(size);
  if (!to) return 0;
  __builtin_memcpy(to, memory, has - HEAD);
  heap_give_back(memory);
  return to;
}

void *heap_resize(void *memory, u64 size) {
  if (size > limit) return 0;
  block *at = block_of(memory);
  const u64 has = size_of(at);
  const u64 wanted = size_for(size);
  block *next = behind(at);
  u64 room = has;
  if (wanted > has && (next->head & FREE)) room += size_of(next);
  if (wanted > room) return moved_to_larger(memory, has, size);
  if (room > has) take_from_list(next);
  set_used(at, room, wanted);
  return memory;
}

void heap_keep_below(u64 bytes) {
  if (bytes < limit) limit = bytes;
}

// Whether a free block is as it should be.
static _Bool is_sound(block *at) {
  return *word_before(behind(at)) == size_of(at) && lists[class_of(size_of(at))];
}

// How many bytes the free blocks of a list have, or -1.
static i64 free_in(u32 class) {
  i64 free = 0;
  if (!lists[class] != !(filled[class / 64] & bit_of(class))) return -1;
  for (block *at = lists[class]; at; at = at->next) {
    if (class_of(size_of(at)) != class || !(at->head & FREE)) return -1;
    free += (i64)size_of(at);
  }
  return free;
}

i64 heap_in_use(void) {
  if (!last) return 0;
  i64 used = 0;
  i64 free = 0;
  _Bool was_free = 0;
  block *at = (block *)(((memory_begin() + UNIT - 1) / UNIT) * UNIT + HEAD);
  for (; at < last; at = behind(at)) {
    const _Bool is_free = at->head & FREE;
    const _Bool is_after_free = (at->head & AFTER_FREE) != 0;
    if (size_of(at) < LEAST || is_after_free != was_free || (is_free && (was_free || !is_sound(at)))) return -1;
    *(is_free ? &free : &used) += (i64)size_of(at);
    was_free = is_free;
  }
  if (at != last || at->head != (was_free ? AFTER_FREE : 0U)) return -1;
  for (u32 class = 0; class < CLASSES; class++) {
    const i64 those = free_in(class);
    if (those < 0) return -1;
    free -= those;
  }
  return free == 0 ? used : -1;
}
