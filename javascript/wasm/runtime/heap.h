// The heap of the module: blocks of memory, each at a multiple of 16.
#ifndef HEAP_H
#define HEAP_H

#include "types.h"

// A block of so many bytes, or null where there is no memory. A block of 0 bytes is one, too.
void *heap_take(u64 size);

// The block with another size, perhaps at another place; or null where there is no memory, and then the block is as before.
void *heap_resize(void *block, u64 size);

void heap_give_back(void *block);

// From now on the memory isn't grown beyond so many bytes.
void heap_keep_below(u64 bytes);

// How many bytes the blocks in use have with all that belongs to them, or -1 where the heap isn't what heap.c says of it. For tests.
i64 heap_in_use(void);

// What the heap stands on: where its memory begins, where it ends, and the request to move that end by so many pages.
enum { PAGE = 65536 };
u64 memory_begin(void);
u64 memory_end(void);
_Bool memory_grow(u64 pages);

#endif
