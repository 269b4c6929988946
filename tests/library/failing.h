/* Calls of a session that are made anew as long as one of their allocations fails, and its texts in pieces of many sizes: what the hosts of
 * sessions share. Where it is compiled with FAILING, each allocation of each call fails in turn before the call is made once more. */
#ifndef FAILING_H
#define FAILING_H

#include <malloc.h>

#include "host.h"

/* ---- allocations that fail */

static long failing = 0; /* the number of the next allocation that fails, from 1, or 0 */
static long failed = 0;  /* how many did */

#ifdef FAILING
extern void *__libc_malloc(size_t size);
extern void *__libc_realloc(void *at, size_t size);
extern void __libc_free(void *at);

static size_t held = 0; /* the bytes of all blocks that stand */

static int fails(void) {
  if (failing == 0 || --failing != 0) return 0;
  failed += 1;
  return 1;
}

void *malloc(size_t size) {
  void *made = fails() ? NULL : __libc_malloc(size);
  held += malloc_usable_size(made);
  return made;
}

void *realloc(void *at, size_t size) {
  size_t before = malloc_usable_size(at);
  void *made = fails() ? NULL : __libc_realloc(at, size);
  if (made != NULL) held += malloc_usable_size(made) - before;
  return made;
}

void free(void *at) {
  held -= malloc_usable_size(at);
  __libc_free(at);
}
#endif

/* Makes the call, where FAILING is set first with each of its allocations failing in turn. A list that is collected does with less
 * room, so a call may end well in spite of an allocation that failed: then take_back stands before the next one fails. It is
 * `break` where nothing can be taken back. */
#define WITH_MEMORY(call, wants_memory, as_before, take_back) \
  for (long first_failing = 0;;) {                            \
    failing = FAILING_FROM(first_failing);                    \
    long due = failing;                                       \
    call;                                                     \
    int has_failed = due != 0 && failing == 0;                \
    failing = 0;                                              \
    if (wants_memory) {                                       \
      as_before;                                              \
      continue;                                               \
    }                                                         \
    if (!has_failed) break;                                   \
    take_back;                                                \
  }
#define CLOSE(graph) (fact_graph_close(graph), (graph).at = NULL)
#ifdef FAILING
#define FAILING_FROM(n) (++(n))
#else
#define FAILING_FROM(n) ((n) * 0)
#endif

/* ---- texts */

/* The session's text, in pieces of this size. */
static inline text in_pieces(fact_graph *graph, size_t size, size_t piece) {
  text t = {malloc(size + piece), 0};
  for (;;) {
    size_t count = fact_graph_read(*graph, t.size, t.bytes + t.size, piece, graph);
    CHECK(count <= piece && t.size + count <= size);
    t.size += count;
    if (count < piece) break;
  }
  CHECK(t.size == size);
  return t;
}

static inline int same(text a, text b) { return a.size == b.size && memcmp(a.bytes, b.bytes, a.size) == 0; }

static inline int is(text t, const char *due) { return t.size == strlen(due) && memcmp(t.bytes, due, t.size) == 0; }

static inline text whole(fact_graph *graph, size_t size) {
  text t = in_pieces(graph, size, size + 1);
  for (size_t piece = 1; piece < 10; piece++) {
    text again = in_pieces(graph, size, piece);
    CHECK(same(t, again));
    free(again.bytes);
  }
  return t;
}

/* ---- calls */

static inline uint32_t answer(fact_graph *graph, const uint8_t *line, size_t line_size, text *reply) {
  size_t size = 1;
  uint32_t how;
  WITH_MEMORY(how = fact_graph_answer(*graph, line, line_size, &size, graph), how == FACT_GRAPH_NO_MEMORY, CHECK(size == 0), break);
  *reply = whole(graph, size);
  return how;
}

static inline text saved_text(fact_graph *graph) {
  size_t size = 1;
  uint32_t how;
  WITH_MEMORY(how = fact_graph_save(*graph, &size, graph), how == FACT_GRAPH_NO_MEMORY, CHECK(size == 0), (void)0);
  CHECK(how == FACT_GRAPH_SAID);
  return whole(graph, size);
}

/* Answers a line, whose reply has to be this. */
static inline void replies(fact_graph *graph, const char *line, const char *due) {
  text reply;
  CHECK(answer(graph, (const uint8_t *)line, strlen(line), &reply) == FACT_GRAPH_SAID);
  if (!is(reply, due)) fprintf(stderr, "%s: %.*s for %s", line, (int)reply.size, (const char *)reply.bytes, due);
  CHECK(is(reply, due));
  free(reply.bytes);
}

/* The lines of the script, and whether one was `quit`. */
static inline int answers(fact_graph *graph, text script, FILE *out) {
  for (size_t at = 0; at < script.size;) {
    const uint8_t *end = memchr(script.bytes + at, '\n', script.size - at);
    size_t size = end ? (size_t)(end - script.bytes) - at : script.size - at;
    text reply;
    uint32_t how = answer(graph, script.bytes + at, size, &reply);
    if (out) fwrite(reply.bytes, 1, reply.size, out);
    free(reply.bytes);
    if (how == FACT_GRAPH_OVER) return 1;
    CHECK(how == FACT_GRAPH_SAID);
    at += size + 1;
  }
  return 0;
}

#endif
