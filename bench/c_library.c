/* Times calls of the C library, for bench/c_library.py.
 *
 *   library DICTIONARY SCRIPT
 *
 * A session is opened, and the script answered. Then a line is printed for each call: its least time in microseconds of many short
 * runs, and what was called. */
#define _POSIX_C_SOURCE 200809L
#include <time.h>

#include "../tests/library/host.h"

enum { ROUNDS = 200, CALLS = 200 };

static double now(void) {
  struct timespec at;
  clock_gettime(CLOCK_MONOTONIC, &at);
  return (double)at.tv_sec * 1e6 + (double)at.tv_nsec / 1e3;
}

static size_t said(fact_graph *graph, const char *line, size_t size) {
  uint8_t reply[4096];
  size_t text_size = 0;
  CHECK(fact_graph_answer(*graph, (const uint8_t *)line, size, &text_size, graph) == FACT_GRAPH_SAID);
  return fact_graph_read(*graph, 0, reply, sizeof reply, graph);
}

/* The lines take turns, so that a change is one each time. */
static void time_lines(fact_graph *graph, const char *what, const char *first, const char *second) {
  double least = 1e9;
  for (int round = 0; round < ROUNDS; round++) {
    double begun = now();
    for (int k = 0; k < CALLS / 2; k++) CHECK(said(graph, first, strlen(first)) + said(graph, second, strlen(second)) > 0);
    double took = (now() - begun) / CALLS;
    if (took < least) least = took;
  }
  printf("%8.2f us  %s\n", least, what);
}

static fact_graph opened(text dictionary) {
  fact_graph graph = {NULL};
  fact_graph_fault fault = {0, 0, 0, 0, 0};
  CHECK(fact_graph_open(dictionary.bytes, dictionary.size, &graph, &fault) == 0);
  return graph;
}

int main(int count, char **words) {
  CHECK(count == 3);
  text dictionary = file(words[1]), script = file(words[2]);
  fact_graph graph = opened(dictionary);
  for (size_t at = 0; at < script.size;) {
    const uint8_t *end = memchr(script.bytes + at, '\n', script.size - at);
    size_t size = end ? (size_t)(end - script.bytes) - at : script.size - at;
    (void)said(&graph, (const char *)script.bytes + at, size);
    at += size + 1;
  }
  time_lines(&graph, "get of an amount, with its read", "get /help", "get /help");
  time_lines(&graph, "get of a member's day, with its read", "get /people/#1/born", "get /people/#1/born");
  time_lines(&graph, "final, with its read", "final /help", "final /help");
  time_lines(&graph, "set to the amount that stands", "set /bill 1240.50", "set /bill 1240.50");
  time_lines(&graph, "set that touches two slots", "set /caseNumber 123456789", "set /caseNumber 123456780");
  fact_graph_close(graph);
  free(script.bytes);
  free(dictionary.bytes);
  return 0;
}
