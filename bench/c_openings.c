/* Times how long a session takes to open, for bench/c_library.py.
 *
 *   openings DICTIONARY ROUNDS
 *   openings WORDS 0
 *
 * Opens sessions over the dictionary in a file, or where no rounds are said over the one that comes with the library by these words. Two
 * lines are printed: the least time in microseconds of one opened and closed, and of a further one over the same dictionary. */
#define _POSIX_C_SOURCE 200809L
#include <time.h>

#include "../tests/library/host.h"

enum { ROUNDS = 100, FURTHER = 20 };

static double now(void) {
  struct timespec at;
  clock_gettime(CLOCK_MONOTONIC, &at);
  return (double)at.tv_sec * 1e6 + (double)at.tv_nsec / 1e3;
}

static fact_graph opened(const char *words, text dictionary) {
  fact_graph graph = {NULL};
  fact_graph_fault fault = {0, 0, 0, 0, 0};
  uint32_t number = dictionary.bytes ? fact_graph_open(dictionary.bytes, dictionary.size, &graph, &fault)
                                     : fact_graph_open_built_in((const uint8_t *)words, strlen(words), &graph, &fault);
  CHECK(number == 0);
  return graph;
}

static fact_graph further(fact_graph *graph) {
  fact_graph other = {NULL};
  fact_graph_fault fault = {0, 0, 0, 0, 0};
  CHECK(fact_graph_further(*graph, &other, &fault, graph) == 0);
  return other;
}

int main(int count, char **words) {
  CHECK(count == 3);
  long rounds = strtol(words[2], NULL, 10);
  text dictionary = {NULL, 0};
  if (rounds > 0) dictionary = file(words[1]);
  double least = 1e9;
  for (long round = 0; round < (rounds > 0 ? rounds : ROUNDS); round++) {
    double begun = now();
    fact_graph_close(opened(words[1], dictionary));
    double took = now() - begun;
    if (took < least) least = took;
  }
  printf("%8.2f us  opened and closed\n", least);
  fact_graph graph = opened(words[1], dictionary);
  fact_graph_close(further(&graph));
  least = 1e9;
  for (int round = 0; round < ROUNDS; round++) {
    fact_graph others[FURTHER];
    double begun = now();
    for (int k = 0; k < FURTHER; k++) others[k] = further(&graph);
    double took = (now() - begun) / FURTHER;
    if (took < least) least = took;
    for (int k = 0; k < FURTHER; k++) fact_graph_close(others[k]);
  }
  printf("%8.2f us  a further one over the same dictionary\n", least);
  fact_graph_close(graph);
  free(dictionary.bytes);
  return 0;
}
