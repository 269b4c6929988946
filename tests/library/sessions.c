/* A host of the C library: sessions over a dictionary and a script, opened, answered, saved, loaded, carried and closed.
 *
 *   sessions DICTIONARY SCRIPT
 *
 * Prints the replies to the script. Each reply is read in pieces of every size up to 9 bytes, and in one piece. Where it is
 * compiled with FAILING, each allocation of each call fails in turn before the call is made once more, and the replies have to be
 * the same: a session is as before after want of memory. Exits with 1 where anything isn't as the header says. */
#include "failing.h"

/* ---- calls that begin sessions */

static fact_graph opened(text dictionary) {
  fact_graph graph = {NULL};
  fact_graph_fault fault = {9, 9, 9, 9, 9};
  uint32_t number;
  WITH_MEMORY(number = fact_graph_open(dictionary.bytes, dictionary.size, &graph, &fault), number == FACT_GRAPH_FAULT_MEMORY,
              CHECK(graph.at == NULL && fault.number == FACT_GRAPH_FAULT_MEMORY), CLOSE(graph));
  CHECK(number == 0 && fault.number == 0 && fault.fact == FACT_GRAPH_ABSENT && graph.at != NULL);
  return graph;
}

static fact_graph loaded(text dictionary, text saved) {
  fact_graph graph = {NULL};
  fact_graph_fault fault = {0};
  uint32_t number;
  WITH_MEMORY(number = fact_graph_load(dictionary.bytes, dictionary.size, saved.bytes, saved.size, &graph, &fault),
              number == FACT_GRAPH_FAULT_MEMORY, CHECK(graph.at == NULL), CLOSE(graph));
  CHECK(number == 0);
  return graph;
}

static fact_graph carried(text dictionary, text saved, text *dropped) {
  fact_graph graph = {NULL};
  fact_graph_fault fault = {0};
  size_t size = 1;
  uint32_t number;
  WITH_MEMORY(number = fact_graph_carry(dictionary.bytes, dictionary.size, saved.bytes, saved.size, &graph, &size, &fault),
              number == FACT_GRAPH_FAULT_MEMORY, CHECK(graph.at == NULL && size == 0), CLOSE(graph));
  CHECK(number == 0);
  *dropped = whole(&graph, size);
  return graph;
}

/* ---- the parts of the test */

static void refuses(void) {
  static const char cyclic[] = "{\"version\":\"1\",\"facts\":[{\"path\":\"/a\",\"derived\":\"Int\",\"is\":[\"Dependency\",\"/a\"]}]}";
  fact_graph graph = {NULL};
  fact_graph_fault fault = {0};
  CHECK(fact_graph_open((const uint8_t *)"", 0, &graph, &fault) == 2 && fault.number == 2 && graph.at == NULL);
  CHECK(fact_graph_open((const uint8_t *)cyclic, sizeof cyclic - 1, &graph, &fault) == 14 && fault.fact == 1);
  CHECK(fault.node == FACT_GRAPH_ABSENT && fault.what == FACT_GRAPH_ABSENT && graph.at == NULL);
}

static void refuses_saved(text dictionary) {
  fact_graph graph = {NULL};
  fact_graph_fault fault = {0};
  size_t size = 1;
  const uint8_t *bad = (const uint8_t *)"saved 1\nnext one\n";
  CHECK(fact_graph_load(dictionary.bytes, dictionary.size, bad, 17, &graph, &fault) == FACT_GRAPH_FAULT_SAVED && fault.line == 2);
  CHECK(fact_graph_carry(dictionary.bytes, dictionary.size, bad, 17, &graph, &size, &fault) == FACT_GRAPH_FAULT_SAVED);
  CHECK(fault.line == 2 && size == 0 && graph.at == NULL);
}

static void refuses_long(fact_graph *graph) {
  static uint8_t line[FACT_GRAPH_LINE_LIMIT + 1];
  text reply;
  memset(line, 'x', sizeof line);
  CHECK(answer(graph, line, sizeof line, &reply) == FACT_GRAPH_SAID);
  CHECK(reply.size == 19 && memcmp(reply.bytes, "refused 2 LongLine\n", 19) == 0);
  free(reply.bytes);
  CHECK(answer(graph, line, sizeof line - 1, &reply) == FACT_GRAPH_SAID);
  CHECK(reply.size == 18 && memcmp(reply.bytes, "refused 1 BadLine\n", 18) == 0);
  free(reply.bytes);
}

/* A session that goes on from the saved text has the same. */
static void goes_on(text dictionary, text saved) {
  fact_graph graph = loaded(dictionary, saved);
  text again = saved_text(&graph), dropped;
  CHECK(same(saved, again));
  free(again.bytes);
  fact_graph_close(graph);
  graph = carried(dictionary, saved, &dropped);
  if (dropped.size == 0) {
    again = saved_text(&graph);
    CHECK(same(saved, again));
    free(again.bytes);
  }
  free(dropped.bytes);
  fact_graph_close(graph);
}

int main(int count, char **words) {
  CHECK(count == 3);
  text dictionary = file(words[1]), script = file(words[2]);
  refuses();
  refuses_saved(dictionary);
  fact_graph graph = opened(dictionary), other = opened(dictionary);
  refuses_long(&other);
  fact_graph_close(other);
  int over = answers(&graph, script, stdout);
  text saved = saved_text(&graph);
  if (over) {
    text reply;
    CHECK(answer(&graph, (const uint8_t *)"undo", 4, &reply) == FACT_GRAPH_OVER && reply.size == 0);
    free(reply.bytes);
  }
  fact_graph_close(graph);
  goes_on(dictionary, saved);
  free(saved.bytes);
  free(script.bytes);
  free(dictionary.bytes);
  fprintf(stderr, "sessions: %ld allocations failed\n", failed);
#ifdef FAILING
  CHECK(failed > 0);
#endif
  return 0;
}
