/* A host of the C library: sessions that are resumed from saved texts that came from outside.
 *
 * Each text has lines that are kept, and lines of which it has to be said why they aren't; what the session then saves is what was kept.
 * Where it is compiled with FAILING, each allocation of each call fails in turn before the call is made once more. Exits with 1 where
 * anything isn't as the header says. */
#include "failing.h"

static const char dictionary[] =
    "{\"version\":\"1\",\"facts\":["
    "{\"path\":\"/n\",\"writable\":\"Int\",\"limits\":[[\"Min\",\"0\"],[\"Max\",\"9\"]]},"
    "{\"path\":\"/t\",\"writable\":\"Text\",\"limits\":[[\"Check\",\"digits\"]]},"
    "{\"path\":\"/s\",\"derived\":\"Int\",\"is\":[\"Add\",[\"Dependency\",\"/n\"],[\"Int\",\"1\"]]},"
    "{\"path\":\"/c\",\"writable\":\"Collection\"},"
    "{\"path\":\"/c/*/v\",\"writable\":\"Int\"}]}";

/* ---- calls */

static uint32_t resume(const char *saved, fact_graph *graph, size_t *size, fact_graph_fault *fault) {
  return fact_graph_resume((const uint8_t *)dictionary, sizeof dictionary - 1, (const uint8_t *)saved, strlen(saved), graph, size, fault);
}

/* A session from the text, of which this is said. */
static fact_graph resumed(const char *saved, const char *due) {
  fact_graph graph = {NULL};
  fact_graph_fault fault = {0};
  size_t size = 1;
  uint32_t number;
  WITH_MEMORY(number = resume(saved, &graph, &size, &fault), number == FACT_GRAPH_FAULT_MEMORY, CHECK(graph.at == NULL && size == 0),
              CLOSE(graph));
  CHECK(number == 0);
  text told = whole(&graph, size);
  if (!is(told, due)) fprintf(stderr, "%s: %.*s for %s", saved, (int)told.size, (const char *)told.bytes, due);
  CHECK(is(told, due));
  free(told.bytes);
  return graph;
}

static void saves(fact_graph *graph, const char *due) {
  text saved = saved_text(graph);
  CHECK(is(saved, due));
  free(saved.bytes);
}

/* ---- the parts of the test */

static void keeps_what_may_stand(void) {
  static const char saved[] = "saved 1\nnext 3\nlist /c #2\nvalue /n 7\nvalue /c/#2/v 5\nend\n";
  fact_graph graph = resumed(saved, "");
  saves(&graph, saved);
  fact_graph_close(graph);
}

static void takes_no_override(void) {
  fact_graph graph = resumed("saved 1\nnext 1\nvalue /n 7\noverride /s 9\noverride /n 3\nend\n", "dropped override /s\ndropped override /n\n");
  replies(&graph, "get /s", "complete 8\n");
  replies(&graph, "release /s", "refused 12 NoOverride\n");
  saves(&graph, "saved 1\nnext 1\nvalue /n 7\nend\n");
  fact_graph_close(graph);
}

/* The reason of each value is what `set` replies in the session. */
static void takes_what_set_would(void) {
  fact_graph graph = resumed(
      "saved 1\nnext 3\nlist /c #1\nlist /d #2\nlist /n\n"
      "value /n 10\nvalue /t a\nvalue /s 4\nvalue /u 1\nvalue /c/#1/v x\nvalue /d/#2/v 1\nvalue /c 1\nend\n",
      "dropped list /d\ndropped list /n\n"
      "dropped value /n refused 7 Limit 2\ndropped value /t refused 8 Check 1\ndropped value /s refused 5 WrongKind\n"
      "dropped value /u refused 3 UnknownFact\ndropped value /c/#1/v refused 6 BadValue\n"
      "dropped value /d/#2/v refused 3 UnknownFact\ndropped value /c refused 5 WrongKind\n");
  replies(&graph, "set /n 10", "refused 7 Limit 2\n");
  replies(&graph, "set /t a", "refused 8 Check 1\n");
  replies(&graph, "set /s 4", "refused 5 WrongKind\n");
  replies(&graph, "set /u 1", "refused 3 UnknownFact\n");
  replies(&graph, "set /c/#1/v x", "refused 6 BadValue\n");
  replies(&graph, "set /d/#2/v 1", "refused 3 UnknownFact\n");
  replies(&graph, "set /c 1", "refused 5 WrongKind\n");
  saves(&graph, "saved 1\nnext 3\nlist /c #1\nend\n");
  fact_graph_close(graph);
}

static void refuses_other_bytes(void) {
  fact_graph graph = {NULL};
  fact_graph_fault fault = {0};
  size_t size = 1;
  CHECK(resume("saved 1\nnext one\n", &graph, &size, &fault) == FACT_GRAPH_FAULT_SAVED);
  CHECK(fault.line == 2 && size == 0 && graph.at == NULL);
  CHECK(resume("saved 1\nnext 1\nend", &graph, &size, &fault) == FACT_GRAPH_FAULT_SAVED && fault.line == 4);
}

int main(void) {
  keeps_what_may_stand();
  takes_no_override();
  takes_what_set_would();
  refuses_other_bytes();
  fprintf(stderr, "resumed: %ld allocations failed\n", failed);
#ifdef FAILING
  CHECK(failed > 0);
#endif
  return 0;
}
