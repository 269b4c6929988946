/* Shows the memory of sessions of the C library, for bench/c_library.py.
 *
 *   memory DICTIONARY
 *
 * Over the screener, or the tax year of 2023, a session is opened, changed, given members and watches. A line is printed for each: the
 * bytes of all blocks that the session has, and what of it. */
#define FAILING /* so that what the blocks hold is counted */
#include "../tests/library/failing.h"

static size_t before = 0;

static void say(fact_graph *graph, const char *line) {
  size_t size = 0;
  CHECK(fact_graph_answer(*graph, (const uint8_t *)line, strlen(line), &size, graph) == FACT_GRAPH_SAID);
  uint8_t reply[2] = {0, 0};
  CHECK(fact_graph_read(*graph, 0, reply, sizeof reply, graph) == 2 && memcmp(reply, "ok", 2) == 0);
}

static void show(const char *what) { printf("%8zu bytes  %s\n", held - before, what); }

/* Puts so many watches on the slots of members, of whom there are a hundred. */
static void watch(fact_graph *graph, int most) {
  static const char *const names[] = {"changed", "completed", "lost"}, *const fields[] = {"born", "wages", "adult", "elderly"};
  for (int k = 0; k < most; k++) {
    char line[64];
    CHECK(snprintf(line, sizeof line, "watch %s /people/#%d/%s", names[k / 400], k % 100 + 1, fields[k / 100 % 4]) > 0);
    say(graph, line);
  }
}

static void show_screener(text dictionary) {
  fact_graph graph = {NULL};
  fact_graph_fault fault = {0};
  before = held;
  CHECK(fact_graph_open(dictionary.bytes, dictionary.size, &graph, &fault) == 0);
  show("a session of the screener, opened");
  say(&graph, "set /bill 1240.50");
  show("the same after one change");
  for (int k = 0; k < 100; k++) say(&graph, "set /bill 1240.50");
  show("after a hundred more");
  fact_graph_keep_changes(graph, 1, &graph);
  show("with all but one of them forgotten");
  for (int k = 0; k < 100; k++) say(&graph, "add /people");
  show("with a hundred members");
  watch(&graph, 1000);
  show("with 1,000 watches");
  fact_graph_trim(graph, &graph);
  show("with its text given back");
  fact_graph_close(graph);
  CHECK(held == before);
}

static void show_year(void) {
  fact_graph graph = {NULL};
  fact_graph_fault fault = {0};
  before = held;
  CHECK(fact_graph_open_built_in((const uint8_t *)"year 2023", 9, &graph, &fault) == 0);
  show("a session of `year 2023`, opened");
  fact_graph_close(graph);
  CHECK(held == before);
}

int main(int count, char **words) {
  static char shown[BUFSIZ];
  CHECK(count == 2 && setvbuf(stdout, shown, _IOFBF, sizeof shown) == 0);  /* (it would take a block of the heap) */
  text dictionary = file(words[1]);
  show_screener(dictionary);
  show_year();
  free(dictionary.bytes);
  return 0;
}
