/* A host of the C library: the calls beside a script's lines, each with each of its outcomes.
 *
 *   calls WORDS SCRIPT
 *
 * Tries fact_graph_reads, fact_graph_dictionary, fact_graph_facts, fact_graph_description, fact_graph_keep_changes, fact_graph_trim and
 * fact_graph_further over a dictionary of its own. Then it opens a session over the dictionary that comes with the library by these words, as `year 2023`, and one over the text
 * that the first says of its dictionary. The replies of the first to the script are printed, and both have to end with the same answers.
 * Where it is compiled with FAILING, each allocation of each call fails in turn, and what the blocks of memory hold is counted. Exits
 * with 1 where anything isn't as the header says. */
#include "failing.h"

static const char dictionary[] =
    "{\"version\":\"1\",\"facts\":["
    "{\"path\":\"/a\",\"writable\":\"Dollar\",\"description\":\"What comes in,\\nin a m\\u00f6nth.\"},"
    "{\"path\":\"/b\",\"writable\":\"Dollar\",\"placeholder\":[\"Dependency\",\"/a\"]},"
    "{\"path\":\"/s\",\"derived\":\"Dollar\",\"is\":[\"Add\",[\"Dependency\",\"/a\"],[\"Dependency\",\"/b\"],[\"Dependency\",\"/a\"]]},"
    "{\"path\":\"/people\",\"writable\":\"Collection\",\"description\":\"\"},"
    "{\"path\":\"/people/*/name\",\"writable\":\"Text\"},"
    "{\"path\":\"/people/*/wages\",\"writable\":\"Dollar\"},"
    "{\"path\":\"/people/*/share\",\"derived\":\"Dollar\",\"is\":[\"Add\",[\"Dependency\",\"../wages\"],[\"Dependency\",\"/a\"]]},"
    "{\"path\":\"/total\",\"derived\":\"Dollar\",\"is\":[\"CollectionSum\",\"/people/*/share\"],\"description\":\"refused 3 UnknownFact\"},"
    "{\"path\":\"/t\",\"derived\":\"Dollar\",\"is\":[\"Switch\","
    "[\"Case\",[\"LessThan\",[\"Dependency\",\"/a\"],[\"Dollar\",\"10\"]],[\"Dependency\",\"/b\"]],"
    "[\"Case\",[\"True\"],[\"Dependency\",\"/total\"]]]}]}";

/* ---- calls */

static fact_graph opened(void) {
  fact_graph graph = {NULL};
  fact_graph_fault fault = {0};
  CHECK(fact_graph_open((const uint8_t *)dictionary, sizeof dictionary - 1, &graph, &fault) == 0);
  return graph;
}

/* What a slot reads, as the library says it of so many bytes, which stand in a block of exactly their size. */
static text reads(fact_graph *graph, const char *slot, size_t slot_size) {
  uint8_t *path = malloc(slot_size > 0 ? slot_size : 1);
  CHECK(path != NULL);
  memcpy(path, slot, slot_size);
  size_t size = 1;
  uint32_t how;
  WITH_MEMORY(how = fact_graph_reads(*graph, path, slot_size, &size, graph), how == FACT_GRAPH_NO_MEMORY, CHECK(size == 0), (void)0);
  CHECK(how == FACT_GRAPH_SAID);
  free(path);
  return whole(graph, size);
}

/* Asks what a slot reads, which has to be this. The session has the same answers before and after. */
static void reads_are(fact_graph *graph, const char *slot, const char *due) {
  text before = saved_text(graph), said = reads(graph, slot, strlen(slot)), after = saved_text(graph);
  if (!is(said, due)) fprintf(stderr, "%s reads %.*s", slot, (int)said.size, (const char *)said.bytes);
  CHECK(is(said, due) && same(before, after));
  free(before.bytes);
  free(said.bytes);
  free(after.bytes);
}

/* ---- fact_graph_reads */

static void reads_what_is_read_now(void) {
  fact_graph graph = opened();
  reads_are(&graph, "/a", "");
  reads_are(&graph, "/b", "/a\n");
  reads_are(&graph, "/s", "/a\n/b\n");
  reads_are(&graph, "/t", "/a\n");
  reads_are(&graph, "/total", "/people\n");
  replies(&graph, "set /a 5", "ok\n");
  reads_are(&graph, "/t", "/a\n/b\n");
  reads_are(&graph, "/b", "/a\n");
  replies(&graph, "set /b 1", "ok\n");
  reads_are(&graph, "/b", "");
  replies(&graph, "set /a 20", "ok\n");
  reads_are(&graph, "/t", "/a\n/total\n");
  replies(&graph, "add /people", "ok #1\n");
  replies(&graph, "add /people", "ok #2\n");
  reads_are(&graph, "/total", "/people\n/people/#1/share\n/people/#2/share\n");
  reads_are(&graph, "/people/#2/share", "/people/#2/wages\n/a\n");
  replies(&graph, "override /total 3", "ok\n");
  reads_are(&graph, "/total", "");
  reads_are(&graph, "/t", "/a\n/total\n");
  fact_graph_close(graph);
}

/* Texts that name no slot. `get` says of each the same. */
static void reads_no_slot(void) {
  static const char *const slots[] = {"/nowhere", "/people/#3/share", "", "a", "/", "/s ", " /s", "/s\n", "/people/*/share", "/people/#0/share", "/\xff"};
  static const size_t sizes[] = {999, 1000, 1001, 4096, 4097};
  static char longest[4097];
  fact_graph graph = opened();
  replies(&graph, "open /people", "ok\n");
  for (size_t k = 0; k < sizeof slots / sizeof slots[0]; k++) {
    char line[64];
    CHECK(snprintf(line, sizeof line, "get %s", slots[k]) > 0);
    text said = reads(&graph, slots[k], strlen(slots[k])), got;
    CHECK(answer(&graph, (const uint8_t *)line, strlen(line), &got) == FACT_GRAPH_SAID);
    CHECK(same(said, got) && said.size > 8 && memcmp(said.bytes, "refused ", 8) == 0);
    free(said.bytes);
    free(got.bytes);
  }
  reads_are(&graph, "/nowhere", "refused 3 UnknownFact\n");
  reads_are(&graph, "/people/#3/share", "refused 4 NoMember\n");
  reads_are(&graph, "", "refused 1 BadLine\n");
  memset(longest, 'x', sizeof longest);
  longest[0] = '/';
  for (size_t k = 0; k < sizeof sizes / sizeof sizes[0]; k++) {
    text said = reads(&graph, longest, sizes[k]);
    CHECK(is(said, "refused 1 BadLine\n"));
    free(said.bytes);
  }
  fact_graph_close(graph);
}

/* Stamps, watches and what can be undone are as before. */
static void reads_change_nothing(void) {
  fact_graph graph = opened();
  replies(&graph, "watch changed /s", "ok\n");
  replies(&graph, "set /a 5", "ok\nwatch changed /s\n");
  reads_are(&graph, "/s", "/a\n/b\n");
  replies(&graph, "touched", "touched 4\n");
  replies(&graph, "stamp /s", "stamp 1\n");
  reads_are(&graph, "/s", "/a\n/b\n");
  replies(&graph, "undo", "ok\nwatch changed /s\n");
  reads_are(&graph, "/s", "/a\n/b\n");
  replies(&graph, "redo", "ok\nwatch changed /s\n");
  replies(&graph, "stamp /s", "stamp 3\n");
  fact_graph_close(graph);
}

/* ---- fact_graph_dictionary, fact_graph_facts */

static const char facts[] =
    "/a writable Dollar\n"
    "/b writable Dollar\n"
    "/s derived Dollar\n"
    "/people writable Collection\n"
    "/people/*/name writable Text\n"
    "/people/*/wages writable Dollar\n"
    "/people/*/share derived Dollar\n"
    "/total derived Dollar\n"
    "/t derived Dollar\n";

/* What a call says that takes nothing but the session, whose answers are the same before and after. */
static text said_by(uint32_t (*call)(fact_graph, size_t *, fact_graph *), fact_graph *graph) {
  text before = saved_text(graph);
  size_t size = 1;
  uint32_t how;
  WITH_MEMORY(how = call(*graph, &size, graph), how == FACT_GRAPH_NO_MEMORY, CHECK(size == 0), (void)0);
  CHECK(how == FACT_GRAPH_SAID);
  text said = whole(graph, size), after = saved_text(graph);
  CHECK(same(before, after));
  free(before.bytes);
  free(after.bytes);
  return said;
}

/* A session over the text of another's dictionary, which says the same of it. */
static fact_graph over_the_same(fact_graph *graph) {
  text stated = said_by(fact_graph_dictionary, graph), listed = said_by(fact_graph_facts, graph);
  fact_graph other = {NULL};
  fact_graph_fault fault = {0};
  CHECK(fact_graph_open(stated.bytes, stated.size, &other, &fault) == 0);
  text stated_again = said_by(fact_graph_dictionary, &other), listed_again = said_by(fact_graph_facts, &other);
  CHECK(same(stated, stated_again) && same(listed, listed_again));
  free(stated.bytes);
  free(listed.bytes);
  free(stated_again.bytes);
  free(listed_again.bytes);
  return other;
}

static void says_its_dictionary(void) {
  fact_graph graph = opened();
  replies(&graph, "set /a 5", "ok\n");
  text listed = said_by(fact_graph_facts, &graph);
  CHECK(is(listed, facts));
  free(listed.bytes);
  fact_graph other = over_the_same(&graph);
  replies(&other, "get /a", "incomplete\n");
  replies(&other, "set /a 5", "ok\n");
  reads_are(&other, "/t", "/a\n/b\n");
  replies(&graph, "stamp /a", "stamp 1\n");
  replies(&graph, "undo", "ok\n");
  fact_graph_close(other);
  fact_graph_close(graph);
}

/* ---- fact_graph_description */

/* Asks for the description of a fact, which has to be this. The session has the same answers before and after. */
static void description_is(fact_graph *graph, uint32_t fact, const char *due) {
  text before = saved_text(graph);
  size_t size = 1;
  uint32_t how;
  WITH_MEMORY(how = fact_graph_description(*graph, fact, &size, graph), how == FACT_GRAPH_NO_MEMORY, CHECK(size == 0), (void)0);
  CHECK(how == FACT_GRAPH_SAID);
  text said = whole(graph, size), after = saved_text(graph);
  CHECK(is(said, due) && same(before, after));
  free(before.bytes);
  free(said.bytes);
  free(after.bytes);
}

static void says_descriptions(void) {
  static const char *const descriptions[] = {"What comes in,\nin a m\xc3\xb6nth.", "", "", "", "", "", "", "refused 3 UnknownFact", ""};
  fact_graph graph = opened();
  replies(&graph, "watch changed /s", "ok\n");
  replies(&graph, "set /a 5", "ok\nwatch changed /s\n");
  for (uint32_t k = 0; k < sizeof descriptions / sizeof descriptions[0]; k++) description_is(&graph, k + 1, descriptions[k]);
  description_is(&graph, 0, "");
  description_is(&graph, 10, "");
  description_is(&graph, UINT32_MAX, "");
  replies(&graph, "stamp /s", "stamp 1\n");
  replies(&graph, "undo", "ok\nwatch changed /s\n");
  fact_graph_close(graph);
}

/* ---- fact_graph_keep_changes */

static void keeps_changes(size_t most, int undone, const char *first_undo) {
  fact_graph graph = opened();
  replies(&graph, "set /a 1", "ok\n");
  replies(&graph, "set /a 2", "ok\n");
  replies(&graph, "set /a 3", "ok\n");
  for (int k = 0; k < undone; k++) replies(&graph, "undo", "ok\n");
  replies(&graph, "stamp /a", undone ? "stamp 4\n" : "stamp 3\n");
  fact_graph_keep_changes(graph, most, &graph);
  uint8_t text[16];
  CHECK(fact_graph_read(graph, 0, text, sizeof text, &graph) == 8 && memcmp(text, undone ? "stamp 4\n" : "stamp 3\n", 8) == 0);
  replies(&graph, "stamp /a", undone ? "stamp 4\n" : "stamp 3\n");
  replies(&graph, "touched", "touched 4\n");
  replies(&graph, "get /a", undone ? "complete 2.00\n" : "complete 3.00\n");
  replies(&graph, "undo", first_undo);
  fact_graph_close(graph);
}

/* What was undone can be made again, and then undone, though all changes before it are forgotten. */
static void keeps_what_can_be_redone(void) {
  fact_graph graph = opened();
  replies(&graph, "set /a 1", "ok\n");
  replies(&graph, "set /a 2", "ok\n");
  replies(&graph, "set /a 3", "ok\n");
  replies(&graph, "undo", "ok\n");
  replies(&graph, "undo", "ok\n");
  fact_graph_keep_changes(graph, 0, &graph);
  replies(&graph, "undo", "refused 13 NothingToUndo\n");
  replies(&graph, "redo", "ok\n");
  replies(&graph, "redo", "ok\n");
  replies(&graph, "redo", "refused 14 NothingToRedo\n");
  replies(&graph, "get /a", "complete 3.00\n");
  fact_graph_keep_changes(graph, 1, &graph);
  replies(&graph, "undo", "ok\n");
  replies(&graph, "get /a", "complete 2.00\n");
  replies(&graph, "undo", "refused 13 NothingToUndo\n");
  replies(&graph, "redo", "ok\n");
  fact_graph_close(graph);
}

/* So many changes, each with the call behind it. */
static void change(fact_graph *graph, int count, size_t most) {
  for (int k = 0; k < count; k++) {
    char line[32];
    CHECK(snprintf(line, sizeof line, "set /a %d", k) > 0);
    replies(graph, line, "ok\n");
    fact_graph_keep_changes(*graph, most, graph);
  }
}

static void bounds_what_is_kept(void) {
  fact_graph graph = opened();
  change(&graph, 100, 10);
#ifdef FAILING
  size_t before = held;
  change(&graph, 300, 10);
  CHECK(held <= before);
  change(&graph, 300, SIZE_MAX);
  CHECK(held > before + (size_t)300 * 16);
#endif
  fact_graph_keep_changes(graph, 10, &graph);
  for (int k = 0; k < 10; k++) replies(&graph, "undo", "ok\n");
  replies(&graph, "undo", "refused 13 NothingToUndo\n");
  fact_graph_close(graph);
}

/* ---- fact_graph_trim */

static int is_empty(fact_graph *graph) {
  uint8_t out[4] = {7, 7, 7, 7};
  return fact_graph_read(*graph, 0, out, sizeof out, graph) == 0 && out[0] == 7;
}

static void trims(void) {
  fact_graph graph = opened();
  fact_graph_trim(graph, &graph);
  CHECK(is_empty(&graph));
  replies(&graph, "set /a 1", "ok\n");
  replies(&graph, "watch changed /a", "ok\n");
  fact_graph_trim(graph, &graph);
  fact_graph_trim(graph, &graph);
  CHECK(is_empty(&graph));
  replies(&graph, "stamp /a", "stamp 1\n");
  fact_graph_trim(graph, &graph);
  replies(&graph, "undo", "ok\nwatch changed /a\n");
  fact_graph_trim(graph, &graph);
  reads_are(&graph, "/s", "/a\n/b\n");
  fact_graph_close(graph);
}

/* A long text takes memory, which comes back. */
static void gives_back_a_long_text(void) {
  fact_graph graph = opened();
  char line[1100];
  for (int k = 1; k <= 100; k++) {
    text reply;
    CHECK(answer(&graph, (const uint8_t *)"add /people", 11, &reply) == FACT_GRAPH_SAID);
    free(reply.bytes);
    int size = snprintf(line, sizeof line, "set /people/#%d/name %01000d", k, k);
    CHECK(size > 1000 && size < (int)sizeof line);
    replies(&graph, line, "ok\n");
  }
  fact_graph_trim(graph, &graph);
#ifdef FAILING
  size_t before = held;
#endif
  size_t size = 0;
  CHECK(fact_graph_save(graph, &size, &graph) == FACT_GRAPH_SAID && size > 100000);
#ifdef FAILING
  CHECK(held >= before + size);
  fact_graph_trim(graph, &graph);
  CHECK(held == before);
#endif
  fact_graph_close(graph);
}

/* ---- fact_graph_further */

static fact_graph further(fact_graph *graph) {
  fact_graph other = {NULL};
  fact_graph_fault fault = {9, 9, 9, 9, 9};
  uint32_t number;
  WITH_MEMORY(number = fact_graph_further(*graph, &other, &fault, graph), number == FACT_GRAPH_FAULT_MEMORY,
              CHECK(other.at == NULL && fault.number == FACT_GRAPH_FAULT_MEMORY), CLOSE(other));
  CHECK(number == 0 && fault.number == 0 && fault.fact == FACT_GRAPH_ABSENT && other.at != NULL && other.at != graph->at);
  CHECK(is_empty(&other));
  return other;
}

/* A further session has no answers, no history, no stamps and no watches, and the one that it came of has all of its own. Neither sees
 * the other's changes, and each may end first. */
static void shares_its_dictionary(void) {
  fact_graph graph = opened();
  replies(&graph, "watch changed /s", "ok\n");
  replies(&graph, "set /a 5", "ok\nwatch changed /s\n");
  replies(&graph, "add /people", "ok #1\n");
  text before = saved_text(&graph);
  fact_graph second = further(&graph), third = further(&graph), fourth = further(&second);
  text after = saved_text(&graph);
  CHECK(same(before, after));
  free(before.bytes);
  free(after.bytes);
  text listed = said_by(fact_graph_dictionary, &graph), listed_again = said_by(fact_graph_dictionary, &third);
  CHECK(same(listed, listed_again));
  free(listed.bytes);
  free(listed_again.bytes);
  replies(&second, "get /a", "incomplete\n");
  replies(&second, "touched", "touched 0\n");
  replies(&second, "stamp /s", "stamp 0\n");
  replies(&second, "undo", "refused 13 NothingToUndo\n");
  replies(&second, "get /people/#1/share", "refused 4 NoMember\n");
  replies(&second, "set /a 7", "ok\n");
  replies(&second, "get /s", "placeholder 21.00\n");
  replies(&graph, "get /s", "placeholder 15.00\n");
  replies(&graph, "touched", "touched 5\n");
  fact_graph_close(graph);
  replies(&third, "get /s", "incomplete\n");
  replies(&third, "set /b 1", "ok\n");
  replies(&third, "undo", "ok\n");
  fact_graph_close(third);
  replies(&second, "get /s", "placeholder 21.00\n");
  fact_graph_close(second);
  replies(&fourth, "set /a 2", "ok\n");
  replies(&fourth, "get /s", "placeholder 6.00\n");
  fact_graph_close(fourth);
}

/* ---- a session that is over */

static void goes_on_when_over(void) {
  fact_graph graph = opened();
  text reply;
  replies(&graph, "set /a 1", "ok\n");
  CHECK(answer(&graph, (const uint8_t *)"quit", 4, &reply) == FACT_GRAPH_OVER && reply.size == 0);
  free(reply.bytes);
  reads_are(&graph, "/s", "/a\n/b\n");
  reads_are(&graph, "/nowhere", "refused 3 UnknownFact\n");
  text listed = said_by(fact_graph_facts, &graph);
  CHECK(is(listed, facts));
  free(listed.bytes);
  description_is(&graph, 8, "refused 3 UnknownFact");
  fact_graph_keep_changes(graph, 0, &graph);
  fact_graph_trim(graph, &graph);
  CHECK(is_empty(&graph));
  text saved = saved_text(&graph);
  CHECK(is(saved, "saved 1\nnext 1\nvalue /a 1.00\nend\n"));
  free(saved.bytes);
  CHECK(answer(&graph, (const uint8_t *)"undo", 4, &reply) == FACT_GRAPH_OVER && reply.size == 0);
  free(reply.bytes);
  fact_graph_close(graph);
}

/* ---- fact_graph_open_built_in */

static void knows_no_others(void) {
  static const char *const words[] = {"", "year", "year 2022", "year 2023 ", " year 2023", "Year 2023", "year  2023", "year 2023\n", "income 2022", "\xff"};
  for (size_t k = 0; k < sizeof words / sizeof words[0]; k++) {
    fact_graph graph = {NULL};
    fact_graph_fault fault = {9, 9, 9, 9, 9};
    uint32_t number = fact_graph_open_built_in((const uint8_t *)words[k], strlen(words[k]), &graph, &fault);
    CHECK(number == FACT_GRAPH_FAULT_UNKNOWN && fault.number == number && graph.at == NULL);
    CHECK(fault.fact == FACT_GRAPH_ABSENT && fault.node == FACT_GRAPH_ABSENT && fault.what == FACT_GRAPH_ABSENT);
  }
}

static fact_graph built_in(const char *words) {
  fact_graph graph = {NULL};
  fact_graph_fault fault = {9, 9, 9, 9, 9};
  uint32_t number;
  WITH_MEMORY(number = fact_graph_open_built_in((const uint8_t *)words, strlen(words), &graph, &fault),
              number == FACT_GRAPH_FAULT_MEMORY, CHECK(graph.at == NULL && fault.number == FACT_GRAPH_FAULT_MEMORY), CLOSE(graph));
  CHECK(number == 0 && fault.number == 0 && fault.fact == FACT_GRAPH_ABSENT && graph.at != NULL);
  CHECK(is_empty(&graph));
  return graph;
}

int main(int count, char **words) {
  CHECK(count == 3);
  CHECK(fact_graph_version() == FACT_GRAPH_VERSION_NUMBER);
  reads_what_is_read_now();
  reads_no_slot();
  reads_change_nothing();
  says_its_dictionary();
  says_descriptions();
  keeps_changes(0, 0, "refused 13 NothingToUndo\n");
  keeps_changes(1, 0, "ok\n");
  keeps_changes(4, 0, "ok\n");
  keeps_changes(SIZE_MAX, 0, "ok\n");
  keeps_changes(0, 1, "refused 13 NothingToUndo\n");
  keeps_changes(1, 1, "ok\n");
  keeps_what_can_be_redone();
  bounds_what_is_kept();
  trims();
  gives_back_a_long_text();
  shares_its_dictionary();
  goes_on_when_over();
  knows_no_others();
  fact_graph graph = built_in(words[1]), other = over_the_same(&graph);
  text script = file(words[2]);
  CHECK(!answers(&graph, script, stdout) && !answers(&other, script, NULL));
  text saved = saved_text(&graph), saved_again = saved_text(&other);
  CHECK(same(saved, saved_again));
  free(saved.bytes);
  free(saved_again.bytes);
  fact_graph_close(other);
  fact_graph_close(graph);
  free(script.bytes);
  fprintf(stderr, "calls: %ld allocations failed\n", failed);
#ifdef FAILING
  CHECK(failed > 0);
#endif
  return 0;
}
