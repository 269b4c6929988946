/* A host of the C library: desks, at which several parties answer one dictionary.
 *
 *   desks WORDS
 *
 * Tries each call of a desk, each with each of its outcomes, over a dictionary of its own and over the one of these words that comes with
 * the library, as `year 2023`. Where it is compiled with FAILING, each allocation of each call fails in turn before the call is made once
 * more, and what the blocks of memory hold is counted. Exits with 1 where anything isn't as the header says. */
#include "failing.h"

static const char dictionary[] =
    "{\"version\":\"1\",\"facts\":["
    "{\"path\":\"/a\",\"writable\":\"Dollar\"},"
    "{\"path\":\"/b\",\"writable\":\"Dollar\"},"
    "{\"path\":\"/s\",\"derived\":\"Dollar\",\"is\":[\"Add\",[\"Dependency\",\"/a\"],[\"Dependency\",\"/b\"]]},"
    "{\"path\":\"/t\",\"writable\":\"Text\",\"limits\":[[\"Check\",\"trimmed\"]]},"
    "{\"path\":\"/c\",\"writable\":\"Collection\"},"
    "{\"path\":\"/c/*/n\",\"writable\":\"Int\"},"
    "{\"path\":\"/total\",\"derived\":\"Int\",\"is\":[\"CollectionSum\",\"/c/*/n\"]}]}";

#define CLOSE_DESK(desk) (fact_graph_desk_close(desk), (desk).at = NULL)

/* ---- calls */

/* The desk's text, in pieces of seven bytes, and once more in one. */
static text desk_text(fact_graph_desk *desk, size_t size) {
  text t = {malloc(size + 7), 0};
  uint8_t *again = malloc(size + 1);
  CHECK(t.bytes != NULL && again != NULL);
  for (size_t count = 7; count == 7; t.size += count) {
    count = fact_graph_desk_read(*desk, t.size, t.bytes + t.size, 7, desk);
    CHECK(count <= 7 && t.size + count <= size);
  }
  CHECK(t.size == size && fact_graph_desk_read(*desk, 0, again, size + 1, desk) == size && memcmp(t.bytes, again, size) == 0);
  free(again);
  return t;
}

static fact_graph_desk opened(void) {
  fact_graph_desk desk = {NULL};
  fact_graph_fault fault = {9, 9, 9, 9, 9};
  uint32_t number;
  WITH_MEMORY(number = fact_graph_desk_open((const uint8_t *)dictionary, sizeof dictionary - 1, &desk, &fault),
              number == FACT_GRAPH_FAULT_MEMORY, CHECK(desk.at == NULL && fault.number == FACT_GRAPH_FAULT_MEMORY), CLOSE_DESK(desk));
  CHECK(number == 0 && fault.number == 0 && fault.fact == FACT_GRAPH_ABSENT && desk.at != NULL);
  return desk;
}

static fact_graph_desk loaded(const char *saved) {
  fact_graph_desk desk = {NULL};
  fact_graph_fault fault = {0};
  uint32_t number;
  WITH_MEMORY(number = fact_graph_desk_load((const uint8_t *)dictionary, sizeof dictionary - 1, (const uint8_t *)saved, strlen(saved), &desk, &fault),
              number == FACT_GRAPH_FAULT_MEMORY, CHECK(desk.at == NULL), CLOSE_DESK(desk));
  CHECK(number == 0);
  return desk;
}

static fact_graph_desk built_in(const char *words) {
  fact_graph_desk desk = {NULL};
  fact_graph_fault fault = {9, 9, 9, 9, 9};
  uint32_t number;
  WITH_MEMORY(number = fact_graph_desk_open_built_in((const uint8_t *)words, strlen(words), &desk, &fault), number == FACT_GRAPH_FAULT_MEMORY,
              CHECK(desk.at == NULL && fault.number == FACT_GRAPH_FAULT_MEMORY), CLOSE_DESK(desk));
  CHECK(number == 0 && fault.number == 0 && desk.at != NULL);
  return desk;
}

/* Answers a line of so many bytes, which stand in a block of exactly their size. */
static uint32_t desk_answer(fact_graph_desk *desk, const char *bytes, size_t line_size, text *reply) {
  uint8_t *line = malloc(line_size > 0 ? line_size : 1);
  CHECK(line != NULL);
  memcpy(line, bytes, line_size);
  size_t size = 1;
  uint32_t how;
  WITH_MEMORY(how = fact_graph_desk_answer(*desk, line, line_size, &size, desk), how == FACT_GRAPH_NO_MEMORY, CHECK(size == 0), break);
  free(line);
  *reply = desk_text(desk, size);
  return how;
}

/* Answers a line, whose reply has to be this. */
static void says(fact_graph_desk *desk, const char *line, const char *due) {
  text reply;
  CHECK(desk_answer(desk, line, strlen(line), &reply) == FACT_GRAPH_SAID);
  if (!is(reply, due)) fprintf(stderr, "%s: %.*s for %s", line, (int)reply.size, (const char *)reply.bytes, due);
  CHECK(is(reply, due));
  free(reply.bytes);
}

static void saves(fact_graph_desk *desk, const char *due) {
  size_t size = 1;
  uint32_t how;
  WITH_MEMORY(how = fact_graph_desk_save(*desk, &size, desk), how == FACT_GRAPH_NO_MEMORY, CHECK(size == 0), (void)0);
  CHECK(how == FACT_GRAPH_SAID);
  text saved = desk_text(desk, size);
  CHECK(is(saved, due));
  free(saved.bytes);
}

/* ---- the parts of the test */

static void refuses(void) {
  static const char cyclic[] = "{\"version\":\"1\",\"facts\":[{\"path\":\"/a\",\"derived\":\"Int\",\"is\":[\"Dependency\",\"/a\"]}]}";
  const uint8_t *bad = (const uint8_t *)"saved 1\nnext one\n";
  fact_graph_desk desk = {NULL};
  fact_graph_fault fault = {0};
  CHECK(fact_graph_desk_open((const uint8_t *)"", 0, &desk, &fault) == FACT_GRAPH_FAULT_NOT_JSON && desk.at == NULL);
  CHECK(fact_graph_desk_open((const uint8_t *)cyclic, sizeof cyclic - 1, &desk, &fault) == FACT_GRAPH_FAULT_CYCLE && fault.fact == 1);
  CHECK(fact_graph_desk_open_built_in((const uint8_t *)"year 2022", 9, &desk, &fault) == FACT_GRAPH_FAULT_UNKNOWN && desk.at == NULL);
  CHECK(fact_graph_desk_load((const uint8_t *)dictionary, sizeof dictionary - 1, bad, 17, &desk, &fault) == FACT_GRAPH_FAULT_SAVED);
  CHECK(fault.number == FACT_GRAPH_FAULT_SAVED && fault.line == 2 && desk.at == NULL);
  CHECK(fact_graph_desk_load((const uint8_t *)cyclic, sizeof cyclic - 1, bad, 17, &desk, &fault) == FACT_GRAPH_FAULT_CYCLE && desk.at == NULL);
}

/* Two parties: each sees the other's answers, and changes none that it hasn't seen. */
static void two_parties(void) {
  fact_graph_desk desk = opened();
  says(&desk, "@1 set /a 5", "@1 ok\n");
  says(&desk, "@2 set /a 6", "@2 refused 20 Stale 1\n");
  says(&desk, "@2 get /a", "@2 complete 5.00\n");
  says(&desk, "@2 set /a 6", "@2 ok\n");
  says(&desk, "@1 undo", "@1 refused 21 NotYours 2\n");
  says(&desk, "@1 get /s", "@1 incomplete\n");
  says(&desk, "@16 missing /s", "@16 missing 1\n@16 /b\n");
  says(&desk, "@2 undo", "@2 ok\n");
  says(&desk, "@1 redo", "@1 refused 21 NotYours 2\n");
  says(&desk, "@1 set /b 2", "@1 ok\n");
  says(&desk, "@2 final /s", "@2 final 7.00\n");
  says(&desk, "@2 set /t  x", "@2 refused 8 Check 1\n");
  says(&desk, "@2 set /t x", "@2 ok\n");
  says(&desk, "@1 add /c", "@1 ok #1\n");
  says(&desk, "@1 set /c/#1/n 7", "@1 ok\n");
  says(&desk, "@2 remove /c #1", "@2 refused 20 Stale 6\n");
  says(&desk, "@2 get /total", "@2 complete 7\n");
  says(&desk, "@2 get /c", "@2 complete [#1]\n");
  says(&desk, "@2 remove /c #1", "@2 ok\n");
  says(&desk, "@1 stamp /total", "@1 stamp 8\n");
  saves(&desk, "saved 1\nnext 2\nlist /c\nvalue /a 5.00\nvalue /b 2.00\nvalue /t x\nend\n");
  fact_graph_desk_close(desk);
}

/* Lines that are no party's are refused without a mark, and those of a party that are no command with it. */
static void marks(void) {
  static char line[FACT_GRAPH_LINE_LIMIT + 1];
  fact_graph_desk desk = opened();
  text reply;
  says(&desk, "", "");
  says(&desk, "# a note", "");
  says(&desk, "get /a", "refused 1 BadLine\n");
  says(&desk, "@0 get /a", "refused 1 BadLine\n");
  says(&desk, "@17 get /a", "refused 1 BadLine\n");
  says(&desk, "@1", "refused 1 BadLine\n");
  says(&desk, "@1 ", "@1 refused 1 BadLine\n");
  says(&desk, "@16 # no note", "@16 refused 1 BadLine\n");
  says(&desk, "@1 watch changed /a", "@1 refused 1 BadLine\n");
  says(&desk, "@1 get /nowhere", "@1 refused 3 UnknownFact\n");
  memset(line, 'x', sizeof line);
  memcpy(line, "@1 ", 3);
  CHECK(desk_answer(&desk, line, sizeof line, &reply) == FACT_GRAPH_SAID && is(reply, "refused 2 LongLine\n"));
  free(reply.bytes);
  CHECK(desk_answer(&desk, line, sizeof line - 1, &reply) == FACT_GRAPH_SAID && is(reply, "@1 refused 1 BadLine\n"));
  free(reply.bytes);
  fact_graph_desk_close(desk);
}

/* A long reply, a longer one of `missing`, and the memory of a text, which is given back. */
static void long_replies(void) {
  static char line[1100], due[1100];
  fact_graph_desk desk = opened();
  CHECK(snprintf(line, sizeof line, "@3 set /t %01000d", 7) > 1000);
  says(&desk, line, "@3 ok\n");
  CHECK(snprintf(due, sizeof due, "@16 complete %01000d\n", 7) > 1000);
  says(&desk, "@16 get /t", due);
  for (int k = 1; k <= 100; k++) {
    CHECK(snprintf(due, sizeof due, "@3 ok #%d\n", k) > 0);
    says(&desk, "@3 add /c", due);
  }
  text reply;
  CHECK(desk_answer(&desk, "@16 missing /total", 18, &reply) == FACT_GRAPH_SAID && reply.size > 1100);
  CHECK(memcmp(reply.bytes, "@16 missing 100\n@16 /c/#1/n\n", 28) == 0);
  free(reply.bytes);
#ifdef FAILING
  size_t before = held;
#endif
  fact_graph_desk_trim(desk, &desk);
#ifdef FAILING
  CHECK(held < before);
#endif
  uint8_t out[4] = {7, 7, 7, 7};
  CHECK(fact_graph_desk_read(desk, 0, out, sizeof out, &desk) == 0 && out[0] == 7);
  says(&desk, "@3 touched", "@3 touched 3\n");
  fact_graph_desk_close(desk);
}

/* Behind `quit` of any party no line has an effect, and the answers can be saved. */
static void goes_on_when_over(void) {
  fact_graph_desk desk = opened();
  text reply;
  says(&desk, "@1 set /a 1", "@1 ok\n");
  CHECK(desk_answer(&desk, "@2 quit", 7, &reply) == FACT_GRAPH_OVER && reply.size == 0);
  free(reply.bytes);
  CHECK(desk_answer(&desk, "@1 undo", 7, &reply) == FACT_GRAPH_OVER && reply.size == 0);
  free(reply.bytes);
  saves(&desk, "saved 1\nnext 1\nvalue /a 1.00\nend\n");
  fact_graph_desk_trim(desk, &desk);
  fact_graph_desk_close(desk);
}

/* The answers of a saved text are nobody's: each party is held to the start. */
static void goes_on_from_a_text(void) {
  static const char saved[] = "saved 1\nnext 2\nlist /c #1\nvalue /a 5.00\nvalue /c/#1/n 3\nend\n";
  fact_graph_desk desk = loaded(saved);
  saves(&desk, saved);
  says(&desk, "@2 undo", "@2 refused 13 NothingToUndo\n");
  says(&desk, "@2 set /a 6", "@2 ok\n");
  says(&desk, "@1 set /a 7", "@1 refused 20 Stale 1\n");
  says(&desk, "@1 get /total", "@1 complete 3\n");
  fact_graph_desk_close(desk);
}

static void comes_with_the_library(const char *words) {
  fact_graph_desk desk = built_in(words);
  says(&desk, "@1 set /married true", "@1 ok\n");
  says(&desk, "@2 set /married false", "@2 refused 20 Stale 1\n");
  says(&desk, "@1 set /fileJointly true", "@1 ok\n");
  says(&desk, "@2 final /filingStatus", "@2 final marriedFilingJointly\n");
  fact_graph_desk_close(desk);
}

int main(int count, char **words) {
  CHECK(count == 2);
  refuses();
  two_parties();
  marks();
  long_replies();
  goes_on_when_over();
  goes_on_from_a_text();
  comes_with_the_library(words[1]);
  fprintf(stderr, "desks: %ld allocations failed\n", failed);
#ifdef FAILING
  CHECK(failed > 0);
#endif
  return 0;
}
