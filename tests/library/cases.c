/* A host of the C library that runs many cases in one process, so that valgrind begins once for all of them.
 *
 *   cases FOLDER WORD..
 *
 * The case n, from 0, has the nth word, run, load, carry, save, desk or built-in, and the files FOLDER/n.d, a dictionary, or for built-in
 * the words of one that comes with the library, FOLDER/n.script, and for load and carry FOLDER/n.s, a saved text. What the case says is
 * written to FOLDER/n.out. Standard output has a line for each case: the fault's number, fact, node, what and line, where the number 0
 * says that there is none. */
#include "host.h"

static text read_in(const char *folder, int n, const char *ending) {
  char name[4096];
  CHECK(snprintf(name, sizeof name, "%s/%d.%s", folder, n, ending) < (int)sizeof name);
  return file(name);
}

static FILE *out_in(const char *folder, int n) {
  char name[4096];
  CHECK(snprintf(name, sizeof name, "%s/%d.out", folder, n) < (int)sizeof name);
  FILE *out = fopen(name, "wb");
  CHECK(out != NULL);
  return out;
}

/* Writes the session's text, which is read into a block of exactly its size. */
static void write_text(fact_graph *graph, size_t size, FILE *out) {
  uint8_t *bytes = malloc(size > 0 ? size : 1);
  CHECK(bytes != NULL && fact_graph_read(*graph, 0, bytes, size, graph) == size);
  fwrite(bytes, 1, size, out);
  free(bytes);
}

/* Answers the line, which stands in a block of exactly its size, and says whether the script goes on. */
static int answer(fact_graph *graph, const uint8_t *bytes, size_t size, FILE *out) {
  uint8_t *line = malloc(size > 0 ? size : 1);
  CHECK(line != NULL);
  memcpy(line, bytes, size);
  size_t text_size = 1;
  uint32_t how = fact_graph_answer(*graph, line, size, &text_size, graph);
  free(line);
  if (how == FACT_GRAPH_OVER) return 0;
  CHECK(how == FACT_GRAPH_SAID);
  if (out != NULL) write_text(graph, text_size, out);
  return 1;
}

static void answer_all(fact_graph *graph, text script, FILE *out) {
  for (size_t at = 0; at < script.size;) {
    const uint8_t *end = memchr(script.bytes + at, '\n', script.size - at);
    size_t size = end ? (size_t)(end - script.bytes) - at : script.size - at;
    if (!answer(graph, script.bytes + at, size, out)) return;
    at += size + 1;
  }
}

static uint32_t begin(const char *word, text dictionary, text saved, fact_graph *graph, size_t *size, fact_graph_fault *fault) {
  if (strcmp(word, "load") == 0) {
    return fact_graph_load(dictionary.bytes, dictionary.size, saved.bytes, saved.size, graph, fault);
  }
  if (strcmp(word, "carry") == 0) {
    return fact_graph_carry(dictionary.bytes, dictionary.size, saved.bytes, saved.size, graph, size, fault);
  }
  if (strcmp(word, "built-in") == 0) return fact_graph_open_built_in(dictionary.bytes, dictionary.size, graph, fault);
  return fact_graph_open(dictionary.bytes, dictionary.size, graph, fault);
}

/* Answers the lines of a desk, each in a block of exactly its size. */
static void answer_at(fact_graph_desk *desk, text script, FILE *out) {
  for (size_t at = 0; at < script.size;) {
    const uint8_t *end = memchr(script.bytes + at, '\n', script.size - at);
    size_t size = end ? (size_t)(end - script.bytes) - at : script.size - at, text_size = 1;
    uint8_t *line = malloc(size > 0 ? size : 1);
    CHECK(line != NULL);
    memcpy(line, script.bytes + at, size);
    uint32_t how = fact_graph_desk_answer(*desk, line, size, &text_size, desk);
    free(line);
    if (how == FACT_GRAPH_OVER) return;
    CHECK(how == FACT_GRAPH_SAID);
    uint8_t *bytes = malloc(text_size > 0 ? text_size : 1);
    CHECK(bytes != NULL && fact_graph_desk_read(*desk, 0, bytes, text_size, desk) == text_size);
    fwrite(bytes, 1, text_size, out);
    free(bytes);
    at += size + 1;
  }
}

static void run_desk(text dictionary, text script, FILE *out) {
  fact_graph_desk desk = {NULL};
  fact_graph_fault fault = {0, 0, 0, 0, 0};
  uint32_t number = fact_graph_desk_open(dictionary.bytes, dictionary.size, &desk, &fault);
  CHECK(number == fault.number);
  printf("%u %u %u %u %u\n", fault.number, fault.fact, fault.node, fault.what, fault.line);
  if (number != 0) return;
  answer_at(&desk, script, out);
  fact_graph_desk_close(desk);
}

static void run(const char *word, text dictionary, text saved, text script, FILE *out) {
  fact_graph graph = {NULL};
  fact_graph_fault fault = {0, 0, 0, 0, 0};
  size_t size = 0;
  uint32_t number = begin(word, dictionary, saved, &graph, &size, &fault);
  CHECK(number == fault.number);
  printf("%u %u %u %u %u\n", fault.number, fault.fact, fault.node, fault.what, fault.line);
  if (number != 0) return;
  int is_saved = strcmp(word, "save") == 0;
  write_text(&graph, size, out);
  answer_all(&graph, script, is_saved ? NULL : out);
  if (is_saved) {
    CHECK(fact_graph_save(graph, &size, &graph) == FACT_GRAPH_SAID);
    write_text(&graph, size, out);
  }
  fact_graph_close(graph);
}

int main(int count, char **words) {
  CHECK(count > 1);
  for (int n = 0; n + 2 < count; n++) {
    const char *word = words[n + 2];
    int has_saved = strcmp(word, "load") == 0 || strcmp(word, "carry") == 0;
    text dictionary = read_in(words[1], n, "d"), script = read_in(words[1], n, "script");
    text saved = has_saved ? read_in(words[1], n, "s") : (text){NULL, 0};
    FILE *out = out_in(words[1], n);
    if (strcmp(word, "desk") == 0) {
      run_desk(dictionary, script, out);
    } else {
      run(word, dictionary, saved, script, out);
    }
    fclose(out);
    free(saved.bytes);
    free(script.bytes);
    free(dictionary.bytes);
  }
  return 0;
}
