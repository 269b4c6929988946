/* A host of the C library with eight threads, each of which has sessions of its own, at the same time as the others.
 *
 *   threads DICTIONARY SCRIPT
 *
 * Each thread opens a session, answers the script, and closes it, some times in a row. Beside these it answers the script in sessions
 * that share their dictionary with those of the other threads. Prints the replies of one session, and exits with 1 where another has
 * had others, or where a call hands back another pointer than it was given. */
#include <pthread.h>

#include "host.h"

enum { THREADS = 8, ROUNDS = 10 };

typedef struct {
  text dictionary;
  text script;
  fact_graph blank; /* without answers; its dictionary is shared by all threads */
  text replies;
} work;

/* Puts the session's text behind the replies. */
static void take(fact_graph *graph, size_t size, text *replies) {
  uint8_t *grown = realloc(replies->bytes, replies->size + size + 1);
  CHECK(grown != NULL);
  replies->bytes = grown;
  CHECK(fact_graph_read(*graph, 0, grown + replies->size, size, graph) == size);
  replies->size += size;
}

static fact_graph opened(text dictionary) {
  fact_graph graph = {NULL};
  fact_graph_fault fault = {0, 0, 0, 0, 0};
  CHECK(fact_graph_open(dictionary.bytes, dictionary.size, &graph, &fault) == 0);
  return graph;
}

static fact_graph further(fact_graph *graph) {
  fact_graph other = {NULL}, given = *graph;
  fact_graph_fault fault = {0, 0, 0, 0, 0};
  CHECK(fact_graph_further(given, &other, &fault, graph) == 0);
  CHECK(graph->at == given.at && other.at != given.at);
  return other;
}

/* Answers the script in a session, and closes it. */
static text answers(fact_graph graph, text script) {
  text replies = {malloc(1), 0};
  CHECK(replies.bytes != NULL);
  const fact_graph given = graph;
  for (size_t at = 0; at < script.size;) {
    const uint8_t *end = memchr(script.bytes + at, '\n', script.size - at);
    size_t size = end ? (size_t)(end - script.bytes) - at : script.size - at;
    size_t text_size = 0;
    if (fact_graph_answer(graph, script.bytes + at, size, &text_size, &graph) != FACT_GRAPH_SAID) break;
    CHECK(graph.at == given.at);
    take(&graph, text_size, &replies);
    at += size + 1;
  }
  CHECK(graph.at == given.at);
  fact_graph_close(graph);
  return replies;
}

static void same(text replies, text wanted) {
  CHECK(replies.size == wanted.size && memcmp(replies.bytes, wanted.bytes, replies.size) == 0);
}

static void *run(void *given) {
  work *own = given;
  own->replies = answers(opened(own->dictionary), own->script);
  for (int k = 1; k < ROUNDS; k++) {
    text again = answers(opened(own->dictionary), own->script);
    text shared = answers(further(&own->blank), own->script);
    same(again, own->replies);
    same(shared, own->replies);
    free(again.bytes);
    free(shared.bytes);
  }
  fact_graph_close(own->blank);
  return NULL;
}

int main(int count, char **words) {
  CHECK(count == 3);
  text dictionary = file(words[1]), script = file(words[2]);
  pthread_t threads[THREADS];
  work works[THREADS];
  fact_graph blank = opened(dictionary);
  for (int k = 0; k < THREADS; k++) works[k] = (work){dictionary, script, further(&blank), {NULL, 0}};
  fact_graph_close(blank);
  for (int k = 0; k < THREADS; k++) {
    CHECK(pthread_create(&threads[k], NULL, run, &works[k]) == 0);
  }
  for (int k = 0; k < THREADS; k++) {
    CHECK(pthread_join(threads[k], NULL) == 0);
    same(works[k].replies, works[0].replies);
  }
  fwrite(works[0].replies.bytes, 1, works[0].replies.size, stdout);
  for (int k = 0; k < THREADS; k++) free(works[k].replies.bytes);
  free(script.bytes);
  free(dictionary.bytes);
  return 0;
}
