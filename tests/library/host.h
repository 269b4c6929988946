/* What the hosts of the tests share: a check that ends them, and texts. */
#include "fact_graph.h"

#include <stdio.h>
#include <stdlib.h>
#include <string.h>

#define CHECK(condition)                                                     \
  do {                                                                       \
    if (!(condition)) {                                                      \
      fprintf(stderr, "%s:%d: not so: %s\n", __FILE__, __LINE__, #condition); \
      exit(1);                                                               \
    }                                                                        \
  } while (0)

typedef struct {
  uint8_t *bytes;
  size_t size;
} text;

/* The bytes of a file, in as much memory as they have: a read behind the last is one behind the block. */
static inline text file(const char *name) {
  FILE *in = fopen(name, "rb");
  CHECK(in != NULL && fseek(in, 0, SEEK_END) == 0);
  text t = {NULL, (size_t)ftell(in)};
  t.bytes = malloc(t.size > 0 ? t.size : 1);
  CHECK(t.bytes != NULL && fseek(in, 0, SEEK_SET) == 0 && fread(t.bytes, 1, t.size, in) == t.size);
  fclose(in);
  return t;
}
