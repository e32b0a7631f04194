/* Columns for tests: structs of the C data interface around buffers of the caller. */
#ifndef COLUMNS_H
#define COLUMNS_H

#include "dunkelva.h"

#include <stdlib.h>

/* Says whether the library compares numbers alone. */

/* A column with up to four others inside it. */
struct made {
  struct ArrowSchema type;
  struct ArrowArray array;
  const void *buffers[8];
  struct ArrowSchema *types[4];
  struct ArrowArray *arrays[4];
};

static void release_type(struct ArrowSchema *type) { type->release = NULL; }
static void release_array(struct ArrowArray *array) { array->release = NULL; }

/* Makes a column of a format from its buffers: `validity`, which may be null, and two others. It is
 * never freed: a test ends soon. */
static struct made *make(const char *format, int64_t rows, int64_t buffers, const void *validity,
                         const void *second, const void *third) {
  struct made *made = calloc(1, sizeof *made);
  if (made == NULL) {
    abort();
  }
  made->type.format = format;
  made->type.name = "";
  made->type.flags = ARROW_FLAG_NULLABLE;
  made->type.children = made->types;
  made->type.release = release_type;
  made->array.length = rows;
  made->array.null_count = -1;
  made->array.n_buffers = buffers;
  made->array.buffers = made->buffers;
  made->array.children = made->arrays;
  made->array.release = release_array;
  made->buffers[0] = validity;
  made->buffers[1] = second;
  made->buffers[2] = third;
  return made;
}

/* Puts a column inside another one. */
static struct made *put(struct made *outer, const char *name, struct made *inner) {
  inner->type.name = name;
  outer->types[outer->type.n_children++] = &inner->type;
  outer->arrays[outer->array.n_children++] = &inner->array;
  return outer;
}

#endif
