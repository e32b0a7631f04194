/* Checks of the structs of a column: the counts, pointers and sizes on which the other files rely.
 */
#include "shim.h"

#include <string.h>

/* Returns how many buffers an array of a kind has. For views this is the least number. */
static int64_t buffer_count(enum kind kind) {
  switch (kind) {
  case KIND_NULL:
    return 0;
  case KIND_STRUCT:
  case KIND_FIXED_SIZE_LIST:
    return 1;
  case KIND_BINARY:
  case KIND_LARGE_BINARY:
  case KIND_UTF8:
  case KIND_LARGE_UTF8:
  case KIND_BINARY_VIEW: /* the last buffer has the lengths of the buffers to which views point */
  case KIND_UTF8_VIEW:
    return 3;
  default:
    return 2;
  }
}

static bool is_view(enum kind kind) { return kind == KIND_BINARY_VIEW || kind == KIND_UTF8_VIEW; }

/* Returns whether an array has as many buffers as its kind needs. */
static bool has_buffers(const struct ArrowArray *array, enum kind kind) {
  int64_t count = buffer_count(kind);
  if (is_view(kind) ? array->n_buffers < count : array->n_buffers != count) {
    return false;
  }
  return array->n_buffers == 0 || array->buffers != NULL;
}

/* Returns whether both structs have as many children as the kind needs. */
static bool has_children(const struct ArrowSchema *type, const struct ArrowArray *array,
                         enum kind kind) {
  int64_t count = 0;
  if (kind == KIND_STRUCT) {
    count = type->n_children;
  } else if (kind == KIND_LIST || kind == KIND_LARGE_LIST || kind == KIND_FIXED_SIZE_LIST) {
    count = 1;
  }
  if (count < 0 || type->n_children != count || array->n_children != count) {
    return false;
  }
  return count == 0 || (type->children != NULL && array->children != NULL);
}

/* Returns whether the length and the offset of an array are not negative, and small enough that the
 * index of each bit and byte of its buffers fits into 64 bits. */
static bool has_places(const struct ArrowArray *array, int64_t width) {
  if (array->length < 0 || array->offset < 0 || array->length > MOST_ROWS - array->offset) {
    return false;
  }
  return width == 0 || array->offset + array->length <= MOST_ROWS / width;
}

/* Returns whether a format is one of the integers, which the keys of a dictionary need. */
static bool is_key(const char *format) {
  return strlen(format) == 1 && strchr("cCsSiIlL", *format) != NULL;
}

/* Checks the buffers to which views point, and adds their number to `extent`. The last buffer of
 * the array has their lengths. */
static int32_t measure_views(const struct ArrowArray *array, struct extent *extent) {
  int64_t count = array->n_buffers - 3;
  const uint8_t *lengths = array->buffers[array->n_buffers - 1];
  if (count > (int64_t)MOST_PARTS || (count > 0 && lengths == NULL)) {
    return DUNKELVA_BAD_STRUCTS;
  }
  for (int64_t i = 0; i < count; i++) {
    int64_t length = dunkelva_view_length(array, i);
    if (length < 0 || length > MOST_ROWS || (length > 0 && array->buffers[2 + i] == NULL)) {
      return DUNKELVA_BAD_STRUCTS;
    }
  }
  extent->slices += (size_t)count;
  return extent->slices > MOST_PARTS ? DUNKELVA_BAD_STRUCTS : DUNKELVA_OK;
}

int64_t dunkelva_view_length(const struct ArrowArray *array, int64_t buffer) {
  const uint8_t *lengths = array->buffers[array->n_buffers - 1];
  int64_t length = 0;
  memcpy(&length, lengths + (size_t)buffer * sizeof length, sizeof length);
  return length;
}

int32_t dunkelva_measure(const struct ArrowSchema *type, const struct ArrowArray *array,
                         uint32_t flags, int levels, struct extent *extent) {
  if (type == NULL || array == NULL || type->release == NULL || array->release == NULL ||
      type->format == NULL || levels == 0 || ++extent->parts > MOST_PARTS) {
    return DUNKELVA_BAD_STRUCTS;
  }
  struct layout layout = dunkelva_layout(type->format, flags);
  if (layout.kind == KIND_NONE) {
    return DUNKELVA_NOT_SERVED;
  }
  if (!has_places(array, layout.width) || !has_buffers(array, layout.kind) ||
      !has_children(type, array, layout.kind) ||
      (type->dictionary == NULL) != (array->dictionary == NULL)) {
    return DUNKELVA_BAD_STRUCTS;
  }
  if (is_view(layout.kind)) {
    TRY(measure_views(array, extent));
  }
  if (type->dictionary != NULL) {
    if (!is_key(type->format)) {
      return DUNKELVA_BAD_STRUCTS;
    }
    if (array->dictionary->length > extent->entries) {
      extent->entries = array->dictionary->length;
    }
    return dunkelva_measure(type->dictionary, array->dictionary, flags, levels - 1, extent);
  }
  for (int64_t i = 0; i < type->n_children; i++) {
    TRY(dunkelva_measure(type->children[i], array->children[i], flags, levels - 1, extent));
  }
  return DUNKELVA_OK;
}
