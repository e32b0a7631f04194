/* Columns as parts: pointers to the buffers of each array, for a window of its rows. */
#include "shim.h"

#include <stdlib.h>
#include <string.h>

/* The address of empty slices, and the only offset of an array without rows. */
static const uint64_t nothing[1] = {0};

/* The state of a walk over the arrays of a column. */
struct walk {
  struct column *column;
  struct part *part;   /* the next unused part */
  struct slice *slice; /* the next unused slice for a buffer of views */
};

static struct slice empty_slice(void) {
  struct slice slice = {nothing, 0};
  return slice;
}

/* Copies `bytes` bytes to an aligned address, and returns the copy, or null if an allocation fails.
 * The column owns the copy until its next window is described. */
static const void *copy_of(struct column *column, const void *data, size_t bytes) {
  struct copy *copy = malloc(sizeof *copy + bytes);
  if (copy == NULL) {
    return NULL;
  }
  copy->next = column->copies;
  column->copies = copy;
  memcpy(copy->start, data, bytes);
  return copy->start;
}

static void drop_copies(struct column *column) {
  while (column->copies != NULL) {
    struct copy *next = column->copies->next;
    free(column->copies);
    column->copies = next;
  }
}

/* Sets `slice` to `count` elements of `size` bytes of a buffer, from element `first` on. If their
 * address is not a multiple of `size`, the slice gets a copy. Fails if the buffer is null and
 * `count` is not 0. */
static int32_t lend(struct walk *walk, struct slice *slice, const void *buffer, int64_t first,
                    int64_t count, size_t size) {
  if (count == 0) {
    return DUNKELVA_OK;
  }
  if (buffer == NULL) {
    return DUNKELVA_BAD_STRUCTS;
  }
  const void *data = (const uint8_t *)buffer + (size_t)first * size;
  if ((uintptr_t)data % size != 0) {
    data = copy_of(walk->column, data, (size_t)count * size);
    if (data == NULL) {
      return DUNKELVA_NO_MEMORY;
    }
  }
  slice->data = data;
  slice->len = (size_t)count;
  return DUNKELVA_OK;
}

/* Sets `slice` to the bytes with the bits of `count` rows, from bit `first` of a buffer on. The
 * first byte of the slice has this bit. */
static int32_t lend_bits(struct walk *walk, struct slice *slice, const void *buffer, int64_t first,
                         int64_t count) {
  return lend(walk, slice, buffer, first / 8, count == 0 ? 0 : bytes_for_bits(first % 8 + count),
              1);
}

/* Returns the offset with index `place` of a buffer. The buffer need not be aligned. */
static int64_t offset_at(const void *buffer, bool is_large, int64_t place) {
  if (is_large) {
    int64_t offset = 0;
    memcpy(&offset, (const uint8_t *)buffer + (size_t)place * sizeof offset, sizeof offset);
    return offset;
  }
  int32_t offset = 0;
  memcpy(&offset, (const uint8_t *)buffer + (size_t)place * sizeof offset, sizeof offset);
  return offset;
}

/* Sets the slice of offsets of a part to the offsets of `count` rows. Sets part->base to the first
 * of these offsets, and `length` to the number of bytes or items between the first and the last. */
static int32_t lend_offsets(struct walk *walk, struct part *part, const void *buffer, bool is_large,
                            int64_t first, int64_t count, int64_t *length) {
  struct slice *slice = is_large ? &part->i64s : &part->i32s;
  *length = 0;
  if (count == 0) { /* the buffer may be null or empty */
    slice->data = nothing;
    slice->len = 1;
    return DUNKELVA_OK;
  }
  if (buffer == NULL) {
    return DUNKELVA_BAD_STRUCTS;
  }
  int64_t begin = offset_at(buffer, is_large, first);
  int64_t end = offset_at(buffer, is_large, first + count);
  if (begin < 0 || end < begin || end > MOST_ROWS) {
    return DUNKELVA_BAD_ARRAY;
  }
  part->base = (size_t)begin;
  *length = end - begin;
  return lend(walk, slice, buffer, first, count + 1, is_large ? sizeof(int64_t) : sizeof(int32_t));
}

/* Sets the slices of a part of byte strings: the offsets, and the bytes between them. */
static int32_t lend_strings(struct walk *walk, struct part *part, const struct ArrowArray *array,
                            bool is_large, int64_t first, int64_t count) {
  int64_t length = 0;
  TRY(lend_offsets(walk, part, array->buffers[1], is_large, first, count, &length));
  return lend(walk, &part->u8s, array->buffers[2], (int64_t)part->base, length, 1);
}

/* Sets the slices of a part of views: the views, and the buffers to which they can point. The shim
 * reads no view; the proved kernels do. */
static int32_t lend_views(struct walk *walk, struct part *part, const struct ArrowArray *array,
                          int64_t first, int64_t count) {
  size_t buffers = (size_t)(array->n_buffers - 3);
  TRY(lend(walk, &part->u8s, array->buffers[1], 16 * first, 16 * count, 1));
  if (buffers > 0) {
    part->buffers.data = walk->slice;
    part->buffers.len = buffers;
  }
  for (size_t i = 0; i < buffers; i++) {
    struct slice *slice = walk->slice++;
    *slice = empty_slice();
    TRY(lend(walk, slice, array->buffers[2 + i], 0, dunkelva_view_length(array, (int64_t)i), 1));
  }
  return DUNKELVA_OK;
}

/* Sets the slice of a part that has the type of the numbers. */
static int32_t lend_numbers(struct walk *walk, struct part *part, enum kind kind,
                            const void *numbers, int64_t first, int64_t count) {
  switch (kind) {
  case KIND_INT8:
    return lend(walk, &part->i8s, numbers, first, count, 1);
  case KIND_INT16:
    return lend(walk, &part->i16s, numbers, first, count, 2);
  case KIND_INT32:
    return lend(walk, &part->i32s, numbers, first, count, 4);
  case KIND_INT64:
    return lend(walk, &part->i64s, numbers, first, count, 8);
  case KIND_UINT8:
    return lend(walk, &part->u8s, numbers, first, count, 1);
  case KIND_UINT16:
    return lend(walk, &part->u16s, numbers, first, count, 2);
  case KIND_UINT32:
    return lend(walk, &part->u32s, numbers, first, count, 4);
  case KIND_UINT64:
    return lend(walk, &part->u64s, numbers, first, count, 8);
  case KIND_INT128: /* pairs of 64 bits */
    return lend(walk, &part->u64s, numbers, 2 * first, 2 * count, 8);
  default:
    return DUNKELVA_NOT_SERVED;
  }
}

/* Sets the slices of a part to the buffers that its kind has besides the validity. For lists these
 * are the offsets, and `length` gets the number of items, which begin at part->base. */
static int32_t lend_rows(struct walk *walk, struct part *part, const struct ArrowArray *array,
                         struct layout layout, int64_t first, int64_t *length) {
  int64_t count = (int64_t)part->rows;
  switch (layout.kind) {
  case KIND_NULL:
  case KIND_STRUCT:
  case KIND_FIXED_SIZE_LIST:
    return DUNKELVA_OK;
  case KIND_BOOLEAN:
    return lend_bits(walk, &part->u8s, array->buffers[1], first, count);
  case KIND_BINARY:
  case KIND_UTF8:
    return lend_strings(walk, part, array, false, first, count);
  case KIND_LARGE_BINARY:
  case KIND_LARGE_UTF8:
    return lend_strings(walk, part, array, true, first, count);
  case KIND_BINARY_VIEW:
  case KIND_UTF8_VIEW:
    return lend_views(walk, part, array, first, count);
  case KIND_FIXED_SIZE_BINARY:
    return lend(walk, &part->u8s, array->buffers[1], first * layout.width, count * layout.width, 1);
  case KIND_LIST:
    return lend_offsets(walk, part, array->buffers[1], false, first, count, length);
  case KIND_LARGE_LIST:
    return lend_offsets(walk, part, array->buffers[1], true, first, count, length);
  default:
    return lend_numbers(walk, part, layout.kind, array->buffers[1], first, count);
  }
}

/* Returns the kind of a dictionary with keys of kind `keys`, or KIND_NONE if keys can't be of it.
 */
static enum kind dictionary_kind(enum kind keys) {
  switch (keys) {
  case KIND_INT8:
    return KIND_DICT_INT8;
  case KIND_INT16:
    return KIND_DICT_INT16;
  case KIND_INT32:
    return KIND_DICT_INT32;
  case KIND_INT64:
    return KIND_DICT_INT64;
  case KIND_UINT8:
    return KIND_DICT_UINT8;
  case KIND_UINT16:
    return KIND_DICT_UINT16;
  case KIND_UINT32:
    return KIND_DICT_UINT32;
  case KIND_UINT64:
    return KIND_DICT_UINT64;
  default:
    return KIND_NONE;
  }
}

/* Takes the next part, for `count` rows of an array, and makes all its slices empty. `first` is the
 * index of the first row in the buffers. */
static struct part *begin_part(struct walk *walk, struct layout layout, int64_t first,
                               int64_t count) {
  struct part *part = walk->part++;
  struct slice empty = empty_slice();
  part->kind = layout.kind;
  part->children = 0;
  part->rows = (size_t)count;
  part->width = (size_t)layout.width;
  part->first_bit = count == 0 ? 0 : (size_t)(first % 8);
  part->base = 0;
  part->name = part->present = empty;
  part->i8s = part->i16s = part->i32s = part->i64s = empty;
  part->u8s = part->u16s = part->u32s = part->u64s = empty;
  part->buffers = empty;
  return part;
}

/* Sets the name of the part of a field of a struct. Other names do not belong to a type. */
static void lend_name(struct part *part, const struct ArrowSchema *type) {
  if (type->name != NULL) {
    part->name.data = type->name;
    part->name.len = strlen(type->name);
  }
}

static int32_t describe(struct walk *walk, const struct ArrowSchema *type,
                        const struct ArrowArray *array, int64_t from, int64_t count);

/* Describes the arrays in an array. `first` is the index in its buffers of the first row of its
 * window. For lists, `items` is the number of items of the window, which begin at part->base. */
static int32_t describe_children(struct walk *walk, struct part *part,
                                 const struct ArrowSchema *type, const struct ArrowArray *array,
                                 int64_t first, int64_t items) {
  int64_t from = first;
  int64_t count = (int64_t)part->rows;
  if (type->dictionary != NULL) {
    part->kind = dictionary_kind((enum kind)part->kind);
    part->children = 1;
    return describe(walk, type->dictionary, array->dictionary, 0, array->dictionary->length);
  }
  if (part->kind == KIND_LIST || part->kind == KIND_LARGE_LIST) {
    from = (int64_t)part->base;
    count = items;
  } else if (part->kind == KIND_FIXED_SIZE_LIST) {
    from *= (int64_t)part->width;
    count *= (int64_t)part->width;
  }
  part->children = (uint32_t)type->n_children;
  for (int64_t i = 0; i < type->n_children; i++) {
    struct part *inside = walk->part;
    TRY(describe(walk, type->children[i], array->children[i], from, count));
    if (part->kind == KIND_STRUCT) {
      lend_name(inside, type->children[i]);
    }
  }
  return DUNKELVA_OK;
}

/* Describes `count` rows of an array and of all arrays in it, from row `from` on. The recursion is
 * at most MOST_LEVELS deep. */
static int32_t describe(struct walk *walk, const struct ArrowSchema *type,
                        const struct ArrowArray *array, int64_t from, int64_t count) {
  if (from > array->length || count > array->length - from) {
    return DUNKELVA_BAD_STRUCTS;
  }
  int64_t first = array->offset + from;
  int64_t items = 0;
  struct layout layout = dunkelva_layout(type->format, walk->column->flags);
  struct part *part = begin_part(walk, layout, first, count);
  if (layout.kind != KIND_NULL && array->buffers[0] != NULL) {
    TRY(lend_bits(walk, &part->present, array->buffers[0], first, count));
  }
  TRY(lend_rows(walk, part, array, layout, first, &items));
  return describe_children(walk, part, type, array, first, items);
}

int32_t dunkelva_open(struct column *column, const struct ArrowSchema *type,
                      const struct ArrowArray *array, uint32_t flags) {
  memset(column, 0, sizeof *column);
  column->type = type;
  column->array = array;
  column->flags = flags;
  TRY(dunkelva_measure(type, array, flags, MOST_LEVELS, &column->extent));
  column->parts = malloc(column->extent.parts * sizeof *column->parts);
  column->slices = malloc((column->extent.slices + 1) * sizeof *column->slices);
  return column->parts == NULL || column->slices == NULL ? DUNKELVA_NO_MEMORY : DUNKELVA_OK;
}

void dunkelva_close(struct column *column) {
  drop_copies(column);
  free(column->slices);
  free(column->parts);
}

int32_t dunkelva_describe(struct column *column, int64_t first, int64_t rows) {
  struct walk walk = {column, column->parts, column->slices};
  drop_copies(column);
  return describe(&walk, column->type, column->array, first, rows);
}

bool dunkelva_is_integers(const struct column *column) {
  uint32_t kind = column->parts->kind;
  return (kind >= KIND_INT8 && kind <= KIND_INT64) || (kind >= KIND_UINT8 && kind <= KIND_UINT64);
}

int32_t dunkelva_open_numbers(struct column *column, const struct ArrowSchema *type,
                              const struct ArrowArray *array) {
  TRY(dunkelva_open(column, type, array, 0));
  TRY(dunkelva_describe(column, 0, array->length));
  bool is_number = dunkelva_is_integers(column) && strcmp(type->format, "tiD") != 0;
  return is_number ? DUNKELVA_OK : DUNKELVA_NOT_SERVED;
}

int64_t dunkelva_window(const struct column *column) {
  int64_t entries = column->extent.entries;
  if (entries == 0) {
    return WINDOW_ROWS;
  }
  return 64 * words_for_bits(entries < DICTIONARY_ROWS ? DICTIONARY_ROWS : entries);
}
