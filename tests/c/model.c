#include "model.h"

#include <stdbool.h>
#include <stdio.h>
#include <stdlib.h>
#include <string.h>

enum { DONE, NO_ARRAY, OTHER_TYPES, NO_ROOM, NO_MEMORY, NOT_SERVED };

/* An array of parts, with where the subtree of each part ends. */
struct tree {
  const struct part *parts;
  size_t len;
  size_t *end;
};

static const struct part *part_at(const struct tree *tree, size_t at) { return &tree->parts[at]; }

/* Sets where each subtree ends, and returns the end of that at `at`, or 0 where there is none. */
static size_t find_ends(struct tree *tree, size_t at) {
  if (at >= tree->len) {
    return 0;
  }
  size_t end = at + 1;
  for (uint32_t i = 0; i < tree->parts[at].children; i++) {
    end = find_ends(tree, end);
    if (end == 0) {
      return 0;
    }
  }
  tree->end[at] = end;
  return end;
}

static bool bit(const struct slice *bytes, size_t place) {
  return (((const uint8_t *)bytes->data)[place / 8] >> (place % 8) & 1) != 0;
}

static bool has_bits(const struct part *p, const struct slice *bytes) {
  return bytes->len >= (p->first_bit + p->rows + 7) / 8;
}

static bool is_dictionary(uint32_t kind) {
  return kind >= KIND_DICT_INT8 && kind <= KIND_DICT_UINT64;
}

/* The key, or -1 where it is no place. */
static int64_t key_at(const struct part *p, size_t row) {
  switch (p->kind) {
  case KIND_DICT_INT8:
    return ((const int8_t *)p->i8s.data)[row];
  case KIND_DICT_INT16:
    return ((const int16_t *)p->i16s.data)[row];
  case KIND_DICT_INT32:
    return ((const int32_t *)p->i32s.data)[row];
  case KIND_DICT_INT64:
    return ((const int64_t *)p->i64s.data)[row];
  case KIND_DICT_UINT8:
    return ((const uint8_t *)p->u8s.data)[row];
  case KIND_DICT_UINT16:
    return ((const uint16_t *)p->u16s.data)[row];
  case KIND_DICT_UINT32:
    return ((const uint32_t *)p->u32s.data)[row];
  default: {
    uint64_t key = ((const uint64_t *)p->u64s.data)[row];
    return key > INT64_MAX ? -1 : (int64_t)key;
  }
  }
}

/* Where the numbers or keys of a kind are lent, and how many bytes each has. */
static struct slice numbers_of(const struct part *p, size_t *size) {
  struct slice none = {NULL, 0};
  switch (p->kind) {
  case KIND_INT8:
  case KIND_DICT_INT8:
    return *size = 1, p->i8s;
  case KIND_INT16:
  case KIND_DICT_INT16:
    return *size = 2, p->i16s;
  case KIND_INT32:
  case KIND_DICT_INT32:
    return *size = 4, p->i32s;
  case KIND_INT64:
  case KIND_DICT_INT64:
    return *size = 8, p->i64s;
  case KIND_UINT8:
  case KIND_DICT_UINT8:
    return *size = 1, p->u8s;
  case KIND_UINT16:
  case KIND_DICT_UINT16:
    return *size = 2, p->u16s;
  case KIND_UINT32:
  case KIND_DICT_UINT32:
    return *size = 4, p->u32s;
  case KIND_UINT64:
  case KIND_DICT_UINT64:
    return *size = 8, p->u64s;
  case KIND_INT128:
  case KIND_UINT128:
    none = p->u64s;
    none.len /= 2;
    return *size = 16, none;
  default:
    return *size = 0, none;
  }
}

static bool is_large(uint32_t kind) {
  return kind == KIND_LARGE_BINARY || kind == KIND_LARGE_UTF8 || kind == KIND_LARGE_LIST;
}

/* Offset `at`, as a place among what is lent; -1 where it lies before that. */
static int64_t place_at(const struct part *p, size_t at) {
  int64_t offset =
      is_large(p->kind) ? ((const int64_t *)p->i64s.data)[at] : ((const int32_t *)p->i32s.data)[at];
  return offset < 0 || (uint64_t)offset < p->base ? -1 : offset - (int64_t)p->base;
}

static bool good_offsets(const struct part *p, size_t room) {
  size_t count = is_large(p->kind) ? p->i64s.len : p->i32s.len;
  if (count != p->rows + 1) {
    return false;
  }
  for (size_t i = 0; i < count; i++) {
    int64_t place = place_at(p, i);
    if (place < 0 || (uint64_t)place > room || (i > 0 && place < place_at(p, i - 1))) {
      return false;
    }
  }
  return true;
}

/* The bytes of a row. */
struct bytes {
  const uint8_t *data;
  size_t len;
};

static uint32_t word_at(const uint8_t *bytes) {
  return (uint32_t)bytes[0] | (uint32_t)bytes[1] << 8 | (uint32_t)bytes[2] << 16 |
         (uint32_t)bytes[3] << 24;
}

static struct bytes view_row(const struct part *p, size_t row) {
  const uint8_t *view = (const uint8_t *)p->u8s.data + 16 * row;
  struct bytes bytes = {view + 4, word_at(view)};
  if (bytes.len > 12) {
    const struct slice *buffers = p->buffers.data;
    bytes.data = (const uint8_t *)buffers[word_at(view + 8)].data + word_at(view + 12);
  }
  return bytes;
}

static bool good_view(const struct part *p, size_t row) {
  const uint8_t *view = (const uint8_t *)p->u8s.data + 16 * row;
  uint64_t len = word_at(view);
  if (len <= 12) {
    for (size_t i = 4 + len; i < 16; i++) {
      if (view[i] != 0) {
        return false;
      }
    }
    return true;
  }
  const struct slice *buffers = p->buffers.data;
  uint64_t number = word_at(view + 8);
  uint64_t start = word_at(view + 12);
  return (len | number | start) <= INT32_MAX && number < p->buffers.len &&
         start + len <= buffers[number].len &&
         memcmp((const uint8_t *)buffers[number].data + start, view + 4, 4) == 0;
}

static struct bytes string_row(const struct part *p, size_t row) {
  struct bytes bytes = {NULL, 0};
  if (p->kind == KIND_BINARY_VIEW || p->kind == KIND_UTF8_VIEW) {
    return view_row(p, row);
  }
  if (p->kind == KIND_FIXED_SIZE_BINARY) {
    bytes.data = (const uint8_t *)p->u8s.data + row * p->width;
    bytes.len = p->width;
    return bytes;
  }
  bytes.data = (const uint8_t *)p->u8s.data + place_at(p, row);
  bytes.len = (size_t)(place_at(p, row + 1) - place_at(p, row));
  return bytes;
}

/* Says whether bytes are UTF-8, by the table of the Unicode standard. */
static bool is_utf8(struct bytes text) {
  const uint8_t *s = text.data;
  size_t left = text.len;
  while (left > 0) {
    /* Bytes that follow the first one; as many as are left where it begins no character. */
    size_t more = s[0] < 0x80   ? 0
                  : s[0] < 0xC2 ? left
                  : s[0] < 0xE0 ? 1
                  : s[0] < 0xF0 ? 2
                  : s[0] < 0xF5 ? 3
                                : left;
    if (more >= left) {
      return false;
    }
    for (size_t i = 1; i <= more; i++) {
      uint8_t least = s[0] == 0xE0 && i == 1 ? 0xA0 : s[0] == 0xF0 && i == 1 ? 0x90 : 0x80;
      uint8_t most = s[0] == 0xED && i == 1 ? 0x9F : s[0] == 0xF4 && i == 1 ? 0x8F : 0xBF;
      if (s[i] < least || s[i] > most) {
        return false;
      }
    }
    s += more + 1;
    left -= more + 1;
  }
  return true;
}

static bool is_present(const struct part *p, size_t row) {
  return p->kind != KIND_NULL && (p->present.len == 0 || bit(&p->present, p->first_bit + row));
}

/* Says whether all strings are good, those of views where their rows are present. */
static bool good_strings(const struct part *p) {
  bool views = p->kind == KIND_BINARY_VIEW || p->kind == KIND_UTF8_VIEW;
  bool text = p->kind == KIND_UTF8 || p->kind == KIND_LARGE_UTF8 || p->kind == KIND_UTF8_VIEW;
  if (views ? p->u8s.len != 16 * p->rows : !good_offsets(p, p->u8s.len)) {
    return false;
  }
  for (size_t row = 0; row < p->rows; row++) {
    if (views && !is_present(p, row)) {
      continue;
    }
    if ((views && !good_view(p, row)) || (text && !is_utf8(string_row(p, row)))) {
      return false;
    }
  }
  return true;
}

static bool good_keys(const struct tree *tree, size_t at) {
  const struct part *p = part_at(tree, at);
  size_t size = 0;
  if (numbers_of(p, &size).len != p->rows || p->children != 1) {
    return false;
  }
  for (size_t row = 0; row < p->rows; row++) {
    if (is_present(p, row) &&
        (key_at(p, row) < 0 || (uint64_t)key_at(p, row) >= part_at(tree, at + 1)->rows)) {
      return false;
    }
  }
  return true;
}

static bool good_struct(const struct tree *tree, size_t at) {
  size_t inside = at + 1;
  for (uint32_t i = 0; i < part_at(tree, at)->children; i++, inside = tree->end[inside]) {
    const struct part *field = part_at(tree, inside);
    struct bytes name = {field->name.data, field->name.len};
    if (field->rows != part_at(tree, at)->rows || !is_utf8(name)) {
      return false;
    }
  }
  return true;
}

/* Says whether a part makes an array of the arrays inside it. */
static bool is_good(const struct tree *tree, size_t at) {
  const struct part *p = part_at(tree, at);
  size_t size = 0;
  if (p->kind != KIND_NULL && p->present.len > 0 && !has_bits(p, &p->present)) {
    return false;
  }
  if (is_dictionary(p->kind)) {
    return good_keys(tree, at);
  }
  switch (p->kind) {
  case KIND_LIST:
  case KIND_LARGE_LIST:
    return p->children == 1 && good_offsets(p, part_at(tree, at + 1)->rows);
  case KIND_FIXED_SIZE_LIST:
    return p->children == 1 && part_at(tree, at + 1)->rows == p->width * p->rows;
  case KIND_STRUCT:
    return good_struct(tree, at);
  default:
    break;
  }
  if (p->children != 0) {
    return false;
  }
  switch (p->kind) {
  case KIND_NULL:
    return true;
  case KIND_BOOLEAN:
    return has_bits(p, &p->u8s);
  case KIND_FIXED_SIZE_BINARY:
    return p->u8s.len == p->width * p->rows;
  case KIND_BINARY:
  case KIND_LARGE_BINARY:
  case KIND_UTF8:
  case KIND_LARGE_UTF8:
  case KIND_BINARY_VIEW:
  case KIND_UTF8_VIEW:
    return good_strings(p);
  default:
    return numbers_of(p, &size).len == p->rows && size > 0;
  }
}

static bool same_types(const struct tree *l, size_t a, const struct tree *r, size_t b) {
  const struct part *p = part_at(l, a);
  const struct part *q = part_at(r, b);
  if (p->kind != q->kind || p->children != q->children) {
    return false;
  }
  if ((p->kind == KIND_FIXED_SIZE_BINARY || p->kind == KIND_FIXED_SIZE_LIST) &&
      p->width != q->width) {
    return false;
  }
  size_t i = a + 1;
  size_t j = b + 1;
  for (uint32_t k = 0; k < p->children; k++, i = l->end[i], j = r->end[j]) {
    const struct slice *x = &part_at(l, i)->name;
    const struct slice *y = &part_at(r, j)->name;
    if (p->kind == KIND_STRUCT && (x->len != y->len || memcmp(x->data, y->data, x->len) != 0)) {
      return false;
    }
    if (!same_types(l, i, r, j)) {
      return false;
    }
  }
  return true;
}

static bool is_null_row(const struct tree *tree, size_t at, size_t row) {
  const struct part *p = part_at(tree, at);
  if (!is_present(p, row)) {
    return true;
  }
  return is_dictionary(p->kind) && is_null_row(tree, at + 1, (size_t)key_at(p, row));
}

static bool same_rows(const struct tree *l, size_t a, size_t row, const struct tree *r, size_t b,
                      size_t other);

/* Compares items from place `x` to `x_end` with those from `y` to `y_end`. */
static bool same_items(const struct tree *l, size_t a, size_t x, size_t x_end, const struct tree *r,
                       size_t b, size_t y, size_t y_end) {
  if (x_end - x != y_end - y) {
    return false;
  }
  for (; x < x_end; x++, y++) {
    if (!same_rows(l, a, x, r, b, y)) {
      return false;
    }
  }
  return true;
}

static bool same_fields(const struct tree *l, size_t a, size_t row, const struct tree *r, size_t b,
                        size_t other) {
  size_t i = a + 1;
  size_t j = b + 1;
  for (uint32_t k = 0; k < part_at(l, a)->children; k++, i = l->end[i], j = r->end[j]) {
    if (!same_rows(l, i, row, r, j, other)) {
      return false;
    }
  }
  return true;
}

static bool same_leaves(const struct part *p, size_t row, const struct part *q, size_t other) {
  size_t size = 0;
  struct slice x = numbers_of(p, &size);
  struct slice y = numbers_of(q, &size);
  if (size > 0) {
    return memcmp((const uint8_t *)x.data + row * size, (const uint8_t *)y.data + other * size,
                  size) == 0;
  }
  if (p->kind == KIND_BOOLEAN) {
    return bit(&p->u8s, p->first_bit + row) == bit(&q->u8s, q->first_bit + other);
  }
  struct bytes s = string_row(p, row);
  struct bytes t = string_row(q, other);
  return s.len == t.len && memcmp(s.data, t.data, s.len) == 0;
}

static bool same_rows(const struct tree *l, size_t a, size_t row, const struct tree *r, size_t b,
                      size_t other) {
  const struct part *p = part_at(l, a);
  const struct part *q = part_at(r, b);
  bool null = is_null_row(l, a, row);
  if (null || is_null_row(r, b, other)) {
    return null && is_null_row(r, b, other);
  }
  if (is_dictionary(p->kind)) {
    return same_rows(l, a + 1, (size_t)key_at(p, row), r, b + 1, (size_t)key_at(q, other));
  }
  switch (p->kind) {
  case KIND_LIST:
  case KIND_LARGE_LIST:
    return same_items(l, a + 1, (size_t)place_at(p, row), (size_t)place_at(p, row + 1), r, b + 1,
                      (size_t)place_at(q, other), (size_t)place_at(q, other + 1));
  case KIND_FIXED_SIZE_LIST:
    return same_items(l, a + 1, row * p->width, (row + 1) * p->width, r, b + 1, other * q->width,
                      (other + 1) * q->width);
  case KIND_STRUCT:
    return same_fields(l, a, row, r, b, other);
  default:
    return same_leaves(p, row, q, other);
  }
}

/* Counts the leaf values of rows, those of a dictionary's entry once for each present row. */
static uint64_t leaves(const struct tree *tree, size_t at, size_t from, size_t to) {
  const struct part *p = part_at(tree, at);
  uint64_t count = 0;
  if (is_dictionary(p->kind)) {
    for (size_t row = from; row < to; row++) {
      size_t key = is_present(p, row) ? (size_t)key_at(p, row) : 0;
      count += is_present(p, row) ? leaves(tree, at + 1, key, key + 1) : 0;
    }
    return count;
  }
  switch (p->kind) {
  case KIND_NULL:
    return 0;
  case KIND_LIST:
  case KIND_LARGE_LIST:
    return leaves(tree, at + 1, (size_t)place_at(p, from), (size_t)place_at(p, to));
  case KIND_FIXED_SIZE_LIST:
    return leaves(tree, at + 1, from * p->width, to * p->width);
  case KIND_STRUCT: {
    size_t inside = at + 1;
    for (uint32_t k = 0; k < p->children; k++, inside = tree->end[inside]) {
      count += leaves(tree, inside, from, to);
    }
    return count;
  }
  default:
    return to - from;
  }
}

/* Says whether parts make one array. */
static bool make_tree(struct tree *tree, const struct part *parts, size_t len) {
  tree->parts = parts;
  tree->len = len;
  if (find_ends(tree, 0) != len) {
    return false;
  }
  for (size_t at = 0; at < len; at++) {
    if (!is_good(tree, at)) {
      return false;
    }
  }
  return true;
}

static int32_t compare(const struct tree *l, const struct tree *r, uint64_t *out, size_t out_len) {
  size_t rows = l->parts[0].rows;
  if (!same_types(l, 0, r, 0) || rows != r->parts[0].rows) {
    return OTHER_TYPES;
  }
  if (out_len < rows / 64 + (rows % 64 != 0)) {
    return NO_ROOM;
  }
  for (size_t i = 0; i < out_len; i++) {
    out[i] = 0;
  }
  for (size_t row = 0; row < rows; row++) {
    out[row / 64] |= (uint64_t)same_rows(l, 0, row, r, 0, row) << (row % 64);
  }
  return DONE;
}

int32_t model_parts_equal(const struct part *left, size_t left_len, const struct part *right,
                          size_t right_len, uint64_t *out, size_t out_len, uint64_t *most) {
  struct tree l = {0};
  struct tree r = {0};
  l.end = calloc(left_len + 1, sizeof *l.end);
  r.end = calloc(right_len + 1, sizeof *r.end);
  int32_t status = l.end == NULL || r.end == NULL ? NO_MEMORY : NO_ARRAY;
  if (status == NO_ARRAY && make_tree(&l, left, left_len) && make_tree(&r, right, right_len)) {
    status = compare(&l, &r, out, out_len);
    *most = status == DONE ? leaves(&l, 0, 0, left->rows) : 0;
  }
  free(l.end);
  free(r.end);
  return status;
}

int32_t model_parts_are_null(const struct part *parts, size_t len, uint64_t *out, size_t out_len,
                             uint64_t *count) {
  struct tree tree = {0};
  tree.end = calloc(len + 1, sizeof *tree.end);
  if (tree.end == NULL) {
    return NO_MEMORY;
  }
  int32_t status = make_tree(&tree, parts, len) ? DONE : NO_ARRAY;
  size_t rows = status == DONE ? parts->rows : 0;
  if (out_len < rows / 64 + (rows % 64 != 0)) {
    status = NO_ROOM;
  }
  if (status == DONE) {
    *count = 0;
    for (size_t i = 0; i < out_len; i++) {
      out[i] = 0;
    }
    for (size_t row = 0; row < rows; row++) {
      bool null = is_null_row(&tree, 0, row);
      *count += null;
      out[row / 64] |= (uint64_t)null << (row % 64);
    }
  }
  free(tree.end);
  return status;
}

static void read_slice(const struct slice *slice, size_t size, size_t align) {
  if (slice->data == NULL || (uintptr_t)slice->data % align != 0) {
    fputs("model: a slice with no good address\n", stderr);
    abort();
  }
  const uint8_t *bytes = slice->data;
  uint64_t total = 0;
  for (size_t i = 0; i < slice->len * size; i++) {
    total += bytes[i];
  }
  volatile uint64_t seen = total; /* so that the bytes are read */
  (void)seen;
}

static void read_part(const struct part *p) {
  const struct slice *bytes[] = {&p->name, &p->present, &p->i8s, &p->u8s};
  for (size_t i = 0; i < sizeof bytes / sizeof *bytes; i++) {
    read_slice(bytes[i], 1, 1);
  }
  read_slice(&p->i16s, 2, 2);
  read_slice(&p->u16s, 2, 2);
  read_slice(&p->i32s, 4, 4);
  read_slice(&p->u32s, 4, 4);
  read_slice(&p->i64s, 8, 8);
  read_slice(&p->u64s, 8, 8);
  read_slice(&p->buffers, sizeof(struct slice), sizeof(void *));
  for (size_t i = 0; i < p->buffers.len; i++) {
    read_slice((const struct slice *)p->buffers.data + i, 1, 1);
  }
}

void model_read_all(const struct part *parts, size_t len) {
  size_t inside = 1;
  for (size_t at = 0; at < len; at++) {
    if (inside == 0) {
      fputs("model: parts behind the last one\n", stderr);
      abort();
    }
    inside = inside - 1 + parts[at].children;
    read_part(&parts[at]);
  }
  if (inside != 0) {
    fputs("model: parts are missing\n", stderr);
    abort();
  }
}

#ifdef MODEL_FOR_LIBRARY

/* These stand in for the proved library. */

int32_t dunkelva_parts_equal(const struct part *left, size_t left_len, const struct part *right,
                             size_t right_len, uint64_t *out, size_t out_len, uint64_t *comparisons,
                             size_t comparisons_len) {
  model_read_all(left, left_len);
  model_read_all(right, right_len);
  return comparisons_len == 1
             ? model_parts_equal(left, left_len, right, right_len, out, out_len, comparisons)
             : NO_ROOM;
}

int32_t dunkelva_parts_are_null(const struct part *parts, size_t len, uint64_t *out, size_t out_len,
                                uint64_t *count) {
  model_read_all(parts, len);
  return model_parts_are_null(parts, len, out, out_len, count);
}

/* A number of a column, in two's complement of 64 bits. */
static uint64_t number_at(const struct part *p, size_t row) {
  switch (p->kind) {
  case KIND_INT8:
    return (uint64_t)((const int8_t *)p->i8s.data)[row];
  case KIND_INT16:
    return (uint64_t)((const int16_t *)p->i16s.data)[row];
  case KIND_INT32:
    return (uint64_t)((const int32_t *)p->i32s.data)[row];
  case KIND_INT64:
    return (uint64_t)((const int64_t *)p->i64s.data)[row];
  case KIND_UINT8:
    return ((const uint8_t *)p->u8s.data)[row];
  case KIND_UINT16:
    return ((const uint16_t *)p->u16s.data)[row];
  case KIND_UINT32:
    return ((const uint32_t *)p->u32s.data)[row];
  default:
    return ((const uint64_t *)p->u64s.data)[row];
  }
}

static bool is_signed(const struct part *p) { return p->kind <= KIND_INT64; }

/* Says whether a part is a column of numbers of 8 to 64 bits. */
static int32_t check_numbers(const struct part *p) {
  size_t size = 0;
  if (p->kind < KIND_INT8 || p->kind > KIND_UINT64 || p->kind == KIND_INT128) {
    return NOT_SERVED;
  }
  bool good =
      numbers_of(p, &size).len == p->rows && (p->present.len == 0 || has_bits(p, &p->present));
  return good ? DONE : NO_ARRAY;
}

static bool passes(uint32_t test, uint64_t x, uint64_t y, bool with_sign) {
  bool less = with_sign ? (int64_t)x < (int64_t)y : x < y;
  bool results[] = {x == y, x != y, less, less || x == y, !less && x != y, !less};
  return results[test];
}

int32_t dunkelva_parts_compare(uint32_t test, const struct part *left, const struct part *right,
                               uint64_t *out, size_t out_len) {
  if (test > 5) {
    return NOT_SERVED;
  }
  if (left->kind != right->kind || left->rows != right->rows) {
    return OTHER_TYPES;
  }
  if (check_numbers(left) != DONE || check_numbers(right) != DONE) {
    return check_numbers(left) != DONE ? check_numbers(left) : check_numbers(right);
  }
  if (out_len < (left->rows + 63) / 64) {
    return NO_ROOM;
  }
  memset(out, 0, out_len * sizeof *out);
  for (size_t row = 0; row < left->rows; row++) {
    bool l = is_present(left, row);
    bool r = is_present(right, row);
    bool holds = l && r ? passes(test, number_at(left, row), number_at(right, row), is_signed(left))
                        : test < 2 && (test == 0) == (l == r);
    out[row / 64] |= (uint64_t)holds << (row % 64);
  }
  return DONE;
}

int32_t dunkelva_parts_equal_lent(const struct part *left, const struct part *right, uint64_t *out,
                                  size_t out_len) {
  return dunkelva_parts_compare(0, left, right, out, out_len);
}

int32_t dunkelva_part_is_null(const struct part *part, uint64_t *out, size_t out_len,
                              uint64_t *count) {
  if (part->kind != KIND_NULL && part->kind != KIND_BOOLEAN && check_numbers(part) == NOT_SERVED) {
    return NOT_SERVED;
  }
  if (part->present.len > 0 && !has_bits(part, &part->present)) {
    return NO_ARRAY;
  }
  if (out_len < (part->rows + 63) / 64) {
    return NO_ROOM;
  }
  *count = 0;
  memset(out, 0, out_len * sizeof *out);
  for (size_t row = 0; row < part->rows; row++) {
    uint64_t null = !is_present(part, row);
    *count += null;
    out[row / 64] |= null << (row % 64);
  }
  return DONE;
}

int32_t dunkelva_part_sum(const struct part *part, struct dunkelva_number *sum) {
  if (check_numbers(part) != DONE) {
    return check_numbers(part);
  }
  size_t size = 0;
  (void)numbers_of(part, &size);
  uint64_t total = 0;
  uint64_t some = 0;
  for (size_t row = 0; row < part->rows; row++) {
    if (is_present(part, row)) {
      total += number_at(part, row);
      some = 1;
    }
  }
  unsigned unused = 64 - 8 * (unsigned)size;
  uint64_t low = is_signed(part) ? (uint64_t)((int64_t)(total << unused) >> unused)
                                 : total << unused >> unused;
  sum->low = low;
  sum->high = is_signed(part) && (int64_t)low < 0 ? UINT64_MAX : 0;
  sum->exists = some;
  return DONE;
}

static int size_of(const struct part *part) {
  size_t size = 0;
  (void)numbers_of(part, &size);
  return (int)size;
}

/* Returns a number of a column as one of 128 bits. */
static struct dunkelva_number number_of(const struct part *part, uint64_t low) {
  struct dunkelva_number number = {low, is_signed(part) && (int64_t)low < 0 ? UINT64_MAX : 0, 1};
  return number;
}

int32_t dunkelva_part_min_max(const struct part *part, struct dunkelva_number *least,
                              struct dunkelva_number *greatest) {
  if (check_numbers(part) != DONE) {
    return check_numbers(part);
  }
  struct dunkelva_number none = {0, 0, 0};
  *least = *greatest = none;
  for (size_t row = 0; row < part->rows; row++) {
    if (is_present(part, row)) {
      uint64_t number = number_at(part, row);
      if (least->exists == 0 || passes(2, number, least->low, is_signed(part))) {
        *least = number_of(part, number);
      }
      if (greatest->exists == 0 || passes(4, number, greatest->low, is_signed(part))) {
        *greatest = number_of(part, number);
      }
    }
  }
  return DONE;
}

/* Says whether the type of a column has a number. */
static bool has_number(const struct part *part, uint64_t low, uint64_t high) {
  int bits = 8 * size_of(part);
  if (!is_signed(part)) {
    return high == 0 && (bits == 64 || low >> bits == 0);
  }
  int64_t value = (int64_t)low;
  return high == (value < 0 ? UINT64_MAX : 0) &&
         (bits == 64 || (value >= -((int64_t)1 << (bits - 1)) && value < (int64_t)1 << (bits - 1)));
}

int32_t dunkelva_part_compare_number(uint32_t test, const struct part *part, uint64_t low,
                                     uint64_t high, uint64_t *out, size_t out_len) {
  if (test > 5) {
    return NOT_SERVED;
  }
  if (check_numbers(part) != DONE) {
    return check_numbers(part);
  }
  if (!has_number(part, low, high)) {
    return OTHER_TYPES;
  }
  if (out_len < (part->rows + 63) / 64) {
    return NO_ROOM;
  }
  memset(out, 0, out_len * sizeof *out);
  for (size_t row = 0; row < part->rows; row++) {
    bool holds = is_present(part, row) ? passes(test, number_at(part, row), low, is_signed(part))
                                       : test == 1;
    out[row / 64] |= (uint64_t)holds << (row % 64);
  }
  return DONE;
}

int32_t dunkelva_part_reduce_bits(uint32_t join, const struct part *part,
                                  struct dunkelva_number *result) {
  if (join > 2) {
    return NOT_SERVED;
  }
  if (check_numbers(part) != DONE) {
    return check_numbers(part);
  }
  struct dunkelva_number joined = {0, 0, 0};
  for (size_t row = 0; row < part->rows; row++) {
    if (is_present(part, row)) {
      uint64_t x = number_at(part, row);
      uint64_t before = joined.exists == 0 ? x : joined.low;
      uint64_t both[] = {before & x, before | x, joined.exists == 0 ? x : before ^ x};
      joined = number_of(part, both[join]);
    }
  }
  *result = joined;
  return DONE;
}

/* Counts bits, one by one. */
static uint32_t count_bits(uint32_t which, uint64_t number, int bits) {
  uint32_t counted = 0;
  uint64_t wanted = which % 2 == 0;
  for (int i = 0; i < bits; i++) {
    int place = which < 4 ? bits - 1 - i : i;
    if ((number >> place & 1) == wanted) {
      counted++;
    } else if (which > 1) {
      break;
    }
  }
  return counted;
}

int32_t dunkelva_part_count_bits(uint32_t bits, const struct part *part, uint32_t *counts,
                                 size_t counts_len) {
  if (bits > 5) {
    return NOT_SERVED;
  }
  if (check_numbers(part) != DONE) {
    return check_numbers(part);
  }
  if (counts_len != part->rows) {
    return NO_ROOM;
  }
  for (size_t row = 0; row < part->rows; row++) {
    counts[row] = count_bits(bits, number_at(part, row), 8 * size_of(part));
  }
  return DONE;
}

/* Room for results, of numbers of each size. */
struct results {
  void *signed_values[4];
  void *values[4];
  size_t signed_len[4];
  size_t len[4];
  uint64_t *present;
  size_t present_len;
  uint64_t *nulls;
};

#define RESULTS                                                                                \
  {                                                                                            \
    {i8s, i16s, i32s, i64s}, {u8s, u16s, u32s, u64s}, {i8s_len, i16s_len, i32s_len, i64s_len}, \
        {u8s_len, u16s_len, u32s_len, u64s_len}, present, present_len, nulls                   \
  }

/* Says whether there is room for as many numbers as there are rows. */
static bool has_room(const struct part *part, const struct results *results) {
  int place = size_of(part) == 8 ? 3 : size_of(part) / 2;
  size_t len = is_signed(part) ? results->signed_len[place] : results->len[place];
  return len == part->rows && results->present_len >= (part->rows + 63) / 64;
}

/* Writes a result, cut to the size of the numbers, or that it is null. */
static void write_result(const struct part *part, const struct results *results, size_t row,
                         bool exists, uint64_t number) {
  int place = size_of(part) == 8 ? 3 : size_of(part) / 2;
  size_t size = (size_t)size_of(part);
  uint8_t *values = is_signed(part) ? results->signed_values[place] : results->values[place];
  memcpy(values + row * size, &number, size);
  results->present[row / 64] |= (uint64_t)exists << (row % 64);
  *results->nulls += !exists;
}

/* Divides, and returns the quotient that is rounded down, the one that is rounded toward 0, or the
 * remainder of the former. */
static uint64_t divide(uint32_t operation, uint64_t x, uint64_t y, bool with_sign) {
  if (!with_sign) {
    return operation == 5 ? x % y : x / y;
  }
  bool flips = (int64_t)y == -1; /* the least number by -1 is no number of C */
  uint64_t quotient = flips ? 0 - x : (uint64_t)((int64_t)x / (int64_t)y);
  uint64_t rest = x - quotient * y;
  bool across = rest != 0 && ((int64_t)rest < 0) != ((int64_t)y < 0);
  uint64_t results[] = {quotient - across, quotient, rest + (across ? y : 0)};
  return results[operation - 3];
}

static uint64_t operate(uint32_t operation, uint64_t x, uint64_t y, bool with_sign) {
  switch (operation) {
  case 0:
    return x + y;
  case 1:
    return x - y;
  case 2:
    return x * y;
  default:
    return y == 0 ? 0 : divide(operation, x, y, with_sign);
  }
}

int32_t dunkelva_parts_arithmetic(uint32_t operation, const struct part *left,
                                  const struct part *right, ROOM_FOR_NUMBERS) {
  const struct results results = RESULTS;
  if (operation > 5) {
    return NOT_SERVED;
  }
  if (left->kind != right->kind || left->rows != right->rows) {
    return OTHER_TYPES;
  }
  if (check_numbers(left) != DONE || check_numbers(right) != DONE) {
    return check_numbers(left) != DONE ? check_numbers(left) : check_numbers(right);
  }
  if (!has_room(left, &results)) {
    return NO_ROOM;
  }
  *nulls = 0;
  memset(present, 0, present_len * sizeof *present);
  for (size_t row = 0; row < left->rows; row++) {
    uint64_t x = number_at(left, row);
    uint64_t y = number_at(right, row);
    bool exists = is_present(left, row) && is_present(right, row) && (operation < 3 || y != 0);
    write_result(left, &results, row, exists, operate(operation, x, y, is_signed(left)));
  }
  return DONE;
}

int32_t dunkelva_part_arithmetic_number(uint32_t operation, uint32_t side, uint64_t low,
                                        uint64_t high, const struct part *part, ROOM_FOR_NUMBERS) {
  const struct results results = RESULTS;
  if (operation > 5 || side > 1) {
    return NOT_SERVED;
  }
  if (check_numbers(part) != DONE) {
    return check_numbers(part);
  }
  if (!has_number(part, low, high)) {
    return OTHER_TYPES;
  }
  if (!has_room(part, &results)) {
    return NO_ROOM;
  }
  *nulls = 0;
  memset(present, 0, present_len * sizeof *present);
  for (size_t row = 0; row < part->rows; row++) {
    uint64_t number = number_at(part, row);
    uint64_t x = side == 0 ? low : number;
    uint64_t y = side == 0 ? number : low;
    bool exists = is_present(part, row) && (operation < 3 || y != 0);
    write_result(part, &results, row, exists, operate(operation, x, y, is_signed(part)));
  }
  return DONE;
}

int32_t dunkelva_part_sign(uint32_t sign, const struct part *part, ROOM_FOR_NUMBERS) {
  const struct results results = RESULTS;
  if (sign > 1) {
    return NOT_SERVED;
  }
  if (check_numbers(part) != DONE) {
    return check_numbers(part);
  }
  if (!has_room(part, &results)) {
    return NO_ROOM;
  }
  *nulls = 0;
  memset(present, 0, present_len * sizeof *present);
  for (size_t row = 0; row < part->rows; row++) {
    uint64_t number = number_at(part, row);
    bool flips = sign == 0 || (is_signed(part) && (int64_t)number < 0);
    write_result(part, &results, row, is_present(part, row), flips ? 0 - number : number);
  }
  return DONE;
}

/* Numbers of 128 bits in two's complement. */
__extension__ typedef __int128 whole;

static whole whole_of(const struct dunkelva_number *number) {
  return (whole)(((unsigned __int128)number->high << 64) | number->low);
}

/* Finds how many numbers a range has. */
static int32_t check_state(const struct dunkelva_number *least,
                           const struct dunkelva_number *greatest, size_t words, uint64_t *count) {
  if (whole_of(greatest) < whole_of(least)) {
    return 7;
  }
  unsigned __int128 distance =
      (unsigned __int128)whole_of(greatest) - (unsigned __int128)whole_of(least);
  if (distance > UINT64_MAX - 2) {
    return 7;
  }
  *count = (uint64_t)distance + 1;
  return words < (*count - 1) / 64 + 1 ? NO_ROOM : DONE;
}

int32_t dunkelva_state_append(const struct part *part, const struct dunkelva_number *least,
                              const struct dunkelva_number *greatest, uint64_t *words,
                              size_t words_len, uint64_t *has_null) {
  uint64_t count = 0;
  int32_t status = check_state(least, greatest, words_len, &count);
  if (status == DONE) {
    status = check_numbers(part);
  }
  if (status == DONE && !(has_number(part, least->low, least->high) &&
                          has_number(part, greatest->low, greatest->high))) {
    status = OTHER_TYPES;
  }
  for (int turn = 0; status == DONE && turn < 2; turn++) {
    for (size_t row = 0; row < part->rows; row++) {
      struct dunkelva_number number = number_of(part, number_at(part, row));
      whole place = whole_of(&number) - whole_of(least);
      if (!is_present(part, row)) {
        *has_null |= (uint64_t)turn;
      } else if (place < 0 || place >= (whole)count) {
        return 8;
      } else {
        words[place / 64] |= (uint64_t)turn << (place % 64);
      }
    }
  }
  return status;
}

static bool is_seen(const uint64_t *words, uint64_t place) {
  return (words[place / 64] >> (place % 64) & 1) != 0;
}

int32_t dunkelva_state_merge(const struct dunkelva_number *least,
                             const struct dunkelva_number *greatest, uint64_t *words,
                             size_t words_len, uint64_t *has_null, const uint64_t *others,
                             size_t others_len, uint64_t others_null) {
  uint64_t count = 0;
  int32_t status =
      check_state(least, greatest, words_len < others_len ? words_len : others_len, &count);
  for (uint64_t place = 0; status == DONE && place < count; place++) {
    words[place / 64] |= (uint64_t)is_seen(others, place) << (place % 64);
  }
  if (status == DONE && others_null != 0) {
    *has_null = 1;
  }
  return status;
}

int32_t dunkelva_state_count(const struct dunkelva_number *least,
                             const struct dunkelva_number *greatest, const uint64_t *words,
                             size_t words_len, uint64_t has_null, uint64_t *values,
                             uint64_t *rows) {
  uint64_t count = 0;
  uint64_t seen = 0;
  int32_t status = check_state(least, greatest, words_len, &count);
  for (uint64_t place = 0; place < count; place++) {
    seen += status == DONE && is_seen(words, place);
  }
  if (status == DONE) {
    *values = seen;
    *rows = seen + (has_null != 0);
  }
  return status;
}

int32_t dunkelva_state_list(const struct dunkelva_number *least,
                            const struct dunkelva_number *greatest, const uint64_t *words,
                            size_t words_len, uint64_t has_null, uint64_t *values,
                            size_t values_len, uint64_t *any_null) {
  uint64_t count = 0;
  uint64_t seen = 0;
  uint64_t rows = 0;
  int32_t status = dunkelva_state_count(least, greatest, words, words_len, has_null, &seen, &rows);
  if (status == DONE && values_len < seen) {
    return NO_ROOM;
  }
  if (status != DONE || check_state(least, greatest, words_len, &count) != DONE) {
    return status;
  }
  for (uint64_t place = 0; place < count; place++) {
    if (is_seen(words, place)) {
      *values++ = least->low + place;
    }
  }
  *any_null = rows - seen;
  return DONE;
}

#endif
