/* Equality of two columns. The rows are compared a window at a time. */
#include "shim.h"

#include <stdlib.h>
#include <string.h>

/* Rows of two columns, and their results. The results are written to the caller's memory only after
 * all windows have succeeded. */
struct pair {
  struct column left;
  struct column right;
  int64_t left_first;
  int64_t right_first;
  int64_t rows;
  uint64_t *words;       /* the results, a bit for each row */
  uint64_t *comparisons; /* null if comparisons are not counted */
};

/* Returns whether a column has `rows` rows from row `first` on. */
static bool has_rows(const struct ArrowArray *array, int64_t first, int64_t rows) {
  return first >= 0 && rows >= 0 && first <= array->length && rows <= array->length - first;
}

/* Describes the next `count` rows of both columns. `done` rows were compared before. */
static int32_t describe_window(struct pair *pair, int64_t done, int64_t count) {
  TRY(dunkelva_describe(&pair->left, pair->left_first + done, count));
  return dunkelva_describe(&pair->right, pair->right_first + done, count);
}

/* Returns whether both columns are passed to the kernel that takes only numbers. This kernel counts
 * no comparisons. */
static bool are_lent(const struct pair *pair) {
  return pair->comparisons == NULL && dunkelva_is_integers(&pair->left) &&
         dunkelva_is_integers(&pair->right);
}

/* Compares the `count` described rows, and writes their bits to `out`. */
static int32_t compare_parts(struct pair *pair, uint64_t *out, int64_t count) {
  struct column *left = &pair->left;
  struct column *right = &pair->right;
  size_t words = (size_t)words_for_bits(count);
  if (are_lent(pair)) {
    return dunkelva_parts_equal_lent(left->parts, right->parts, out, words);
  }
  uint64_t comparisons = 0;
  TRY(dunkelva_parts_equal(left->parts, left->extent.parts, right->parts, right->extent.parts, out,
                           words, &comparisons, 1));
  if (pair->comparisons != NULL) {
    *pair->comparisons += comparisons;
  }
  return DUNKELVA_OK;
}

/* Returns how many rows of a pair make a window: a multiple of 64. Both columns must be described.
 */
static int64_t window_of(const struct pair *pair) {
  int64_t left = dunkelva_window(&pair->left);
  int64_t right = dunkelva_window(&pair->right);
  if (are_lent(pair)) {
    return LENT_ROWS;
  }
  return left < right ? right : left;
}

/* Compares all rows of a pair, window by window, and writes their bits to pair->words. */
static int32_t compare_windows(struct pair *pair) {
  TRY(describe_window(pair, 0, 0));
  int64_t window = window_of(pair);
  int64_t done = 0;
  do { /* also once if there are no rows, so that the types are compared */
    int64_t count = window < pair->rows - done ? window : pair->rows - done;
    TRY(describe_window(pair, done, count));
    TRY(compare_parts(pair, pair->words + done / 64, count));
    done += count;
  } while (done < pair->rows);
  return DUNKELVA_OK;
}

/* The form of results: a bit for each row, or a byte for each row. */
enum form { AS_BITS, AS_BYTES };

/* Returns how many bytes the results of `rows` rows need. */
static size_t room_for(enum form form, int64_t rows) {
  return (size_t)(form == AS_BITS ? bytes_for_bits(rows) : rows);
}

/* Copies the results of a pair to `out`. All windows must be done. */
static void give(const struct pair *pair, enum form form, uint8_t *out) {
  if (form == AS_BITS) {
    memcpy(out, pair->words, (size_t)bytes_for_bits(pair->rows));
    return;
  }
  size_t rows = (size_t)pair->rows;
  size_t whole = rows / 64;
  dunkelva_spread(pair->words, whole, out);
  for (size_t i = 64 * whole; i < rows; i++) {
    out[i] = (uint8_t)(pair->words[whole] >> (i % 64) & 1);
  }
}

/* Compares the rows of two opened columns, and stores the results in the pair. `out_bytes` is the
 * size of the caller's memory for results. */
static int32_t compare(struct pair *pair, enum form form, size_t out_bytes) {
  if (!dunkelva_same_formats(pair->left.type, pair->right.type) ||
      pair->left.extent.parts != pair->right.extent.parts) {
    return DUNKELVA_TYPES_DIFFER;
  }
  if (!has_rows(pair->left.array, pair->left_first, pair->rows) ||
      !has_rows(pair->right.array, pair->right_first, pair->rows)) {
    return DUNKELVA_BAD_ARGUMENT;
  }
  if (out_bytes < room_for(form, pair->rows)) {
    return DUNKELVA_NO_ROOM;
  }
  pair->words = malloc(((size_t)words_for_bits(pair->rows) + 1) * sizeof *pair->words);
  return pair->words == NULL ? DUNKELVA_NO_MEMORY : compare_windows(pair);
}

/* Opens both columns, compares the rows of the pair, and writes the results to `out`. */
static int32_t compare_columns(struct pair *pair, const struct ArrowSchema *left_type,
                               const struct ArrowArray *left, const struct ArrowSchema *right_type,
                               const struct ArrowArray *right, uint32_t flags, enum form form,
                               uint8_t *out, size_t out_bytes) {
  TRY(dunkelva_check_flags(flags));
  if (out == NULL && pair->rows > 0) {
    return DUNKELVA_BAD_ARGUMENT;
  }
  int32_t left_status = dunkelva_open(&pair->left, left_type, left, flags);
  int32_t right_status = dunkelva_open(&pair->right, right_type, right, flags);
  int32_t status = left_status != DUNKELVA_OK ? left_status : right_status;
  if (status == DUNKELVA_OK) {
    status = compare(pair, form, out_bytes);
  }
  if (status == DUNKELVA_OK && pair->rows > 0) {
    give(pair, form, out);
  }
  free(pair->words);
  dunkelva_close(&pair->left);
  dunkelva_close(&pair->right);
  return status;
}

int32_t dunkelva_equal_rows(const struct ArrowSchema *left_type, const struct ArrowArray *left,
                            int64_t left_first, const struct ArrowSchema *right_type,
                            const struct ArrowArray *right, int64_t right_first, int64_t rows,
                            uint32_t flags, uint8_t *out, size_t out_bytes, uint64_t *comparisons) {
  uint64_t counted = 0;
  struct pair pair = {.left_first = left_first,
                      .right_first = right_first,
                      .rows = rows,
                      .comparisons = comparisons == NULL ? NULL : &counted};
  TRY(compare_columns(&pair, left_type, left, right_type, right, flags, AS_BITS, out, out_bytes));
  if (comparisons != NULL) {
    *comparisons = counted;
  }
  return DUNKELVA_OK;
}

/* Compares all rows of two columns. Returns DUNKELVA_TYPES_DIFFER if their lengths differ. */
static int32_t compare_all(const struct ArrowSchema *left_type, const struct ArrowArray *left,
                           const struct ArrowSchema *right_type, const struct ArrowArray *right,
                           uint32_t flags, enum form form, uint8_t *out, size_t out_bytes) {
  if (left == NULL || right == NULL) {
    return DUNKELVA_BAD_STRUCTS;
  }
  if (left->length != right->length) {
    return DUNKELVA_TYPES_DIFFER;
  }
  struct pair pair = {.rows = left->length};
  return compare_columns(&pair, left_type, left, right_type, right, flags, form, out, out_bytes);
}

int32_t dunkelva_equal(const struct ArrowSchema *left_type, const struct ArrowArray *left,
                       const struct ArrowSchema *right_type, const struct ArrowArray *right,
                       uint32_t flags, uint8_t *out, size_t out_bytes) {
  return compare_all(left_type, left, right_type, right, flags, AS_BITS, out, out_bytes);
}

int32_t dunkelva_equal_bytes(const struct ArrowSchema *left_type, const struct ArrowArray *left,
                             const struct ArrowSchema *right_type, const struct ArrowArray *right,
                             uint32_t flags, uint8_t *out, size_t out_len) {
  return compare_all(left_type, left, right_type, right, flags, AS_BYTES, out, out_len);
}
