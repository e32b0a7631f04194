/* Calls on columns of numbers, and null rows of all columns. A column is passed to the kernels in
 * one piece, and its numbers are not copied if they are aligned. Only the null rows of dictionaries
 * are found window by window. */
#include "shim.h"

#include <stdlib.h>
#include <string.h>

/* The results of a call, a bit for each row. They are copied to the caller's memory after the call
 * has succeeded. */
struct bits {
  uint64_t *words;
  int64_t rows;
};

/* Allocates memory for a bit for each row. Fails if the caller's memory `out` is null or too small.
 */
static int32_t take_bits(struct bits *bits, int64_t rows, const uint8_t *out, size_t out_bytes) {
  bits->rows = rows;
  if (out == NULL && rows > 0) {
    return DUNKELVA_BAD_ARGUMENT;
  }
  if (out_bytes < (size_t)bytes_for_bits(rows)) {
    return DUNKELVA_NO_ROOM;
  }
  bits->words = malloc(((size_t)words_for_bits(rows) + 1) * sizeof *bits->words);
  return bits->words == NULL ? DUNKELVA_NO_MEMORY : DUNKELVA_OK;
}

/* Copies the bits to `out` if `status` is DUNKELVA_OK, frees them, and returns `status`. */
static int32_t give_bits(struct bits *bits, int32_t status, uint8_t *out) {
  if (status == DUNKELVA_OK && bits->rows > 0) {
    memcpy(out, bits->words, (size_t)bytes_for_bits(bits->rows));
  }
  free(bits->words);
  return status;
}

/* Finds the null rows of a dictionary, window by window, and adds their number to `count`. A row is
 * null if its key is null, or if the entry that the key names is null. */
static int32_t null_entries(struct column *column, struct bits *bits, uint64_t *count) {
  int64_t window = dunkelva_window(column);
  int64_t done = 0;
  do { /* also once if there are no rows, so that the entries are checked */
    int64_t rows = window < bits->rows - done ? window : bits->rows - done;
    uint64_t nulls = 0;
    TRY(dunkelva_describe(column, done, rows));
    TRY(dunkelva_parts_are_null(column->parts, column->extent.parts, bits->words + done / 64,
                                (size_t)words_for_bits(rows), &nulls));
    *count += nulls;
    done += rows;
  } while (done < bits->rows);
  return DUNKELVA_OK;
}

/* Finds the null rows of a column. For all types except dictionaries and the null type, the
 * validity alone says which rows are null. So only the validity is passed to the kernel, as the
 * validity of a column of truth values. */
static int32_t is_null(struct column *column, struct bits *bits, const struct ArrowSchema *type,
                       const struct ArrowArray *array, const uint8_t *out, size_t out_bytes,
                       uint64_t *count) {
  TRY(dunkelva_open(column, type, array, DUNKELVA_FLOATS_BY_BITS));
  if (type->dictionary != NULL) {
    TRY(take_bits(bits, array->length, out, out_bytes));
    return null_entries(column, bits, count);
  }
  TRY(dunkelva_describe(column, 0, array->length));
  if (column->parts->kind != KIND_NULL) {
    column->parts->kind = KIND_BOOLEAN;
  }
  TRY(take_bits(bits, array->length, out, out_bytes));
  return dunkelva_part_is_null(column->parts, bits->words, (size_t)words_for_bits(bits->rows),
                               count);
}

int32_t dunkelva_is_null(const struct ArrowSchema *type, const struct ArrowArray *array,
                         uint8_t *out, size_t out_bytes, uint64_t *count) {
  struct column column;
  struct bits bits = {NULL, 0};
  uint64_t nulls = 0;
  int32_t status = is_null(&column, &bits, type, array, out, out_bytes, &nulls);
  if (status == DUNKELVA_OK && count != NULL) {
    *count = nulls;
  }
  dunkelva_close(&column);
  return give_bits(&bits, status, out);
}

/* Compares two described columns of numbers, and stores the results in `bits`. */
static int32_t compare(uint32_t test, struct column *left, struct column *right, struct bits *bits,
                       const uint8_t *out, size_t out_bytes) {
  if (!dunkelva_same_formats(left->type, right->type) ||
      left->array->length != right->array->length) {
    return DUNKELVA_TYPES_DIFFER;
  }
  TRY(take_bits(bits, left->array->length, out, out_bytes));
  return dunkelva_parts_compare(test, left->parts, right->parts, bits->words,
                                (size_t)words_for_bits(bits->rows));
}

int32_t dunkelva_compare(enum dunkelva_test test, const struct ArrowSchema *left_type,
                         const struct ArrowArray *left, const struct ArrowSchema *right_type,
                         const struct ArrowArray *right, uint8_t *out, size_t out_bytes) {
  struct column left_column;
  struct column right_column;
  struct bits bits = {NULL, 0};
  int32_t left_status = dunkelva_open_numbers(&left_column, left_type, left);
  int32_t right_status = dunkelva_open_numbers(&right_column, right_type, right);
  int32_t status = left_status != DUNKELVA_OK ? left_status : right_status;
  if (status == DUNKELVA_OK) {
    status = compare((uint32_t)test, &left_column, &right_column, &bits, out, out_bytes);
  }
  dunkelva_close(&left_column);
  dunkelva_close(&right_column);
  return give_bits(&bits, status, out);
}

int32_t dunkelva_sum(const struct ArrowSchema *type, const struct ArrowArray *array,
                     struct dunkelva_number *sum) {
  struct column column;
  int32_t status = dunkelva_open_numbers(&column, type, array);
  if (status == DUNKELVA_OK) {
    status = sum == NULL ? DUNKELVA_BAD_ARGUMENT : dunkelva_part_sum(column.parts, sum);
  }
  dunkelva_close(&column);
  return status;
}

int32_t dunkelva_min_max(const struct ArrowSchema *type, const struct ArrowArray *array,
                         struct dunkelva_number *least, struct dunkelva_number *greatest) {
  struct column column;
  int32_t status = dunkelva_open_numbers(&column, type, array);
  if (status == DUNKELVA_OK) {
    status = least == NULL || greatest == NULL
                 ? DUNKELVA_BAD_ARGUMENT
                 : dunkelva_part_min_max(column.parts, least, greatest);
  }
  dunkelva_close(&column);
  return status;
}

/* Compares a described column of numbers with a number, and stores the results in `bits`. */
static int32_t compare_number(uint32_t test, const struct column *column,
                              const struct dunkelva_number *number, struct bits *bits,
                              const uint8_t *out, size_t out_bytes) {
  if (number == NULL || number->exists == 0) {
    return DUNKELVA_BAD_ARGUMENT;
  }
  TRY(take_bits(bits, column->array->length, out, out_bytes));
  return dunkelva_part_compare_number(test, column->parts, number->low, number->high, bits->words,
                                      (size_t)words_for_bits(bits->rows));
}

int32_t dunkelva_compare_number(enum dunkelva_test test, const struct ArrowSchema *type,
                                const struct ArrowArray *array,
                                const struct dunkelva_number *number, uint8_t *out,
                                size_t out_bytes) {
  struct column column;
  struct bits bits = {NULL, 0};
  int32_t status = dunkelva_open_numbers(&column, type, array);
  if (status == DUNKELVA_OK) {
    status = compare_number((uint32_t)test, &column, number, &bits, out, out_bytes);
  }
  dunkelva_close(&column);
  return give_bits(&bits, status, out);
}

int32_t dunkelva_reduce_bits(enum dunkelva_join join, const struct ArrowSchema *type,
                             const struct ArrowArray *array, struct dunkelva_number *result) {
  struct column column;
  int32_t status = dunkelva_open_numbers(&column, type, array);
  if (status == DUNKELVA_OK) {
    status = result == NULL ? DUNKELVA_BAD_ARGUMENT
                            : dunkelva_part_reduce_bits((uint32_t)join, column.parts, result);
  }
  dunkelva_close(&column);
  return status;
}

int32_t dunkelva_count_bits(enum dunkelva_bits bits, const struct ArrowSchema *type,
                            const struct ArrowArray *array, uint32_t *counts, size_t counts_len) {
  struct column column;
  uint32_t none[1] = {0};
  int32_t status = dunkelva_open_numbers(&column, type, array);
  if (status == DUNKELVA_OK && counts == NULL && array->length > 0) {
    status = DUNKELVA_BAD_ARGUMENT;
  } else if (status == DUNKELVA_OK && counts_len < (size_t)array->length) {
    status = DUNKELVA_NO_ROOM;
  } else if (status == DUNKELVA_OK) {
    status = dunkelva_part_count_bits((uint32_t)bits, column.parts, counts == NULL ? none : counts,
                                      (size_t)array->length);
  }
  dunkelva_close(&column);
  return status;
}
