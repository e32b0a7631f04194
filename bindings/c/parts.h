/* The exports of the proved kernels, and the parts that they take. A slice of Rattle is passed as a
 * pointer and a length.
 *
 * A part describes one array of a column. The part of an array comes before the parts of the arrays
 * in it: a list before its items, a struct before its fields in order, a dictionary before its
 * entries. */
#ifndef DUNKELVA_PARTS_H
#define DUNKELVA_PARTS_H

#include "dunkelva.h"

/* `len` elements of one type. `data` is never null, and is a multiple of the size of an element. */
struct slice {
  const void *data;
  size_t len;
};

/* The kinds of arrays. The proved kernels use the same numbers. */
enum kind {
  KIND_NONE = 0,
  KIND_NULL = 1,
  KIND_BOOLEAN = 2,
  KIND_INT8 = 3,
  KIND_INT16 = 4,
  KIND_INT32 = 5,
  KIND_INT64 = 6,
  KIND_INT128 = 7,
  KIND_UINT8 = 8,
  KIND_UINT16 = 9,
  KIND_UINT32 = 10,
  KIND_UINT64 = 11,
  KIND_UINT128 = 12,
  KIND_BINARY = 13,
  KIND_LARGE_BINARY = 14,
  KIND_UTF8 = 15,
  KIND_LARGE_UTF8 = 16,
  KIND_FIXED_SIZE_BINARY = 17,
  KIND_LIST = 18,
  KIND_LARGE_LIST = 19,
  KIND_FIXED_SIZE_LIST = 20,
  KIND_STRUCT = 21,
  KIND_DICT_INT8 = 22,
  KIND_DICT_INT16 = 23,
  KIND_DICT_INT32 = 24,
  KIND_DICT_INT64 = 25,
  KIND_DICT_UINT8 = 26,
  KIND_DICT_UINT16 = 27,
  KIND_DICT_UINT32 = 28,
  KIND_DICT_UINT64 = 29,
  KIND_BINARY_VIEW = 30,
  KIND_UTF8_VIEW = 31
};

/* A window of rows of one array, without the arrays in it. Each kind uses some of the slices; all
 * other slices are empty. */
struct part {
  uint32_t kind;
  uint32_t children; /* the number of arrays directly in this array */
  size_t rows;
  size_t width;         /* bytes or items of a row, if all rows have the same size */
  size_t first_bit;     /* the first bit of `present` and of truth values, in their first byte */
  size_t base;          /* the offset of the first byte or item in the slices */
  struct slice name;    /* the name of a field of a struct, else empty */
  struct slice present; /* the validity, a bit for each row; empty if no row is null */
  struct slice i8s, i16s, i32s, i64s;
  struct slice u8s; /* also truth values as bits, byte strings, and views of 16 bytes */
  struct slice u16s, u32s;
  struct slice u64s;    /* also numbers of 128 bits, as pairs with the lower half first */
  struct slice buffers; /* a slice of slices: the buffers to which views point */
};

int32_t dunkelva_parts_equal(const struct part *left, size_t left_len, const struct part *right,
                             size_t right_len, uint64_t *out, size_t out_len, uint64_t *comparisons,
                             size_t comparisons_len);

int32_t dunkelva_parts_are_null(const struct part *parts, size_t len, uint64_t *out, size_t out_len,
                                uint64_t *count);

/* The calls up to `dunkelva_part_count_bits` take one part for each column. */
int32_t dunkelva_parts_equal_lent(const struct part *left, const struct part *right, uint64_t *out,
                                  size_t out_len);
int32_t dunkelva_parts_compare(uint32_t test, const struct part *left, const struct part *right,
                               uint64_t *out, size_t out_len);
int32_t dunkelva_part_is_null(const struct part *part, uint64_t *out, size_t out_len,
                              uint64_t *count);
int32_t dunkelva_part_sum(const struct part *part, struct dunkelva_number *sum);
int32_t dunkelva_part_min_max(const struct part *part, struct dunkelva_number *least,
                              struct dunkelva_number *greatest);
int32_t dunkelva_part_compare_number(uint32_t test, const struct part *part, uint64_t low,
                                     uint64_t high, uint64_t *out, size_t out_len);
int32_t dunkelva_part_reduce_bits(uint32_t join, const struct part *part,
                                  struct dunkelva_number *result);
int32_t dunkelva_part_count_bits(uint32_t bits, const struct part *part, uint32_t *counts,
                                 size_t counts_len);

/* The parameters for results of arithmetic: a slice for each type of integers, the validity of the
 * results as bits, and the number of results that are null. Only the slice of the column's own type
 * is not empty. */
#define ROOM_FOR_NUMBERS                                                                       \
  int8_t *i8s, size_t i8s_len, int16_t *i16s, size_t i16s_len, int32_t *i32s, size_t i32s_len, \
      int64_t *i64s, size_t i64s_len, uint8_t *u8s, size_t u8s_len, uint16_t *u16s,            \
      size_t u16s_len, uint32_t *u32s, size_t u32s_len, uint64_t *u64s, size_t u64s_len,       \
      uint64_t *present, size_t present_len, uint64_t *nulls

int32_t dunkelva_parts_arithmetic(uint32_t operation, const struct part *left,
                                  const struct part *right, ROOM_FOR_NUMBERS);
int32_t dunkelva_part_arithmetic_number(uint32_t operation, uint32_t side, uint64_t low,
                                        uint64_t high, const struct part *part, ROOM_FOR_NUMBERS);
int32_t dunkelva_part_sign(uint32_t sign, const struct part *part, ROOM_FOR_NUMBERS);

/* The calls below take a state of distinct values: the ends of its range, its bits, and a number
 * that is not 0 if a null was seen. They return 7 (DUNKELVA_BAD_ARGUMENT) if the ends make no
 * range, and 8 (DUNKELVA_OUT_OF_RANGE) if a row is outside of the range. */
int32_t dunkelva_state_append(const struct part *part, const struct dunkelva_number *least,
                              const struct dunkelva_number *greatest, uint64_t *words,
                              size_t words_len, uint64_t *has_null);
int32_t dunkelva_state_merge(const struct dunkelva_number *least,
                             const struct dunkelva_number *greatest, uint64_t *words,
                             size_t words_len, uint64_t *has_null, const uint64_t *others,
                             size_t others_len, uint64_t others_null);
int32_t dunkelva_state_count(const struct dunkelva_number *least,
                             const struct dunkelva_number *greatest, const uint64_t *words,
                             size_t words_len, uint64_t has_null, uint64_t *values, uint64_t *rows);
int32_t dunkelva_state_list(const struct dunkelva_number *least,
                            const struct dunkelva_number *greatest, const uint64_t *words,
                            size_t words_len, uint64_t has_null, uint64_t *values,
                            size_t values_len, uint64_t *any_null);

#endif
