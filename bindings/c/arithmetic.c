/* Arithmetic on columns of numbers. The kernels read the numbers of the columns in place, and write
 * results directly to the caller's memory. */
#include "shim.h"

#include <stdlib.h>
#include <string.h>

/* The number of types of integers. */
enum { TYPES = 8 };

/* The memory for results, as the kernels take it: a slice for each type of integers. Only the slice
 * of the column's type is not empty. */
struct room {
  void *values[TYPES];
  size_t len[TYPES];
  uint64_t *words; /* the validity, a bit for each row, until the call has succeeded */
  int64_t rows;
  uint64_t nulls; /* the number of results that are null */
};

/* The caller's memory for results. */
struct out {
  void *values;
  size_t values_len;
  const uint8_t *present;
  size_t present_bytes;
};

/* The arguments for the parameters ROOM_FOR_NUMBERS. */
#define IN_ROOM(room)                                                                          \
  (room)->values[0], (room)->len[0], (room)->values[1], (room)->len[1], (room)->values[2],     \
      (room)->len[2], (room)->values[3], (room)->len[3], (room)->values[4], (room)->len[4],    \
      (room)->values[5], (room)->len[5], (room)->values[6], (room)->len[6], (room)->values[7], \
      (room)->len[7], (room)->words, (size_t)words_for_bits((room)->rows), &(room)->nulls

/* Returns the index of a kind among the types of integers: first the signed types by their size,
 * then the unsigned types. */
static size_t place_of(uint32_t kind) {
  return kind <= KIND_INT64 ? kind - KIND_INT8 : kind - KIND_UINT8 + TYPES / 2;
}

/* Returns the size of an integer of a kind, in bytes. */
static size_t size_of(uint32_t kind) { return (size_t)1 << (place_of(kind) % (TYPES / 2)); }

/* Returns the slice with the integers of a part. */
static struct slice numbers_of(const struct part *part) {
  const struct slice lent[TYPES] = {part->i8s, part->i16s, part->i32s, part->i64s,
                                    part->u8s, part->u16s, part->u32s, part->u64s};
  return lent[place_of(part->kind)];
}

/* Returns whether the caller's memory for values overlaps the integers of a part. */
static bool overlap(const struct part *part, const struct out *out) {
  uintptr_t lent = (uintptr_t)numbers_of(part).data;
  uintptr_t values = (uintptr_t)out->values;
  size_t bytes = part->rows * size_of(part->kind);
  return lent < values + bytes && values < lent + bytes;
}

/* Checks the caller's memory for results, sets the slice of the part's type to that memory, and
 * allocates memory for the validity. */
static int32_t take_room(struct room *room, const struct part *part, const struct out *out) {
  static uint64_t none[1] = {0}; /* the address of empty slices, which is not null */
  room->rows = (int64_t)part->rows;
  if (part->rows > 0 && (out->values == NULL || out->present == NULL)) {
    return DUNKELVA_BAD_ARGUMENT;
  }
  if ((uintptr_t)out->values % size_of(part->kind) != 0 || overlap(part, out)) {
    return DUNKELVA_BAD_ARGUMENT;
  }
  if (out->values_len < part->rows || out->present_bytes < (size_t)bytes_for_bits(room->rows)) {
    return DUNKELVA_NO_ROOM;
  }
  for (size_t i = 0; i < TYPES; i++) {
    room->values[i] = none;
  }
  if (part->rows > 0) {
    room->values[place_of(part->kind)] = out->values;
    room->len[place_of(part->kind)] = part->rows;
  }
  room->words = malloc(((size_t)words_for_bits(room->rows) + 1) * sizeof *room->words);
  return room->words == NULL ? DUNKELVA_NO_MEMORY : DUNKELVA_OK;
}

/* Copies the validity and the number of nulls to the caller if `status` is DUNKELVA_OK, frees the
 * memory for the validity, and returns `status`. */
static int32_t give_room(const struct room *room, int32_t status, uint8_t *present,
                         uint64_t *nulls) {
  if (status == DUNKELVA_OK && room->rows > 0) {
    memcpy(present, room->words, (size_t)bytes_for_bits(room->rows));
  }
  if (status == DUNKELVA_OK && nulls != NULL) {
    *nulls = room->nulls;
  }
  free(room->words);
  return status;
}

/* Calculates with two described columns. Fails if their types or lengths differ. */
static int32_t calculate(uint32_t operation, const struct column *left, const struct column *right,
                         struct room *room, const struct out *out) {
  if (!dunkelva_same_formats(left->type, right->type) ||
      left->array->length != right->array->length) {
    return DUNKELVA_TYPES_DIFFER;
  }
  TRY(take_room(room, left->parts, out));
  if (overlap(right->parts, out)) {
    return DUNKELVA_BAD_ARGUMENT;
  }
  return dunkelva_parts_arithmetic(operation, left->parts, right->parts, IN_ROOM(room));
}

int32_t dunkelva_arithmetic(enum dunkelva_operation operation, const struct ArrowSchema *left_type,
                            const struct ArrowArray *left, const struct ArrowSchema *right_type,
                            const struct ArrowArray *right, void *values, size_t values_len,
                            uint8_t *present, size_t present_bytes, uint64_t *nulls) {
  struct column left_column;
  struct column right_column;
  struct room room = {.words = NULL};
  struct out out = {values, values_len, present, present_bytes};
  int32_t left_status = dunkelva_open_numbers(&left_column, left_type, left);
  int32_t right_status = dunkelva_open_numbers(&right_column, right_type, right);
  int32_t status = left_status != DUNKELVA_OK ? left_status : right_status;
  if (status == DUNKELVA_OK) {
    status = calculate((uint32_t)operation, &left_column, &right_column, &room, &out);
  }
  dunkelva_close(&left_column);
  dunkelva_close(&right_column);
  return give_room(&room, status, present, nulls);
}

int32_t dunkelva_arithmetic_number(enum dunkelva_operation operation, enum dunkelva_side side,
                                   const struct dunkelva_number *number,
                                   const struct ArrowSchema *type, const struct ArrowArray *array,
                                   void *values, size_t values_len, uint8_t *present,
                                   size_t present_bytes, uint64_t *nulls) {
  struct column column;
  struct room room = {.words = NULL};
  struct out out = {values, values_len, present, present_bytes};
  int32_t status = dunkelva_open_numbers(&column, type, array);
  if (status == DUNKELVA_OK && (number == NULL || number->exists == 0)) {
    status = DUNKELVA_BAD_ARGUMENT;
  }
  if (status == DUNKELVA_OK) {
    status = take_room(&room, column.parts, &out);
  }
  if (status == DUNKELVA_OK) {
    status = dunkelva_part_arithmetic_number((uint32_t)operation, (uint32_t)side, number->low,
                                             number->high, column.parts, IN_ROOM(&room));
  }
  dunkelva_close(&column);
  return give_room(&room, status, present, nulls);
}

int32_t dunkelva_sign(enum dunkelva_sign_function sign, const struct ArrowSchema *type,
                      const struct ArrowArray *array, void *values, size_t values_len,
                      uint8_t *present, size_t present_bytes, uint64_t *nulls) {
  struct column column;
  struct room room = {.words = NULL};
  struct out out = {values, values_len, present, present_bytes};
  int32_t status = dunkelva_open_numbers(&column, type, array);
  if (status == DUNKELVA_OK) {
    status = take_room(&room, column.parts, &out);
  }
  if (status == DUNKELVA_OK) {
    status = dunkelva_part_sign((uint32_t)sign, column.parts, IN_ROOM(&room));
  }
  dunkelva_close(&column);
  return give_room(&room, status, present, nulls);
}
