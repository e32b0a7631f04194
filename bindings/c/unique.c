/* States of distinct values. A state is in the caller's memory, where the proved kernels change it.
 */
#include "shim.h"

/* Returns whether both ends of a range are given. */
static bool has_ends(const struct dunkelva_number *least, const struct dunkelva_number *greatest) {
  return least != NULL && greatest != NULL && least->exists != 0 && greatest->exists != 0;
}

/* Returns whether a state has bits and both ends of its range. */
static bool is_state(const struct dunkelva_unique *state) {
  return state != NULL && state->bits != NULL && has_ends(&state->least, &state->greatest);
}

static bool same_number(const struct dunkelva_number *one, const struct dunkelva_number *other) {
  return one->low == other->low && one->high == other->high;
}

size_t dunkelva_unique_words(const struct dunkelva_number *least,
                             const struct dunkelva_number *greatest) {
  if (!has_ends(least, greatest)) {
    return 0;
  }
  /* The sign is the highest bit of the upper half. If this bit is inverted, the numbers have the
   * order of unsigned numbers: by the upper half first, then by the lower half. */
  uint64_t sign = (uint64_t)1 << 63;
  uint64_t least_high = least->high ^ sign;
  uint64_t greatest_high = greatest->high ^ sign;
  if (greatest_high < least_high || (greatest_high == least_high && greatest->low < least->low)) {
    return 0;
  }
  uint64_t distance = greatest->low - least->low;
  uint64_t above = greatest_high - least_high - (greatest->low < least->low);
  if (above != 0 || distance >= UINT64_MAX - 1) {
    return 0;
  }
  return (size_t)(distance / 64 + 1);
}

int32_t dunkelva_unique_init(struct dunkelva_unique *state, const struct dunkelva_number *least,
                             const struct dunkelva_number *greatest, uint64_t *bits, size_t words) {
  size_t needed = dunkelva_unique_words(least, greatest);
  if (state == NULL || bits == NULL || needed == 0) {
    return DUNKELVA_BAD_ARGUMENT;
  }
  if (words < needed) {
    return DUNKELVA_NO_ROOM;
  }
  state->least = *least;
  state->greatest = *greatest;
  state->bits = bits;
  state->words = needed;
  state->has_null = 0;
  for (size_t i = 0; i < needed; i++) {
    bits[i] = 0;
  }
  return DUNKELVA_OK;
}

/* Opens a column and describes all its rows. Returns DUNKELVA_NOT_SERVED if the column does not
 * store integers of 8 to 64 bits. Intervals of days and milliseconds are taken: rows with the same
 * bits are the same. The caller must close the column, also after a failure. */
static int32_t open_integers(struct column *column, const struct ArrowSchema *type,
                             const struct ArrowArray *array) {
  TRY(dunkelva_open(column, type, array, 0));
  TRY(dunkelva_describe(column, 0, array->length));
  return dunkelva_is_integers(column) ? DUNKELVA_OK : DUNKELVA_NOT_SERVED;
}

int32_t dunkelva_unique_append(struct dunkelva_unique *state, const struct ArrowSchema *type,
                               const struct ArrowArray *array) {
  struct column column;
  int32_t status = open_integers(&column, type, array);
  if (status == DUNKELVA_OK) {
    status = !is_state(state) ? DUNKELVA_BAD_ARGUMENT
                              : dunkelva_state_append(column.parts, &state->least, &state->greatest,
                                                      state->bits, state->words, &state->has_null);
  }
  dunkelva_close(&column);
  return status;
}

int32_t dunkelva_unique_merge(struct dunkelva_unique *state, const struct dunkelva_unique *other) {
  if (!is_state(state) || !is_state(other)) {
    return DUNKELVA_BAD_ARGUMENT;
  }
  if (!same_number(&state->least, &other->least) ||
      !same_number(&state->greatest, &other->greatest)) {
    return DUNKELVA_TYPES_DIFFER;
  }
  return dunkelva_state_merge(&state->least, &state->greatest, state->bits, state->words,
                              &state->has_null, other->bits, other->words, other->has_null);
}

int32_t dunkelva_unique_count(const struct dunkelva_unique *state, uint64_t *values,
                              uint64_t *rows) {
  if (!is_state(state) || values == NULL || rows == NULL) {
    return DUNKELVA_BAD_ARGUMENT;
  }
  return dunkelva_state_count(&state->least, &state->greatest, state->bits, state->words,
                              state->has_null, values, rows);
}

int32_t dunkelva_unique_finish(const struct dunkelva_unique *state, uint64_t *values,
                               size_t values_len, uint64_t *has_null) {
  uint64_t none[1] = {0};
  if (!is_state(state) || has_null == NULL || (values == NULL && values_len > 0)) {
    return DUNKELVA_BAD_ARGUMENT;
  }
  return dunkelva_state_list(&state->least, &state->greatest, state->bits, state->words,
                             state->has_null, values == NULL ? none : values, values_len, has_null);
}
