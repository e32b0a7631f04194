/* Lets each allocation of a call fail in turn, once it alone and once all from it on. The call must
 * return DUNKELVA_NO_MEMORY and write nothing, or be done as well as without a failure, and give
 * back all that it took. The linker puts the functions below in front of those of the C library
 * (--wrap). Ends with `N passed, M failed`. */
#include "columns.h"

#include <stdbool.h>
#include <stdio.h>
#include <string.h>

void *__real_malloc(size_t bytes);
void *__real_calloc(size_t count, size_t bytes);
void *__real_realloc(void *memory, size_t bytes);
void __real_free(void *memory);
void *__wrap_malloc(size_t bytes);
void *__wrap_calloc(size_t count, size_t bytes);
void *__wrap_realloc(void *memory, size_t bytes);
void __wrap_free(void *memory);

static long requests;
static long live;
static long first_failure;
static long last_failure;

/* Says whether the next request fails. */
static bool fails(void) {
  requests++;
  return requests >= first_failure && requests <= last_failure;
}

void *__wrap_malloc(size_t bytes) {
  void *memory = fails() ? NULL : __real_malloc(bytes);
  live += memory != NULL;
  return memory;
}

void *__wrap_calloc(size_t count, size_t bytes) {
  void *memory = fails() ? NULL : __real_calloc(count, bytes);
  live += memory != NULL;
  return memory;
}

void *__wrap_realloc(void *memory, size_t bytes) {
  void *moved = fails() ? NULL : __real_realloc(memory, bytes);
  live += moved != NULL && memory == NULL;
  return moved;
}

void __wrap_free(void *memory) {
  live -= memory != NULL;
  __real_free(memory);
}

enum { ROWS = 100, ROOM = 13 };

/* A dictionary with nulls: keys to three texts. */
static struct made *dictionary(void) {
  static uint8_t bits[ROOM];
  static int8_t keys[ROWS];
  static const int32_t ends[] = {0, 1, 2, 3};
  memset(bits, 0x5B, sizeof bits);
  for (int32_t row = 0; row < ROWS; row++) {
    keys[row] = (int8_t)(row % 3);
  }
  struct made *texts = make("u", 3, 3, NULL, ends, "abc");
  struct made *made = make("c", ROWS, 2, bits, keys, NULL);
  made->type.dictionary = &texts->type;
  made->array.dictionary = &texts->array;
  return made;
}

/* A column of structs of a truth value, a list of dictionaries of texts, and views. `shift` moves
 * some buffers to odd addresses. */
static struct made *column(size_t shift) {
  static uint8_t bits[ROOM];
  static int32_t ends[ROWS + 1];
  static uint8_t odd[sizeof ends + 1];
  static uint8_t views[16 * ROWS];
  static const int64_t lengths[] = {20};
  memset(bits, 0x5B, sizeof bits);
  for (int32_t row = 0; row < ROWS; row++) {
    ends[row + 1] = row + 1;
    views[16 * row] = (uint8_t)(row % 12);
    memset(views + 16 * row + 4, 'a', (size_t)row % 12);
  }
  memcpy(odd + shift, ends, sizeof ends);
  struct made *lists = put(make("+l", ROWS, 2, bits, odd + shift, NULL), "", dictionary());
  struct made *seen = make("vu", ROWS, 4, NULL, views, "twenty bytes of text");
  seen->buffers[3] = lengths;
  struct made *outer =
      put(make("+s", ROWS, 1, bits, NULL, NULL), "b", make("b", ROWS, 2, NULL, bits, NULL));
  return put(put(outer, "lists", lists), "views", seen);
}

/* A column of numbers with nulls. `shift` moves the numbers to an odd address. */
static struct made *numbers(size_t shift) {
  static uint8_t bits[ROOM];
  static uint8_t values[4 * ROWS + 1];
  memset(bits, 0x5B, sizeof bits);
  return make("i", ROWS, 2, bits, values + shift, NULL);
}

/* The calls that are tried, each with a result of ROOM bytes. */
typedef int32_t call(const struct made *made, uint8_t out[ROOM]);

static int32_t call_equal(const struct made *made, uint8_t out[ROOM]) {
  return dunkelva_equal(&made->type, &made->array, &made->type, &made->array, DUNKELVA_CHECK_TEXTS,
                        out, ROOM);
}

static int32_t call_compare(const struct made *made, uint8_t out[ROOM]) {
  return dunkelva_compare(DUNKELVA_LESS_OR_EQUAL, &made->type, &made->array, &made->type,
                          &made->array, out, ROOM);
}

static int32_t call_compare_number(const struct made *made, uint8_t out[ROOM]) {
  const struct dunkelva_number zero = {0, 0, 1};
  return dunkelva_compare_number(DUNKELVA_UNEQUAL, &made->type, &made->array, &zero, out, ROOM);
}

static int32_t call_is_null(const struct made *made, uint8_t out[ROOM]) {
  return dunkelva_is_null(&made->type, &made->array, out, ROOM, NULL);
}

static int32_t call_sum(const struct made *made, uint8_t out[ROOM]) {
  struct dunkelva_number sum;
  int32_t status = dunkelva_sum(&made->type, &made->array, &sum);
  if (status == DUNKELVA_OK) {
    memcpy(out, &sum.low, sizeof sum.low);
  }
  return status;
}

static int32_t call_min_max(const struct made *made, uint8_t out[ROOM]) {
  struct dunkelva_number least;
  struct dunkelva_number greatest;
  int32_t status = dunkelva_min_max(&made->type, &made->array, &least, &greatest);
  if (status == DUNKELVA_OK) {
    memcpy(out, &greatest.low, sizeof greatest.low);
  }
  return status;
}

static int32_t call_bits(const struct made *made, uint8_t out[ROOM]) {
  struct dunkelva_number joined;
  uint32_t counts[ROWS];
  int32_t status = dunkelva_reduce_bits(DUNKELVA_XOR, &made->type, &made->array, &joined);
  if (status == DUNKELVA_OK) {
    status = dunkelva_count_bits(DUNKELVA_ZEROS, &made->type, &made->array, counts, ROWS);
  }
  if (status == DUNKELVA_OK) {
    memcpy(out, counts, ROOM);
  }
  return status;
}

static int32_t call_arithmetic(const struct made *made, uint8_t out[ROOM]) {
  int32_t values[ROWS];
  uint8_t present[ROOM];
  memset(values, 0xA5, sizeof values);
  memset(present, 0xA5, sizeof present);
  int32_t status = dunkelva_arithmetic(DUNKELVA_MODULO, &made->type, &made->array, &made->type,
                                       &made->array, values, ROWS, present, ROOM, NULL);
  memcpy(out, status == DUNKELVA_OK ? present : (const uint8_t *)values, ROOM);
  return status;
}

static int32_t call_append(const struct made *made, uint8_t out[ROOM]) {
  const struct dunkelva_number least = {0, 0, 1};
  const struct dunkelva_number greatest = {63, 0, 1};
  uint64_t bits;
  struct dunkelva_unique state;
  int32_t status = dunkelva_unique_init(&state, &least, &greatest, &bits, 1);
  if (status == DUNKELVA_OK) {
    status = dunkelva_unique_append(&state, &made->type, &made->array);
  }
  if (status == DUNKELVA_OK) {
    memcpy(out, &bits, sizeof bits);
  } else if (bits != 0 || state.has_null != 0) {
    out[0] = 0;
  }
  return status;
}

/* Calls while some requests fail. */
static int32_t run(call *called, const struct made *made, long first, long last,
                   uint8_t out[ROOM]) {
  memset(out, 0xA5, ROOM);
  requests = 0;
  live = 0;
  first_failure = first;
  last_failure = last;
  int32_t status = called(made, out);
  first_failure = last_failure = 0;
  return status;
}

static int passed;
static int failed;

/* Tries a call with each request failing. */
static void try_call(const char *name, call *called, const struct made *made) {
  uint8_t wanted[ROOM];
  uint8_t untouched[ROOM];
  uint8_t out[ROOM];
  memset(untouched, 0xA5, ROOM);
  bool good = run(called, made, 0, 0, wanted) == DUNKELVA_OK && live == 0 &&
              memcmp(wanted, untouched, ROOM) != 0;
  long count = requests;
  printf("allocations: %s: %ld requests\n", name, count);
  passed += good;
  failed += !good;
  for (long at = 1; at <= 2 * count; at++) {
    long first = (at + 1) / 2;
    int32_t status = run(called, made, first, at % 2 == 0 ? first : count, out);
    good = live == 0 && ((status == DUNKELVA_NO_MEMORY && memcmp(out, untouched, ROOM) == 0) ||
                         (status == DUNKELVA_OK && memcmp(out, wanted, ROOM) == 0));
    passed += good;
    failed += !good;
    if (!good) {
      printf("%s: request %ld: status %d, %ld blocks are left\n", name, first, (int)status, live);
    }
  }
}

int main(void) {
  for (size_t shift = 0; shift < 2; shift++) {
    struct made *tree = column(shift);
    struct made *flat = numbers(shift);
    try_call("equal", call_equal, tree);
    try_call("equal numbers", call_equal, flat);
    try_call("compare", call_compare, flat);
    try_call("compare_number", call_compare_number, flat);
    try_call("is_null", call_is_null, tree);
    try_call("is_null of keys", call_is_null, dictionary());
    try_call("sum", call_sum, flat);
    try_call("min_max", call_min_max, flat);
    try_call("bits", call_bits, flat);
    try_call("arithmetic", call_arithmetic, flat);
    try_call("unique_append", call_append, flat);
  }
  printf("%d passed, %d failed\n", passed, failed);
  return failed > 0;
}
