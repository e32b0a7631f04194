/* Calls over kernels that do nothing but return the number of their level, which is then the status
 * of each call. Also tries what processors run x86-64-v3. Ends with `N passed, M failed`.
 *
 * usage: levels NUMBER    the level that is expected, 2 or 3 */
#include "columns.h"
#include "shim.h"

#include <stdio.h>

static int32_t wanted;
static int passed;
static int failed;

static void count(bool holds, const char *what) {
  if (holds) {
    passed++;
  } else {
    failed++;
    printf("levels: not so: %s\n", what);
  }
}

/* Says whether a call reached kernels of the level that is expected. */
static void reaches(const char *what, int32_t status) { count(status == wanted, what); }

static void try_bits(const struct ArrowSchema *type, const struct ArrowArray *array) {
  const struct dunkelva_number one = {1, 0, 1};
  uint8_t out[8];
  uint64_t nulls = 0;
  reaches("parts_equal_lent", dunkelva_equal(type, array, type, array, 0, out, sizeof out));
  reaches("parts_compare",
          dunkelva_compare(DUNKELVA_LESS, type, array, type, array, out, sizeof out));
  reaches("part_compare_number",
          dunkelva_compare_number(DUNKELVA_LESS, type, array, &one, out, sizeof out));
  reaches("part_is_null", dunkelva_is_null(type, array, out, sizeof out, &nulls));
}

static void try_reductions(const struct ArrowSchema *type, const struct ArrowArray *array) {
  struct dunkelva_number least;
  struct dunkelva_number greatest;
  uint32_t counts[8];
  reaches("part_sum", dunkelva_sum(type, array, &least));
  reaches("part_min_max", dunkelva_min_max(type, array, &least, &greatest));
  reaches("part_reduce_bits", dunkelva_reduce_bits(DUNKELVA_OR, type, array, &least));
  reaches("part_count_bits", dunkelva_count_bits(DUNKELVA_ONES, type, array, counts, 8));
}

static void try_arithmetic(const struct ArrowSchema *type, const struct ArrowArray *array) {
  const struct dunkelva_number one = {1, 0, 1};
  int32_t values[8];
  uint8_t present[8];
  uint64_t nulls = 0;
  reaches("parts_arithmetic", dunkelva_arithmetic(DUNKELVA_ADD, type, array, type, array, values, 8,
                                                  present, sizeof present, &nulls));
  reaches("part_arithmetic_number",
          dunkelva_arithmetic_number(DUNKELVA_ADD, DUNKELVA_LEFT, &one, type, array, values, 8,
                                     present, sizeof present, &nulls));
  reaches("part_sign",
          dunkelva_sign(DUNKELVA_NEGATE, type, array, values, 8, present, sizeof present, &nulls));
}

static void try_states(const struct ArrowSchema *type, const struct ArrowArray *array) {
  const struct dunkelva_number least = {0, 0, 1};
  const struct dunkelva_number greatest = {63, 0, 1};
  struct dunkelva_unique states[2];
  uint64_t bits[2];
  uint64_t values[64];
  uint64_t rows = 0;
  for (size_t i = 0; i < 2; i++) {
    count(dunkelva_unique_init(&states[i], &least, &greatest, &bits[i], 1) == DUNKELVA_OK, "init");
  }
  reaches("state_append", dunkelva_unique_append(&states[0], type, array));
  reaches("state_merge", dunkelva_unique_merge(&states[0], &states[1]));
  reaches("state_count", dunkelva_unique_count(&states[0], values, &rows));
  reaches("state_list", dunkelva_unique_finish(&states[0], values, 64, &rows));
}

static void try_trees(struct made *column) {
  const struct made *tree = put(make("+s", 4, 1, NULL, NULL, NULL), "a", column);
  uint8_t out[8];
  uint64_t nulls = 0;
  reaches("parts_equal",
          dunkelva_equal(&tree->type, &tree->array, &tree->type, &tree->array, 0, out, sizeof out));
  reaches("parts_are_null", dunkelva_is_null(&tree->type, &tree->array, out, sizeof out, &nulls));
}

/* Says whether code for x86-64-v3 needs these bits of a word of a processor, and no others. */
static bool needs(const struct processor *processor, uint32_t *word, uint32_t bits) {
  bool holds = true;
  for (uint32_t place = 0; place < 32; place++) {
    *word -= 1U << place;
    holds = holds && dunkelva_has_v3(processor) == ((bits >> place & 1) == 0);
    *word += 1U << place;
  }
  return holds;
}

/* Takes bits from a processor that has all, one after the other. */
static void try_processors(void) {
  struct processor it = {UINT32_MAX, UINT32_MAX, UINT32_MAX, UINT32_MAX};
  const struct processor none = {0, 0, 0, 0};
  count(dunkelva_has_v3(&it), "a processor with all bits");
  count(!dunkelva_has_v3(&none), "a processor with none");
  count(needs(&it, &it.first, 1U << 12 | 1U << 22 | 1U << 27 | 1U << 28 | 1U << 29),
        "FMA, MOVBE, OSXSAVE, AVX, F16C");
  count(needs(&it, &it.seventh, 1U << 3 | 1U << 5 | 1U << 8), "BMI1, AVX2, BMI2");
  count(needs(&it, &it.extended, 1U << 5), "LZCNT");
  count(needs(&it, &it.saved, 1U << 1 | 1U << 2), "saved registers");
}

int main(int words, char **word) {
  static const int32_t numbers[] = {1, 2, 3, 4};
  struct made *column = make("i", 4, 2, NULL, numbers, NULL);
  wanted = words > 1 ? atoi(word[1]) : 0;
  try_bits(&column->type, &column->array);
  try_reductions(&column->type, &column->array);
  try_arithmetic(&column->type, &column->array);
  try_states(&column->type, &column->array);
  try_trees(column);
  try_processors();
  printf("%d passed, %d failed\n", passed, failed);
  return failed > 0;
}
