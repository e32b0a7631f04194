/* The choice between two levels of processors. The library has the proved kernels twice: compiled
 * for x86-64-v2, and for x86-64-v3 (AVX2, BMI2, FMA and others). The level is chosen once, when the
 * library is loaded.
 *
 * packaging/make_library appends the level to the names of the exports. The functions below have
 * the names of parts.h, and pass each call unchanged to the kernel of the chosen level. */
#include "shim.h"

#include <cpuid.h>
#include <stdlib.h>
#include <string.h>

/* The exports of both levels. */
__typeof__(dunkelva_parts_equal) dunkelva_parts_equal_v2, dunkelva_parts_equal_v3;
__typeof__(dunkelva_parts_are_null) dunkelva_parts_are_null_v2, dunkelva_parts_are_null_v3;
__typeof__(dunkelva_parts_equal_lent) dunkelva_parts_equal_lent_v2, dunkelva_parts_equal_lent_v3;
__typeof__(dunkelva_parts_compare) dunkelva_parts_compare_v2, dunkelva_parts_compare_v3;
__typeof__(dunkelva_part_is_null) dunkelva_part_is_null_v2, dunkelva_part_is_null_v3;
__typeof__(dunkelva_part_sum) dunkelva_part_sum_v2, dunkelva_part_sum_v3;
__typeof__(dunkelva_part_min_max) dunkelva_part_min_max_v2, dunkelva_part_min_max_v3;
__typeof__(dunkelva_part_compare_number) dunkelva_part_compare_number_v2,
    dunkelva_part_compare_number_v3;
__typeof__(dunkelva_part_reduce_bits) dunkelva_part_reduce_bits_v2, dunkelva_part_reduce_bits_v3;
__typeof__(dunkelva_part_count_bits) dunkelva_part_count_bits_v2, dunkelva_part_count_bits_v3;
__typeof__(dunkelva_parts_arithmetic) dunkelva_parts_arithmetic_v2, dunkelva_parts_arithmetic_v3;
__typeof__(dunkelva_part_arithmetic_number) dunkelva_part_arithmetic_number_v2,
    dunkelva_part_arithmetic_number_v3;
__typeof__(dunkelva_part_sign) dunkelva_part_sign_v2, dunkelva_part_sign_v3;
__typeof__(dunkelva_state_append) dunkelva_state_append_v2, dunkelva_state_append_v3;
__typeof__(dunkelva_state_merge) dunkelva_state_merge_v2, dunkelva_state_merge_v3;
__typeof__(dunkelva_state_count) dunkelva_state_count_v2, dunkelva_state_count_v3;
__typeof__(dunkelva_state_list) dunkelva_state_list_v2, dunkelva_state_list_v3;

/* True if the kernels for x86-64-v3 are used. The variable is written once, while the library is
 * loaded (before `main` if it is linked statically), and only read by later calls, so no lock is
 * needed. A constructor that calls the library even earlier uses x86-64-v2, which every supported
 * processor has. */
static bool takes_v3 = false;

/* Reads the features of this processor, and which registers the operating system saves. */
static struct processor read_processor(void) {
  struct processor found = {0, 0, 0, 0};
  uint32_t a = 0;
  uint32_t b = 0;
  uint32_t c = 0;
  uint32_t d = 0;
  if (__get_cpuid(1, &a, &b, &c, &d) != 0) {
    found.first = c;
  }
  if (__get_cpuid_count(7, 0, &a, &b, &c, &d) != 0) {
    found.seventh = b;
  }
  if (__get_cpuid(0x80000001U, &a, &b, &c, &d) != 0) {
    found.extended = c;
  }
  if ((found.first & bit_OSXSAVE) != 0) { /* without this bit there is no xgetbv */
    __asm__ volatile("xgetbv" : "=a"(found.saved), "=d"(d) : "c"(0));
  }
  return found;
}

bool dunkelva_has_v3(const struct processor *processor) {
  const uint32_t first = bit_FMA | bit_MOVBE | bit_OSXSAVE | bit_AVX | bit_F16C;
  const uint32_t seventh = bit_BMI | bit_AVX2 | bit_BMI2;
  const uint32_t saved = 1U << 1 | 1U << 2; /* SSE registers, upper halves of AVX */
  return (processor->first & first) == first && (processor->seventh & seventh) == seventh &&
         (processor->extended & bit_LZCNT) != 0 && (processor->saved & saved) == saved;
}

/* Chooses the level. DUNKELVA_LEVEL=v2 in the environment forces x86-64-v2. Any other value changes
 * nothing, so a level that the processor lacks can't be forced. */
__attribute__((constructor)) static void choose_level(void) {
  const char *forced = getenv("DUNKELVA_LEVEL");
  struct processor processor = read_processor();
  takes_v3 = dunkelva_has_v3(&processor) && (forced == NULL || strcmp(forced, "v2") != 0);
}

bool dunkelva_takes_v3(void) { return takes_v3; }

/* The arguments for the parameters ROOM_FOR_NUMBERS. */
#define ROOM                                                                                  \
  i8s, i8s_len, i16s, i16s_len, i32s, i32s_len, i64s, i64s_len, u8s, u8s_len, u16s, u16s_len, \
      u32s, u32s_len, u64s, u64s_len, present, present_len, nulls

int32_t dunkelva_parts_equal(const struct part *left, size_t left_len, const struct part *right,
                             size_t right_len, uint64_t *out, size_t out_len, uint64_t *comparisons,
                             size_t comparisons_len) {
  return (takes_v3 ? dunkelva_parts_equal_v3 : dunkelva_parts_equal_v2)(
      left, left_len, right, right_len, out, out_len, comparisons, comparisons_len);
}

int32_t dunkelva_parts_are_null(const struct part *parts, size_t len, uint64_t *out, size_t out_len,
                                uint64_t *count) {
  return (takes_v3 ? dunkelva_parts_are_null_v3 : dunkelva_parts_are_null_v2)(parts, len, out,
                                                                              out_len, count);
}

int32_t dunkelva_parts_equal_lent(const struct part *left, const struct part *right, uint64_t *out,
                                  size_t out_len) {
  return (takes_v3 ? dunkelva_parts_equal_lent_v3 : dunkelva_parts_equal_lent_v2)(left, right, out,
                                                                                  out_len);
}

int32_t dunkelva_parts_compare(uint32_t test, const struct part *left, const struct part *right,
                               uint64_t *out, size_t out_len) {
  return (takes_v3 ? dunkelva_parts_compare_v3 : dunkelva_parts_compare_v2)(test, left, right, out,
                                                                            out_len);
}

int32_t dunkelva_part_is_null(const struct part *part, uint64_t *out, size_t out_len,
                              uint64_t *count) {
  return (takes_v3 ? dunkelva_part_is_null_v3 : dunkelva_part_is_null_v2)(part, out, out_len,
                                                                          count);
}

int32_t dunkelva_part_sum(const struct part *part, struct dunkelva_number *sum) {
  return (takes_v3 ? dunkelva_part_sum_v3 : dunkelva_part_sum_v2)(part, sum);
}

int32_t dunkelva_part_min_max(const struct part *part, struct dunkelva_number *least,
                              struct dunkelva_number *greatest) {
  return (takes_v3 ? dunkelva_part_min_max_v3 : dunkelva_part_min_max_v2)(part, least, greatest);
}

int32_t dunkelva_part_compare_number(uint32_t test, const struct part *part, uint64_t low,
                                     uint64_t high, uint64_t *out, size_t out_len) {
  return (takes_v3 ? dunkelva_part_compare_number_v3
                   : dunkelva_part_compare_number_v2)(test, part, low, high, out, out_len);
}

int32_t dunkelva_part_reduce_bits(uint32_t join, const struct part *part,
                                  struct dunkelva_number *result) {
  return (takes_v3 ? dunkelva_part_reduce_bits_v3 : dunkelva_part_reduce_bits_v2)(join, part,
                                                                                  result);
}

int32_t dunkelva_part_count_bits(uint32_t bits, const struct part *part, uint32_t *counts,
                                 size_t counts_len) {
  return (takes_v3 ? dunkelva_part_count_bits_v3 : dunkelva_part_count_bits_v2)(bits, part, counts,
                                                                                counts_len);
}

int32_t dunkelva_parts_arithmetic(uint32_t operation, const struct part *left,
                                  const struct part *right, ROOM_FOR_NUMBERS) {
  return (takes_v3 ? dunkelva_parts_arithmetic_v3 : dunkelva_parts_arithmetic_v2)(operation, left,
                                                                                  right, ROOM);
}

int32_t dunkelva_part_arithmetic_number(uint32_t operation, uint32_t side, uint64_t low,
                                        uint64_t high, const struct part *part, ROOM_FOR_NUMBERS) {
  return (takes_v3 ? dunkelva_part_arithmetic_number_v3
                   : dunkelva_part_arithmetic_number_v2)(operation, side, low, high, part, ROOM);
}

int32_t dunkelva_part_sign(uint32_t sign, const struct part *part, ROOM_FOR_NUMBERS) {
  return (takes_v3 ? dunkelva_part_sign_v3 : dunkelva_part_sign_v2)(sign, part, ROOM);
}

int32_t dunkelva_state_append(const struct part *part, const struct dunkelva_number *least,
                              const struct dunkelva_number *greatest, uint64_t *words,
                              size_t words_len, uint64_t *has_null) {
  return (takes_v3 ? dunkelva_state_append_v3
                   : dunkelva_state_append_v2)(part, least, greatest, words, words_len, has_null);
}

int32_t dunkelva_state_merge(const struct dunkelva_number *least,
                             const struct dunkelva_number *greatest, uint64_t *words,
                             size_t words_len, uint64_t *has_null, const uint64_t *others,
                             size_t others_len, uint64_t others_null) {
  return (takes_v3 ? dunkelva_state_merge_v3 : dunkelva_state_merge_v2)(
      least, greatest, words, words_len, has_null, others, others_len, others_null);
}

int32_t dunkelva_state_count(const struct dunkelva_number *least,
                             const struct dunkelva_number *greatest, const uint64_t *words,
                             size_t words_len, uint64_t has_null, uint64_t *values,
                             uint64_t *rows) {
  return (takes_v3 ? dunkelva_state_count_v3 : dunkelva_state_count_v2)(
      least, greatest, words, words_len, has_null, values, rows);
}

int32_t dunkelva_state_list(const struct dunkelva_number *least,
                            const struct dunkelva_number *greatest, const uint64_t *words,
                            size_t words_len, uint64_t has_null, uint64_t *values,
                            size_t values_len, uint64_t *any_null) {
  return (takes_v3 ? dunkelva_state_list_v3 : dunkelva_state_list_v2)(
      least, greatest, words, words_len, has_null, values, values_len, any_null);
}
