/* Bits written as bytes, 0 or 1. */
#include "shim.h"

#ifdef __SSE2__
#include <immintrin.h>
#endif

/* Eight bytes: in byte i only bit i is 1. */
#define PLACES ((int64_t)0x8040201008040201U)

#ifdef __SSE2__
/* Writes the 16 bits of two bytes as 16 bytes, 0 or 1. `eight_times` has each of the two bytes
 * eight times. */
static void spread_bytes(__m128i eight_times, uint8_t *bytes) {
  __m128i bits = _mm_and_si128(eight_times, _mm_set1_epi64x(PLACES));
  _mm_storeu_si128((__m128i *)(void *)bytes, _mm_min_epu8(bits, _mm_set1_epi8(1)));
}

/* Writes the 64 bits of a word as 64 bytes, 0 or 1. */
static void spread_word(uint64_t word, uint8_t *bytes) {
  __m128i bits = _mm_set_epi64x(0, (int64_t)word);
  __m128i twice = _mm_unpacklo_epi8(bits, bits); /* each byte of the word two times */
  __m128i low = _mm_unpacklo_epi16(twice, twice);
  __m128i high = _mm_unpackhi_epi16(twice, twice);
  spread_bytes(_mm_unpacklo_epi32(low, low), bytes);
  spread_bytes(_mm_unpackhi_epi32(low, low), bytes + 16);
  spread_bytes(_mm_unpacklo_epi32(high, high), bytes + 32);
  spread_bytes(_mm_unpackhi_epi32(high, high), bytes + 48);
}
#else
static void spread_word(uint64_t word, uint8_t *bytes) {
  for (int i = 0; i < 64; i++) {
    bytes[i] = (uint8_t)(word >> i & 1);
  }
}
#endif

#ifdef DUNKELVA_TWO_LEVELS
/* Writes each bit of `count` words as a byte, 0 or 1, on processors with AVX2: 32 bytes at a time,
 * in a third of the time of `spread_word`. */
__attribute__((target("avx2"))) static void spread_v3(const uint64_t *words, size_t count,
                                                      uint8_t *bytes) {
  const __m256i places = _mm256_set1_epi64x(PLACES);
  const __m256i one = _mm256_set1_epi8(1);
  const __m256i low = _mm256_setr_epi64x(0, 0x0101010101010101, 0x0202020202020202,
                                         0x0303030303030303); /* which byte of the word */
  const __m256i high = _mm256_setr_epi64x(0x0404040404040404, 0x0505050505050505,
                                          0x0606060606060606, 0x0707070707070707);
  for (size_t k = 0; k < count; k++) {
    __m256i word = _mm256_set1_epi64x((int64_t)words[k]);
    __m256i first = _mm256_and_si256(_mm256_shuffle_epi8(word, low), places);
    __m256i last = _mm256_and_si256(_mm256_shuffle_epi8(word, high), places);
    uint8_t *out = bytes + 64 * k;
    _mm256_storeu_si256((__m256i *)(void *)out, _mm256_min_epu8(first, one));
    _mm256_storeu_si256((__m256i *)(void *)(out + 32), _mm256_min_epu8(last, one));
  }
}
#endif

void dunkelva_spread(const uint64_t *words, size_t count, uint8_t *bytes) {
#ifdef DUNKELVA_TWO_LEVELS
  if (dunkelva_takes_v3()) {
    spread_v3(words, count, bytes);
    return;
  }
#endif
  for (size_t k = 0; k < count; k++) {
    spread_word(words[k], bytes + 64 * k);
  }
}
