/* Declarations that the C files of the library share. These files, the shim, describe a column of
 * the Arrow C data interface as a list of parts (parts.h), and pass the parts to the proved
 * kernels. Most types are passed a window of rows at a time.
 *
 * The shim checks what it reads itself: the counts and pointers of the structs, the formats, and
 * the first and the last offset of a window. The proved kernels check everything else: the other
 * offsets, keys, views, texts and lengths. */
#ifndef DUNKELVA_SHIM_H
#define DUNKELVA_SHIM_H

#include "dunkelva.h"
#include "parts.h"

#include <stdbool.h>

/* The most levels of nested types, and the most arrays in a column. */
#define MOST_LEVELS 64
#define MOST_PARTS ((size_t)1 << 20)

/* The greatest sum of length and offset of an array, and the greatest number of bytes or items of
 * its rows. So the index of a byte or a bit fits into 64 bits. */
#define MOST_ROWS (INT64_MAX / 64)

/* The rows of a window. The kernel copies a window, unless it is one of numbers, strings or views,
 * of lists of these that are equally long on both sides, or of structs of these. It reads strings
 * and views twice. So a window has few rows, which stay in the cache of a processor. Two kinds of
 * windows are longer: those of a column with dictionaries, whose entries are all copied for each
 * window, and those of numbers that are lent to the kernel, which are read once. */
#ifndef WINDOW_ROWS
#define WINDOW_ROWS 8192
#define DICTIONARY_ROWS 16384
#define LENT_ROWS 262144
#else /* tests set fewer rows */
#define DICTIONARY_ROWS WINDOW_ROWS
#define LENT_ROWS WINDOW_ROWS
#endif

/* Makes a call, and returns its status from the enclosing function if it is not DUNKELVA_OK. */
#define TRY(call)                        \
  do {                                   \
    int32_t status_of_call = (call);     \
    if (status_of_call != DUNKELVA_OK) { \
      return status_of_call;             \
    }                                    \
  } while (0)

/* The kind of array that stores the rows of a format. */
struct layout {
  enum kind kind; /* for a dictionary, that of its keys; KIND_NONE if not served */
  int64_t width;  /* bytes or items of a row, if all rows have the same size; else 0 */
};

/* Returns how many bytes are needed for `bits` bits. */
static inline int64_t bytes_for_bits(int64_t bits) { return bits / 8 + (bits % 8 != 0); }

/* Returns how many words of 64 bits are needed for `bits` bits. */
static inline int64_t words_for_bits(int64_t bits) { return bits / 64 + (bits % 64 != 0); }

/* Returns DUNKELVA_BAD_ARGUMENT if `flags` has a bit that is no flag, and else DUNKELVA_OK. */
int32_t dunkelva_check_flags(uint32_t flags);

/* Returns the layout of a format. Its kind is KIND_NONE if the format is not served with these
 * flags. */
struct layout dunkelva_layout(const char *format, uint32_t flags);

/* Returns whether two types have the same formats at all levels. Names of fields are not compared.
 * Both types must have passed `dunkelva_measure`. */
bool dunkelva_same_formats(const struct ArrowSchema *left, const struct ArrowSchema *right);

/* The memory and the windows that a column needs. */
struct extent {
  size_t parts;    /* arrays in the column */
  size_t slices;   /* buffers to which views point */
  int64_t entries; /* rows of the longest dictionary */
};

/* Returns the length in bytes of a buffer to which views point. `buffer` counts these buffers from
 * 0. */
int64_t dunkelva_view_length(const struct ArrowArray *array, int64_t buffer);

/* Checks the structs of a column, and adds what the column needs to `extent`. `levels` is the
 * number of nested levels that the column may have. Fails with DUNKELVA_BAD_STRUCTS or
 * DUNKELVA_NOT_SERVED. */
int32_t dunkelva_measure(const struct ArrowSchema *type, const struct ArrowArray *array,
                         uint32_t flags, int levels, struct extent *extent);

/* A copy of elements whose address is not a multiple of their size. The copies of a column are a
 * linked list, the latest one first. */
struct copy {
  struct copy *next;
  uint64_t start[]; /* the copied bytes */
};

/* One column of a call, with memory for its parts. */
struct column {
  const struct ArrowSchema *type;
  const struct ArrowArray *array;
  uint32_t flags;
  struct extent extent;
  struct part *parts;
  struct slice *slices;
  struct copy *copies;
};

/* Checks the structs of a column, and allocates memory for its parts. The caller must call
 * `dunkelva_close` afterwards, also after a failure. */
int32_t dunkelva_open(struct column *column, const struct ArrowSchema *type,
                      const struct ArrowArray *array, uint32_t flags);

/* Frees the memory of a column: its parts, slices and copies. */
void dunkelva_close(struct column *column);

/* Describes `rows` rows of a column, from row `first` on, as parts. The parts are valid until the
 * next call of `dunkelva_describe` or `dunkelva_close` for this column. */
int32_t dunkelva_describe(struct column *column, int64_t first, int64_t rows);

/* Returns whether a column stores integers of 8 to 64 bits, and is no dictionary. Floats that are
 * compared by their bits count as integers. An interval of days and milliseconds counts as one
 * integer of 64 bits. The column must be described. */
bool dunkelva_is_integers(const struct column *column);

/* Opens a column of numbers and describes all its rows. Returns DUNKELVA_NOT_SERVED if the column
 * does not store integers of 8 to 64 bits, or if it has intervals of days and milliseconds ("tiD"):
 * the 64 bits of such an interval are two numbers. The caller must close the column, also after a
 * failure. */
int32_t dunkelva_open_numbers(struct column *column, const struct ArrowSchema *type,
                              const struct ArrowArray *array);

/* Returns how many rows of a column make a window. The number is a multiple of 64. */
int64_t dunkelva_window(const struct column *column);

/* The features of a processor, as the instruction cpuid returns them, and the registers that the
 * operating system saves. */
struct processor {
  uint32_t first;    /* ecx of leaf 1 */
  uint32_t seventh;  /* ebx of leaf 7 */
  uint32_t extended; /* ecx of leaf 0x80000001 */
  uint32_t saved;    /* the lower half of XCR0 */
};

/* Returns whether a processor can run code that was compiled for x86-64-v3. */
bool dunkelva_has_v3(const struct processor *processor);

/* Returns whether calls use the kernels for x86-64-v3. Only a library with both levels has this
 * function. */
bool dunkelva_takes_v3(void);

/* Writes each bit of `count` words as a byte, 0 or 1, the lowest bit of a word first. `bytes` has
 * memory for 64 * count bytes. */
void dunkelva_spread(const uint64_t *words, size_t count, uint8_t *bytes);

#endif
