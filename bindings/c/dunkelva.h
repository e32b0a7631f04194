/* Kernels for columns of the Arrow C data interface.
 *
 * A column is a pair of two structs: an ArrowSchema, which has the type of the column, and an
 * ArrowArray, which has the rows of the column. pyarrow, polars, duckdb, GDAL, arrow-rs, nanoarrow
 * and others export columns as these structs:
 * https://arrow.apache.org/docs/format/CDataInterface.html
 *
 * - A call borrows its columns. The call reads them until it returns, releases none of them, and
 *   keeps no pointer to them.
 * - Most calls return an int32_t, which is a value of enum dunkelva_status. DUNKELVA_OK, which is
 *   0, means success. After any other status all memory that the call writes is unchanged.
 * - The memory that a call writes must not overlap the memory that the call reads, nor other memory
 *   that the call writes. So a state of distinct values can't be merged with itself, and
 *   `least` and `greatest` of `dunkelva_min_max` must be two structs. No call checks this, except
 *   that arithmetic checks `values` in part: see `dunkelva_arithmetic`.
 * - The library has no state of its own: nothing is stored between two calls. A call runs in the
 *   thread of its caller. Many threads can call at the same time, also with the same columns. Two
 *   calls at the same time must not write to the same memory, and a call must not read memory that
 *   another one writes, such as a state. During a call nothing may change or release its columns.
 * - A result depends only on the rows of a column. It does not depend on values that are stored
 *   under nulls, on offsets, on how rows are split into buffers, or on whether a column without
 *   nulls has a validity bitmap. There are two exceptions: the number `comparisons` of
 *   `dunkelva_equal_rows` can depend on how a column is stored, for example on values under nulls,
 *   and the numbers that arithmetic and `dunkelva_count_bits` write for null rows have no meaning.
 *   The member `null_count` is never read.
 * - Each buffer must be as long as the interface requires. The interface does not pass the lengths
 *   of buffers, so no call can check them. A call checks everything else about an array, as far as
 *   the result depends on it, and returns a status if it finds a fault.
 * - A column can have at most 64 levels of nested types, 2^20 types in all, and 2^20 buffers to
 *   which views point.
 *
 * The library is for little-endian machines with pointers of 64 bits. */
#ifndef DUNKELVA_H
#define DUNKELVA_H

#include <stddef.h>
#include <stdint.h>

#ifdef __cplusplus
extern "C" {
#endif

/* The structs of a column, as the Arrow C data interface defines them. The guard leaves them out if
 * another header has defined them. */
#ifndef ARROW_C_DATA_INTERFACE
#define ARROW_C_DATA_INTERFACE

#define ARROW_FLAG_DICTIONARY_ORDERED 1
#define ARROW_FLAG_NULLABLE 2
#define ARROW_FLAG_MAP_KEYS_SORTED 4

struct ArrowSchema {
  const char *format;
  const char *name;
  const char *metadata;
  int64_t flags;
  int64_t n_children;
  struct ArrowSchema **children;
  struct ArrowSchema *dictionary;
  void (*release)(struct ArrowSchema *);
  void *private_data;
};

struct ArrowArray {
  int64_t length;
  int64_t null_count;
  int64_t offset;
  int64_t n_buffers;
  int64_t n_children;
  const void **buffers;
  struct ArrowArray **children;
  struct ArrowArray *dictionary;
  void (*release)(struct ArrowArray *);
  void *private_data;
};

#endif

/* A stream of arrays of one type, as the Arrow C stream interface defines it. No call of this
 * header takes a stream: get the schema and each array from the stream, and pass these to
 * `dunkelva_equal_rows`. An array whose `release` is null ends the stream: do not pass it. Release
 * each array before you get the next one into it. The guard leaves the struct out if another header
 * has defined it. */
#ifndef ARROW_C_STREAM_INTERFACE
#define ARROW_C_STREAM_INTERFACE

struct ArrowArrayStream {
  int (*get_schema)(struct ArrowArrayStream *, struct ArrowSchema *out);
  int (*get_next)(struct ArrowArrayStream *, struct ArrowArray *out);
  const char *(*get_last_error)(struct ArrowArrayStream *);
  void (*release)(struct ArrowArrayStream *);
  void *private_data;
};

#endif

/* The statuses that calls return. Each call that takes a column can return DUNKELVA_BAD_ARRAY,
 * DUNKELVA_NO_MEMORY, DUNKELVA_NOT_SERVED or DUNKELVA_BAD_STRUCTS. The comments below call these
 * four the "statuses of columns". The comment of a call names the other statuses that the call can
 * return after a failure. */
enum dunkelva_status {
  /* The call succeeded. */
  DUNKELVA_OK = 0,
  /* The content of a buffer is invalid: an offset is negative or less than the offset before it, a
   * key names no entry, a view does not match its bytes, or the name of a field is not UTF-8. With
   * DUNKELVA_CHECK_TEXTS also: a text is not UTF-8. */
  DUNKELVA_BAD_ARRAY = 1,
  /* Two columns differ in type or length; the type of a column has no value for a given number or
   * for an end of a range; or two states have different ranges. */
  DUNKELVA_TYPES_DIFFER = 2,
  /* The memory for results is too small: `out`, `values`, `present`, `counts` or `bits`. */
  DUNKELVA_NO_ROOM = 3,
  /* An allocation failed. */
  DUNKELVA_NO_MEMORY = 4,
  /* The call does not take columns of this type, or an enum argument is no value of its enum. */
  DUNKELVA_NOT_SERVED = 5,
  /* A struct breaks the interface: a count or a length is wrong, a pointer is null, a struct was
   * released, or a child has fewer rows than its parent needs. Or the column has more types, levels
   * or buffers of views than the library takes. */
  DUNKELVA_BAD_STRUCTS = 6,
  /* An argument is wrong:
   * - `flags` has an unknown bit;
   * - rows lie outside of a column;
   * - a pointer for results, to a number or to a state is null;
   * - a given number has `exists` 0;
   * - `values` is not at a multiple of the size of its numbers, or overlaps the numbers of a column
   *   (`dunkelva_arithmetic` says what is checked);
   * - the ends of a range are not in order, or the range has too many numbers. */
  DUNKELVA_BAD_ARGUMENT = 7,
  /* A row of a column is outside of the range of a state. */
  DUNKELVA_OUT_OF_RANGE = 8
};

/* A flag: floats are compared by their bits. A NaN is then equal to a NaN with the same bits, and
 * -0 is not equal to 0. Without this flag, the status for a column with floats is
 * DUNKELVA_NOT_SERVED. */
#define DUNKELVA_FLOATS_BY_BITS 1U

/* A flag: the call checks that texts are UTF-8, and returns DUNKELVA_BAD_ARRAY if a text is not.
 * The check takes several times as long as the comparison. Without this flag, texts are compared
 * byte by byte, and any bytes are accepted. */
#define DUNKELVA_CHECK_TEXTS 2U

/* Compares all rows of two columns of the same type and length. Row i of `left` is compared with
 * row i of `right`.
 *
 * Bit i of `out` is 1 if the two rows i are equal, and else 0. Bit i is bit i % 8 of byte i / 8, as
 * in a validity bitmap of Arrow. To read it:
 *     int is_same = out[i / 8] >> (i % 8) & 1;
 * The call writes (length + 7) / 8 bytes to `out`; the bits after the last row are 0. `out_bytes`
 * is the size of `out` in bytes. `flags` is 0, or DUNKELVA_FLOATS_BY_BITS and DUNKELVA_CHECK_TEXTS
 * combined by |.
 *
 * - A null is equal only to a null.
 * - Lists are equal if they have the same number of items, and the items are equal.
 * - Structs are equal if all their fields are equal.
 * - Maps are equal if they have the same entries in the same order.
 * - Rows of dictionaries are equal if the entries that their keys name are equal.
 *
 * Two types are the same if their formats are the same text (so unit, time zone, precision and
 * scale are the same), if the types in them are the same, and if the fields of structs have the
 * same names in the same order. The names of columns and of items of lists, metadata and flags of
 * schemas are not compared.
 *
 * Returns a status of columns, or
 * - DUNKELVA_TYPES_DIFFER if the columns differ in type or length,
 * - DUNKELVA_NO_ROOM if `out_bytes` is less than (length + 7) / 8,
 * - DUNKELVA_BAD_ARGUMENT if `flags` has an unknown bit, or if `out` is null and the columns have
 *   rows. */
int32_t dunkelva_equal(const struct ArrowSchema *left_type, const struct ArrowArray *left,
                       const struct ArrowSchema *right_type, const struct ArrowArray *right,
                       uint32_t flags, uint8_t *out, size_t out_bytes);

/* Compares all rows of two columns by the rules of `dunkelva_equal`, and writes a byte for each
 * row: byte i of `out` is 1 if the two rows i are equal, and else 0. The call writes as many bytes
 * as a column has rows. `out_len` is the size of `out` in bytes.
 *
 * Returns a status of columns, or
 * - DUNKELVA_TYPES_DIFFER if the columns differ in type or length,
 * - DUNKELVA_NO_ROOM if `out_len` is less than the number of rows,
 * - DUNKELVA_BAD_ARGUMENT if `flags` has an unknown bit, or if `out` is null and the columns have
 *   rows. */
int32_t dunkelva_equal_bytes(const struct ArrowSchema *left_type, const struct ArrowArray *left,
                             const struct ArrowSchema *right_type, const struct ArrowArray *right,
                             uint32_t flags, uint8_t *out, size_t out_len);

/* Compares a window of `rows` rows of each column by the rules of `dunkelva_equal`. The window of
 * `left` begins at its row `left_first`, and the window of `right` at its row `right_first`. Rows
 * are counted from 0, and row 0 is the first row after the `offset` of the array.
 *
 * The two columns need the same type, but can have different lengths. So this call can compare two
 * streams whose arrays end at different rows: compare as many rows as both current arrays have
 * left, and then get the next array of each stream that has no row left.
 *
 * To compare field k of two struct columns, pass children[k] of each schema and array, the `offset`
 * of each struct array as the first rows, and the struct's length as `rows`. Nulls of the structs
 * themselves have no effect then: ask `dunkelva_is_null` for them. What the fields store under a
 * null struct is compared too.
 *
 * Bit i of `out` is 1 if row left_first + i of `left` and row right_first + i of `right` are equal,
 * and else 0. The call writes (rows + 7) / 8 bytes to `out`, from bit 0 on; the bits after the last
 * row are 0. `out_bytes` is the size of `out` in bytes. If `rows` is 0, nothing is written to
 * `out`, but the types are compared.
 *
 * `comparisons` may be null. If it is not null, the call stores there how many leaf values were
 * compared. A leaf value is a stored number, truth value, text or byte string. Values under null
 * structs can count too.
 *
 * Returns a status of columns, or
 * - DUNKELVA_TYPES_DIFFER if the columns differ in type,
 * - DUNKELVA_NO_ROOM if `out_bytes` is less than (rows + 7) / 8,
 * - DUNKELVA_BAD_ARGUMENT if `left_first`, `right_first` or `rows` is negative, if a window ends
 *   after the last row of its column, if `flags` has an unknown bit, or if `out` is null and `rows`
 *   is not 0. */
int32_t dunkelva_equal_rows(const struct ArrowSchema *left_type, const struct ArrowArray *left,
                            int64_t left_first, const struct ArrowSchema *right_type,
                            const struct ArrowArray *right, int64_t right_first, int64_t rows,
                            uint32_t flags, uint8_t *out, size_t out_bytes, uint64_t *comparisons);

/* Finds the null rows of a column. Bit i of `out` is 1 if row i is null, and else 0. A row of a
 * dictionary is null if its key is null, or if the key names an entry that is null.
 *
 * The call writes (length + 7) / 8 bytes to `out`, laid out as by `dunkelva_equal`; the bits after
 * the last row are 0. `out_bytes` is the size of `out` in bytes. `count` may be null. If it is not
 * null, the call stores there how many rows are null.
 *
 * The call takes columns of all types that `dunkelva_equal` takes, and columns of floats.
 *
 * Returns a status of columns, or
 * - DUNKELVA_NO_ROOM if `out_bytes` is less than (length + 7) / 8,
 * - DUNKELVA_BAD_ARGUMENT if `out` is null and the column has rows. */
int32_t dunkelva_is_null(const struct ArrowSchema *type, const struct ArrowArray *array,
                         uint8_t *out, size_t out_bytes, uint64_t *count);

/* The calls below take columns of numbers: signed and unsigned integers of 8 to 64 bits, and
 * columns that Arrow stores as such integers, which are dates, times, durations, timestamps,
 * intervals of months, and decimals of 32 and 64 bits. The calls read the stored integers: of the
 * decimal 1.50 the integer 150. Other columns, also floats, dictionaries, intervals of days and
 * milliseconds, and decimals of 128 and 256 bits, are DUNKELVA_NOT_SERVED. */

/* Comparisons of two rows. */
enum dunkelva_test {
  /* A null is equal only to a null. */
  DUNKELVA_EQUAL = 0,
  DUNKELVA_UNEQUAL = 1,
  /* The four comparisons of order are false if one of the two rows is null, or both. */
  DUNKELVA_LESS = 2,
  DUNKELVA_LESS_OR_EQUAL = 3,
  DUNKELVA_GREATER = 4,
  DUNKELVA_GREATER_OR_EQUAL = 5
};

/* Compares two columns of numbers of the same type and length, row by row. Bit i of `out` is 1 if
 * the comparison `test` is true, with row i of `left` on its left side and row i of `right` on its
 * right side, and else 0.
 *
 * The call writes (length + 7) / 8 bytes to `out`, laid out as by `dunkelva_equal`; the bits after
 * the last row are 0. `out_bytes` is the size of `out` in bytes.
 *
 * Returns a status of columns, or
 * - DUNKELVA_NOT_SERVED if `test` is no value of enum dunkelva_test,
 * - DUNKELVA_TYPES_DIFFER if the columns differ in type or length,
 * - DUNKELVA_NO_ROOM if `out_bytes` is less than (length + 7) / 8,
 * - DUNKELVA_BAD_ARGUMENT if `out` is null and the columns have rows. */
int32_t dunkelva_compare(enum dunkelva_test test, const struct ArrowSchema *left_type,
                         const struct ArrowArray *left, const struct ArrowSchema *right_type,
                         const struct ArrowArray *right, uint8_t *out, size_t out_bytes);

/* An integer of 128 bits in two's complement, or no integer. `low` has the lower 64 bits, and
 * `high` the upper 64 bits. If `exists` is 0, the struct has no integer. A call that returns no
 * integer sets all three members to 0, and a call that returns one sets `exists` to 1.
 *
 * To read a result: the integer is (int64_t)low for a column of signed integers, and `low` for a
 * column of unsigned integers.
 *
 * To pass an integer, set all three members. For an int64_t n and for a uint64_t m:
 *     struct dunkelva_number signed_number = {(uint64_t)n, n < 0 ? UINT64_MAX : 0, 1};
 *     struct dunkelva_number unsigned_number = {m, 0, 1};
 * If `exists` is 0, calls return DUNKELVA_BAD_ARGUMENT. If n is negative and `high` is 0, the
 * struct has the integer n + 2^64. No column of signed integers has a value for this integer, so
 * calls with such a column return DUNKELVA_TYPES_DIFFER. */
struct dunkelva_number {
  uint64_t low;
  uint64_t high;
  uint64_t exists;
};

/* Adds all rows of a column of numbers that are not null, and stores the sum in `sum`. The sum
 * wraps around in the type of the column: in a column of int8 the sum of 100 and 100 is -56. If all
 * rows are null, or if there are no rows, sum->exists is 0.
 *
 * Returns a status of columns, or DUNKELVA_BAD_ARGUMENT if `sum` is null. */
int32_t dunkelva_sum(const struct ArrowSchema *type, const struct ArrowArray *array,
                     struct dunkelva_number *sum);

/* Stores the least and the greatest of all rows of a column of numbers that are not null in `least`
 * and `greatest`. If all rows are null, or if there are no rows, least->exists and greatest->exists
 * are 0.
 *
 * Returns a status of columns, or DUNKELVA_BAD_ARGUMENT if `least` or `greatest` is null. */
int32_t dunkelva_min_max(const struct ArrowSchema *type, const struct ArrowArray *array,
                         struct dunkelva_number *least, struct dunkelva_number *greatest);

/* Compares each row of a column of numbers with one number. Bit i of `out` is 1 if the comparison
 * `test` is true, with row i on its left side and `number` on its right side, and else 0.
 *
 * The call writes (length + 7) / 8 bytes to `out`, laid out as by `dunkelva_equal`; the bits after
 * the last row are 0. `out_bytes` is the size of `out` in bytes.
 *
 * Returns a status of columns, or
 * - DUNKELVA_NOT_SERVED if `test` is no value of enum dunkelva_test,
 * - DUNKELVA_TYPES_DIFFER if the type of the column has no value for `number`, such as 300 for
 *   uint8,
 * - DUNKELVA_NO_ROOM if `out_bytes` is less than (length + 7) / 8,
 * - DUNKELVA_BAD_ARGUMENT if `number` is null, if number->exists is 0, or if `out` is null and the
 *   column has rows. */
int32_t dunkelva_compare_number(enum dunkelva_test test, const struct ArrowSchema *type,
                                const struct ArrowArray *array,
                                const struct dunkelva_number *number, uint8_t *out,
                                size_t out_bytes);

/* Operations that combine two numbers bit by bit. */
enum dunkelva_join { DUNKELVA_AND = 0, DUNKELVA_OR = 1, DUNKELVA_XOR = 2 };

/* Combines all rows of a column of numbers that are not null by bitwise and, or, or xor, and stores
 * the number in `result`. If all rows are null, or if there are no rows, result->exists is 0.
 *
 * Returns a status of columns, or
 * - DUNKELVA_NOT_SERVED if `join` is no value of enum dunkelva_join,
 * - DUNKELVA_BAD_ARGUMENT if `result` is null. */
int32_t dunkelva_reduce_bits(enum dunkelva_join join, const struct ArrowSchema *type,
                             const struct ArrowArray *array, struct dunkelva_number *result);

/* The bits of a number that are counted: all ones, all zeros, or only the ones or zeros before the
 * first other bit, from the highest bit on (LEADING) or from the lowest bit on (TRAILING). */
enum dunkelva_bits {
  DUNKELVA_ONES = 0,
  DUNKELVA_ZEROS = 1,
  DUNKELVA_LEADING_ONES = 2,
  DUNKELVA_LEADING_ZEROS = 3,
  DUNKELVA_TRAILING_ONES = 4,
  DUNKELVA_TRAILING_ZEROS = 5
};

/* Counts bits of each row of a column of numbers. counts[i] is the count of row i. The count of a
 * null row has no meaning. The call writes as many counts of 4 bytes as the column has rows.
 * `counts_len` is the number of counts for which `counts` has memory.
 *
 * Returns a status of columns, or
 * - DUNKELVA_NOT_SERVED if `bits` is no value of enum dunkelva_bits,
 * - DUNKELVA_NO_ROOM if `counts_len` is less than the number of rows,
 * - DUNKELVA_BAD_ARGUMENT if `counts` is null and the column has rows. */
int32_t dunkelva_count_bits(enum dunkelva_bits bits, const struct ArrowSchema *type,
                            const struct ArrowArray *array, uint32_t *counts, size_t counts_len);

/* Arithmetic operations on two numbers. */
enum dunkelva_operation {
  DUNKELVA_ADD = 0,
  DUNKELVA_SUBTRACT = 1,
  DUNKELVA_MULTIPLY = 2,
  /* The quotient is rounded down: -7 divided by 2 is -4. */
  DUNKELVA_FLOOR_DIVIDE = 3,
  /* The quotient is rounded toward 0: -7 divided by 2 is -3. */
  DUNKELVA_TRUNCATING_DIVIDE = 4,
  /* The remainder of DUNKELVA_FLOOR_DIVIDE: -7 modulo 2 is 1. The remainder is 0 or has the sign of
   * the divisor. */
  DUNKELVA_MODULO = 5
};

/* Calculates with two columns of numbers of the same type and length, row by row: row i of `left`
 * is the left operand, and row i of `right` the right operand. The operands are the stored
 * integers; the scale of decimals is ignored.
 *
 * A result wraps around in the type of the columns: in columns of int8 100 + 100 is -56, and -128
 * divided by -1 is -128. A result is null if one of the two rows is null, or if the divisor is 0.
 *
 * - `values` gets the results, as an array of the integer type that the columns store, such as
 *   int32_t for the format "i". The call writes as many integers as a column has rows. The integer
 *   of a null result has no meaning. `values` must be at an address that is a multiple of the size
 *   of an integer, and must not overlap the memory of a column. The call checks whether what it
 *   writes to `values` overlaps the integers of a column, if these too are at such an address. It
 *   checks no other overlap, such as one with a validity bitmap or with `present`. `values_len` is
 *   the number of integers for which `values` has memory.
 * - `present` gets a validity bitmap: bit i is 1 if result i is not null, and else 0. The call
 *   writes (length + 7) / 8 bytes, laid out as by `dunkelva_equal`; the bits after the last row are
 *   0. `present_bytes` is the size of `present` in bytes.
 * - `nulls` may be null. If it is not null, the call stores there how many results are null.
 *
 * Returns a status of columns, or
 * - DUNKELVA_NOT_SERVED if `operation` is no value of enum dunkelva_operation,
 * - DUNKELVA_TYPES_DIFFER if the columns differ in type or length,
 * - DUNKELVA_NO_ROOM if `values_len` is less than the number of rows, or `present_bytes` is less
 *   than (length + 7) / 8,
 * - DUNKELVA_BAD_ARGUMENT if `values` or `present` is null and the columns have rows, if `values`
 *   is not at a multiple of the size of an integer, or if `values` overlaps the integers of a
 *   column. */
int32_t dunkelva_arithmetic(enum dunkelva_operation operation, const struct ArrowSchema *left_type,
                            const struct ArrowArray *left, const struct ArrowSchema *right_type,
                            const struct ArrowArray *right, void *values, size_t values_len,
                            uint8_t *present, size_t present_bytes, uint64_t *nulls);

/* The sides of an operation. */
enum dunkelva_side { DUNKELVA_LEFT = 0, DUNKELVA_RIGHT = 1 };

/* Calculates with one number and each row of a column of numbers. If `side` is DUNKELVA_LEFT,
 * `number` is the left operand and row i the right operand. If `side` is DUNKELVA_RIGHT, row i is
 * the left operand and `number` the right operand.
 *
 * Results, `values`, `present` and `nulls` are as in `dunkelva_arithmetic`: the call writes as many
 * integers as the column has rows to `values`, and (length + 7) / 8 bytes to `present`.
 *
 * Returns a status of columns, or
 * - DUNKELVA_NOT_SERVED if `operation` is no value of enum dunkelva_operation, or `side` no value
 *   of enum dunkelva_side,
 * - DUNKELVA_TYPES_DIFFER if the type of the column has no value for `number`,
 * - DUNKELVA_NO_ROOM if `values_len` is less than the number of rows, or `present_bytes` is less
 *   than (length + 7) / 8,
 * - DUNKELVA_BAD_ARGUMENT if `number` is null, if number->exists is 0, if `values` or `present` is
 *   null and the column has rows, if `values` is not at a multiple of the size of an integer, or if
 *   `values` overlaps the integers of the column. */
int32_t dunkelva_arithmetic_number(enum dunkelva_operation operation, enum dunkelva_side side,
                                   const struct dunkelva_number *number,
                                   const struct ArrowSchema *type, const struct ArrowArray *array,
                                   void *values, size_t values_len, uint8_t *present,
                                   size_t present_bytes, uint64_t *nulls);

/* Functions of one number. */
enum dunkelva_sign_function { DUNKELVA_NEGATE = 0, DUNKELVA_ABSOLUTE = 1 };

/* Negates each row of a column of numbers, or takes the absolute value of each row. The absolute
 * value is the distance from 0. A result wraps around in the type of the column: in a column of
 * int8 both functions return -128 for -128. A result is null if the row is null.
 *
 * `values`, `present` and `nulls` are as in `dunkelva_arithmetic`: the call writes as many integers
 * as the column has rows to `values`, and (length + 7) / 8 bytes to `present`.
 *
 * Returns a status of columns, or
 * - DUNKELVA_NOT_SERVED if `sign` is no value of enum dunkelva_sign_function,
 * - DUNKELVA_NO_ROOM if `values_len` is less than the number of rows, or `present_bytes` is less
 *   than (length + 7) / 8,
 * - DUNKELVA_BAD_ARGUMENT if `values` or `present` is null and the column has rows, if `values` is
 *   not at a multiple of the size of an integer, or if `values` overlaps the integers of the
 *   column. */
int32_t dunkelva_sign(enum dunkelva_sign_function sign, const struct ArrowSchema *type,
                      const struct ArrowArray *array, void *values, size_t values_len,
                      uint8_t *present, size_t present_bytes, uint64_t *nulls);

/* A state collects the distinct values of columns of numbers. Each row of these columns must be
 * null or in the range from `least` to `greatest`. A state records which numbers of the range
 * came, and whether a null came, but not how often or in which rows.
 *
 * The struct and the memory of `bits` belong to the caller, and the library allocates nothing for a
 * state. A state can be copied, stored and sent to another machine: copy the struct and the words
 * of `bits`, and set `bits` of the copy to the copied words. */
struct dunkelva_unique {
  struct dunkelva_number least;    /* the least number of the range */
  struct dunkelva_number greatest; /* the greatest number of the range */
  uint64_t *bits;    /* bit i % 64 of bits[i / 64] is 1 if the number least + i was seen */
  size_t words;      /* the number of words of 64 bits in `bits` */
  uint64_t has_null; /* not 0 if a null was seen */
};

/* Returns how many words of 64 bits (8 bytes) the `bits` of a state of the range from `least` to
 * `greatest` need. Returns 0 if there is no such state: `least` or `greatest` is null or has
 * `exists` 0, `least` is greater than `greatest`, or the range has 2^64 - 1 or more numbers. */
size_t dunkelva_unique_words(const struct dunkelva_number *least,
                             const struct dunkelva_number *greatest);

/* Initializes `state` as an empty state of the range from `least` to `greatest`. `bits` is memory
 * of the caller for `words` words of 64 bits. The state uses the first `dunkelva_unique_words`
 * words of `bits`, for as long as the state is used. The call sets these words to 0.
 *
 * Returns
 * - DUNKELVA_NO_ROOM if `words` is less than the state needs,
 * - DUNKELVA_BAD_ARGUMENT if `state` or `bits` is null, or if there is no such state, so that
 *   `dunkelva_unique_words` returns 0. */
int32_t dunkelva_unique_init(struct dunkelva_unique *state, const struct dunkelva_number *least,
                             const struct dunkelva_number *greatest, uint64_t *bits, size_t words);

/* Adds all rows of a column of numbers to `state`. After a status other than DUNKELVA_OK the state
 * is unchanged: no row was added.
 *
 * This call also takes intervals of days and milliseconds, each as one integer of 64 bits: the
 * lower 32 bits are the days, and the upper 32 bits the milliseconds.
 *
 * Returns a status of columns, or
 * - DUNKELVA_OUT_OF_RANGE if a row that is not null is outside of the range of the state,
 * - DUNKELVA_TYPES_DIFFER if the type of the column has no value for an end of the range,
 * - DUNKELVA_NO_ROOM if state->words is less than the range needs,
 * - DUNKELVA_BAD_ARGUMENT if `state` is null, if state->bits is null, or if state->least and
 *   state->greatest are not the ends of a range. */
int32_t dunkelva_unique_append(struct dunkelva_unique *state, const struct ArrowSchema *type,
                               const struct ArrowArray *array);

/* Adds the values of `other` to `state`, and the null of `other` if it has one. `other` is
 * unchanged, and must not share memory with `state`.
 *
 * Returns
 * - DUNKELVA_TYPES_DIFFER if the states have different ranges,
 * - DUNKELVA_NO_ROOM if the `words` of a state are fewer than the range needs,
 * - DUNKELVA_BAD_ARGUMENT if `state` or `other` is null, if the `bits` of a state are null, or if
 *   its `least` and `greatest` are not the ends of a range. */
int32_t dunkelva_unique_merge(struct dunkelva_unique *state, const struct dunkelva_unique *other);

/* Counts the distinct values of `state`. `values` gets the number of values without null. `rows`
 * gets the number of values with null: one more than `values` if the state has a null. Both
 * pointers are needed.
 *
 * Returns
 * - DUNKELVA_NO_ROOM if state->words is less than the range needs,
 * - DUNKELVA_BAD_ARGUMENT if `values`, `rows`, `state` or state->bits is null, or if state->least
 *   and state->greatest are not the ends of a range. */
int32_t dunkelva_unique_count(const struct dunkelva_unique *state, uint64_t *values,
                              uint64_t *rows);

/* Writes the distinct values of `state` without null to `values`, in ascending order. For columns
 * of signed integers the value is (int64_t)values[i]. The call writes as many numbers of 8 bytes as
 * `dunkelva_unique_count` stores in its argument `values`; the memory after the last number is
 * unchanged. `values_len` is the number of numbers for which `values` has memory. `values` may be
 * null if `values_len` is 0. `has_null` gets 1 if the state has a null, and else 0. `has_null` is
 * needed.
 *
 * Returns
 * - DUNKELVA_NO_ROOM if `values_len` is less than the number of values, or state->words less than
 *   the range needs,
 * - DUNKELVA_BAD_ARGUMENT if `has_null`, `state` or state->bits is null, if `values` is null and
 *   `values_len` is not 0, or if state->least and state->greatest are not the ends of a range. */
int32_t dunkelva_unique_finish(const struct dunkelva_unique *state, uint64_t *values,
                               size_t values_len, uint64_t *has_null);

/* Returns a short English text that says what `status` means. The text is static: never free it. */
const char *dunkelva_status_text(int32_t status);

/* The version of this header. */
#define DUNKELVA_VERSION "0.1.0"

/* Returns the version of the library, as a static text: DUNKELVA_VERSION of the header with which
 * the library was compiled. */
const char *dunkelva_version(void);

#ifdef __cplusplus
}
#endif

#endif
