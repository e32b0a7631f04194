/* Formats of the C data interface, and the kinds of arrays that store their rows. */
#include "shim.h"

#include <string.h>

/* A format, or a prefix of formats that end with a time zone. */
struct known_format {
  const char *text;
  enum kind kind;
  uint32_t asks; /* flags without which the format is not served */
};

static const struct known_format whole_formats[] = {
    {"n", KIND_NULL, 0},
    {"b", KIND_BOOLEAN, 0},
    {"c", KIND_INT8, 0},
    {"s", KIND_INT16, 0},
    {"i", KIND_INT32, 0},
    {"l", KIND_INT64, 0},
    {"C", KIND_UINT8, 0},
    {"S", KIND_UINT16, 0},
    {"I", KIND_UINT32, 0},
    {"L", KIND_UINT64, 0},
    {"e", KIND_UINT16, DUNKELVA_FLOATS_BY_BITS},
    {"f", KIND_UINT32, DUNKELVA_FLOATS_BY_BITS},
    {"g", KIND_UINT64, DUNKELVA_FLOATS_BY_BITS},
    {"z", KIND_BINARY, 0},
    {"Z", KIND_LARGE_BINARY, 0},
    {"u", KIND_UTF8, 0},
    {"U", KIND_LARGE_UTF8, 0},
    /* dates, times of day, durations and intervals, as numbers of one unit; but "tiD" has two
     * numbers of 32 bits, which only equality and states of distinct values read as one
     * (`dunkelva_open_numbers`) */
    {"tdD", KIND_INT32, 0},
    {"tdm", KIND_INT64, 0},
    {"tts", KIND_INT32, 0},
    {"ttm", KIND_INT32, 0},
    {"ttu", KIND_INT64, 0},
    {"ttn", KIND_INT64, 0},
    {"tDs", KIND_INT64, 0},
    {"tDm", KIND_INT64, 0},
    {"tDu", KIND_INT64, 0},
    {"tDn", KIND_INT64, 0},
    {"tiM", KIND_INT32, 0},
    {"tiD", KIND_INT64, 0},
    {"+l", KIND_LIST, 0},
    {"+L", KIND_LARGE_LIST, 0},
    {"+s", KIND_STRUCT, 0},
    {"vz", KIND_BINARY_VIEW, 0},
    {"vu", KIND_UTF8_VIEW, 0},
    /* a map is stored as a list of entries, and compared in the order of the entries */
    {"+m", KIND_LIST, 0},
};

/* Timestamps: after the prefix comes a time zone, or nothing. */
static const struct known_format formats_with_zone[] = {
    {"tss:", KIND_INT64, 0},
    {"tsm:", KIND_INT64, 0},
    {"tsu:", KIND_INT64, 0},
    {"tsn:", KIND_INT64, 0},
};

#define COUNT_OF(table) (sizeof(table) / sizeof *(table))

/* Reads digits into `number`, and moves `text` to the first character after them. Returns false if
 * there are no digits, or if the number is greater than INT32_MAX. */
static bool read_digits(const char **text, int64_t *number) {
  const char *digit = *text;
  int64_t value = 0;
  for (; *digit >= '0' && *digit <= '9'; digit++) {
    value = 10 * value + (*digit - '0');
    if (value > INT32_MAX) {
      return false;
    }
  }
  bool some = digit != *text;
  *text = digit;
  *number = value;
  return some;
}

/* Moves `text` by one character if `character` comes next. Returns false if another one comes. */
static bool read_one(const char **text, char character) {
  if (**text != character) {
    return false;
  }
  ++*text;
  return true;
}

/* Returns the layout of a format that ends with `size`, such as "w:16" with "16". Its kind is
 * `kind`, or KIND_NONE if `size` is no number. */
static struct layout sized_layout(const char *size, enum kind kind) {
  struct layout layout = {KIND_NONE, 0};
  int64_t width = 0;
  if (read_digits(&size, &width) && *size == '\0') {
    layout.kind = kind;
    layout.width = width;
  }
  return layout;
}

/* Returns the layout of a format of decimals. `text` is "PRECISION,SCALE" or
 * "PRECISION,SCALE,BITS". Two columns of the same format have the same scale, so their decimals are
 * equal if their stored numbers are equal. */
static struct layout decimal_layout(const char *text) {
  struct layout layout = {KIND_NONE, 0};
  int64_t precision = 0;
  int64_t scale = 0;
  int64_t bits = 128;
  if (!read_digits(&text, &precision) || !read_one(&text, ',')) {
    return layout;
  }
  (void)read_one(&text, '-');
  if (!read_digits(&text, &scale)) {
    return layout;
  }
  if (read_one(&text, ',') && !read_digits(&text, &bits)) {
    return layout;
  }
  if (*text != '\0') {
    return layout;
  }
  if (bits == 32) {
    layout.kind = KIND_INT32;
  } else if (bits == 64) {
    layout.kind = KIND_INT64;
  } else if (bits == 128) {
    layout.kind = KIND_INT128;
  } else if (bits == 256) { /* equal numbers have equal bytes */
    layout.kind = KIND_FIXED_SIZE_BINARY;
    layout.width = 32;
  }
  return layout;
}

/* Returns the kind of a format in one of the two tables above, or KIND_NONE. */
static enum kind known_kind(const char *format, uint32_t flags) {
  for (size_t i = 0; i < COUNT_OF(whole_formats); i++) {
    const struct known_format *known = &whole_formats[i];
    if (strcmp(format, known->text) == 0 && (known->asks & ~flags) == 0) {
      return known->kind;
    }
  }
  for (size_t i = 0; i < COUNT_OF(formats_with_zone); i++) {
    const struct known_format *known = &formats_with_zone[i];
    if (strncmp(format, known->text, strlen(known->text)) == 0) {
      return known->kind;
    }
  }
  return KIND_NONE;
}

/* Returns the kind of byte strings for a kind of texts, and any other kind unchanged. Two texts are
 * equal if their bytes are equal. */
static enum kind without_text(enum kind kind) {
  switch (kind) {
  case KIND_UTF8:
    return KIND_BINARY;
  case KIND_LARGE_UTF8:
    return KIND_LARGE_BINARY;
  case KIND_UTF8_VIEW:
    return KIND_BINARY_VIEW;
  default:
    return kind;
  }
}

struct layout dunkelva_layout(const char *format, uint32_t flags) {
  struct layout layout = {KIND_NONE, 0};
  if (strncmp(format, "w:", 2) == 0) {
    return sized_layout(format + 2, KIND_FIXED_SIZE_BINARY);
  }
  if (strncmp(format, "+w:", 3) == 0) {
    return sized_layout(format + 3, KIND_FIXED_SIZE_LIST);
  }
  if (strncmp(format, "d:", 2) == 0) {
    return decimal_layout(format + 2);
  }
  if (strcmp(format, "tin") == 0) { /* one month and 30 days are not equal */
    layout.kind = KIND_FIXED_SIZE_BINARY;
    layout.width = 16;
    return layout;
  }
  layout.kind = known_kind(format, flags);
  if ((flags & DUNKELVA_CHECK_TEXTS) == 0) {
    layout.kind = without_text(layout.kind);
  }
  return layout;
}

bool dunkelva_same_formats(const struct ArrowSchema *left, const struct ArrowSchema *right) {
  if (strcmp(left->format, right->format) != 0 || left->n_children != right->n_children) {
    return false;
  }
  if (left->dictionary != NULL || right->dictionary != NULL) {
    return left->dictionary != NULL && right->dictionary != NULL &&
           dunkelva_same_formats(left->dictionary, right->dictionary);
  }
  for (int64_t i = 0; i < left->n_children; i++) {
    if (!dunkelva_same_formats(left->children[i], right->children[i])) {
      return false;
    }
  }
  return true;
}
