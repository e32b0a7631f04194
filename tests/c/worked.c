/* Calls on rows that were worked out by hand. Ends with `N passed, M failed`. */
#include "columns.h"

#include <stdbool.h>
#include <stdio.h>
#include <string.h>

static int passed;
static int failed;

static void count(bool holds, const char *what) {
  if (holds) {
    passed++;
  } else {
    failed++;
    printf("worked: not so: %s\n", what);
  }
}

static int32_t status_of(const struct made *left, const struct made *right, uint32_t flags) {
  uint8_t out[16];
  return dunkelva_equal(&left->type, &left->array, &right->type, &right->array, flags, out,
                        sizeof out);
}

/* Compares two columns, as bits and as bytes: `wanted` has a character for each row, 1 where the
 * rows are the same. */
static void equal_by(const char *what, const struct made *left, const struct made *right,
                     const char *wanted, uint32_t flags) {
  uint8_t out[16] = {0};
  uint8_t bytes[129] = {0};
  char got[129] = {0};
  int32_t status = dunkelva_equal(&left->type, &left->array, &right->type, &right->array, flags,
                                  out, sizeof out);
  for (size_t row = 0; row < strlen(wanted); row++) {
    got[row] = (char)('0' + (out[row / 8] >> (row % 8) & 1));
  }
  count(status == DUNKELVA_OK && strcmp(got, wanted) == 0, what);
  status = dunkelva_equal_bytes(&left->type, &left->array, &right->type, &right->array, flags,
                                bytes, strlen(wanted));
  for (size_t row = 0; row < strlen(wanted); row++) {
    got[row] = (char)('0' + bytes[row]);
  }
  count(status == DUNKELVA_OK && strcmp(got, wanted) == 0 && bytes[strlen(wanted)] == 0, what);
}

static void equal(const char *what, const struct made *left, const struct made *right,
                  const char *wanted) {
  equal_by(what, left, right, wanted, 0);
  equal_by(what, left, right, wanted, DUNKELVA_CHECK_TEXTS);
}

static void refused(const char *what, const struct made *left, const struct made *right,
                    int32_t wanted) {
  count(status_of(left, right, 0) == wanted, what);
}

/* A byte with bits, the first row lowest. */
#define BITS(...) ((const uint8_t[]){__VA_ARGS__})

static struct made *numbers(int64_t rows, const uint8_t *validity, const int32_t *values) {
  return make("i", rows, 2, validity, values, NULL);
}

/* Writes a view. */
static void view(uint8_t *to, const char *text, uint32_t number, uint32_t place) {
  uint32_t length = (uint32_t)strlen(text);
  memset(to, 0, 16);
  memcpy(to, &length, 4);
  memcpy(to + 4, text, length < 12 ? length : 12);
  if (length > 12) {
    memcpy(to + 8, &number, 4);
    memcpy(to + 12, &place, 4);
  }
}

static void try_numbers(void) {
  const int32_t left[] = {1, 7, 3, 4};
  const int32_t right[] = {1, 8, 3, 5};
  struct made *bare = numbers(4, NULL, left);
  equal("numbers", bare, numbers(4, NULL, right), "1010");
  equal("what is under a null is not seen", numbers(4, BITS(0x5), left),
        numbers(4, BITS(0xD), right), "1110");
  equal("null is equal to null alone", numbers(4, BITS(0x0), left), numbers(4, BITS(0x3), left),
        "0011");
  equal("a validity of ones is as good as none", numbers(4, BITS(0xFF), left), bare, "1111");
  struct made *window = numbers(2, BITS(0xE), left);
  window->array.offset = 1;
  equal("a window", window, numbers(2, BITS(0xFE), right + 1), "01");
  equal("no rows", numbers(0, NULL, NULL), numbers(0, BITS(0), left), "");
  refused("a shorter column", bare, numbers(3, NULL, left), DUNKELVA_TYPES_DIFFER);
  refused("a longer column", numbers(3, NULL, left), bare, DUNKELVA_TYPES_DIFFER);
  refused("other types", bare, make("I", 4, 2, NULL, left, NULL), DUNKELVA_TYPES_DIFFER);
  refused("other types of no rows", numbers(0, NULL, NULL), make("I", 0, 2, NULL, NULL, NULL),
          DUNKELVA_TYPES_DIFFER);
  const uint8_t bytes[] = {9, 1, 0, 0, 0, 7, 0, 0, 0, 3, 0, 0, 0, 5, 0, 0, 0};
  equal("an odd address", numbers(4, NULL, (const void *)(bytes + 1)), bare, "1110");
}

static void try_numbers_of_other_formats(void) {
  const uint64_t left[] = {1, 2, 0, UINT64_MAX};
  const uint64_t right[] = {1, 0, 2, UINT64_MAX};
  const char *const wide[] = {"l",       "L",    "tdm", "ttu", "ttn",
                              "tsu:UTC", "tss:", "tDn", "tiD", "d:18,2,64"};
  for (size_t i = 0; i < sizeof wide / sizeof *wide; i++) {
    equal(wide[i], make(wide[i], 4, 2, NULL, left, NULL), make(wide[i], 4, 2, NULL, right, NULL),
          "1001");
  }
  const char *const pairs[] = {"d:38,2", "d:38,-1,128", "w:16", "tin"};
  for (size_t i = 0; i < sizeof pairs / sizeof *pairs; i++) {
    equal(pairs[i], make(pairs[i], 2, 2, NULL, left, NULL), make(pairs[i], 2, 2, NULL, right, NULL),
          "00");
    equal(pairs[i], make(pairs[i], 1, 2, NULL, left + 1, NULL),
          make(pairs[i], 1, 2, NULL, right + 2, NULL), "0");
    equal(pairs[i], make(pairs[i], 2, 2, NULL, left, NULL), make(pairs[i], 2, 2, NULL, left, NULL),
          "11");
  }
  const uint8_t *bytes = (const uint8_t *)left;
  equal("w:3", make("w:3", 3, 2, NULL, bytes, NULL), make("w:3", 3, 2, NULL, right, NULL), "110");
  equal("w:0", make("w:0", 3, 2, BITS(5), NULL, NULL), make("w:0", 3, 2, NULL, NULL, NULL), "101");
  equal("bytes", make("C", 9, 2, NULL, bytes, NULL), make("C", 9, 2, NULL, right, NULL),
        "111111110");
  equal("numbers of 16 bits", make("s", 5, 2, NULL, left, NULL), make("s", 5, 2, NULL, right, NULL),
        "11110");
  refused("other zones", make("tsu:UTC", 4, 2, NULL, left, NULL),
          make("tsu:", 4, 2, NULL, left, NULL), DUNKELVA_TYPES_DIFFER);
  refused("other scales", make("d:18,2,64", 4, 2, NULL, left, NULL),
          make("d:18,3,64", 4, 2, NULL, left, NULL), DUNKELVA_TYPES_DIFFER);
}

static void try_floats(void) {
  const float left[] = {1.5F, 0.0F, 2.0F};
  const float right[] = {1.5F, -0.0F, 3.0F};
  const uint64_t nans[] = {0x7FF8000000000000U, 0x7FF8000000000001U};
  const uint64_t others[] = {0x7FF8000000000000U, 0x7FF8000000000002U};
  struct made *floats = make("f", 3, 2, NULL, left, NULL);
  refused("floats are not served", floats, floats, DUNKELVA_NOT_SERVED);
  equal_by("-0 has other bits than 0", floats, make("f", 3, 2, NULL, right, NULL), "100",
           DUNKELVA_FLOATS_BY_BITS);
  equal_by("NaN by its bits", make("g", 2, 2, NULL, nans, NULL),
           make("g", 2, 2, NULL, others, NULL), "10", DUNKELVA_FLOATS_BY_BITS);
  equal_by("halves", make("e", 2, 2, NULL, nans, NULL), make("e", 2, 2, NULL, others, NULL), "11",
           DUNKELVA_FLOATS_BY_BITS);
}

static void try_truth_values(void) {
  struct made *left = make("b", 10, 2, NULL, BITS(0xA5, 0x02), NULL);
  equal("truth values", left, make("b", 10, 2, NULL, BITS(0xA7, 0x00), NULL), "1011111110");
  struct made *window = make("b", 3, 2, BITS(0x00, 0x06), BITS(0xFF, 0x05), NULL);
  window->array.offset = 8; /* rows: null, false, true */
  equal("a window of truth values", window, make("b", 3, 2, BITS(0x06), BITS(0x06), NULL), "101");
  equal("nulls", make("n", 5, 0, NULL, NULL, NULL), make("n", 5, 0, NULL, NULL, NULL), "11111");
}

static void try_texts(void) {
  const int32_t left[] = {0, 1, 1, 4};
  const int32_t right[] = {2, 3, 3, 6};
  const int64_t large[] = {0, 1, 1, 4};
  struct made *texts = make("u", 3, 3, NULL, left, "a\xC3\xA9z");
  equal("texts", texts, make("u", 3, 3, NULL, right, "??a\xC3\xA9z"), "111");
  equal("an empty text is no null", texts, make("u", 3, 3, BITS(0x5), left, "b\xC3\xA9z"), "001");
  equal("large texts", make("U", 3, 3, NULL, large, "abcd"), make("U", 3, 3, NULL, large, "abce"),
        "110");
  equal("bytes with a zero", make("z", 3, 3, NULL, left, "a\0bc"),
        make("z", 3, 3, NULL, left, "a\0bd"), "110");
  refused("texts and bytes", texts, make("z", 3, 3, NULL, left, "abcd"), DUNKELVA_TYPES_DIFFER);
  const int32_t back[] = {0, 3, 1, 4};
  const int32_t below[] = {-1, 1, 1, 4};
  refused("offsets that go back", make("u", 3, 3, NULL, back, "abcd"), texts, DUNKELVA_BAD_ARRAY);
  refused("an offset below 0", texts, make("u", 3, 3, NULL, below, "abcd"), DUNKELVA_BAD_ARRAY);
  struct made *broken = make("u", 3, 3, NULL, left, "a\xC3zz");
  equal_by("bytes that are no text", broken, broken, "111", 0);
  count(status_of(broken, broken, DUNKELVA_CHECK_TEXTS) == DUNKELVA_BAD_ARRAY, "no UTF-8");
}

static void try_views(void) {
  const char *const text = "a text of more than twelve bytes";
  uint8_t left[48];
  uint8_t right[48];
  view(left, "short", 0, 0);
  view(left + 16, text, 0, 0);
  view(left + 32, "twelve bytes", 0, 0);
  view(right, "short", 0, 0);
  view(right + 16, text, 1, 3);
  view(right + 32, "twelve bites", 0, 0);
  const int64_t lengths[] = {(int64_t)strlen(text)};
  const int64_t others[] = {0, 3 + (int64_t)strlen(text)};
  struct made *one = make("vu", 3, 4, NULL, left, text);
  one->buffers[3] = lengths;
  struct made *two = make("vu", 3, 5, BITS(0xFF), right, NULL);
  two->buffers[3] = "???a text of more than twelve bytes";
  two->buffers[4] = others;
  equal("views into other buffers", one, two, "110");
  struct made *window = make("vz", 1, 4, NULL, left, text);
  window->buffers[3] = lengths;
  window->array.offset = 1;
  struct made *other = make("vz", 1, 4, NULL, left + 16, text);
  other->buffers[3] = lengths;
  equal("a window of views", window, other, "1");
  struct made *shorts = make("vz", 1, 3, NULL, left + 32, NULL);
  equal("views without buffers", shorts, shorts, "1");
  const int64_t below[] = {-1};
  struct made *short_buffer = make("vz", 1, 4, NULL, left + 32, text);
  short_buffer->buffers[3] = below;
  refused("a buffer of views with a length below 0", short_buffer, shorts, DUNKELVA_BAD_STRUCTS);
}

/* Compares two rows, of which the second has this view over a buffer of 14 bytes, with themselves:
 * present, and under a null. */
static void try_bad_view(const char *what, const uint8_t *bad) {
  static const int64_t lengths[] = {14};
  uint8_t views[32];
  view(views, "good", 0, 0);
  memcpy(views + 16, bad, 16);
  struct made *seen = make("vz", 2, 4, NULL, views, "fourteen bytes");
  struct made *hidden = make("vz", 2, 4, BITS(0x1), views, "fourteen bytes");
  seen->buffers[3] = hidden->buffers[3] = lengths;
  refused(what, seen, seen, DUNKELVA_BAD_ARRAY);
  refused(what, hidden, seen, DUNKELVA_BAD_ARRAY);
  equal(what, hidden, hidden, "11");
}

static void try_bad_views(void) {
  uint8_t bad[16];
  view(bad, "fourteen bytes", 0, 0);
  bad[12] = 1;
  try_bad_view("a view past its buffer", bad);
  view(bad, "fourteen bytes", 1, 0);
  try_bad_view("a view into no buffer", bad);
  view(bad, "fourteen bytes", 0, 0);
  bad[4] = 'F';
  try_bad_view("a view with another prefix", bad);
  view(bad, "fourteen bytes", 0, 0);
  bad[3] = 0x80;
  try_bad_view("a view with a length below 0", bad);
  view(bad, "fourteen bytes", 0, 0);
  bad[11] = 0xFF;
  try_bad_view("a view with a buffer below 0", bad);
  view(bad, "fourteen bytes", 0, 0);
  bad[15] = 0xFF;
  try_bad_view("a view with an offset below 0", bad);
  view(bad, "short", 0, 0);
  bad[4 + 5] = 1;
  try_bad_view("a short view with a byte too many", bad);
  view(bad, "\xFF", 0, 0);
  struct made *no_text = make("vu", 1, 3, NULL, bad, NULL);
  struct made *no_row = make("vu", 1, 3, BITS(0x0), bad, NULL);
  equal_by("a view of bytes that are no text", no_text, no_text, "1", 0);
  count(status_of(no_text, no_text, DUNKELVA_CHECK_TEXTS) == DUNKELVA_BAD_ARRAY,
        "a view of no UTF-8");
  equal("a view of no UTF-8 under a null", no_row, no_row, "1");
}

static void try_lists(void) {
  const int32_t items[] = {1, 2, 3, 4, 5};
  const int32_t left[] = {0, 2, 2, 3, 3};
  const int32_t right[] = {1, 3, 3, 5, 5};
  const int64_t large[] = {0, 2, 2, 3, 3};
  struct made *lists = put(make("+l", 4, 2, NULL, left, NULL), "item", numbers(5, NULL, items));
  struct made *nulls =
      put(make("+l", 4, 2, BITS(0x7), left, NULL), "x", numbers(5, BITS(0x1D), items));
  equal("lists", lists, put(make("+l", 4, 2, NULL, right, NULL), "item", numbers(5, NULL, items)),
        "0101");
  equal("null items, null lists", lists, nulls, "0110");
  equal("the same", nulls, nulls, "1111");
  equal("large lists", put(make("+L", 4, 2, NULL, large, NULL), "item", numbers(5, NULL, items)),
        put(make("+L", 4, 2, NULL, large, NULL), "item", numbers(3, NULL, items)), "1111");
  equal("lists of one width",
        put(make("+w:2", 2, 1, BITS(0x1), NULL, NULL), "item", numbers(4, NULL, items)),
        put(make("+w:2", 2, 1, BITS(0x1), NULL, NULL), "item", numbers(5, BITS(0x3), items)), "11");
  equal("lists of no items",
        put(make("+w:0", 2, 1, BITS(0x1), NULL, NULL), "", numbers(0, NULL, NULL)),
        put(make("+w:0", 2, 1, NULL, NULL, NULL), "", numbers(0, NULL, NULL)), "10");
  refused("too few items", put(make("+l", 4, 2, NULL, left, NULL), "", numbers(2, NULL, items)),
          lists, DUNKELVA_BAD_STRUCTS);
  refused("other items", lists,
          put(make("+l", 4, 2, NULL, left, NULL), "", make("I", 5, 2, NULL, items, NULL)),
          DUNKELVA_TYPES_DIFFER);
}

static void try_columns_of_views(void) {
  uint8_t views[32];
  const int64_t lengths[] = {13};
  view(views, "thirteen ones", 0, 0);
  view(views + 16, "thirteen twos", 0, 0);
  struct made *fields[4];
  for (size_t i = 0; i < 4; i++) {
    fields[i] =
        make("vu", 1, 4, NULL, views + 16 * (i % 2), i % 2 ? "thirteen twos" : "thirteen ones");
    fields[i]->buffers[3] = lengths;
  }
  struct made *both = put(put(make("+s", 1, 1, NULL, NULL, NULL), "a", fields[0]), "b", fields[1]);
  equal("two columns of views", both, both, "1");
  equal("another column of views", both,
        put(put(make("+s", 1, 1, NULL, NULL, NULL), "a", fields[3]), "b", fields[1]), "0");
}

/* A struct of a number and a text. */
static struct made *pair(const char *first, const char *second, const uint8_t *validity,
                         const int32_t *values, const int32_t *offsets, const char *bytes) {
  return put(put(make("+s", 3, 1, validity, NULL, NULL), first, numbers(3, NULL, values)), second,
             make("u", 3, 3, NULL, offsets, bytes));
}

static void try_structs_and_maps(void) {
  const int32_t left[] = {1, 2, 3};
  const int32_t right[] = {1, 9, 3};
  const int32_t offsets[] = {0, 1, 2, 3};
  struct made *one = pair("a", "b", NULL, left, offsets, "xyz");
  equal("structs", one, pair("a", "b", NULL, right, offsets, "xyw"), "100");
  equal("null structs", pair("a", "b", BITS(0x5), left, offsets, "xyz"),
        pair("a", "b", BITS(0x1), right, offsets, "xyz"), "110");
  refused("other names", one, pair("a", "c", NULL, left, offsets, "xyz"), DUNKELVA_TYPES_DIFFER);
  refused("columns in another order", one,
          put(put(make("+s", 3, 1, NULL, NULL, NULL), "b", make("u", 3, 3, NULL, offsets, "xyz")),
              "a", numbers(3, NULL, left)),
          DUNKELVA_TYPES_DIFFER);
  struct made *window = pair("a", "b", NULL, left, offsets, "xyz");
  window->array.offset = 1;
  window->array.length = 1;
  window->arrays[0]->offset = 1; /* its rows are 2, 3 */
  window->arrays[0]->length = 2;
  struct made *third = put(put(make("+s", 1, 1, NULL, NULL, NULL), "a", numbers(1, NULL, left + 2)),
                           "b", make("u", 1, 3, NULL, offsets + 1, "xyz"));
  equal("offsets of a struct and of its column add up", window, third, "1");
  equal("structs of no fields", make("+s", 2, 1, BITS(0x1), NULL, NULL),
        make("+s", 2, 1, NULL, NULL, NULL), "10");
  const int32_t ends[] = {0, 2, 3};
  struct made *map = put(make("+m", 2, 2, NULL, ends, NULL), "entries",
                         pair("key", "value", NULL, left, offsets, "xyz"));
  equal("maps", map,
        put(make("+m", 2, 2, NULL, ends, NULL), "entries",
            pair("key", "value", NULL, right, offsets, "xyz")),
        "01");
}

static struct made *dictionary(const char *keys, int64_t rows, const uint8_t *validity,
                               const void *values, struct made *entries) {
  struct made *made = make(keys, rows, 2, validity, values, NULL);
  made->type.dictionary = &entries->type;
  made->array.dictionary = &entries->array;
  return made;
}

static void try_dictionaries(void) {
  const int8_t left[] = {0, 1, 2, 9};
  const int8_t right[] = {2, 1, 0, 1};
  const int32_t ends[] = {0, 1, 2, 3};
  struct made *entries = make("u", 3, 3, NULL, ends, "abc");
  struct made *turned = make("u", 3, 3, BITS(0x5), ends, "c?a");
  struct made *one = dictionary("c", 4, BITS(0x7), left, entries);
  struct made *two = dictionary("c", 4, NULL, right, turned);
  equal("entries in another order, a null entry", one, two, "1011");
  refused("a key of no entry", dictionary("c", 4, NULL, left, entries), one, DUNKELVA_BAD_ARRAY);
  refused("a dictionary and texts", one, make("u", 4, 3, NULL, ends, "abc"), DUNKELVA_TYPES_DIFFER);
  refused("other keys", one, dictionary("C", 4, NULL, right, turned), DUNKELVA_TYPES_DIFFER);
  refused("keys that are no numbers", dictionary("tdD", 4, NULL, ends, entries), one,
          DUNKELVA_BAD_STRUCTS);
  const uint64_t keys[] = {2, 0};
  equal("wide keys", dictionary("L", 2, NULL, keys, entries),
        dictionary("L", 2, NULL, keys, turned), "00");
}

static void try_broken_structs(void) {
  const int32_t values[] = {1, 2, 3, 4};
  struct made *good = numbers(4, NULL, values);
  struct made *bad = numbers(4, NULL, values);
  bad->array.release(&bad->array);
  refused("an array that was released", good, bad, DUNKELVA_BAD_STRUCTS);
  bad = numbers(4, NULL, values);
  bad->type.release(&bad->type);
  refused("a type that was released", bad, good, DUNKELVA_BAD_STRUCTS);
  refused("no values", numbers(4, NULL, NULL), good, DUNKELVA_BAD_STRUCTS);
  refused("too few buffers", make("i", 4, 1, NULL, values, NULL), good, DUNKELVA_BAD_STRUCTS);
  refused("a length below 0", numbers(-1, NULL, values), numbers(-1, NULL, values),
          DUNKELVA_BAD_STRUCTS);
  refused("a length beyond memory", numbers(INT64_MAX, NULL, values),
          numbers(INT64_MAX, NULL, values), DUNKELVA_BAD_STRUCTS);
  refused("an unknown format", make("?", 4, 2, NULL, values, NULL), good, DUNKELVA_NOT_SERVED);
  struct made *fields = put(make("+s", 4, 1, NULL, NULL, NULL), "a", numbers(4, NULL, values));
  fields->array.n_children = 0;
  refused("a struct without its column", fields, fields, DUNKELVA_BAD_STRUCTS);
  refused("unions", make("+us:0", 4, 2, NULL, values, NULL), good, DUNKELVA_NOT_SERVED);
  struct made *deep = numbers(1, NULL, values);
  const int32_t ends[] = {0, 1};
  for (int level = 1; level < 64; level++) {
    deep = put(make("+l", 1, 2, NULL, ends, NULL), "", deep);
  }
  equal("64 levels", deep, deep, "1");
  deep = put(make("+l", 1, 2, NULL, ends, NULL), "", deep);
  refused("65 levels", deep, deep, DUNKELVA_BAD_STRUCTS);
}

static void try_arguments(void) {
  const int32_t values[] = {1, 2, 3, 4, 5, 6, 7, 8, 9};
  struct made *made = numbers(9, NULL, values);
  const struct ArrowSchema *type = &made->type;
  const struct ArrowArray *array = &made->array;
  uint8_t out[3] = {0x55, 0x55, 0x55};
  uint64_t steps = 7;
  count(dunkelva_equal(type, array, type, array, 0, out, 1) == DUNKELVA_NO_ROOM, "no room");
  count(dunkelva_equal(type, array, type, array, 4, out, 2) == DUNKELVA_BAD_ARGUMENT, "flags");
  count(dunkelva_equal(type, array, type, array, 0, NULL, 2) == DUNKELVA_BAD_ARGUMENT, "no out");
  count(dunkelva_equal(type, NULL, type, array, 0, out, 2) == DUNKELVA_BAD_STRUCTS, "no array");
  count(dunkelva_equal(NULL, array, type, array, 0, out, 2) == DUNKELVA_BAD_STRUCTS, "no type");
  count(dunkelva_equal_rows(type, array, 1, type, array, 0, 9, 0, out, 2, &steps) ==
            DUNKELVA_BAD_ARGUMENT,
        "rows behind the last one");
  count(dunkelva_equal_rows(type, array, -1, type, array, 0, 1, 0, out, 2, &steps) ==
            DUNKELVA_BAD_ARGUMENT,
        "rows before the first one");
  count(dunkelva_equal_rows(type, array, 0, type, array, 0, -1, 0, out, 2, &steps) ==
            DUNKELVA_BAD_ARGUMENT,
        "fewer than no rows");
  count(out[0] == 0x55 && out[1] == 0x55 && out[2] == 0x55 && steps == 7, "nothing is written");
  count(dunkelva_equal_rows(type, array, 1, type, array, 0, 8, 0, out, 1, &steps) == DUNKELVA_OK &&
            out[0] == 0 && out[1] == 0x55 && steps <= 8,
        "a window");
  count(dunkelva_equal(type, array, type, array, 0, out, 3) == DUNKELVA_OK && out[0] == 0xFF &&
            out[1] == 1 && out[2] == 0x55,
        "bits behind the last row are 0, later bytes stay");
  count(strcmp(dunkelva_version(), DUNKELVA_VERSION) == 0, "the version");
  for (int32_t status = 0; status < 8; status++) {
    count(strcmp(dunkelva_status_text(status), dunkelva_status_text(-1)) != 0,
          "a text of each status");
  }
}

/* Results as bytes, of columns that end at each place of a word. */
static void try_bytes(void) {
  enum { ROWS = 200 };
  int32_t left[ROWS];
  int32_t right[ROWS];
  uint8_t out[ROWS + 1];
  for (int32_t row = 0; row < ROWS; row++) {
    left[row] = row;
    right[row] = row % 3 == 0 || row % 64 == 63 ? row : -1;
  }
  for (int32_t rows = 0; rows <= ROWS; rows++) {
    struct made *one = numbers(rows, NULL, left);
    struct made *two = numbers(rows, NULL, right);
    memset(out, 0x55, sizeof out);
    bool holds = rows == 0 || dunkelva_equal_bytes(&one->type, &one->array, &two->type, &two->array,
                                                   0, out, (size_t)rows - 1) == DUNKELVA_NO_ROOM;
    holds = holds && out[0] == 0x55;
    holds = holds && dunkelva_equal_bytes(&one->type, &one->array, &two->type, &two->array, 0, out,
                                          (size_t)rows) == DUNKELVA_OK;
    for (int32_t row = 0; row < rows; row++) {
      holds = holds && out[row] == (row % 3 == 0 || row % 64 == 63);
    }
    count(holds && out[rows] == 0x55, "a byte for each row");
  }
  struct made *one = numbers(ROWS, NULL, left);
  struct made *two = numbers(ROWS - 1, NULL, left);
  count(dunkelva_equal_bytes(&one->type, &one->array, &two->type, &two->array, 0, out,
                             sizeof out) == DUNKELVA_TYPES_DIFFER,
        "bytes of columns of two lengths");
  count(dunkelva_equal_bytes(&one->type, &one->array, &one->type, &one->array, 0, NULL,
                             sizeof out) == DUNKELVA_BAD_ARGUMENT,
        "no bytes");
}

/* Columns of several windows: rows that differ at the ends of windows, and a fault in the last one.
 */
static void try_many_rows(void) {
  enum { ROWS = 300000 };
  static int32_t left[ROWS + 1];
  static int32_t right[ROWS + 1];
  static uint8_t out[ROWS / 8];
  static uint8_t bytes[2 * ROWS];
  const int32_t planted[] = {0, 262143, 262144, 299999};
  for (int32_t row = 0; row <= ROWS; row++) {
    left[row] = right[row] = 2 * row;
  }
  for (size_t i = 0; i < 4; i++) {
    right[planted[i]] += 1;
  }
  struct made *one = numbers(ROWS, NULL, left);
  struct made *two = numbers(ROWS, NULL, right);
  count(dunkelva_equal(&one->type, &one->array, &two->type, &two->array, 0, out, sizeof out) ==
            DUNKELVA_OK,
        "many rows");
  for (int32_t row = 0, next = 0; row < ROWS; row++) {
    bool differs = next < 4 && row == planted[next];
    next += differs;
    if ((out[row / 8] >> (row % 8) & 1) != !differs) {
      count(false, "the planted rows are the ones that differ");
      return;
    }
  }
  passed++;
  uint64_t comparisons = 0; /* equal rows take one for each number */
  count(dunkelva_equal_rows(&one->type, &one->array, 0, &one->type, &one->array, 0, ROWS, 0, out,
                            sizeof out, &comparisons) == DUNKELVA_OK &&
            comparisons == ROWS,
        "comparisons of all windows");
  struct made *texts = make("u", ROWS, 3, NULL, left, bytes);
  right[299900] = 9; /* lies before the offset in front of it */
  struct made *broken = make("u", ROWS, 3, NULL, right, bytes);
  memset(out, 0x77, sizeof out);
  count(dunkelva_equal(&texts->type, &texts->array, &broken->type, &broken->array, 0, out,
                       sizeof out) == DUNKELVA_BAD_ARRAY,
        "a bad offset in the last window");
  for (size_t i = 0; i < sizeof out; i++) {
    if (out[i] != 0x77) {
      count(false, "nothing is written where the last window fails");
      return;
    }
  }
  passed++;
}

/* Views of 20 bytes each, whose buffer begins with many bytes that no view names. */
static void try_many_views(void) {
  enum { ROWS = 40000, UNUSED = 1 << 22, WIDTH = 20 };
  static uint8_t views[16 * ROWS];
  static uint8_t bytes[UNUSED + WIDTH * ROWS];
  static uint8_t others[UNUSED + WIDTH * ROWS];
  static uint8_t out[ROWS / 8];
  static const int64_t lengths[] = {sizeof bytes};
  memset(bytes, 'a', sizeof bytes);
  memset(others, 'a', sizeof others);
  for (uint32_t row = 0; row < ROWS; row++) {
    uint32_t words[4] = {WIDTH, 0x61616161U, 0, UNUSED + WIDTH * row};
    memcpy(views + 16 * (size_t)row, words, sizeof words);
    others[UNUSED + WIDTH * row + 19] = row % 5000 == 0 ? 'b' : 'a';
  }
  struct made *left = make("vu", ROWS, 4, NULL, views, bytes);
  struct made *right = make("vu", ROWS, 4, NULL, views, others);
  left->buffers[3] = right->buffers[3] = lengths;
  count(dunkelva_equal(&left->type, &left->array, &right->type, &right->array, 0, out,
                       sizeof out) == DUNKELVA_OK,
        "many views");
  for (uint32_t row = 0; row < ROWS; row++) {
    if ((out[row / 8] >> (row % 8) & 1) != (row % 5000 != 0)) {
      count(false, "the planted views are the ones that differ");
      return;
    }
  }
  passed++;
}

static void try_sums(void) {
  const int8_t values[] = {100, 100, 3, -1};
  struct made *made = make("c", 4, 2, BITS(0x3), values, NULL);
  struct dunkelva_number sum = {7, 7, 7};
  int32_t status = dunkelva_sum(&made->type, &made->array, &sum);
  count(status == DUNKELVA_OK && (int64_t)sum.low == -56 && sum.high == UINT64_MAX &&
            sum.exists == 1,
        "a sum wraps to the type of its column");
  made->array.offset = 2;
  made->array.length = 2;
  status = dunkelva_sum(&made->type, &made->array, &sum);
  count(status == DUNKELVA_OK && sum.low == 0 && sum.high == 0 && sum.exists == 0,
        "no row is present");
  made = make("C", 4, 2, NULL, values, NULL);
  status = dunkelva_sum(&made->type, &made->array, &sum);
  count(status == DUNKELVA_OK && sum.low == (100 + 100 + 3 + 255) % 256 && sum.high == 0,
        "unsigned");
  struct dunkelva_number least;
  struct dunkelva_number greatest;
  struct made *extremes = make("c", 4, 2, BITS(0xD), values, NULL);
  status = dunkelva_min_max(&extremes->type, &extremes->array, &least, &greatest);
  count(status == DUNKELVA_OK && (int64_t)least.low == -1 && least.high == UINT64_MAX &&
            least.exists == 1 && greatest.low == 100 && greatest.high == 0 && greatest.exists == 1,
        "the least and the greatest");
  struct made *texts = make("u", 0, 3, NULL, NULL, NULL);
  sum.low = 7;
  count(dunkelva_sum(&texts->type, &texts->array, &sum) == DUNKELVA_NOT_SERVED && sum.low == 7,
        "no sum of texts");
  count(dunkelva_sum(&made->type, &made->array, NULL) == DUNKELVA_BAD_ARGUMENT,
        "no place for a sum");
  count(dunkelva_sum(&made->type, NULL, &sum) == DUNKELVA_BAD_STRUCTS, "a sum of no column");
}

static void try_comparisons(void) {
  const int16_t left[] = {-5, 2, 3, 4};
  const int16_t right[] = {5, 2, 9, 4};
  struct made *one = make("s", 4, 2, BITS(0x7), left, NULL);
  struct made *two = make("s", 4, 2, BITS(0xB), right, NULL);
  const char *const wanted[] = {"0100", "1011", "1000", "1100", "0000", "0100"};
  for (int test = 0; test < 6; test++) { /* rows: -5 and 5, 2 and 2, 3 and null, null and 4 */
    uint8_t out = 0;
    char got[5] = {0};
    int32_t status = dunkelva_compare((enum dunkelva_test)test, &one->type, &one->array, &two->type,
                                      &two->array, &out, 1);
    for (int row = 0; row < 4; row++) {
      got[row] = (char)('0' + (out >> row & 1));
    }
    count(status == DUNKELVA_OK && strcmp(got, wanted[test]) == 0, "comparisons");
  }
  uint8_t out = 0x55;
  struct made *other = make("S", 4, 2, NULL, right, NULL);
  count(dunkelva_compare(DUNKELVA_LESS, &one->type, &one->array, &other->type, &other->array, &out,
                         1) == DUNKELVA_TYPES_DIFFER,
        "a comparison of two types");
  count(dunkelva_compare(DUNKELVA_LESS, &one->type, &one->array, &two->type, &two->array, &out,
                         0) == DUNKELVA_NO_ROOM,
        "a comparison without room");
  count(dunkelva_compare((enum dunkelva_test)6, &one->type, &one->array, &two->type, &two->array,
                         &out, 1) == DUNKELVA_NOT_SERVED,
        "a comparison that does not exist");
  count(out == 0x55, "no comparison is written");
}

/* Intervals of days and milliseconds, which are two numbers each: 1 day, 2 milliseconds, a null. */
static void try_intervals(void) {
  const int32_t days[] = {1, 0, 0, 2, 5, 5};
  const int32_t others[] = {1, 0, 0, 3, 7, 7};
  struct made *left = make("tiD", 3, 2, BITS(0x3), days, NULL);
  struct made *right = make("tiD", 3, 2, BITS(0x3), others, NULL);
  const struct ArrowSchema *type = &left->type;
  const struct ArrowArray *array = &left->array;
  struct dunkelva_number number = {7, 0, 1};
  struct dunkelva_number other = {7, 0, 1};
  uint64_t values[3] = {7, 7, 7};
  uint32_t counts[3] = {7, 7, 7};
  uint8_t out = 0x55;
  uint64_t nulls = 7;
  equal("days and milliseconds", left, right, "101");
  for (int test = 0; test < 6; test++) {
    count(dunkelva_compare((enum dunkelva_test)test, type, array, &right->type, &right->array, &out,
                           1) == DUNKELVA_NOT_SERVED &&
              dunkelva_compare_number((enum dunkelva_test)test, type, array, &number, &out, 1) ==
                  DUNKELVA_NOT_SERVED,
          "no comparison of days and milliseconds");
  }
  count(dunkelva_sum(type, array, &number) == DUNKELVA_NOT_SERVED &&
            dunkelva_min_max(type, array, &number, &other) == DUNKELVA_NOT_SERVED &&
            dunkelva_reduce_bits(DUNKELVA_OR, type, array, &number) == DUNKELVA_NOT_SERVED,
        "no sum, no extremes of days and milliseconds");
  count(dunkelva_count_bits(DUNKELVA_ONES, type, array, counts, 3) == DUNKELVA_NOT_SERVED,
        "no counts of bits of days and milliseconds");
  count(dunkelva_arithmetic(DUNKELVA_ADD, type, array, &right->type, &right->array, values, 3, &out,
                            1, &nulls) == DUNKELVA_NOT_SERVED &&
            dunkelva_arithmetic_number(DUNKELVA_ADD, DUNKELVA_LEFT, &number, type, array, values, 3,
                                       &out, 1, &nulls) == DUNKELVA_NOT_SERVED &&
            dunkelva_sign(DUNKELVA_NEGATE, type, array, values, 3, &out, 1, &nulls) ==
                DUNKELVA_NOT_SERVED,
        "no arithmetic of days and milliseconds");
  count(number.low == 7 && other.low == 7 && values[0] == 7 && counts[0] == 7 && out == 0x55 &&
            nulls == 7,
        "nothing is written about days and milliseconds");
  count(dunkelva_is_null(type, array, &out, 1, &nulls) == DUNKELVA_OK && out == 0x4 && nulls == 1,
        "nulls of days and milliseconds");
  struct dunkelva_number least = {0, 0, 1};
  struct dunkelva_number greatest = {63, 0, 1};
  struct dunkelva_unique state;
  uint64_t bits[1] = {7};
  struct made *first = make("tiD", 1, 2, NULL, days, NULL);
  count(dunkelva_unique_init(&state, &least, &greatest, bits, 1) == DUNKELVA_OK &&
            dunkelva_unique_append(&state, &first->type, &first->array) == DUNKELVA_OK &&
            bits[0] == 2 && dunkelva_unique_append(&state, type, array) == DUNKELVA_OUT_OF_RANGE &&
            bits[0] == 2,
        "distinct days and milliseconds");
  struct made *months = make("tiM", 3, 2, NULL, days, NULL);
  count(dunkelva_sum(&months->type, &months->array, &number) == DUNKELVA_OK && number.low == 1 &&
            dunkelva_compare(DUNKELVA_LESS, &months->type, &months->array, &months->type,
                             &months->array, &out, 1) == DUNKELVA_OK &&
            out == 0,
        "months are numbers");
}

static void try_nulls(void) {
  const int32_t ends[] = {0, 1, 2, 3, 4};
  struct made *lists = put(make("+l", 4, 2, BITS(0xB), ends, NULL), "", numbers(4, NULL, ends));
  uint8_t out = 0x55;
  uint64_t nulls = 7;
  count(dunkelva_is_null(&lists->type, &lists->array, &out, 1, &nulls) == DUNKELVA_OK &&
            out == 0x4 && nulls == 1,
        "null lists");
  struct made *texts = make("u", 0, 3, NULL, NULL, NULL);
  count(dunkelva_is_null(&texts->type, &texts->array, &out, 0, &nulls) == DUNKELVA_OK && nulls == 0,
        "no texts");
  struct made *none = make("n", 3, 0, NULL, NULL, NULL);
  count(dunkelva_is_null(&none->type, &none->array, &out, 1, NULL) == DUNKELVA_OK && out == 0x7,
        "rows without a type are null");
  count(dunkelva_is_null(&none->type, &none->array, &out, 0, &nulls) == DUNKELVA_NO_ROOM &&
            nulls == 0,
        "nulls without room");
  const float values[] = {1.0F, 2.0F};
  struct made *floats = make("f", 2, 2, BITS(0x2), values, NULL);
  count(dunkelva_is_null(&floats->type, &floats->array, &out, 1, &nulls) == DUNKELVA_OK &&
            out == 0x1 && nulls == 1,
        "null floats");
  const int8_t keys[] = {0, 0};
  struct made *keyed = dictionary("c", 2, NULL, keys, make("n", 1, 0, NULL, NULL, NULL));
  count(dunkelva_is_null(&keyed->type, &keyed->array, &out, 1, &nulls) == DUNKELVA_OK &&
            out == 0x3 && nulls == 2,
        "keys to a null");
}

/* Tries rows that are null by their keys or by the entries that these name. */
static void try_null_entries(void) {
  const int32_t values[] = {7, 0, 9};
  const uint8_t keys[] = {2, 1, 200, 0, 1, 2}; /* 9, null, a null key, 7, null, 9 */
  struct made *entries = make("i", 3, 2, BITS(0x5), values, NULL);
  struct made *keyed = dictionary("C", 6, BITS(0x3B), keys, entries);
  uint8_t out = 0x55;
  uint64_t nulls = 7;
  count(dunkelva_is_null(&keyed->type, &keyed->array, &out, 1, &nulls) == DUNKELVA_OK &&
            out == 0x16 && nulls == 3,
        "nulls of a dictionary");
  keyed->array.offset = 1; /* null, a null key, 7, null */
  keyed->array.length = 4;
  count(dunkelva_is_null(&keyed->type, &keyed->array, &out, 1, NULL) == DUNKELVA_OK && out == 0xB,
        "nulls of some rows of a dictionary");
  const int8_t outer[] = {0, 4, 2, 1, 3}; /* of null, a null key, 7, null: no entry 4 */
  struct made *twice = dictionary("c", 5, BITS(0x1D), outer, keyed);
  out = 0x55;
  count(dunkelva_is_null(&twice->type, &twice->array, &out, 1, &nulls) == DUNKELVA_OK &&
            out == 0x1B && nulls == 4,
        "nulls of a dictionary of a dictionary");
  count(dunkelva_is_null(&twice->type, &twice->array, &out, 0, &nulls) == DUNKELVA_NO_ROOM &&
            out == 0x1B && nulls == 4,
        "nulls of a dictionary without room");
  twice->array.buffers[0] = NULL;
  count(dunkelva_is_null(&twice->type, &twice->array, &out, 1, &nulls) == DUNKELVA_BAD_ARRAY &&
            out == 0x1B && nulls == 4,
        "a key that names no entry has no nulls");
}

/* Says whether three results of 8 bits and their bits are these. */
static bool are(const int8_t *got, int8_t first, int8_t second, int8_t third, uint8_t present,
                uint8_t wanted) {
  return got[0] == first && got[1] == second && got[2] == third && present == wanted;
}

static void try_arithmetic(void) {
  const int8_t lefts[] = {-128, 100, -7};
  const int8_t rights[] = {-1, 100, 2};
  struct made *left = make("c", 3, 2, NULL, lefts, NULL);
  struct made *right = make("c", 3, 2, NULL, rights, NULL);
  const int8_t wanted[6][3] = {{127, -56, -5}, {-127, 0, -9}, {-128, 16, -14},
                               {-128, 1, -4},  {-128, 1, -3}, {0, 0, 1}};
  for (int operation = 0; operation < 6; operation++) {
    int8_t got[3] = {0};
    uint8_t present = 0xFF;
    uint64_t nulls = 7;
    int32_t status =
        dunkelva_arithmetic((enum dunkelva_operation)operation, &left->type, &left->array,
                            &right->type, &right->array, got, 3, &present, 1, &nulls);
    const int8_t *hoped = wanted[operation];
    count(status == DUNKELVA_OK && nulls == 0 &&
              are(got, hoped[0], hoped[1], hoped[2], present, 0x7),
          "arithmetic");
  }
}

static void try_arithmetic_with_nulls(void) {
  const int8_t lefts[] = {9, 9, 7, 5};
  const int8_t rights[] = {9, 3, 0, 0};
  struct made *left = make("c", 3, 2, BITS(0xE), lefts, NULL);
  struct made *right = make("c", 3, 2, BITS(0x6), rights, NULL);
  left->array.offset = right->array.offset = 1; /* rows: 9 and 3, 7 and 0, 5 and null */
  int8_t got[3] = {0};
  uint8_t present = 0xFF;
  uint64_t nulls = 7;
  int32_t status = dunkelva_arithmetic(DUNKELVA_FLOOR_DIVIDE, &left->type, &left->array,
                                       &right->type, &right->array, got, 3, &present, 1, &nulls);
  count(status == DUNKELVA_OK && got[0] == 3 && present == 0x1 && nulls == 2, "division by 0");
  status = dunkelva_arithmetic(DUNKELVA_SUBTRACT, &left->type, &left->array, &right->type,
                               &right->array, got, 3, &present, 1, NULL);
  count(status == DUNKELVA_OK && got[0] == 6 && got[1] == 7 && present == 0x3, "a null");
}

static void try_arithmetic_with_numbers(void) {
  const int8_t values[] = {-128, 0, 7};
  struct made *made = make("c", 3, 2, NULL, values, NULL);
  const struct dunkelva_number two = {2, 0, 1};
  const struct dunkelva_number zero = {0, 0, 1};
  const struct dunkelva_number large = {128, 0, 1};
  int8_t got[3] = {0};
  uint8_t present = 0;
  uint64_t nulls = 7;
  int32_t status = dunkelva_arithmetic_number(DUNKELVA_SUBTRACT, DUNKELVA_LEFT, &two, &made->type,
                                              &made->array, got, 3, &present, 1, &nulls);
  count(status == DUNKELVA_OK && are(got, -126, 2, -5, present, 0x7) && nulls == 0, "2 less rows");
  status = dunkelva_arithmetic_number(DUNKELVA_MULTIPLY, DUNKELVA_RIGHT, &two, &made->type,
                                      &made->array, got, 3, &present, 1, &nulls);
  count(status == DUNKELVA_OK && are(got, 0, 0, 14, present, 0x7), "twice the rows");
  status = dunkelva_arithmetic_number(DUNKELVA_MODULO, DUNKELVA_LEFT, &two, &made->type,
                                      &made->array, got, 3, &present, 1, &nulls);
  count(status == DUNKELVA_OK && got[0] == -126 && got[2] == 2 && present == 0x5 && nulls == 1,
        "2 by the rows");
  status = dunkelva_arithmetic_number(DUNKELVA_TRUNCATING_DIVIDE, DUNKELVA_RIGHT, &zero,
                                      &made->type, &made->array, got, 3, &present, 1, &nulls);
  count(status == DUNKELVA_OK && present == 0 && nulls == 3, "rows by 0");
  present = 0x55;
  got[0] = 77;
  status = dunkelva_arithmetic_number(DUNKELVA_ADD, DUNKELVA_RIGHT, &large, &made->type,
                                      &made->array, got, 3, &present, 1, &nulls);
  count(status == DUNKELVA_TYPES_DIFFER && got[0] == 77 && present == 0x55 && nulls == 3,
        "a number of another type");
  status = dunkelva_sign(DUNKELVA_ABSOLUTE, &made->type, &made->array, got, 3, &present, 1, NULL);
  count(status == DUNKELVA_OK && are(got, -128, 0, 7, present, 0x7), "absolute values");
  status = dunkelva_sign(DUNKELVA_NEGATE, &made->type, &made->array, got, 3, &present, 1, NULL);
  count(status == DUNKELVA_OK && are(got, -128, 0, -7, present, 0x7), "negation");
}

/* Adds a column of 16 bits to itself. */
static int32_t doubled(const struct made *made, void *values, size_t len, uint8_t *present,
                       size_t bytes) {
  return dunkelva_arithmetic(DUNKELVA_ADD, &made->type, &made->array, &made->type, &made->array,
                             values, len, present, bytes, NULL);
}

static void try_room_for_arithmetic(void) {
  static int16_t values[] = {1, 2, 3};
  struct made *made = make("s", 3, 2, NULL, values, NULL);
  struct made *other = make("S", 3, 2, NULL, values, NULL);
  struct made *texts = make("u", 0, 3, NULL, NULL, NULL);
  struct made *none = make("s", 0, 2, NULL, NULL, NULL);
  int16_t got[4] = {7, 7, 7, 7};
  uint8_t present = 0x55;
  count(doubled(made, got, 2, &present, 1) == DUNKELVA_NO_ROOM, "room for two numbers");
  count(doubled(made, got, 3, &present, 0) == DUNKELVA_NO_ROOM, "no room for bits");
  count(doubled(made, NULL, 3, &present, 1) == DUNKELVA_BAD_ARGUMENT, "no numbers");
  count(doubled(made, got, 3, NULL, 1) == DUNKELVA_BAD_ARGUMENT, "no bits");
  count(doubled(made, (char *)got + 1, 3, &present, 1) == DUNKELVA_BAD_ARGUMENT, "an odd address");
  count(doubled(made, values, 3, &present, 1) == DUNKELVA_BAD_ARGUMENT, "the column's own memory");
  count(doubled(texts, got, 3, &present, 1) == DUNKELVA_NOT_SERVED, "no sums of texts");
  count(dunkelva_arithmetic(DUNKELVA_ADD, &made->type, &made->array, &other->type, &other->array,
                            got, 3, &present, 1, NULL) == DUNKELVA_TYPES_DIFFER,
        "sums of two types");
  count(dunkelva_arithmetic((enum dunkelva_operation)6, &made->type, &made->array, &made->type,
                            &made->array, got, 3, &present, 1, NULL) == DUNKELVA_NOT_SERVED,
        "an operation that does not exist");
  count(doubled(none, NULL, 0, NULL, 0) == DUNKELVA_OK, "no rows");
  count(got[0] == 7 && present == 0x55 && values[0] == 1, "nothing is written");
  count(doubled(made, got, 4, &present, 1) == DUNKELVA_OK && got[2] == 6 && got[3] == 7 &&
            present == 0x7,
        "more room than rows");
}

static struct dunkelva_number number_of(int64_t value) {
  struct dunkelva_number number = {(uint64_t)value, value < 0 ? UINT64_MAX : 0, 1};
  return number;
}

/* States of -2 to 66: 69 numbers, which take two words. */
static void try_states(void) {
  const struct dunkelva_number least = number_of(-2);
  const struct dunkelva_number greatest = number_of(66);
  uint64_t bits[3] = {7, 7, 7};
  uint64_t values[4] = {9, 9, 9, 9};
  uint64_t null = 7;
  struct dunkelva_unique state;
  count(dunkelva_unique_words(&least, &greatest) == 2 &&
            dunkelva_unique_words(&greatest, &least) == 0 &&
            dunkelva_unique_words(&least, &least) == 1,
        "words of a state");
  count(dunkelva_unique_init(&state, &greatest, &least, bits, 3) == DUNKELVA_BAD_ARGUMENT &&
            dunkelva_unique_init(&state, &least, &greatest, bits, 1) == DUNKELVA_NO_ROOM &&
            bits[0] == 7,
        "no state");
  count(dunkelva_unique_init(&state, &least, &greatest, bits, 3) == DUNKELVA_OK && bits[0] == 0 &&
            bits[1] == 0 && bits[2] == 7,
        "a state that has seen nothing");
  const int8_t rows[] = {5, 99, -2, 66, 5, 67}; /* 99 is under a null */
  struct made *made = make("c", 5, 2, BITS(0x3D), rows, NULL);
  count(dunkelva_unique_append(&state, &made->type, &made->array) == DUNKELVA_OK &&
            bits[0] == ((uint64_t)1 << 7 | 1) && bits[1] == 1 << 4 && bits[2] == 7 &&
            state.has_null == 1,
        "rows that are appended");
  made->array.length = 6;
  count(dunkelva_unique_append(&state, &made->type, &made->array) == DUNKELVA_OUT_OF_RANGE &&
            bits[0] == ((uint64_t)1 << 7 | 1) && bits[1] == 1 << 4,
        "a row outside of the range");
  struct made *unsigned_rows = make("C", 5, 2, NULL, rows, NULL);
  count(dunkelva_unique_append(&state, &unsigned_rows->type, &unsigned_rows->array) ==
            DUNKELVA_TYPES_DIFFER,
        "a type that lacks an end");
  struct made *texts = make("u", 0, 3, NULL, NULL, NULL);
  count(dunkelva_unique_append(&state, &texts->type, &texts->array) == DUNKELVA_NOT_SERVED,
        "a state of texts");
  uint64_t others[2] = {4, UINT64_MAX << 5}; /* 0, and bits past the range */
  struct dunkelva_unique other = {least, greatest, others, 2, 0};
  count(dunkelva_unique_merge(&other, &state) == DUNKELVA_OK &&
            others[0] == ((uint64_t)1 << 7 | 5) && others[1] == UINT64_MAX << 4 &&
            other.has_null == 1,
        "states that are merged");
  uint64_t seen = 0;
  uint64_t all = 0;
  count(dunkelva_unique_count(&other, &seen, &all) == DUNKELVA_OK && seen == 4 && all == 5,
        "counts of a state");
  count(dunkelva_unique_finish(&other, values, 3, &null) == DUNKELVA_NO_ROOM && values[0] == 9 &&
            null == 7,
        "values without room");
  count(dunkelva_unique_finish(&state, values, 4, &null) == DUNKELVA_OK &&
            (int64_t)values[0] == -2 && values[1] == 5 && values[2] == 66 && values[3] == 9 &&
            null == 1,
        "values, ascending");
  other.greatest = number_of(67);
  count(dunkelva_unique_merge(&other, &state) == DUNKELVA_TYPES_DIFFER, "states of two ranges");
  other.words = 1;
  count(dunkelva_unique_count(&other, &seen, &all) == DUNKELVA_NO_ROOM && seen == 4,
        "a state without room");
  count(dunkelva_unique_append(NULL, &made->type, &made->array) == DUNKELVA_BAD_ARGUMENT &&
            dunkelva_unique_merge(&state, NULL) == DUNKELVA_BAD_ARGUMENT,
        "null pointers for states");
}

int main(void) {
  try_numbers();
  try_arithmetic();
  try_arithmetic_with_nulls();
  try_arithmetic_with_numbers();
  try_room_for_arithmetic();
  try_states();
  try_sums();
  try_comparisons();
  try_intervals();
  try_nulls();
  try_numbers_of_other_formats();
  try_floats();
  try_truth_values();
  try_texts();
  try_views();
  try_bad_views();
  try_columns_of_views();
  try_many_views();
  try_lists();
  try_structs_and_maps();
  try_dictionaries();
  try_null_entries();
  try_broken_structs();
  try_arguments();
  try_bytes();
  try_many_rows();
  printf("%d passed, %d failed\n", passed, failed);
  return failed > 0;
}
