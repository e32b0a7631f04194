/* Columns made of the bytes of a fuzzer, with buffers of exact size, under sanitizers.
 *
 * The linker puts a reader of every lent byte, and the model, in front of the proved library
 * (--wrap): both must return one status and the same bits. Of each call is asked that it writes
 * nothing where it fails, nothing past its last byte, that a column is equal to itself, that
 * exchanged sides give the same bits, and that a window gives the bits of its rows.
 */
#include "dunkelva.h"
#include "model.h"

#include <stdbool.h>
#include <stdio.h>
#include <stdlib.h>
#include <string.h>

int32_t __real_dunkelva_parts_equal(const struct part *, size_t, const struct part *, size_t,
                                    uint64_t *, size_t, uint64_t *, size_t);
int32_t __wrap_dunkelva_parts_equal(const struct part *, size_t, const struct part *, size_t,
                                    uint64_t *, size_t, uint64_t *, size_t);
int32_t __real_dunkelva_parts_equal_lent(const struct part *, const struct part *, uint64_t *,
                                         size_t);
int32_t __wrap_dunkelva_parts_equal_lent(const struct part *, const struct part *, uint64_t *,
                                         size_t);
int32_t __real_dunkelva_parts_are_null(const struct part *, size_t, uint64_t *, size_t, uint64_t *);
int32_t __wrap_dunkelva_parts_are_null(const struct part *, size_t, uint64_t *, size_t, uint64_t *);
int LLVMFuzzerTestOneInput(const uint8_t *data, size_t size);

static unsigned long statuses[8];
static unsigned long shared_rows;

static void require(bool holds, const char *what) {
  if (!holds) {
    fprintf(stderr, "fuzz: not so: %s\n", what);
    abort();
  }
}

int32_t __wrap_dunkelva_parts_equal(const struct part *left, size_t left_len,
                                    const struct part *right, size_t right_len, uint64_t *out,
                                    size_t out_len, uint64_t *comparisons, size_t comparisons_len) {
  model_read_all(left, left_len);
  model_read_all(right, right_len);
  uint64_t *bits = malloc(out_len * sizeof *bits + 1);
  uint64_t most = 0;
  int32_t wanted = model_parts_equal(left, left_len, right, right_len, bits, out_len, &most);
  int32_t status = __real_dunkelva_parts_equal(left, left_len, right, right_len, out, out_len,
                                               comparisons, comparisons_len);
  require(status == wanted, "the library and the model return one status");
  if (status == 0) {
    require(memcmp(bits, out, out_len * sizeof *bits) == 0, "both set the same bits");
    require(*comparisons <= most, "no more comparisons than leaves");
  }
  free(bits);
  return status;
}

int32_t __wrap_dunkelva_parts_are_null(const struct part *parts, size_t len, uint64_t *out,
                                       size_t out_len, uint64_t *count) {
  model_read_all(parts, len);
  uint64_t *bits = malloc(out_len * sizeof *bits + 1);
  uint64_t nulls = 0;
  int32_t wanted = model_parts_are_null(parts, len, bits, out_len, &nulls);
  int32_t status = __real_dunkelva_parts_are_null(parts, len, out, out_len, count);
  require(status == wanted, "the library and the model return one status for nulls");
  require(status != 0 || (memcmp(bits, out, out_len * sizeof *bits) == 0 && *count == nulls),
          "both find the same nulls");
  free(bits);
  return status;
}

int32_t __wrap_dunkelva_parts_equal_lent(const struct part *left, const struct part *right,
                                         uint64_t *out, size_t out_len) {
  model_read_all(left, 1);
  model_read_all(right, 1);
  uint64_t *bits = malloc(out_len * sizeof *bits + 1);
  uint64_t most = 0;
  int32_t wanted = model_parts_equal(left, 1, right, 1, bits, out_len, &most);
  int32_t status = __real_dunkelva_parts_equal_lent(left, right, out, out_len);
  require(status == wanted, "the library and the model return one status for numbers");
  require(status != 0 || memcmp(bits, out, out_len * sizeof *bits) == 0,
          "both set the same bits for numbers");
  free(bits);
  return status;
}

/* What is left of the input. Behind its end come zeros. */
static const uint8_t *input;
static size_t input_left;

static uint32_t next_byte(void) {
  if (input_left == 0) {
    return 0;
  }
  input_left--;
  return *input++;
}

static uint32_t below(uint32_t count) { return next_byte() % count; }

/* Is true once in so many times. */
static bool seldom(uint32_t times) { return next_byte() % times == 1; }

/* All memory of an input, freed at its end. */
static void **blocks;
static size_t block_count;
static size_t block_room;

static void *block(size_t bytes) {
  if (block_count == block_room) {
    block_room = 2 * block_room + 64;
    blocks = realloc(blocks, block_room * sizeof *blocks);
  }
  void *memory = calloc(bytes + (bytes == 0), 1);
  require(blocks != NULL && memory != NULL, "there is memory");
  blocks[block_count++] = memory;
  return memory;
}

/* A buffer of a size, at an odd address now and then, filled by the input. */
static uint8_t *buffer(size_t bytes) {
  size_t skew = seldom(8) ? 1 : 0;
  uint8_t *memory = (uint8_t *)block(bytes + skew) + skew;
  for (size_t i = 0; i < bytes; i++) {
    memory[i] = (uint8_t)next_byte();
  }
  return memory;
}

static void release_schema(struct ArrowSchema *schema) { (void)schema; }
static void release_array(struct ArrowArray *array) { (void)array; }

/* Formats with their layout: bytes a row, or a letter for what is made in another way. */
struct form {
  const char *format;
  int bytes;
  char
      way; /* n: nothing, b: bits, f: fixed, s S: strings, v: views, l L: lists, w: fixed list, t */
};

static const struct form forms[] = {
    {"n", 0, 'n'},          {"b", 0, 'b'},           {"c", 1, 'f'},        {"C", 1, 'f'},
    {"s", 2, 'f'},          {"S", 2, 'f'},           {"i", 4, 'f'},        {"I", 4, 'f'},
    {"l", 8, 'f'},          {"L", 8, 'f'},           {"e", 2, 'f'},        {"f", 4, 'f'},
    {"g", 8, 'f'},          {"w:3", 3, 'f'},         {"w:0", 0, 'f'},      {"d:9,2", 16, 'f'},
    {"d:9,2,128", 16, 'f'}, {"d:9,-2,256", 32, 'f'}, {"d:9,2,64", 8, 'f'}, {"d:9,2,32", 4, 'f'},
    {"tdD", 4, 'f'},        {"tdm", 8, 'f'},         {"tts", 4, 'f'},      {"ttn", 8, 'f'},
    {"tsu:", 8, 'f'},       {"tss:UTC", 8, 'f'},     {"tDm", 8, 'f'},      {"tiM", 4, 'f'},
    {"tiD", 8, 'f'},        {"tin", 16, 'f'},        {"z", 0, 's'},        {"u", 0, 's'},
    {"Z", 0, 'S'},          {"U", 0, 'S'},           {"vz", 0, 'v'},       {"vu", 0, 'v'},
    {"+l", 0, 'l'},         {"+m", 0, 'l'},          {"+L", 0, 'L'},       {"+w:2", 2, 'w'},
    {"+w:0", 0, 'w'},       {"+s", 0, 't'},          {"+s", 0, 't'},
};
enum { FORMS = sizeof forms / sizeof *forms, LEAVES = FORMS - 7 };

/* Formats that are not served. */
static const char *const strange[] = {
    "",        "q",        "+",  "+w:", "+w:-1", "w:x",     "d:1", "d:1,", "d:,",
    "d:1,2,8", "d:1,2,3x", "ts", "tD",  "tsx:",  "+ud:0,1", "+r",  "+vl",  "w:99999999999999999999",
    "nn",      "+s "};

static const struct form *form_of(const char *format) {
  for (size_t i = 0; i < FORMS; i++) {
    if (strcmp(forms[i].format, format) == 0) {
      return &forms[i];
    }
  }
  return &forms[0];
}

static struct ArrowSchema *make_type(int depth) {
  static const char *const names[] = {"a", "b", "", NULL, "\xC3\xA9", "\xC3"};
  struct ArrowSchema *type = block(sizeof *type);
  const struct form *form = &forms[depth > 3 ? below(LEAVES) : below(FORMS)];
  type->format = seldom(200) ? strange[below(sizeof strange / sizeof *strange)] : form->format;
  type->name = names[seldom(100) ? 5 : below(5)];
  type->release = seldom(250) ? NULL : release_schema;
  if (form->bytes <= 8 && strlen(form->format) == 1 && strchr("cCsSiIlL", *form->format) != NULL &&
      seldom(5)) {
    type->dictionary = make_type(depth + 1);
  }
  type->n_children =
      form->way == 't' ? below(4) : form->way == 'l' || form->way == 'L' || form->way == 'w';
  type->children = block((size_t)type->n_children * sizeof *type->children);
  for (int64_t i = 0; i < type->n_children; i++) {
    type->children[i] = make_type(depth + 1);
  }
  return type;
}

/* Makes offsets of some rows, and returns the last one. Wild ones stay within what is lent, or are
 * negative or beyond all memory. */
static int64_t make_offsets(struct ArrowArray *array, size_t rows, bool is_large) {
  size_t size = is_large ? 8 : 4;
  uint8_t *offsets = buffer((rows + 1) * size);
  int64_t last = below(3);
  int64_t most = last;
  bool wild = seldom(10);
  for (size_t i = 0; i <= rows; i++) {
    int64_t offset = last;
    if (wild && seldom(20)) {
      int64_t choices[] = {0, most, -1, INT32_MIN};
      offset = choices[below(4)];
      if (is_large && seldom(4)) {
        offset = seldom(2) ? INT64_MAX : INT64_MIN;
      }
    }
    int32_t narrow = (int32_t)offset;
    memcpy(offsets + i * size, is_large ? (void *)&offset : (void *)&narrow, size);
    most = last;
    last += i < rows ? below(3) : 0;
  }
  array->buffers[1] = seldom(100) ? NULL : offsets;
  return last;
}

static void make_views(struct ArrowArray *array, size_t rows) {
  size_t count = below(4);
  uint64_t *lengths = block(count * sizeof *lengths);
  uint8_t *views = buffer(16 * rows);
  array->n_buffers = (int64_t)count + 3;
  for (size_t i = 0; i < count; i++) {
    lengths[i] = below(40);
    uint8_t *bytes = buffer(lengths[i]);
    array->buffers[2 + i] = lengths[i] == 0 && seldom(2) ? NULL : bytes;
    if (seldom(150)) {
      lengths[i] = UINT64_MAX;
    }
  }
  array->buffers[2 + count] = count == 0 ? NULL : (void *)lengths;
  bool wild = seldom(10);
  for (size_t row = 0; row < rows; row++) {
    uint8_t *view = views + 16 * row;
    uint32_t words[4] = {below(13), 0, 0, 0};
    uint32_t number = count == 0 ? 0 : below((uint32_t)count);
    if (count > 0 && lengths[number] > 13 && lengths[number] < 99 && seldom(2)) {
      words[0] = 13;
      words[2] = number;
      words[3] = below((uint32_t)lengths[number] - 12);
      memcpy(&words[1], (const uint8_t *)array->buffers[2 + number] + words[3], 4);
    } else {
      memset((uint8_t *)words + 4, 'a' + (int)below(2), words[0]);
    }
    if (wild && seldom(10)) { /* one bit is turned */
      words[below(4)] ^= 1U << below(32);
    }
    if (!wild || !seldom(20)) {
      memcpy(view, words, 16);
    }
  }
  array->buffers[1] = rows == 0 && seldom(2) ? NULL : views;
}

static struct ArrowArray *make_array(const struct ArrowSchema *type, int64_t need);

static void make_children(struct ArrowArray *array, const struct ArrowSchema *type, int64_t rows) {
  array->n_children = type->n_children;
  array->children = block((size_t)type->n_children * sizeof *array->children);
  for (int64_t i = 0; i < type->n_children; i++) {
    array->children[i] = make_array(type->children[i], seldom(60) ? below(3) : rows);
  }
}

/* Makes keys, of which few are no place among the entries. */
static void make_keys(struct ArrowArray *array, const struct ArrowSchema *type, size_t rows,
                      size_t size) {
  int64_t entries = seldom(20) ? 0 : 1 + below(100);
  uint8_t *keys = buffer(rows * size);
  bool wild = seldom(10);
  for (size_t row = 0; row < rows; row++) {
    uint64_t key = entries == 0 ? 0 : below((uint32_t)entries);
    if (wild && seldom(8)) {
      key = seldom(2) ? UINT64_MAX : (uint64_t)entries;
    }
    memcpy(keys + row * size, &key, size);
  }
  array->buffers[1] = keys;
  array->dictionary = make_array(type->dictionary, entries);
}

/* Makes what an array keeps of rows, by its form. */
static void make_rows(struct ArrowArray *array, const struct ArrowSchema *type, size_t rows) {
  const struct form *form = form_of(type->format);
  int64_t inside = (int64_t)rows;
  array->n_buffers = 2;
  switch (form->way) {
  case 'n':
    array->n_buffers = 0;
    break;
  case 'b':
    array->buffers[1] = buffer(rows / 8 + (rows % 8 != 0));
    break;
  case 's':
  case 'S':
    array->n_buffers = 3;
    inside = make_offsets(array, rows, form->way == 'S');
    array->buffers[2] = buffer((size_t)inside);
    break;
  case 'v':
    make_views(array, rows);
    break;
  case 'l':
  case 'L':
    inside = make_offsets(array, rows, form->way == 'L');
    break;
  case 'w':
  case 't':
    array->n_buffers = 1;
    inside *= form->way == 'w' ? form->bytes : 1;
    break;
  default:
    if (type->dictionary != NULL) {
      make_keys(array, type, rows, (size_t)form->bytes);
    } else {
      array->buffers[1] = buffer(rows * (size_t)form->bytes);
    }
  }
  make_children(array, type, inside);
}

/* Breaks the struct of an array, in a way that can be seen. */
static void break_array(struct ArrowArray *array) {
  switch (below(10)) {
  case 0:
    array->length = -1;
    break;
  case 1:
    array->length = INT64_MAX;
    break;
  case 2:
    array->offset = INT64_MAX - 3;
    break;
  case 3:
    array->offset = -1;
    break;
  case 4:
    array->n_buffers = array->n_buffers < 3 && below(2) ? array->n_buffers + 1 : -1;
    break;
  case 5:
    array->n_children += 1;
    break;
  case 6:
    array->buffers = NULL;
    break;
  case 7:
    array->release = NULL;
    break;
  case 8:
    array->dictionary = NULL;
    break;
  default:
    if (array->n_children > 0) {
      array->children[0] = NULL;
    } else {
      array->buffers[1] = NULL;
    }
  }
}

/* Makes an array of at least so many rows. */
static struct ArrowArray *make_array(const struct ArrowSchema *type, int64_t need) {
  struct ArrowArray *array = block(sizeof *array);
  array->offset = seldom(2) ? below(12) : 0;
  array->length = need + (seldom(3) ? below(3) : 0);
  array->null_count = (int64_t)below(4) - 1;
  array->release = release_array;
  array->buffers = block(8 * sizeof *array->buffers);
  size_t rows = (size_t)(array->offset + array->length);
  if (seldom(2)) {
    array->buffers[0] = buffer(rows / 8 + (rows % 8 != 0));
  }
  make_rows(array, type, rows);
  if (seldom(120)) {
    break_array(array);
  }
  return array;
}

struct side {
  const struct ArrowSchema *type;
  const struct ArrowArray *array;
};

enum { ROOM = 80 };

/* Compares rows, and looks at what was written. */
static int32_t compare(struct side left, int64_t left_first, struct side right, int64_t right_first,
                       int64_t rows, uint32_t flags, uint8_t out[ROOM]) {
  memset(out, 0xA5, ROOM);
  uint64_t comparisons = 77;
  size_t room = rows < 0 ? 0 : (size_t)rows / 8 + (rows % 8 != 0);
  bool is_short = room > 0 && seldom(30);
  int32_t status =
      dunkelva_equal_rows(left.type, left.array, left_first, right.type, right.array, right_first,
                          rows, flags, out, room - is_short, &comparisons);
  require(status >= 0 && status <= 7, "a status that is known");
  require(status != 0 || !is_short, "a result has room");
  statuses[status]++;
  for (size_t i = status == 0 ? room : 0; i < ROOM; i++) {
    require(out[i] == 0xA5, "nothing else is written");
  }
  require(status == 0 || comparisons == 77, "nothing is counted where a call fails");
  if (status == 0 && rows % 8 != 0) {
    require(out[room - 1] >> (rows % 8) == 0, "no bit behind the last row");
  }
  return status;
}

static bool bit_of(const uint8_t *bits, int64_t row) {
  return (bits[row / 8] >> (row % 8) & 1) != 0;
}

/* Compares two columns of one length as bits and as bytes. */
static void try_bytes(struct side left, struct side right, uint32_t flags) {
  uint8_t bits[ROOM];
  uint8_t bytes[8 * ROOM];
  memset(bytes, 0xA5, sizeof bytes);
  int32_t status =
      dunkelva_equal(left.type, left.array, right.type, right.array, flags, bits, ROOM);
  int32_t other = dunkelva_equal_bytes(left.type, left.array, right.type, right.array, flags, bytes,
                                       sizeof bytes);
  require(status == other, "bits and bytes have one status");
  int64_t rows = status == DUNKELVA_OK ? left.array->length : 0;
  for (int64_t row = 0; row < rows; row++) {
    require(bytes[row] == bit_of(bits, row), "a byte for each bit");
  }
  for (size_t i = (size_t)rows; i < sizeof bytes; i++) {
    require(bytes[i] == 0xA5, "nothing else is written");
  }
}

/* Tries the calls on columns of one level. */
static void try_flat(struct side left, struct side right) {
  uint8_t bits[ROOM];
  struct dunkelva_number number = {7, 7, 7};
  uint64_t count = 7;
  memset(bits, 0xA5, ROOM);
  bool done = dunkelva_is_null(left.type, left.array, bits, ROOM, &count) == DUNKELVA_OK;
  require(done || (count == 7 && bits[0] == 0xA5), "nothing is written about nulls");
  bool is_pair = strcmp(left.type->format, "tiD") == 0;
  done = dunkelva_sum(left.type, left.array, &number) == DUNKELVA_OK;
  require(done || number.low == 7, "no sum is written");
  require(!done || !is_pair, "no sum of days and milliseconds");
  struct dunkelva_number other = {7, 0, 1};
  number = other;
  done = dunkelva_min_max(left.type, left.array, &number, &other) == DUNKELVA_OK;
  require(done || (number.low == 7 && other.low == 7), "no extremes are written");
  require(!done || !is_pair, "no extremes of days and milliseconds");
  other.exists = 1;
  uint32_t counts[1] = {7};
  done = dunkelva_count_bits((enum dunkelva_bits)below(7), left.type, left.array, counts, 1) ==
         DUNKELVA_OK;
  require(done || counts[0] == 7, "no counts are written");
  require(!done || !is_pair, "no bits of days and milliseconds");
  number.low = 7;
  done = dunkelva_reduce_bits((enum dunkelva_join)below(4), left.type, left.array, &number) ==
         DUNKELVA_OK;
  require(done || number.low == 7, "no joined bits are written");
  memset(bits, 0xA5, ROOM);
  done = dunkelva_compare_number((enum dunkelva_test)below(7), left.type, left.array, &other, bits,
                                 ROOM) == DUNKELVA_OK;
  require(done || bits[0] == 0xA5, "no comparison with a number is written");
  memset(bits, 0xA5, ROOM);
  done = dunkelva_compare((enum dunkelva_test)below(7), left.type, left.array, right.type,
                          right.array, bits, ROOM) == DUNKELVA_OK;
  require(done || bits[0] == 0xA5, "no comparison is written");
  require(!done || !is_pair, "no order of days and milliseconds");
}

/* Tries arithmetic on columns of numbers. */
static void try_arithmetic(struct side left, struct side right) {
  uint64_t values[8 * ROOM];
  uint8_t bits[ROOM];
  uint64_t nulls = 77;
  const struct dunkelva_number number = {below(9), 0, 1};
  memset(values, 0xA5, sizeof values);
  memset(bits, 0xA5, ROOM);
  int32_t status =
      dunkelva_arithmetic((enum dunkelva_operation)below(7), left.type, left.array, right.type,
                          right.array, values, 8 * ROOM, bits, ROOM, &nulls);
  require(status == 0 || (values[0] == 0xA5A5A5A5A5A5A5A5U && bits[0] == 0xA5 && nulls == 77),
          "no results are written");
  require(status != 0 || strcmp(left.type->format, "tiD") != 0,
          "no arithmetic of days and milliseconds");
  status = dunkelva_arithmetic_number((enum dunkelva_operation)below(7),
                                      (enum dunkelva_side)below(3), &number, left.type, left.array,
                                      values, 8 * ROOM, bits, ROOM, NULL);
  require(status >= 0 && status <= 7, "a status that is known");
  status = dunkelva_sign((enum dunkelva_sign_function)below(3), left.type, left.array, values,
                         8 * ROOM, bits, ROOM, NULL);
  require(status >= 0 && status <= 7, "a status that is known");
}

/* Tries a state of distinct values. */
static void try_state(struct side side) {
  struct dunkelva_number least = {below(100), 0, 1};
  struct dunkelva_number greatest = {least.low + below(200), 0, 1};
  uint64_t bits[6] = {0};
  uint64_t before[6] = {0};
  uint64_t values[300];
  uint64_t null = 7;
  struct dunkelva_unique state;
  int32_t status = dunkelva_unique_init(&state, &least, &greatest, bits, 5);
  require(status == DUNKELVA_OK, "a state is made");
  bits[5] = before[5] = 7;
  bool done = dunkelva_unique_append(&state, side.type, side.array) == DUNKELVA_OK;
  require(bits[5] == 7, "nothing is written behind a state");
  require(done || (memcmp(bits, before, sizeof bits) == 0 && state.has_null == 0),
          "nothing is written to a state");
  status = dunkelva_unique_finish(&state, values, 300, &null);
  require(status == DUNKELVA_OK && null == state.has_null, "a state has values");
}

/* Tries a pair of columns in several ways. */
static void try_pair(struct side left, struct side right, uint32_t flags) {
  static uint8_t bits[ROOM];
  static uint8_t other[ROOM];
  int64_t rows = left.array->length;
  if (rows < 0 || rows > 8 * ROOM || rows > right.array->length) {
    rows = 1;
  }
  int32_t status = compare(left, 0, right, 0, rows, flags, bits);
  int32_t turned = compare(right, 0, left, 0, rows, flags, other);
  require((status == 0) == (turned == 0) || status == DUNKELVA_NO_ROOM ||
              turned == DUNKELVA_NO_ROOM,
          "exchanged sides fail alike");
  require(status != 0 || turned != 0 || memcmp(bits, other, ROOM) == 0,
          "exchanged sides give the same bits");
  bool is_inside = rows < 250 && !seldom(8);
  int64_t first = below(is_inside ? (uint32_t)rows + 1 : 70);
  int64_t count = is_inside ? below((uint32_t)(rows - first) + 1) : (int64_t)below(255) - 1;
  int32_t window = compare(left, first, right, first, count, flags, other);
  if (status == 0 && count >= 0 && first + count <= rows) {
    require(window == 0 || window == DUNKELVA_NO_ROOM, "rows of two columns that were compared");
    for (int64_t row = 0; window == 0 && row < count; row++) {
      require(bit_of(other, row) == bit_of(bits, first + row), "a window has the bits of its rows");
      shared_rows += bit_of(other, row);
    }
  }
  if (compare(left, 0, left, 0, rows, flags, other) == 0) {
    for (int64_t row = 0; row < rows; row++) {
      require(bit_of(other, row), "a row is equal to itself");
    }
  }
}

int LLVMFuzzerTestOneInput(const uint8_t *data, size_t size) {
  input = data;
  input_left = size;
  uint32_t flags = below(4);
  if (seldom(100)) {
    flags |= 4;
  }
  int64_t rows = seldom(8) ? below(200) : below(80);
  struct side left = {make_type(0), NULL};
  struct side right = left;
  if (seldom(12)) {
    right.type = make_type(0);
  }
  const uint8_t *begin = input;
  size_t had = input_left;
  left.array = make_array(left.type, rows);
  if (right.type == left.type && seldom(2)) { /* nearly the same bytes again */
    input = begin;
    input_left = had;
    (void)next_byte();
  }
  right.array = make_array(right.type, rows);
  try_pair(left, right, flags);
  try_bytes(left, right, flags);
  try_flat(left, right);
  try_arithmetic(left, right);
  try_state(left);
  while (block_count > 0) {
    free(blocks[--block_count]);
  }
  return 0;
}

#ifdef WITHOUT_FUZZER
int main(int argc, char **argv) {
  uint64_t state = argc > 1 ? strtoull(argv[1], NULL, 10) : 1;
  long inputs = argc > 2 ? strtol(argv[2], NULL, 10) : 100000;
  static uint8_t data[4000];
  for (long i = 0; i < inputs; i++) {
    for (size_t k = 0; k < sizeof data; k++) { /* xorshift */
      state ^= state << 13;
      state ^= state >> 7;
      state ^= state << 17;
      data[k] = (uint8_t)(state >> 24);
    }
    (void)LLVMFuzzerTestOneInput(data, state % sizeof data);
  }
  printf("%ld inputs, %lu equal rows; calls by status:", inputs, shared_rows);
  for (int status = 0; status < 8; status++) {
    printf(" %lu", statuses[status]);
  }
  puts("");
  return 0;
}
#endif
