/* Compares two columns row by row: cc example.c $(pkg-config --cflags --libs dunkelva) */
#include <dunkelva.h>
#include <stdio.h>
#include <stdlib.h>

/* Programs usually get columns from a library, such as pyarrow or GDAL. They release each struct by
 * its member `release`, after its last use. If a struct is copied by `=`, only one of the two may
 * be released. This program fills in the structs itself: numbers of 32 bits, and a validity bitmap,
 * whose bit is 1 if a row is not null. Nothing here is allocated, so nothing is released. `release`
 * is set nevertheless, since a struct whose `release` is null counts as released. */
static void release_type(struct ArrowSchema *type) { type->release = NULL; }
static void release_array(struct ArrowArray *array) { array->release = NULL; }

/* Prints which rows of two columns of the same length differ. Returns the status. */
static int32_t print_different(const struct ArrowSchema *old_type,
                               const struct ArrowArray *old_column,
                               const struct ArrowSchema *new_type,
                               const struct ArrowArray *new_column) {
  size_t rows = (size_t)old_column->length;
  uint8_t *same = malloc(rows + 1); /* one byte more than needed, since `rows` may be 0 */
  int32_t status = DUNKELVA_NO_MEMORY;
  if (same != NULL) {
    status = dunkelva_equal_bytes(old_type, old_column, new_type, new_column, 0, same, rows);
  }
  for (size_t row = 0; status == DUNKELVA_OK && row < rows; row++) {
    if (same[row] == 0) {
      printf("row %zu differs\n", row);
    }
  }
  free(same);
  return status;
}

int main(void) {
  const int32_t old_rows[] = {10, 20, 30, 40};
  const int32_t new_rows[] = {10, 25, 99, 40};
  const uint8_t present = 0x0B; /* bits 1, 1, 0, 1: the third row of both columns is null */
  const void *old_buffers[] = {&present, old_rows};
  const void *new_buffers[] = {&present, new_rows};
  struct ArrowSchema type = {.format = "i", .release = release_type};
  struct ArrowArray old_column = {.length = 4,
                                  .null_count = -1,
                                  .n_buffers = 2,
                                  .buffers = old_buffers,
                                  .release = release_array};
  struct ArrowArray new_column = {.length = 4,
                                  .null_count = -1,
                                  .n_buffers = 2,
                                  .buffers = new_buffers,
                                  .release = release_array};

  uint8_t same = 0;
  int32_t status = dunkelva_equal(&type, &old_column, &type, &new_column, 0, &same, sizeof same);
  if (status != DUNKELVA_OK) {
    fprintf(stderr, "%s\n", dunkelva_status_text(status));
    return 1;
  }
  for (int row = 0; row < 4; row++) {
    printf("row %d: %s\n", row, (same >> row & 1) != 0 ? "the same" : "different");
  }

  status = print_different(&type, &old_column, &type, &new_column);
  if (status != DUNKELVA_OK) {
    fprintf(stderr, "%s\n", dunkelva_status_text(status));
    return 1;
  }
  return 0;
}
