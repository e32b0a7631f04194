/* Calls in many threads at once, on the same columns, under the thread sanitizer. Ends with
 * `N passed, M failed`. */
#define _POSIX_C_SOURCE 200809L
#include "columns.h"

#include <pthread.h>
#include <stdio.h>
#include <string.h>

enum { THREADS = 4, CALLS = 50, ROWS = 40000 };

static const struct made *left;
static const struct made *right;
static uint8_t wanted[ROWS / 8];

/* Compares the columns again and again, and returns how often the result was another one. */
static void *run(void *counted) {
  int *faults = counted;
  uint8_t *out = malloc(sizeof wanted);
  for (int call = 0; call < CALLS; call++) {
    int32_t status = dunkelva_equal(&left->type, &left->array, &right->type, &right->array, 0, out,
                                    sizeof wanted);
    *faults += status != DUNKELVA_OK || memcmp(out, wanted, sizeof wanted) != 0;
  }
  free(out);
  return NULL;
}

int main(void) {
  static int32_t values[2][ROWS];
  static uint8_t odd[4 * ROWS + 1];
  for (int32_t row = 0; row < ROWS; row++) {
    values[0][row] = row;
    values[1][row] = row + (row % 3 == 0);
  }
  memcpy(odd + 1, values[1], sizeof values[1]);
  struct made *numbers = make("i", ROWS, 2, NULL, values[0], NULL);
  struct made *moved = make("i", ROWS, 2, NULL, odd + 1, NULL);
  left = numbers;
  right = moved;
  left = put(make("+s", ROWS, 1, NULL, NULL, NULL), "a", numbers);
  right = put(make("+s", ROWS, 1, NULL, NULL, NULL), "a", moved);
  for (int row = 0; row < ROWS; row++) {
    wanted[row / 8] = (uint8_t)(wanted[row / 8] | (row % 3 != 0) << (row % 8));
  }
  pthread_t threads[THREADS];
  int faults[THREADS] = {0};
  int failed = 0;
  for (size_t i = 0; i < THREADS; i++) {
    failed += pthread_create(&threads[i], NULL, run, &faults[i]) != 0;
  }
  for (size_t i = 0; i < THREADS && failed == 0; i++) {
    failed += pthread_join(threads[i], NULL) != 0 || faults[i] != 0;
  }
  printf("%d passed, %d failed\n", THREADS - failed, failed);
  return failed > 0;
}
