/* A second reading of parts, written apart from the proved library: plain loops that go from row to
 * row and trust nothing. */
#ifndef MODEL_H
#define MODEL_H

#include "parts.h"

/* Returns the status of `dunkelva_parts_equal`, and writes its bits. `most` gets the number of leaf
 * values of the left rows, which no count of comparisons may exceed. */
int32_t model_parts_equal(const struct part *left, size_t left_len, const struct part *right,
                          size_t right_len, uint64_t *out, size_t out_len, uint64_t *most);

/* Returns the status of `dunkelva_parts_are_null`, and writes its bits and its count. */
int32_t model_parts_are_null(const struct part *parts, size_t len, uint64_t *out, size_t out_len,
                             uint64_t *count);

/* Reads each byte that parts lend, and ends the program where a slice breaks the rules: a null
 * pointer, a bad address, a tree of another size. */
void model_read_all(const struct part *parts, size_t len);

#endif
