/* The check of flags, the texts of statuses, and the version. */
#include "shim.h"

int32_t dunkelva_check_flags(uint32_t flags) {
  uint32_t known = DUNKELVA_FLOATS_BY_BITS | DUNKELVA_CHECK_TEXTS;
  return (flags & ~known) == 0 ? DUNKELVA_OK : DUNKELVA_BAD_ARGUMENT;
}

const char *dunkelva_status_text(int32_t status) {
  switch (status) {
  case DUNKELVA_OK:
    return "no error";
  case DUNKELVA_BAD_ARRAY:
    return "the content of a buffer is invalid";
  case DUNKELVA_TYPES_DIFFER:
    return "the columns differ in type or length, the type of the column has no such number, or "
           "the states have different ranges";
  case DUNKELVA_NO_ROOM:
    return "the memory for results is too small";
  case DUNKELVA_NO_MEMORY:
    return "an allocation failed";
  case DUNKELVA_NOT_SERVED:
    return "the call does not take this type (floats need DUNKELVA_FLOATS_BY_BITS where a call has "
           "flags), or there is no such operation";
  case DUNKELVA_BAD_STRUCTS:
    return "the structs break the Arrow C data interface, or have too many types, levels or "
           "buffers";
  case DUNKELVA_BAD_ARGUMENT:
    return "an argument is wrong: a flag, the rows, a number, a range, a null pointer, or where "
           "values lie";
  case DUNKELVA_OUT_OF_RANGE:
    return "a row lies outside of the range";
  default:
    return "an unknown status";
  }
}

const char *dunkelva_version(void) { return DUNKELVA_VERSION; }
