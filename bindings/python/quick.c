/* Equality of plain arrays of numpy, as in dunkelva/_plain.py, without the costs of ctypes. */
#define Py_LIMITED_API 0x030b0000 /* the first stable ABI with buffers, which 3.9 exports too */
#include <Python.h>
#include <stdbool.h>
#include <string.h>

#include "dunkelva.h"

/* The most rows for which the call keeps the interpreter's lock: for so few rows it costs more to
 * release the lock than to wait. */
#define SHORT_COLUMN 32768

/* Indices in the tuple that the function keeps: the address of the library's call, and numpy's
 * `ndarray`, `empty` and `bool_`. */
enum { CALL, CLASS, EMPTY, TRUTHS, PLACES };

static void keep_type(struct ArrowSchema *type) { (void)type; }
static void keep_rows(struct ArrowArray *rows) { (void)rows; }

/* Returns the letter of Arrow for an array of whole numbers with rows in one piece, else 0. */
static char format_of(const Py_buffer *array) {
  static const char native[] = "bBhHiIlLqQ", arrow[] = "cCsSiIlLlL";
  const char *form = array->format;
  const char *at = form != NULL && strlen(form) == 1 ? strchr(native, form[0]) : NULL;
  bool is_piece = array->ndim == 1 && array->len > 0 && array->strides[0] == array->itemsize;
  return at != NULL && is_piece ? arrow[at - native] : 0;
}

/* Compares two arrays of one format and length. Returns whether the truth values are written. */
static bool write_same(void *address, char letter, const Py_buffer *sides, const Py_buffer *same) {
  const char format[] = {letter, 0};
  const void *buffers[2][2] = {{NULL, sides[0].buf}, {NULL, sides[1].buf}};
  struct ArrowSchema type = {format, "", NULL, 0, 0, NULL, NULL, keep_type, NULL};
  struct ArrowArray left = {same->len, 0, 0, 2, 0, buffers[0], NULL, NULL, keep_rows, NULL};
  struct ArrowArray right = {same->len, 0, 0, 2, 0, buffers[1], NULL, NULL, keep_rows, NULL};
  __typeof__(&dunkelva_equal_bytes) call = (__typeof__(call))(uintptr_t)address;
  PyThreadState *thread = same->len > SHORT_COLUMN ? PyEval_SaveThread() : NULL;
  int32_t status = call(&type, &left, &type, &right, 0, same->buf, (size_t)same->len);
  if (thread != NULL) {
    PyEval_RestoreThread(thread);
  }
  return status == DUNKELVA_OK;
}

/* Returns a numpy array with a truth value for each row. Returns NULL if the arrays are not plain,
 * if they differ in format or length, or if a call fails. */
static PyObject *compared(PyObject *kept, const Py_buffer *sides) {
  char letter = format_of(&sides[0]);
  if (letter == 0 || letter != format_of(&sides[1]) || sides[0].len != sides[1].len) {
    return NULL;
  }
  PyObject *rows = PyLong_FromSsize_t(sides[0].shape[0]);
  PyObject *made = PyObject_CallFunctionObjArgs(PyTuple_GetItem(kept, EMPTY), rows,
                                                PyTuple_GetItem(kept, TRUTHS), NULL);
  Py_XDECREF(rows);
  Py_buffer same;
  bool is_done = made != NULL && PyObject_GetBuffer(made, &same, PyBUF_WRITABLE) == 0;
  if (is_done) {
    void *address = PyLong_AsVoidPtr(PyTuple_GetItem(kept, CALL));
    is_done = write_same(address, letter, sides, &same);
    PyBuffer_Release(&same);
  }
  if (!is_done) {
    Py_CLEAR(made);
  }
  return made;
}

/* Compares two objects. Returns None if `compared` returns NULL or an object is no array of numpy:
 * then the package reads the objects itself. */
static PyObject *equal(PyObject *kept, PyObject *const *objects, Py_ssize_t count) {
  PyObject *arrays = PyTuple_GetItem(kept, CLASS), *made = NULL;
  Py_buffer sides[2];
  int read = 0;
  while (read < 2 && read < count && (PyObject *)Py_TYPE(objects[read]) == arrays &&
         PyObject_GetBuffer(objects[read], &sides[read], PyBUF_RECORDS_RO) == 0) {
    read++;
  }
  if (read == 2) {
    made = compared(kept, sides);
  }
  while (read > 0) {
    PyBuffer_Release(&sides[--read]);
  }
  PyErr_Clear();
  if (made == NULL) {
    Py_INCREF(Py_None);
    made = Py_None;
  }
  return made;
}

/* Returns a function that keeps a tuple. */
static PyObject *keeping(PyObject *module, PyObject *kept) {
  static PyMethodDef method = {"equal", (PyCFunction)(void (*)(void))equal, METH_FASTCALL, NULL};
  (void)module;
  return PyTuple_Size(kept) == PLACES ? PyCFunction_New(&method, kept) : NULL;
}

PyMODINIT_FUNC PyInit__quick(void) {
  static PyMethodDef methods[] = {{"keeping", keeping, METH_O, NULL}, {NULL, NULL, 0, NULL}};
  static struct PyModuleDef module = {.m_base = PyModuleDef_HEAD_INIT, .m_name = "_quick",
                                      .m_methods = methods};
  return PyModule_Create(&module);
}
