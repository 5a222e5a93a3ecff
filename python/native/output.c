/* The text that `sub` makes. Where all pieces are parts of the text and of a template, they are written into one
 * buffer: an object for each piece would cost more than its match. */
#include "native.h"

void output_begin(Output *output) {
  output->data = output->first;
  output->used = 0;
  output->room = sizeof output->first;
}

void output_end(Output *output) {
  if (output->data != output->first)
    PyMem_Free(output->data);
}

/* Makes room for so many bytes more. False with MemoryError. */
static bool grow(Output *output, size_t bytes) {
  bool is_first = output->data == output->first;
  size_t least = bytes <= PY_SSIZE_T_MAX - output->used ? output->used + bytes : PY_SSIZE_T_MAX;
  size_t room = Py_MAX(least, output->room / 2 * 3);
  char *data = PyMem_Realloc(is_first ? NULL : output->data, room);
  if (!data) {
    PyErr_NoMemory();
    return false;
  }
  if (is_first)
    memcpy(data, output->first, output->used);
  output->data = data;
  output->room = room;
  return true;
}

static inline bool write_bytes(Output *output, const void *data, size_t bytes) {
  if (bytes > output->room - output->used && !grow(output, bytes))
    return false;
  memcpy(output->data + output->used, data, bytes);
  output->used += bytes;
  return true;
}

bool output_slice(Output *output, const Text *text, Py_ssize_t start, Py_ssize_t end) {
  const char *data = text->data;
  return write_bytes(output, data + start * text->size, (size_t)((end - start) * text->size));
}

/* Writes a literal, with characters as wide as those of the text. */
static bool write_literal(Output *output, const Text *text, PyObject *literal) {
  if (text->is_bytes)
    return write_bytes(output, PyBytes_AS_STRING(literal), (size_t)PyBytes_GET_SIZE(literal));
  int kind = PyUnicode_KIND(literal);
  Py_ssize_t length = PyUnicode_GET_LENGTH(literal);
  if (kind == text->size)
    return write_bytes(output, PyUnicode_DATA(literal), (size_t)(length * kind));
  for (Py_ssize_t at = 0; at < length; at++) {
    Py_UCS4 character = PyUnicode_READ(kind, PyUnicode_DATA(literal), at);
    /* its low bytes come first on x86-64 */
    if (!write_bytes(output, &character, (size_t)text->size))
      return false;
  }
  return true;
}

bool output_parts(Output *output, const Text *text, PyObject *parts, const size_t *row) {
  if (!PyList_CheckExact(parts))
    return write_literal(output, text, parts);
  bool is_well = true;
  for (Py_ssize_t at = 0; is_well && at < PyList_GET_SIZE(parts); at++) {
    PyObject *part = PyList_GET_ITEM(parts, at);
    if (!PyLong_Check(part)) {
      is_well = write_literal(output, text, part);
      continue;
    }
    Window span = row_span(row, PyLong_AsSsize_t(part));
    is_well = span.pos < 0 || output_slice(output, text, span.pos, span.endpos);
  }
  return is_well;
}

/* Whether a literal is of the text's type, and has no wider characters. */
static bool fits(const Text *text, PyObject *literal) {
  if (text->is_bytes)
    return PyBytes_Check(literal);
  return PyUnicode_Check(literal) && (int)PyUnicode_KIND(literal) <= text->size;
}

bool output_serves(const Text *text, PyObject *parts) {
  if (!PyList_CheckExact(parts))
    return fits(text, parts);
  bool all_fit = true;
  for (Py_ssize_t at = 0; all_fit && at < PyList_GET_SIZE(parts); at++)
    all_fit = PyLong_Check(PyList_GET_ITEM(parts, at)) || fits(text, PyList_GET_ITEM(parts, at));
  return all_fit;
}

PyObject *output_made(const Output *output, const Text *text) {
  if (text->is_bytes)
    return PyBytes_FromStringAndSize(output->data, (Py_ssize_t)output->used);
  return PyUnicode_FromKindAndData(text->size, output->data, (Py_ssize_t)output->used / text->size);
}
