/* Texts: a str or bytes-like object, read in place. */
#include "native.h"

static const char nothing[4];

static bool open_str(Text *text, const Pattern *pattern) {
  if (pattern && PyBytes_Check(pattern->pattern)) {
    PyErr_SetString(PyExc_TypeError, "cannot use a bytes pattern on a string-like object");
    return false;
  }
#if PY_VERSION_HEX < 0x030C0000
  if (PyUnicode_READY(text->string) < 0)
    return false;
#endif
  text->data = PyUnicode_DATA(text->string);
  text->length = PyUnicode_GET_LENGTH(text->string);
  text->size = PyUnicode_KIND(text->string);
  text->is_bytes = false;
  text->is_ascii = PyUnicode_IS_ASCII(text->string);
  text->is_fixed = true;
  return true;
}

static bool open_buffer(Text *text) {
  if (PyObject_GetBuffer(text->string, &text->view, PyBUF_SIMPLE) < 0) {
    PyErr_Format(PyExc_TypeError, "expected string or bytes-like object, got '%.200s'",
                 Py_TYPE(text->string)->tp_name);
    return false;
  }
  text->data = text->view.buf ? text->view.buf : nothing;
  text->length = text->view.len;
  text->is_fixed = false;
  return true;
}

bool text_open(Text *text, const Pattern *pattern, PyObject *string) {
  text->string = string;
  text->utf8 = NULL;
  text->view.obj = NULL;
  if (PyUnicode_Check(string))
    return open_str(text, pattern);
  text->size = 1;
  text->is_bytes = text->is_fixed = true;
  text->is_ascii = false;
  if (PyBytes_CheckExact(string)) {
    text->data = PyBytes_AS_STRING(string);
    text->length = PyBytes_GET_SIZE(string);
  } else if (!open_buffer(text)) {
    return false;
  }
  if (pattern && PyUnicode_Check(pattern->pattern)) {
    text_close(text);
    PyErr_SetString(PyExc_TypeError, "cannot use a string pattern on a bytes-like object");
    return false;
  }
  return true;
}

void text_close(Text *text) {
  if (text->view.obj)
    PyBuffer_Release(&text->view);
}

bool text_utf8(Text *text) {
  if (text->size == 1 || text->utf8)
    return text->utf8;
  text->utf8 = PyUnicode_AsUTF8AndSize(text->string, &text->utf8_length);
  if (!text->utf8)
    PyErr_Clear();
  return text->utf8;
}

/* Characters of an ASCII str, without the tests of PyUnicode_Substring. */
static PyObject *ascii_slice(const char *data, Py_ssize_t length) {
  if (length == 1)
    return PyUnicode_FromOrdinal(*data);
  PyObject *made = PyUnicode_New(length, 127);
  if (made)
    memcpy(PyUnicode_1BYTE_DATA(made), data, (size_t)length);
  return made;
}

PyObject *text_slice(const Text *text, Py_ssize_t start, Py_ssize_t end) {
  if (text->is_ascii && end - start < text->length)
    return ascii_slice((const char *)text->data + start, end - start);
  if (!text->is_bytes)
    return PyUnicode_Substring(text->string, start, end);
  if (start == 0 && end == text->length && PyBytes_CheckExact(text->string))
    return Py_NewRef(text->string);
  return PyBytes_FromStringAndSize((const char *)text->data + start, end - start);
}
