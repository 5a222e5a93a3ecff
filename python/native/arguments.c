/* The arguments of a call, by position and by name; sizes and step limits. */
#include "native.h"

static bool put_named(const Signature *signature, PyObject *name, PyObject *value, PyObject **into) {
  for (int at = 0; signature->names[at]; at++) {
    if (PyUnicode_CompareWithASCIIString(name, signature->names[at]))
      continue;
    if (into[at]) {
      PyErr_Format(PyExc_TypeError, "%s() got multiple values for argument '%U'", signature->function, name);
      return false;
    }
    into[at] = value;
    return true;
  }
  PyErr_Format(PyExc_TypeError, "%s() got an unexpected keyword argument '%U'", signature->function, name);
  return false;
}

bool arguments_read_all(const Signature *signature, PyObject *const *args, Py_ssize_t count, PyObject *names,
                        PyObject **into) {
  if (count > signature->positional) {
    PyErr_Format(PyExc_TypeError, "%s() takes at most %d argument%s (%zd given)", signature->function,
                 signature->positional, signature->positional == 1 ? "" : "s", count);
    return false;
  }
  for (Py_ssize_t at = 0; at < count; at++)
    into[at] = args[at];
  for (Py_ssize_t at = 0; names && at < PyTuple_GET_SIZE(names); at++)
    if (!put_named(signature, PyTuple_GET_ITEM(names, at), args[count + at], into))
      return false;
  for (int at = 0; at < signature->needed; at++) {
    if (!into[at]) {
      PyErr_Format(PyExc_TypeError, "%s() missing required argument '%s' (pos %d)", signature->function,
                   signature->names[at], at + 1);
      return false;
    }
  }
  return true;
}

bool arguments_read_size(PyObject *given, Py_ssize_t *into) {
  PyObject *number = PyLong_CheckExact(given) ? Py_NewRef(given) : PyNumber_Index(given);
  if (!number)
    return false;
  *into = PyLong_AsSsize_t(number);
  Py_DECREF(number);
  return *into != -1 || !PyErr_Occurred();
}

bool arguments_steps(PyObject *given, uint64_t otherwise, uint64_t *into) {
  *into = otherwise;
  if (!given || given == Py_None)
    return true;
  PyObject *number = PyNumber_Index(given);
  if (!number)
    return false;
  *into = PyLong_AsUnsignedLongLong(number);
  Py_DECREF(number);
  return *into != UINT64_MAX || !PyErr_Occurred();
}
