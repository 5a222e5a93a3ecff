/* The iterator of finditer, and the scanner. */
#include "native.h"

static const Signature of_finditer = {"finditer", 1, 3, {"string", "pos", "endpos", "max_steps"}};
static const Signature of_scanner = {"scanner", 1, 3, {"string", "pos", "endpos", "max_steps"}};

/* What both have: the pattern, the text, and its string, to which they hold references. */
typedef struct {
  PyObject_HEAD
  Pattern *pattern;
  PyObject *string;
  Text text;
  Window window;
  bool is_running; /* in a call, during which another thread may run */
} Reader;

/* Begins a call. There is at most one at a time. */
static bool call_begin(Reader *self) {
  if (self->is_running) {
    PyErr_SetString(PyExc_ValueError, "regular expression scanner already executing");
    return false;
  }
  return self->is_running = true;
}

static PyObject *call_end(Reader *self, PyObject *match) {
  self->is_running = false;
  return match;
}

/* A new object of a type that begins with a Reader, over the range of a call; `asked` is its first request. The caller
 * tracks it when it is whole, since a buffer's code in Python may look at all objects that are tracked. */
static Reader *reader_new(PyTypeObject *type, Pattern *pattern, const Signature *signature, PyObject *const *args,
                          Py_ssize_t count, PyObject *names, sre_asked *asked) {
  PyObject *given[4] = {NULL};
  Py_ssize_t pos, endpos;
  uint64_t steps;
  if (!arguments_read(signature, args, count, names, given) || !arguments_size(given[1], 0, &pos) ||
      !arguments_size(given[2], PY_SSIZE_T_MAX, &endpos) || !pattern_steps(pattern, given[3], &steps))
    return NULL;
  Reader *self = PyObject_GC_New(Reader, type);
  if (!self)
    return NULL;
  memset((char *)self + sizeof(PyObject), 0, (size_t)type->tp_basicsize - sizeof(PyObject));
  if (!text_open(&self->text, pattern, given[0])) {
    Py_DECREF(self);
    return NULL;
  }
  self->pattern = (Pattern *)Py_NewRef((PyObject *)pattern);
  self->string = Py_NewRef(given[0]);
  *asked = engine_asked(&self->text, pos, endpos, steps);
  self->window = (Window){(Py_ssize_t)asked->start, (Py_ssize_t)asked->end};
  return self;
}

static int traverse(Reader *self, visitproc visit, void *arg) {
  Py_VISIT(Py_TYPE(self));
  Py_VISIT(self->pattern);
  Py_VISIT(self->string);
  return 0;
}

static void let_go(Reader *self) {
  PyTypeObject *type = Py_TYPE(self);
  PyObject_GC_UnTrack(self);
  text_close(&self->text);
  Py_XDECREF(self->pattern);
  Py_XDECREF(self->string);
  PyObject_GC_Del(self);
  Py_DECREF(type);
}

/* ---- finditer ---- */

typedef struct {
  Reader reader;
  Walk walk;
} Matches;

PyObject *pattern_finditer(Pattern *pattern, PyObject *const *args, Py_ssize_t count, PyObject *names) {
  sre_asked asked;
  Matches *self = (Matches *)reader_new(pattern->state->matches, pattern, &of_finditer, args, count, names, &asked);
  if (!self)
    return NULL;
  walk_begin(&self->walk, pattern, &self->reader.text, &asked, -1);
  PyObject_GC_Track(self);
  return (PyObject *)self;
}

static PyObject *matches_next(Matches *self) {
  PyObject *match = NULL;
  if (!call_begin(&self->reader))
    return NULL;
  const size_t *row = walk_next(&self->walk);
  if (row)
    match = match_new(self->reader.pattern, self->reader.string, self->reader.window, row);
  else if (!PyErr_Occurred())
    text_close(&self->reader.text); /* the text is not read again */
  return call_end(&self->reader, match);
}

static void matches_dealloc(Matches *self) {
  walk_end(&self->walk);
  let_go(&self->reader);
}

static PyType_Slot slots_of_matches[] = {
    {Py_tp_doc, "An iterator over the matches of a text."},
    {Py_tp_dealloc, matches_dealloc},
    {Py_tp_traverse, traverse},
    {Py_tp_iter, PyObject_SelfIter},
    {Py_tp_iternext, matches_next},
    {0, NULL},
};

PyType_Spec matches_spec = {
    .name = "gaffsilver.Matches",
    .basicsize = sizeof(Matches),
    .flags = TYPE_FLAGS | Py_TPFLAGS_DISALLOW_INSTANTIATION,
    .slots = slots_of_matches,
};

/* ---- the scanner ---- */

typedef struct {
  Reader reader;
  sre_asked asked;
  bool has_ended;
} Scanner;

PyObject *pattern_scanner(Pattern *pattern, PyObject *const *args, Py_ssize_t count, PyObject *names) {
  sre_asked asked;
  Scanner *self = (Scanner *)reader_new(pattern->state->scanner, pattern, &of_scanner, args, count, names, &asked);
  if (!self)
    return NULL;
  self->asked = asked;
  PyObject_GC_Track(self);
  return (PyObject *)self;
}

/* The next match, or None; `row` has room for it. */
static PyObject *next_by(Scanner *self, size_t *row) {
  PyObject *match = NULL;
  int told = engine_match(self->reader.pattern, &self->reader.text, &self->asked, row);
  if (told > 0) {
    self->asked.start = row[1];
    self->asked.must_advance = row[0] == row[1];
    match = match_new(self->reader.pattern, self->reader.string, self->reader.window, row);
  } else if (told == 0) {
    self->has_ended = true;
    match = Py_NewRef(Py_None);
  }
  return match;
}

static PyObject *next_match(Scanner *self, bool search) {
  size_t few[3 + 2 * 12], *row = few, width = ROW_WIDTH(self->reader.pattern);
  if (self->has_ended || self->asked.start > self->asked.end)
    Py_RETURN_NONE;
  if (width > sizeof few / sizeof *few && !(row = PyMem_Malloc(width * sizeof *row)))
    return PyErr_NoMemory();
  PyObject *match = NULL;
  if (call_begin(&self->reader)) {
    self->asked.search = search;
    match = call_end(&self->reader, next_by(self, row));
  }
  if (row != few)
    PyMem_Free(row);
  return match;
}

static PyObject *scanner_match(Scanner *self, PyObject *unused) { return next_match(self, false); }
static PyObject *scanner_search(Scanner *self, PyObject *unused) { return next_match(self, true); }
static PyObject *get_pattern(Scanner *self, void *unused) { return Py_NewRef((PyObject *)self->reader.pattern); }

static PyMethodDef methods[] = {
    {"match", (PyCFunction)scanner_match, METH_NOARGS, "match($self, /)\n--\n\n"},
    {"search", (PyCFunction)scanner_search, METH_NOARGS, "search($self, /)\n--\n\n"},
    {NULL},
};

static PyGetSetDef attributes[] = {{"pattern", (getter)get_pattern, NULL, NULL, NULL}, {NULL}};

static PyType_Slot slots_of_scanner[] = {
    {Py_tp_dealloc, let_go},
    {Py_tp_traverse, traverse},
    {Py_tp_methods, methods},
    {Py_tp_getset, attributes},
    {0, NULL},
};

PyType_Spec scanner_spec = {
    .name = "_sre.SRE_Scanner",
    .basicsize = sizeof(Scanner),
    .flags = TYPE_FLAGS | Py_TPFLAGS_DISALLOW_INSTANTIATION,
    .slots = slots_of_scanner,
};
