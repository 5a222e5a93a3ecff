/* Matches, and the texts of groups and of template parts from a row. */
#include "native.h"

typedef struct {
  PyObject_VAR_HEAD
  Pattern *pattern;
  PyObject *string;
  Window window;
  Py_ssize_t row[];
} Match;

/* ---- rows ---- */

/* The index of the start of a group in a row; its end is next. */
#define GROUP(group) ((group) ? 1 + 2 * (group) : 0)

Window row_span(const size_t *row, Py_ssize_t group) {
  Window span = {(Py_ssize_t)row[GROUP(group)], (Py_ssize_t)row[GROUP(group) + 1]};
  return span.pos < 0 || span.endpos < span.pos ? (Window){-1, -1} : span;
}

PyObject *row_group(const Text *text, const size_t *row, Py_ssize_t group, PyObject *otherwise) {
  Window span = row_span(row, group);
  return span.pos < 0 ? Py_NewRef(otherwise) : text_slice(text, span.pos, span.endpos);
}

/* Appends a new reference, and releases it. */
static bool append(PyObject *list, PyObject *made) {
  int failed = !made || PyList_Append(list, made) < 0;
  Py_XDECREF(made);
  return !failed;
}

PyObject *parts_of(const Pattern *pattern, PyObject *template) {
  bool is_text = PyUnicode_Check(template) || PyBytes_Check(template);
  const State *state = pattern->state;
  return PyObject_CallFunctionObjArgs(is_text ? state->parts_of_text : state->parts_of, pattern, template, NULL);
}

bool parts_append(PyObject *list, PyObject *parts, const Text *text, const size_t *row) {
  if (!PyList_CheckExact(parts))
    return PyList_Append(list, parts) == 0;
  for (Py_ssize_t at = 0; at < PyList_GET_SIZE(parts); at++) {
    PyObject *part = PyList_GET_ITEM(parts, at);
    if (!PyLong_Check(part)) {
      if (PyList_Append(list, part) < 0)
        return false;
      continue;
    }
    Window span = row_span(row, PyLong_AsSsize_t(part));
    if (span.pos >= 0 && !append(list, text_slice(text, span.pos, span.endpos)))
      return false;
  }
  return true;
}

PyObject *pieces_joined(PyObject *pieces, bool is_bytes) {
  PyObject *empty = empty_of(is_bytes);
  if (!empty)
    return NULL;
  PyObject *joined =
      is_bytes ? PyObject_CallMethod(empty, "join", "O", pieces) : PyUnicode_Join(empty, pieces);
  Py_DECREF(empty);
  return joined;
}

/* ---- the object ---- */

/* The memory of a new match: that of the last one that was freed, if there is one. */
static Match *room_of(Pattern *pattern) {
  PyTypeObject *type = pattern->state->match;
  Py_ssize_t width = (Py_ssize_t)ROW_WIDTH(pattern);
  Match *self = (Match *)pattern->spare;
  if (!self)
    return PyObject_GC_NewVar(Match, type, width);
  pattern->spare = NULL;
  PyObject_InitVar((PyVarObject *)self, type, width);
  return self;
}

PyObject *match_new(Pattern *pattern, PyObject *string, Window window, const size_t *row) {
  Match *self = room_of(pattern);
  if (!self)
    return NULL;
  self->pattern = (Pattern *)Py_NewRef((PyObject *)pattern);
  self->string = Py_NewRef(string);
  self->window = window;
  memcpy(self->row, row, WALK_WIDTH(pattern) * sizeof *row);
  if (!pattern->groups)
    self->row[2] = -1;
  PyObject_GC_Track(self);
  return (PyObject *)self;
}

static int traverse(Match *self, visitproc visit, void *arg) {
  Py_VISIT(Py_TYPE(self));
  Py_VISIT(self->pattern);
  Py_VISIT(self->string);
  return 0;
}

static void dealloc(Match *self) {
  PyTypeObject *type = Py_TYPE(self);
  Pattern *pattern = self->pattern;
  PyObject_GC_UnTrack(self);
  Py_DECREF(self->string);
  if (pattern->spare)
    PyObject_GC_Del(self);
  else
    pattern->spare = (PyObject *)self;
  Py_DECREF(type);
  Py_DECREF(pattern);
}

/* ---- groups ---- */

/* The number of a group that is given by number or name, or -1 with an exception. */
static Py_ssize_t number_of(const Match *self, PyObject *group) {
  Py_ssize_t number = -1;
  if (PyIndex_Check(group)) {
    number = PyNumber_AsSsize_t(group, NULL);
  } else if (PyDict_GET_SIZE(self->pattern->groupindex)) { /* without names any key is an unknown group */
    PyObject *found = PyDict_GetItemWithError(self->pattern->groupindex, group);
    if (found && PyLong_Check(found))
      number = PyLong_AsSsize_t(found);
  }
  if (number >= 0 && number <= self->pattern->groups)
    return number;
  if (!PyErr_Occurred())
    PyErr_SetString(PyExc_IndexError, "no such group");
  return -1;
}

/* The text of a span, clamped to the text as it is now: a bytearray may be shorter than it was. */
static PyObject *slice_now(const Match *self, Window span) {
  Text text;
  if (PyUnicode_Check(self->string))
    return PyUnicode_Substring(self->string, span.pos, span.endpos);
  if (!text_open(&text, NULL, self->string))
    return NULL;
  Py_ssize_t end = Py_MIN(span.endpos, text.length), start = Py_MIN(span.pos, end);
  PyObject *slice = text_slice(&text, start, end);
  text_close(&text);
  return slice;
}

static PyObject *group_at(const Match *self, Py_ssize_t group, PyObject *otherwise) {
  Window span = row_span((const size_t *)self->row, group);
  return span.pos < 0 ? Py_NewRef(otherwise) : slice_now(self, span);
}

static PyObject *group_by(const Match *self, PyObject *group) {
  Py_ssize_t number = number_of(self, group);
  return number < 0 ? NULL : group_at(self, number, Py_None);
}

static PyObject *group(Match *self, PyObject *const *args, Py_ssize_t count) {
  if (count == 0)
    return group_at(self, 0, Py_None);
  if (count == 1)
    return group_by(self, args[0]);
  PyObject *all = PyTuple_New(count);
  for (Py_ssize_t at = 0; all && at < count; at++) {
    PyObject *one = group_by(self, args[at]);
    if (!one)
      Py_CLEAR(all);
    else
      PyTuple_SET_ITEM(all, at, one);
  }
  return all;
}

static const Signature of_groups = {"groups", 0, 1, {"default"}};
static const Signature of_groupdict = {"groupdict", 0, 1, {"default"}};

static PyObject *groups(Match *self, PyObject *const *args, Py_ssize_t count, PyObject *names) {
  PyObject *given[1] = {NULL};
  if (!arguments_read(&of_groups, args, count, names, given))
    return NULL;
  PyObject *all = PyTuple_New(self->pattern->groups);
  for (Py_ssize_t at = 0; all && at < self->pattern->groups; at++) {
    PyObject *one = group_at(self, at + 1, given[0] ? given[0] : Py_None);
    if (!one)
      Py_CLEAR(all);
    else
      PyTuple_SET_ITEM(all, at, one);
  }
  return all;
}

static PyObject *groupdict(Match *self, PyObject *const *args, Py_ssize_t count, PyObject *names) {
  PyObject *given[1] = {NULL}, *name, *number;
  if (!arguments_read(&of_groupdict, args, count, names, given))
    return NULL;
  PyObject *all = PyDict_New();
  Py_ssize_t at = 0;
  while (all && PyDict_Next(self->pattern->groupindex, &at, &name, &number)) {
    Py_ssize_t index = number_of(self, number);
    PyObject *one = index < 0 ? NULL : group_at(self, index, given[0] ? given[0] : Py_None);
    if (!one || PyDict_SetItem(all, name, one) < 0)
      Py_CLEAR(all);
    Py_XDECREF(one);
  }
  return all;
}

static PyObject *pair_of(Window span) {
  PyObject *pair = PyTuple_New(2);
  if (!pair)
    return NULL;
  PyTuple_SET_ITEM(pair, 0, PyLong_FromSsize_t(span.pos));
  PyTuple_SET_ITEM(pair, 1, PyLong_FromSsize_t(span.endpos));
  if (!PyTuple_GET_ITEM(pair, 0) || !PyTuple_GET_ITEM(pair, 1))
    Py_CLEAR(pair);
  return pair;
}

/* The span of the group that a call names, or of the whole match. */
static bool span_asked(const Match *self, const char *function, PyObject *const *args, Py_ssize_t count, Window *span) {
  if (count > 1) {
    PyErr_Format(PyExc_TypeError, "%s expected at most 1 argument, got %zd", function, count);
    return false;
  }
  Py_ssize_t number = count ? number_of(self, args[0]) : 0;
  if (number < 0)
    return false;
  *span = row_span((const size_t *)self->row, number);
  return true;
}

static PyObject *start(Match *self, PyObject *const *args, Py_ssize_t count) {
  Window span;
  return span_asked(self, "start", args, count, &span) ? PyLong_FromSsize_t(span.pos) : NULL;
}

static PyObject *end(Match *self, PyObject *const *args, Py_ssize_t count) {
  Window span;
  return span_asked(self, "end", args, count, &span) ? PyLong_FromSsize_t(span.endpos) : NULL;
}

static PyObject *span(Match *self, PyObject *const *args, Py_ssize_t count) {
  Window span;
  return span_asked(self, "span", args, count, &span) ? pair_of(span) : NULL;
}

/* Whether `expand` gives what its template is, str or bytes, or what the text is, as in CPython 3.11. */
#define JOINS_AS_TEMPLATE (PY_VERSION_HEX >= 0x030C0000)

static const Signature of_expand = {"expand", 1, 1, {"template"}};

static PyObject *expand(Match *self, PyObject *const *args, Py_ssize_t count, PyObject *names) {
  PyObject *given[1] = {NULL}, *expanded = NULL;
  Text text;
  if (!arguments_read(&of_expand, args, count, names, given))
    return NULL;
  PyObject *parts = parts_of(self->pattern, given[0]);
  if (!parts || (JOINS_AS_TEMPLATE && !PyList_CheckExact(parts)))
    return parts;
  PyObject *pieces = PyList_New(0);
  if (pieces && text_open(&text, NULL, self->string)) {
    if (parts_append(pieces, parts, &text, (const size_t *)self->row))
      expanded = pieces_joined(pieces, JOINS_AS_TEMPLATE ? !PyUnicode_Check(given[0]) : text.is_bytes);
    text_close(&text);
  }
  Py_XDECREF(pieces);
  Py_DECREF(parts);
  return expanded;
}

static PyObject *itself(PyObject *self, PyObject *unused) { return Py_NewRef(self); }

static PyObject *repr(Match *self) {
  PyObject *whole = group_at(self, 0, Py_None);
  if (!whole)
    return NULL;
  const char *form = "<re.Match object; span=(%zd, %zd), match=%.50R>";
  PyObject *made = PyUnicode_FromFormat(form, self->row[0], self->row[1], whole);
  Py_DECREF(whole);
  return made;
}

/* ---- attributes ---- */

static PyObject *get_lastindex(Match *self, void *unused) {
  return self->row[2] > 0 ? PyLong_FromSsize_t(self->row[2]) : Py_NewRef(Py_None);
}

static PyObject *get_lastgroup(Match *self, void *unused) {
  PyObject *names = self->pattern->indexgroup;
  Py_ssize_t last = self->row[2];
  return Py_NewRef(last > 0 && last < PyTuple_GET_SIZE(names) ? PyTuple_GET_ITEM(names, last) : Py_None);
}

static PyObject *get_regs(Match *self, void *unused) {
  PyObject *all = PyTuple_New(self->pattern->groups + 1);
  for (Py_ssize_t at = 0; all && at <= self->pattern->groups; at++) {
    PyObject *one = pair_of(row_span((const size_t *)self->row, at));
    if (!one)
      Py_CLEAR(all);
    else
      PyTuple_SET_ITEM(all, at, one);
  }
  return all;
}

static PyMemberDef members[] = {
    {"string", T_OBJECT, offsetof(Match, string), READONLY, "The string passed to match() or search()."},
    {"re", T_OBJECT, offsetof(Match, pattern), READONLY, "The regular expression object."},
    {"pos", T_PYSSIZET, offsetof(Match, window.pos), READONLY, "Where the engine started to look."},
    {"endpos", T_PYSSIZET, offsetof(Match, window.endpos), READONLY, "Where the engine stopped to look."},
    {NULL},
};

static PyGetSetDef attributes[] = {
    {"lastindex", (getter)get_lastindex, NULL, "The number of the group that was closed last, or None.", NULL},
    {"lastgroup", (getter)get_lastgroup, NULL, "The name of the group that was closed last, or None.", NULL},
    {"regs", (getter)get_regs, NULL, "The spans of the match and of its groups.", NULL},
    {NULL},
};

static PyMethodDef methods[] = {
    {"group", (PyCFunction)(void *)group, METH_FASTCALL,
     "group([group1, ...]) -> str or tuple.\nThe texts of groups by number or name; with none, that of the match."},
    {"groups", (PyCFunction)(void *)groups, METH_FASTCALL | METH_KEYWORDS,
     "groups($self, /, default=None)\n--\n\nThe texts of all groups; default for those that took no part."},
    {"groupdict", (PyCFunction)(void *)groupdict, METH_FASTCALL | METH_KEYWORDS,
     "groupdict($self, /, default=None)\n--\n\nThe texts of all named groups by name."},
    {"start", (PyCFunction)(void *)start, METH_FASTCALL,
     "start($self, group=0, /)\n--\n\nWhere a group starts; -1 where it took no part."},
    {"end", (PyCFunction)(void *)end, METH_FASTCALL,
     "end($self, group=0, /)\n--\n\nWhere a group ends; -1 where it took no part."},
    {"span", (PyCFunction)(void *)span, METH_FASTCALL,
     "span($self, group=0, /)\n--\n\nWhere a group starts and ends; (-1, -1) where it took no part."},
    {"expand", (PyCFunction)(void *)expand, METH_FASTCALL | METH_KEYWORDS,
     "expand($self, /, template)\n--\n\nA template with the texts of its groups, as sub() does it."},
    {"__copy__", itself, METH_NOARGS, "__copy__($self, /)\n--\n\n"},
    {"__deepcopy__", itself, METH_O, "__deepcopy__($self, memo, /)\n--\n\n"},
    {"__class_getitem__", Py_GenericAlias, METH_O | METH_CLASS, "See PEP 585"},
    {NULL},
};

static PyType_Slot slots[] = {
    {Py_tp_doc, "The result of re.match() and re.search().\nMatch objects always have a boolean value of True."},
    {Py_tp_dealloc, dealloc},
    {Py_tp_traverse, traverse},
    {Py_tp_repr, repr},
    {Py_mp_subscript, group_by},
    {Py_tp_methods, methods},
    {Py_tp_members, members},
    {Py_tp_getset, attributes},
    {0, NULL},
};

/* There is no tp_clear: a match cannot be changed, so another object of each cycle can, and that breaks it. */
PyType_Spec match_spec = {
    .name = "re.Match",
    .basicsize = sizeof(Match),
    .itemsize = sizeof(Py_ssize_t),
    .flags = TYPE_FLAGS | Py_TPFLAGS_DISALLOW_INSTANTIATION,
    .slots = slots,
};
