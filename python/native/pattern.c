/* Patterns: bytecode with the attributes of a pattern of `re`, and the calls for one match. */
#include "native.h"

/* ---- making one ---- */

/* Bytecode from a list of numbers, as bytes, 32 bits a word. */
static PyObject *words_of(PyObject *list) {
  Py_ssize_t count = PyList_GET_SIZE(list);
  PyObject *words = PyBytes_FromStringAndSize(NULL, count * (Py_ssize_t)sizeof(uint32_t));
  for (Py_ssize_t at = 0; words && at < count; at++) {
    unsigned long word = PyLong_AsUnsignedLong(PyList_GET_ITEM(list, at));
    if (!PyErr_Occurred() && word > UINT32_MAX)
      PyErr_SetString(PyExc_OverflowError, "regular expression code size limit exceeded");
    if (PyErr_Occurred())
      Py_CLEAR(words);
    else
      ((uint32_t *)PyBytes_AS_STRING(words))[at] = (uint32_t)word;
  }
  return words;
}

/* The pattern as it is stored: a str, the bytes of a buffer, or None. */
static PyObject *source_of(PyObject *pattern) {
  return pattern == Py_None || PyUnicode_Check(pattern) || PyBytes_Check(pattern) ? Py_NewRef(pattern)
                                                                                  : PyBytes_FromObject(pattern);
}

/* Lets the engine check the bytecode, and say where a match may begin. */
static bool check(Pattern *self) {
  self->code = (sre_code){
      .words = (const uint32_t *)PyBytes_AS_STRING(self->words),
      .words_count = (size_t)PyBytes_GET_SIZE(self->words) / sizeof(uint32_t),
      .table = engine_table(self->state, !PyBytes_Check(self->pattern)),
  };
  if (!self->code.table)
    return false;
  uint32_t status = sre_check_code(&self->code);
  if (status == SRE_YES)
    status = sre_begins(&self->code, self->begins, sizeof self->begins / sizeof *self->begins, &self->at_line_start);
  self->of_bytes.code = self->of_utf8.code = self->code;
  self->knows_begins = status == SRE_YES;
  if (status == SRE_YES || status == SRE_NO)
    return true;
  engine_fail(status);
  return false;
}

/* A new pattern of a module, without its attributes. The collector does not see it yet. */
static Pattern *pattern_new(State *state) {
  Pattern *self = PyObject_GC_New(Pattern, state->pattern);
  if (!self)
    return NULL;
  Py_INCREF(state->module);
  self->state = state;
  self->weak_references = NULL;
  self->of_bytes = self->of_utf8 = (sre_pattern){.is_kept = false};
  self->is_taken = false;
  self->spare = NULL;
  return self;
}

PyObject *pattern_compile(PyObject *module, PyObject *args) {
  PyObject *pattern, *list, *groupindex, *indexgroup;
  int flags;
  Py_ssize_t groups;
  State *state = state_of(module);
  if (!state || !PyArg_ParseTuple(args, "OiO!nO!O!:compile", &pattern, &flags, &PyList_Type, &list, &groups,
                                  &PyDict_Type, &groupindex, &PyTuple_Type, &indexgroup))
    return NULL;
  if (groups < 0 || groups > INT32_MAX) {
    PyErr_SetString(PyExc_ValueError, "no such number of groups");
    return NULL;
  }
  Pattern *self = pattern_new(state);
  if (!self)
    return NULL;
  self->groups = groups;
  self->flags = flags;
  self->max_steps = UINT64_MAX;
  self->groupindex = Py_NewRef(groupindex);
  self->indexgroup = Py_NewRef(indexgroup);
  self->pattern = source_of(pattern);
  self->words = words_of(list);
  if (!self->pattern || !self->words || !check(self)) {
    Py_DECREF(self);
    return NULL;
  }
  PyObject_GC_Track(self);
  return (PyObject *)self;
}

static int traverse(Pattern *self, visitproc visit, void *arg) {
  Py_VISIT(Py_TYPE(self));
  Py_VISIT(self->state->module);
  Py_VISIT(self->pattern);
  Py_VISIT(self->groupindex);
  Py_VISIT(self->indexgroup);
  return 0;
}

static void dealloc(Pattern *self) {
  PyTypeObject *type = Py_TYPE(self);
  PyObject *module = self->state->module;
  PyObject_GC_UnTrack(self);
  if (self->weak_references)
    PyObject_ClearWeakRefs((PyObject *)self);
  sre_pattern_free(&self->of_bytes);
  sre_pattern_free(&self->of_utf8);
  if (self->spare) /* its type is the module's still */
    PyObject_GC_Del(self->spare);
  Py_XDECREF(self->pattern);
  Py_XDECREF(self->words);
  Py_XDECREF(self->groupindex);
  Py_XDECREF(self->indexgroup);
  PyObject_GC_Del(self);
  Py_DECREF(type);
  Py_DECREF(module);
}

/* The same pattern with another step limit, for each call without one. */
static PyObject *within(Pattern *self, PyObject *given) {
  uint64_t steps;
  if (!arguments_steps(given, UINT64_MAX, &steps))
    return NULL;
  Pattern *made = pattern_new(self->state);
  if (!made)
    return NULL;
  made->pattern = Py_NewRef(self->pattern);
  made->words = Py_NewRef(self->words);
  made->groupindex = Py_NewRef(self->groupindex);
  made->indexgroup = Py_NewRef(self->indexgroup);
  made->groups = self->groups;
  made->flags = self->flags;
  made->max_steps = steps;
  made->code = made->of_bytes.code = made->of_utf8.code = self->code;
  made->at_line_start = self->at_line_start;
  made->knows_begins = self->knows_begins;
  memcpy(made->begins, self->begins, sizeof made->begins);
  PyObject_GC_Track(made);
  return (PyObject *)made;
}

/* ---- step limits ---- */

PyObject *set_default_max_steps(PyObject *module, PyObject *given) {
  uint64_t steps;
  State *state = state_of(module);
  if (!state || !arguments_steps(given, UINT64_MAX, &steps))
    return NULL;
  state->default_max_steps = steps;
  Py_RETURN_NONE;
}

static PyObject *number_or_none(uint64_t steps) {
  return steps == UINT64_MAX ? Py_NewRef(Py_None) : PyLong_FromUnsignedLongLong(steps);
}

PyObject *get_default_max_steps(PyObject *module, PyObject *unused) {
  State *state = state_of(module);
  return state ? number_or_none(state->default_max_steps) : NULL;
}

bool pattern_steps(const Pattern *self, PyObject *given, uint64_t *into) {
  uint64_t own = self->max_steps;
  return arguments_steps(given, own == UINT64_MAX ? self->state->default_max_steps : own, into);
}

/* ---- one match ---- */

static const Signature of_match = {"match", 1, 3, {"string", "pos", "endpos", "max_steps"}};
static const Signature of_fullmatch = {"fullmatch", 1, 3, {"string", "pos", "endpos", "max_steps"}};
static const Signature of_search = {"search", 1, 3, {"string", "pos", "endpos", "max_steps"}};

/* The match for a request, or None. */
static PyObject *answer(Pattern *self, Text *text, const sre_asked *asked) {
  size_t few[3 + 2 * 12], *row = few, width = ROW_WIDTH(self);
  if (asked->start > asked->end)
    Py_RETURN_NONE;
  if (width > sizeof few / sizeof *few && !(row = PyMem_Malloc(width * sizeof *row)))
    return PyErr_NoMemory();
  int told = engine_match(self, text, asked, row);
  PyObject *match = NULL;
  if (told > 0)
    match = match_new(self, text->string, (Window){(Py_ssize_t)asked->start, (Py_ssize_t)asked->end}, row);
  else if (told == 0)
    match = Py_NewRef(Py_None);
  if (row != few)
    PyMem_Free(row);
  return match;
}

static PyObject *ask(Pattern *self, const Signature *signature, PyObject *const *args, Py_ssize_t count,
                     PyObject *names, bool search, bool match_all) {
  PyObject *given[4] = {NULL};
  Py_ssize_t pos, endpos;
  uint64_t steps;
  Text text;
  if (!arguments_read(signature, args, count, names, given) || !arguments_size(given[1], 0, &pos) ||
      !arguments_size(given[2], PY_SSIZE_T_MAX, &endpos) || !pattern_steps(self, given[3], &steps) ||
      !text_open(&text, self, given[0]))
    return NULL;
  sre_asked asked = engine_asked(&text, pos, endpos, steps);
  asked.search = search;
  asked.match_all = match_all;
  PyObject *match = answer(self, &text, &asked);
  text_close(&text);
  return match;
}

static PyObject *match(Pattern *self, PyObject *const *args, Py_ssize_t count, PyObject *names) {
  return ask(self, &of_match, args, count, names, false, false);
}

static PyObject *fullmatch(Pattern *self, PyObject *const *args, Py_ssize_t count, PyObject *names) {
  return ask(self, &of_fullmatch, args, count, names, false, true);
}

static PyObject *search(Pattern *self, PyObject *const *args, Py_ssize_t count, PyObject *names) {
  return ask(self, &of_search, args, count, names, true, false);
}

/* ---- what it is ---- */

static PyObject *repr(Pattern *self) { return PyObject_CallFunctionObjArgs(self->state->repr_of, self, NULL); }

static Py_hash_t hash(Pattern *self) {
  Py_hash_t of_words = PyObject_Hash(self->words), of_pattern = PyObject_Hash(self->pattern);
  if (of_words == -1 || of_pattern == -1)
    return -1;
  Py_hash_t both = of_words ^ of_pattern ^ self->flags;
  return both == -1 ? -2 : both;
}

static PyObject *compare(PyObject *one, PyObject *two, int how) {
  if ((how != Py_EQ && how != Py_NE) || Py_TYPE(two) != Py_TYPE(one))
    Py_RETURN_NOTIMPLEMENTED;
  Pattern *left = (Pattern *)one, *right = (Pattern *)two;
  int same = left->flags == right->flags && left->groups == right->groups && left->max_steps == right->max_steps &&
             Py_TYPE(left->pattern) == Py_TYPE(right->pattern);
  if (same)
    same = PyObject_RichCompareBool(left->words, right->words, Py_EQ);
  if (same > 0)
    same = PyObject_RichCompareBool(left->pattern, right->pattern, Py_EQ);
  return same < 0 ? NULL : PyBool_FromLong(same == (how == Py_EQ));
}

/* ---- the step bound ---- */

/* The step bound for texts of at most so many characters, or None. */
static PyObject *bound(const Pattern *self, size_t characters) {
  uint64_t steps;
  uint32_t status = sre_step_bound(&self->code, characters, &steps);
  if (status == SRE_YES)
    return PyLong_FromUnsignedLongLong(steps);
  if (status == SRE_NO)
    Py_RETURN_NONE;
  engine_fail(status);
  return NULL;
}

static PyObject *step_bound(Pattern *self, PyObject *given) {
  Py_ssize_t characters = PyNumber_AsSsize_t(given, NULL); /* a greater number is clipped, since no text is longer */
  if (characters >= 0)
    return bound(self, (size_t)characters);
  if (!PyErr_Occurred())
    PyErr_SetString(PyExc_ValueError, "negative number of characters");
  return NULL;
}

static PyObject *get_is_bounded(Pattern *self, void *unused) {
  PyObject *steps = bound(self, 0);
  if (!steps)
    return NULL;
  bool is_bounded = steps != Py_None;
  Py_DECREF(steps);
  return PyBool_FromLong(is_bounded);
}

/* ---- attributes and methods ---- */

static PyObject *itself(PyObject *self, PyObject *unused) { return Py_NewRef(self); }

static PyObject *get_groupindex(Pattern *self, void *unused) { return PyDictProxy_New(self->groupindex); }

static PyObject *get_max_steps(Pattern *self, void *unused) { return number_or_none(self->max_steps); }

static PyMemberDef members[] = {
    {"pattern", T_OBJECT, offsetof(Pattern, pattern), READONLY, "The pattern string that was compiled."},
    {"flags", T_INT, offsetof(Pattern, flags), READONLY, "The regex matching flags."},
    {"groups", T_PYSSIZET, offsetof(Pattern, groups), READONLY, "The number of capturing groups in the pattern."},
    {"__weaklistoffset__", T_PYSSIZET, offsetof(Pattern, weak_references), READONLY, NULL},
    {NULL},
};

static PyGetSetDef attributes[] = {
    {"groupindex", (getter)get_groupindex, NULL, "A dictionary mapping group names to group numbers.", NULL},
    {"max_steps", (getter)get_max_steps, NULL, "The step limit of a call that names none, or None.", NULL},
    {"is_bounded", (getter)get_is_bounded, NULL,
     "Whether the pattern has a step bound for the empty text. A pattern without one has none for any text;\n"
     "step_bound(n) can still be None for a great n.", NULL},
    {NULL},
};

#define WINDOWED "string, pos=0, endpos=sys.maxsize, *, max_steps=None"

#define BY_NAME METH_FASTCALL | METH_KEYWORDS

static PyMethodDef methods[] = {
    {"match", (PyCFunction)(void *)match, BY_NAME,
     "match($self, /, " WINDOWED ")\n--\n\nThe match at the beginning of the window, or None."},
    {"fullmatch", (PyCFunction)(void *)fullmatch, BY_NAME,
     "fullmatch($self, /, " WINDOWED ")\n--\n\nThe match that is all of the window, or None."},
    {"search", (PyCFunction)(void *)search, BY_NAME,
     "search($self, /, " WINDOWED ")\n--\n\nThe match that starts first in the window, or None."},
    {"findall", (PyCFunction)(void *)pattern_findall, BY_NAME,
     "findall($self, /, " WINDOWED ")\n--\n\nThe texts of all matches, or of their groups."},
    {"finditer", (PyCFunction)(void *)pattern_finditer, BY_NAME,
     "finditer($self, /, " WINDOWED ")\n--\n\nAn iterator over all matches."},
    {"scanner", (PyCFunction)(void *)pattern_scanner, BY_NAME, "scanner($self, /, " WINDOWED ")\n--\n\n"},
    {"split", (PyCFunction)(void *)pattern_split, BY_NAME,
     "split($self, /, string, maxsplit=0, *, max_steps=None)\n--\n\nThe pieces between matches, and their groups."},
    {"sub", (PyCFunction)(void *)pattern_sub, BY_NAME,
     "sub($self, /, repl, string, count=0, *, max_steps=None)\n--\n\nThe string with each match replaced by repl."},
    {"subn", (PyCFunction)(void *)pattern_subn, BY_NAME,
     "subn($self, /, repl, string, count=0, *, max_steps=None)\n--\n\nThe tuple (new_string, number_of_subs_made)."},
    {"within", (PyCFunction)within, METH_O,
     "within($self, max_steps, /)\n--\n\nThe same pattern with another step limit, for each call that names none."},
    {"step_bound", (PyCFunction)step_bound, METH_O,
     "step_bound($self, characters, /)\n--\n\n"
     "The step bound: a number of the engine's steps, as max_steps counts them, that is proved to suffice for one\n"
     "match, search or step of an iteration over a text of at most so many characters (bytes of a bytes-like object),\n"
     "unless an allocation fails. None if the pattern has no bound (docs/MEMOIZATION.md lists the cases, as a\n"
     "back-reference), or none for so many characters."},
    {"__copy__", itself, METH_NOARGS, "__copy__($self, /)\n--\n\n"},
    {"__deepcopy__", itself, METH_O, "__deepcopy__($self, memo, /)\n--\n\n"},
    {"__class_getitem__", Py_GenericAlias, METH_O | METH_CLASS, "See PEP 585"},
    {NULL},
};

static PyType_Slot slots[] = {
    {Py_tp_doc, "Compiled regular expression object."},
    {Py_tp_dealloc, dealloc},
    {Py_tp_traverse, traverse},
    {Py_tp_repr, repr},
    {Py_tp_hash, hash},
    {Py_tp_richcompare, compare},
    {Py_tp_methods, methods},
    {Py_tp_members, members},
    {Py_tp_getset, attributes},
    {0, NULL},
};

/* There is no tp_clear, as for matches. */
PyType_Spec pattern_spec = {
    .name = "re.Pattern",
    .basicsize = sizeof(Pattern),
    .flags = TYPE_FLAGS | Py_TPFLAGS_DISALLOW_INSTANTIATION,
    .slots = slots,
};
