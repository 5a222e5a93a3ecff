/* The calls of a pattern that iterate over matches: findall, split, sub and subn. */
#include "native.h"

/* A call that iterates: the text, and the iteration. */
typedef struct {
  Text text;
  Walk walk;
} Call;

/* Opens the text and begins the iteration over a range of it. */
static bool begin(Call *call, Pattern *self, PyObject *string, Py_ssize_t pos, Py_ssize_t endpos, PyObject *max_steps,
                  Py_ssize_t most) {
  uint64_t steps;
  if (!pattern_steps(self, max_steps, &steps) || !text_open(&call->text, self, string))
    return false;
  sre_asked asked = engine_asked(&call->text, pos, endpos, steps);
  walk_begin(&call->walk, self, &call->text, &asked, most);
  return true;
}

/* Ends the call, and returns what it made, or null if that or the iteration failed. */
static PyObject *end(Call *call, PyObject *made, bool is_well) {
  walk_end(&call->walk);
  text_close(&call->text);
  if (is_well && !call->walk.has_failed)
    return made;
  Py_XDECREF(made);
  return NULL;
}

static bool append(PyObject *list, PyObject *made) {
  int failed = !made || PyList_Append(list, made) < 0;
  Py_XDECREF(made);
  return !failed;
}

/* ---- findall ---- */

static const Signature of_findall = {"findall", 1, 3, {"string", "pos", "endpos", "max_steps"}};

/* The item of findall for a match: its text, that of its only group, or a tuple of those of its groups. */
static PyObject *item_of(const Text *text, const size_t *row, Py_ssize_t groups, PyObject *empty) {
  if (groups < 2)
    return row_group(text, row, groups, empty);
  PyObject *item = PyTuple_New(groups);
  for (Py_ssize_t at = 0; item && at < groups; at++) {
    PyObject *group = row_group(text, row, at + 1, empty);
    if (!group)
      Py_CLEAR(item);
    else
      PyTuple_SET_ITEM(item, at, group);
  }
  return item;
}

PyObject *pattern_findall(Pattern *self, PyObject *const *args, Py_ssize_t count, PyObject *names) {
  PyObject *given[5] = {NULL};
  Call call;
  Py_ssize_t pos, endpos;
  if (!arguments_read(&of_findall, args, count, names, given) || !arguments_size(given[1], 0, &pos) ||
      !arguments_size(given[2], PY_SSIZE_T_MAX, &endpos) ||
      !begin(&call, self, given[0], pos, endpos, given[3], 0))
    return NULL;
  /* only a group may take no part */
  PyObject *all = PyList_New(0), *empty = self->groups ? empty_of(call.text.is_bytes) : NULL;
  const size_t *row;
  bool is_well = all && (empty || !self->groups);
  while (is_well && (row = walk_next(&call.walk)))
    is_well = append(all, item_of(&call.text, row, self->groups, empty));
  Py_XDECREF(empty);
  return end(&call, all, is_well);
}

/* ---- split ---- */

static const Signature of_split = {"split", 1, 2, {"string", "maxsplit", "max_steps"}};

/* Appends the piece before a match, and its groups. */
static bool split_at(PyObject *pieces, const Text *text, Py_ssize_t from, const size_t *row, Py_ssize_t groups) {
  bool is_well = append(pieces, text_slice(text, from, (Py_ssize_t)row[0]));
  for (Py_ssize_t group = 1; is_well && group <= groups; group++)
    is_well = append(pieces, row_group(text, row, group, Py_None));
  return is_well;
}

PyObject *pattern_split(Pattern *self, PyObject *const *args, Py_ssize_t count, PyObject *names) {
  PyObject *given[5] = {NULL};
  Call call;
  Py_ssize_t most, last = 0;
  if (!arguments_read(&of_split, args, count, names, given) || !arguments_size(given[1], 0, &most) ||
      !begin(&call, self, given[0], 0, PY_SSIZE_T_MAX, given[2], most))
    return NULL;
  PyObject *pieces = PyList_New(0);
  const size_t *row;
  bool is_well = pieces;
  for (Py_ssize_t made = 0; is_well && (!most || made < most) && (row = walk_next(&call.walk)); made++) {
    is_well = split_at(pieces, &call.text, last, row, self->groups);
    last = (Py_ssize_t)row[1];
  }
  is_well = is_well && !call.walk.has_failed && append(pieces, text_slice(&call.text, last, call.text.length));
  return end(&call, pieces, is_well);
}

/* ---- sub and subn ---- */

static const Signature of_sub = {"sub", 2, 3, {"repl", "string", "count", "max_steps"}};
static const Signature of_subn = {"subn", 2, 3, {"repl", "string", "count", "max_steps"}};

/* Whether a template has no backslash, so that it is its own text. */
static bool is_literal(PyObject *repl) {
  if (PyUnicode_Check(repl))
    return PyUnicode_FindChar(repl, '\\', 0, PyUnicode_GET_LENGTH(repl), 1) == -1;
  return PyBytes_Check(repl) && !memchr(PyBytes_AS_STRING(repl), '\\', (size_t)PyBytes_GET_SIZE(repl));
}

/* The replacement of a match: a function or a literal as it is, else the parts of a template. */
static PyObject *replacement_of(Pattern *self, PyObject *repl) {
  if (PyCallable_Check(repl) || is_literal(repl))
    return Py_NewRef(repl);
  return parts_of(self, repl);
}

/* Appends what a function returns for a match, unless that is None. */
static bool call_append(PyObject *pieces, PyObject *function, const Walk *walk, const size_t *row) {
  PyObject *match = match_new(walk->pattern, walk->text->string, (Window){0, walk->text->length}, row);
  if (!match)
    return false;
  PyObject *made = PyObject_CallOneArg(function, match);
  Py_DECREF(match);
  if (made != Py_None)
    return append(pieces, made);
  Py_DECREF(made);
  return true;
}

/* The next match of at most so many, which is counted. */
static const size_t *next_of(Walk *walk, Py_ssize_t most, Py_ssize_t *made) {
  const size_t *row = !most || *made < most ? walk_next(walk) : NULL;
  *made += row != NULL;
  return row;
}

/* The new text, by what a function returns for each match or by a template, as pieces that are joined. */
static PyObject *joined_pieces(Call *call, PyObject *replacement, Py_ssize_t most, Py_ssize_t *made) {
  const Text *text = &call->text;
  const size_t *row;
  Py_ssize_t last = 0;
  PyObject *pieces = PyList_New(0), *joined = NULL;
  bool calls = PyCallable_Check(replacement), is_well = pieces;
  while (is_well && (row = next_of(&call->walk, most, made))) {
    if (last < (Py_ssize_t)row[0])
      is_well = append(pieces, text_slice(text, last, (Py_ssize_t)row[0]));
    last = (Py_ssize_t)row[1];
    if (is_well)
      is_well = calls ? call_append(pieces, replacement, &call->walk, row)
                      : parts_append(pieces, replacement, text, row);
  }
  if (is_well && !call->walk.has_failed &&
      (last == text->length || append(pieces, text_slice(text, last, text->length))))
    joined = pieces_joined(pieces, text->is_bytes);
  Py_XDECREF(pieces);
  return joined;
}

/* The same by a template that can be written. */
static PyObject *written(Call *call, PyObject *replacement, Py_ssize_t most, Py_ssize_t *made) {
  const Text *text = &call->text;
  const size_t *row;
  Py_ssize_t last = 0;
  Output output;
  PyObject *joined = NULL;
  bool is_well = true;
  output_begin(&output);
  while (is_well && (row = next_of(&call->walk, most, made))) {
    is_well = output_slice(&output, text, last, (Py_ssize_t)row[0]) && output_parts(&output, text, replacement, row);
    last = (Py_ssize_t)row[1];
  }
  is_well = is_well && !call->walk.has_failed;
  if (is_well && !*made)
    joined = text_slice(text, 0, text->length);
  else if (is_well && output_slice(&output, text, last, text->length))
    joined = output_made(&output, text);
  output_end(&output);
  return joined;
}

/* The new text, and how many matches were replaced. */
static PyObject *substituted(Pattern *self, const Signature *signature, PyObject *const *args, Py_ssize_t count,
                             PyObject *names, Py_ssize_t *made) {
  PyObject *given[5] = {NULL}, *joined = NULL;
  Call call;
  Py_ssize_t most;
  *made = 0;
  if (!arguments_read(signature, args, count, names, given) || !arguments_size(given[2], 0, &most))
    return NULL;
  PyObject *replacement = replacement_of(self, given[0]);
  if (!replacement)
    return NULL;
  if (begin(&call, self, given[1], 0, PY_SSIZE_T_MAX, given[3], most)) {
    bool writes = !PyCallable_Check(replacement) && output_serves(&call.text, replacement);
    joined = (writes ? written : joined_pieces)(&call, replacement, most, made);
    joined = end(&call, joined, joined);
  }
  Py_DECREF(replacement);
  return joined;
}

PyObject *pattern_sub(Pattern *self, PyObject *const *args, Py_ssize_t count, PyObject *names) {
  Py_ssize_t made;
  return substituted(self, &of_sub, args, count, names, &made);
}

PyObject *pattern_subn(Pattern *self, PyObject *const *args, Py_ssize_t count, PyObject *names) {
  Py_ssize_t made;
  PyObject *joined = substituted(self, &of_subn, args, count, names, &made);
  return joined ? Py_BuildValue("(Nn)", joined, made) : NULL;
}
