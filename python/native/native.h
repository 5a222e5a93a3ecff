/* The types and functions that the files of the extension share. */
#ifndef GAFFSILVER_NATIVE_H
#define GAFFSILVER_NATIVE_H

#define PY_SSIZE_T_CLEAN
#include <Python.h>
#include <stdbool.h>
#include <structmember.h>

#include "sre.h"

/* ---- the state of the module (module.c) ---- */

/* What a module owns. Each interpreter has its own module, and no two share an object. Each pattern holds a reference
 * to its module, so no method meets a state that was freed. */
typedef struct {
  PyObject *module;   /* borrowed, since the state is a part of it */
  PyTypeObject *type; /* the type of `pattern` and `match` */
  PyTypeObject *pattern, *match, *matches, *scanner;
  PyObject *twins[2]; /* the own Pattern and Match of `re` while this engine is installed, else null */
  /* functions of gaffsilver._shared and gaffsilver._unicode */
  PyObject *exceeded;      /* (pattern string, position, step limit): the error of a call that exceeds its limit */
  PyObject *parts_of;      /* (pattern, template): a literal, or a list of literals and numbers of groups */
  PyObject *parts_of_text; /* the same for a str or bytes, faster */
  PyObject *repr_of;       /* (pattern): its repr */
  PyObject *unicode_lists; /* (): the four lists of a table, each as bytes */
  PyObject *lists;         /* those to which `unicode` points */
  sre_table unicode, ascii;
  uint64_t default_max_steps; /* of a call that has none */
  bool is_whole;              /* its initialization has ended */
} State;

/* The state of a module; null with SystemError if it is not whole. */
State *state_of(PyObject *module);

/* As a static type has them: no attribute can be set. */
#define TYPE_FLAGS (Py_TPFLAGS_DEFAULT | Py_TPFLAGS_HAVE_GC | Py_TPFLAGS_IMMUTABLETYPE)

extern PyType_Spec pattern_spec, match_spec, matches_spec, scanner_spec;

/* ---- patterns (pattern.c) ---- */

typedef struct {
  PyObject_HEAD
  State *state;         /* of its module, to which it holds a reference */
  PyObject *pattern;    /* str, bytes, or None if a Scanner made it */
  PyObject *words;      /* bytes: the bytecode, 32 bits a word */
  PyObject *groupindex; /* dict: the number of each name */
  PyObject *indexgroup; /* tuple: the name of each number, or None */
  PyObject *weak_references;
  Py_ssize_t groups;
  int flags;
  uint64_t max_steps; /* the step limit of a call without one; UINT64_MAX for the default */
  sre_code code;
  sre_pattern of_bytes, of_utf8; /* the code again, with the DFAs that calls over bytes or over UTF-8 have built */
  bool is_taken; /* by a call that uses these DFAs, while another thread may run */
  PyObject *spare; /* the memory of a match that was freed, for the next one */
  bool at_line_start; /* whether each match begins at the start of the text or after a newline */
  bool knows_begins;  /* whether `begins` says with which characters below 256 one may begin */
  bool begins[256];
} Pattern;

/* A new pattern, with the arguments of `_sre.compile`. */
PyObject *pattern_compile(PyObject *module, PyObject *args);

/* The step limit of a call that has none: set, and as a number or None. */
PyObject *set_default_max_steps(PyObject *module, PyObject *given);
PyObject *get_default_max_steps(PyObject *module, PyObject *unused);

/* The step limit of a call: the one that is given, or else that of the pattern, or else the default. */
bool pattern_steps(const Pattern *self, PyObject *given, uint64_t *into);

/* ---- texts (text.c) ---- */

/* The least number of characters of a long text. Over one other threads may run, and a str past Latin-1 may be read as
 * UTF-8: the engine has DFAs for such ranges. */
#define LONG_TEXT 4096

/* A str or bytes-like object, read in place. */
typedef struct {
  PyObject *string; /* borrowed: the caller of text_open holds it */
  const void *data;
  Py_ssize_t length; /* in characters */
  int size;          /* of a character, in bytes: 1, 2 or 4 */
  bool is_bytes;
  bool is_ascii; /* a str that has only ASCII characters */
  bool is_fixed; /* a str or bytes, which nothing can change */
  const char *utf8; /* the same in UTF-8 once text_utf8 found it, else null */
  Py_ssize_t utf8_length; /* in bytes */
  Py_buffer view;
} Text;

/* Opens a text for a pattern, or for any pattern if that is null. False with TypeError if the types do not match. */
bool text_open(Text *text, const Pattern *pattern, PyObject *string);
void text_close(Text *text);

/* Whether a str past Latin-1 has UTF-8, which CPython stores with it. A lone surrogate has none. */
bool text_utf8(Text *text);

/* An empty str or bytes. */
static inline PyObject *empty_of(bool is_bytes) {
  return is_bytes ? PyBytes_FromStringAndSize(NULL, 0) : PyUnicode_New(0, 0);
}

/* The characters from start to end as a new str or bytes. */
PyObject *text_slice(const Text *text, Py_ssize_t start, Py_ssize_t end);

/* ---- arguments of a call (arguments.c) ---- */

/* The names of a call's arguments, terminated by null. */
typedef struct {
  const char *function;
  int needed;     /* how many are required */
  int positional; /* how many may be positional */
  const char *names[5];
} Signature;

/* The same as arguments_read and arguments_size, for any arguments. */
bool arguments_read_all(const Signature *signature, PyObject *const *args, Py_ssize_t count, PyObject *names,
                        PyObject **into);
bool arguments_read_size(PyObject *given, Py_ssize_t *into);

/* Stores each argument at the index of its name, and leaves null for one that is not given. */
static inline bool arguments_read(const Signature *signature, PyObject *const *args, Py_ssize_t count,
                                  PyObject *names, PyObject **into) {
  if (names || count < signature->needed || count > signature->positional)
    return arguments_read_all(signature, args, count, names, into);
  for (Py_ssize_t at = 0; at < count; at++)
    into[at] = args[at];
  return true;
}

/* A number of characters or matches; `otherwise` if none is given. */
static inline bool arguments_size(PyObject *given, Py_ssize_t otherwise, Py_ssize_t *into) {
  *into = otherwise;
  return !given || arguments_read_size(given, into);
}

/* A step limit; `otherwise` if it is not given or None. */
bool arguments_steps(PyObject *given, uint64_t otherwise, uint64_t *into);

/* ---- the engine (engine.c) ---- */

/* The length of a row, which is a match: start, end, the group that was closed last, and two capture slots a group. An
 * unset one is -1. */
#define ROW_WIDTH(pattern) (3 + 2 * (size_t)(pattern)->groups)

/* The length of a row of an iteration: only start and end if there are no groups. Then no run of the machine is needed
 * to fill it in. */
#define WALK_WIDTH(pattern) ((pattern)->groups ? ROW_WIDTH(pattern) : 2)

/* The table of this Python's own letters, digits and cases, or with false that of ASCII. Null with an exception. */
const sre_table *engine_table(State *state, bool is_unicode);

/* The request for the range from pos to endpos of a text. */
sre_asked engine_asked(const Text *text, Py_ssize_t pos, Py_ssize_t endpos, uint64_t steps);

/* Whether there is a match, which is written as a row: 1 or 0, or -1 with an exception. */
int engine_match(Pattern *pattern, Text *text, const sre_asked *asked, size_t *row);

/* Whether a call over a str past Latin-1 may gain by UTF-8, for which the engine has DFAs; and how many steps it takes
 * before it reads that, if it may end early. */
bool engine_may_gain(const Pattern *pattern, const Text *text, const sre_asked *asked);
uint64_t engine_first_steps(const Text *text);

/* Writes rows of an iteration, as many as there is room for, and returns the status. The text is read as UTF-8 if that
 * was found. */
uint32_t engine_walk(Pattern *pattern, const Text *text, const sre_asked *asked, size_t *rows, size_t room,
                     sre_walked *walked);

/* The status of a call that the handler of a signal ended. Its exception is set. */
#define STOPPED UINT32_MAX

/* Sets the exception of a status other than SRE_YES and SRE_NO. */
void engine_fail(uint32_t status);

/* The same for the status of a search from a position, in a call with a step limit. */
void engine_fail_in(uint32_t status, const Pattern *pattern, size_t start, uint64_t max_steps);

/* ---- signals during a call of the engine (signals.c) ---- */

typedef struct EngineCall {
  struct EngineCall *outer; /* the call of the same thread during which a handler made this one */
  PyThreadState *saved;     /* of this thread while others run, else null */
  int64_t looked;           /* when it last looked for signals, if others run */
  unsigned requests;        /* for memory, so far */
  bool is_stopped;          /* a handler has raised an exception */
} EngineCall;

/* Between these two the handlers of signals run, in the thread that runs them. With `others_run` other threads run,
 * too. The second says whether a handler has raised an exception, which is set then. */
void engine_call_begin(EngineCall *call, const Text *text, bool others_run);
bool engine_call_end(EngineCall *call);

/* ---- iterations over matches (walk.c) ---- */

/* The matches of a range in order, read in batches. */
typedef struct {
  Pattern *pattern;
  Text *text;
  sre_asked asked; /* the request for the next batch */
  uint64_t max_steps; /* the limit of all batches */
  size_t width;
  size_t room;      /* rows that a batch may have */
  size_t count, at; /* rows of this batch, and the next of them */
  uint32_t status;  /* of this batch */
  bool has_failed;  /* with an exception */
  const size_t *batch; /* its rows, in `rows` or `first` */
  size_t *rows;
  size_t first[48]; /* so a short iteration allocates nothing */
} Walk;

/* Begins an iteration. The caller wants at most so many matches if `most` is above 0, all if it is 0, and else it may
 * stop at any. */
void walk_begin(Walk *walk, Pattern *pattern, Text *text, const sre_asked *asked, Py_ssize_t most);
void walk_end(Walk *walk);

/* The row of the next match; null at the end, or with an exception. The first is for the end of a batch. */
const size_t *walk_further(Walk *walk);
static inline const size_t *walk_next(Walk *walk) {
  return walk->at < walk->count ? walk->batch + walk->width * walk->at++ : walk_further(walk);
}

/* ---- matches (match.c) ---- */

/* The range of a request, or a span. */
typedef struct {
  Py_ssize_t pos, endpos;
} Window;

/* A new match from a row, also from that of an iteration. */
PyObject *match_new(Pattern *pattern, PyObject *string, Window window, const size_t *row);

/* The span of a group of a row, -1 and -1 if it took no part. */
Window row_span(const size_t *row, Py_ssize_t group);

/* The text of a group of a row; `otherwise` if it took no part. */
PyObject *row_group(const Text *text, const size_t *row, Py_ssize_t group, PyObject *otherwise);

/* The parts of a template: a literal, or a list. */
PyObject *parts_of(const Pattern *pattern, PyObject *template);

/* Appends the parts of a template to a list, with the groups of a row. */
bool parts_append(PyObject *list, PyObject *parts, const Text *text, const size_t *row);

/* The concatenation of pieces: a str, or bytes. */
PyObject *pieces_joined(PyObject *pieces, bool is_bytes);

/* ---- the text that sub makes (output.c) ---- */

/* A text that grows. Its characters are as wide as those of the text that is searched. */
typedef struct {
  char *data; /* in `first`, or allocated */
  size_t used, room; /* in bytes */
  char first[256]; /* so a short text allocates nothing */
} Output;

/* Whether the parts of a template can be written: each literal is of the text's type, and has no wider characters. */
bool output_serves(const Text *text, PyObject *parts);

void output_begin(Output *output);
void output_end(Output *output);

/* Write characters of the text, and the parts of a template with the groups of a row. False with MemoryError. */
bool output_slice(Output *output, const Text *text, Py_ssize_t start, Py_ssize_t end);
bool output_parts(Output *output, const Text *text, PyObject *parts, const size_t *row);

/* What was written, as a str or bytes. */
PyObject *output_made(const Output *output, const Text *text);

/* ---- calls of a pattern that iterate (walks.c), and its iterators (scanner.c) ---- */

PyObject *pattern_findall(Pattern *self, PyObject *const *args, Py_ssize_t count, PyObject *names);
PyObject *pattern_split(Pattern *self, PyObject *const *args, Py_ssize_t count, PyObject *names);
PyObject *pattern_sub(Pattern *self, PyObject *const *args, Py_ssize_t count, PyObject *names);
PyObject *pattern_subn(Pattern *self, PyObject *const *args, Py_ssize_t count, PyObject *names);
PyObject *pattern_finditer(Pattern *self, PyObject *const *args, Py_ssize_t count, PyObject *names);
PyObject *pattern_scanner(Pattern *self, PyObject *const *args, Py_ssize_t count, PyObject *names);

#endif
