/* The calls of the engine: its tables, a match, and the rows of an iteration. */
#include "native.h"

/* The steps that a single match or search takes before other threads run. A thread that lets the lock go may wait for
 * it until another one has run for a while, so a lexer must not do so for each token. */
#define FEW_STEPS 1000

/* A call over UTF-8 validates the whole text and counts its characters. So its range has at least this part of the
 * text, and a call that may end early takes a step for so many characters before. */
#define LEAST_PART 8
#define CHARACTERS_A_STEP 64

/* The most characters that a search passes here, where no match begins. The engine passes more of them faster. */
#define FEW_CHARACTERS 64

/* ---- tables ---- */

/* Fills in and checks the table of this Python's Unicode data, and returns the lists that it points to. */
static PyObject *fill_unicode(const State *state, sre_table *table) {
  PyObject *lists = PyObject_CallFunctionObjArgs(state->unicode_lists, NULL);
  if (!lists)
    return NULL;
  const sre_pair *pairs[4];
  size_t counts[4];
  for (Py_ssize_t at = 0; at < 4; at++) {
    PyObject *list = PyList_GET_ITEM(lists, at);
    pairs[at] = (const sre_pair *)PyBytes_AS_STRING(list);
    counts[at] = (size_t)PyBytes_GET_SIZE(list) / sizeof(sre_pair);
  }
  *table = (sre_table){pairs[0], counts[0], pairs[1], counts[1], pairs[2], counts[2], pairs[3], counts[3], 0, false};
  uint32_t status = sre_check_table(table);
  if (status == SRE_YES)
    return lists;
  engine_fail(status);
  Py_DECREF(lists);
  return NULL;
}

static const sre_table *unicode_table(State *state) {
  sre_table made;
  if (state->unicode.checked)
    return &state->unicode;
  PyObject *lists = fill_unicode(state, &made);
  if (!lists)
    return NULL;
  if (state->unicode.checked) { /* another thread made it meanwhile */
    Py_DECREF(lists);
  } else {
    state->lists = lists;
    state->unicode = made;
  }
  return &state->unicode;
}

static const sre_table *ascii_table(State *state) {
  uint32_t status = state->ascii.checked ? SRE_YES : sre_check_table(&state->ascii);
  if (status == SRE_YES)
    return &state->ascii;
  engine_fail(status);
  return NULL;
}

const sre_table *engine_table(State *state, bool is_unicode) {
  return is_unicode ? unicode_table(state) : ascii_table(state);
}

/* ---- calls ---- */

void engine_fail(uint32_t status) {
  if (status == SRE_MEMORY)
    PyErr_NoMemory();
  else if (status == STOPPED)
    assert(PyErr_Occurred());
  else if (status == SRE_NO_CODE)
    PyErr_SetString(PyExc_RuntimeError, "invalid SRE code");
  else
    PyErr_Format(PyExc_SystemError, "the engine answered %u", (unsigned)status);
}

void engine_fail_in(uint32_t status, const Pattern *pattern, size_t start, uint64_t max_steps) {
  if (status != SRE_STEP_LIMIT) {
    engine_fail(status);
    return;
  }
  Py_ssize_t pos = (Py_ssize_t)start;
  PyObject *error =
      PyObject_CallFunction(pattern->state->exceeded, "OnK", pattern->pattern, pos, (unsigned long long)max_steps);
  if (error)
    PyErr_SetObject((PyObject *)Py_TYPE(error), error);
  Py_XDECREF(error);
}

static Py_ssize_t held(Py_ssize_t position, Py_ssize_t length) {
  return position < 0 ? 0 : position > length ? length : position;
}

sre_asked engine_asked(const Text *text, Py_ssize_t pos, Py_ssize_t endpos, uint64_t steps) {
  return (sre_asked){
      .start = (size_t)held(pos, text->length),
      .end = (size_t)held(endpos, text->length),
      .steps = steps,
      .search = true,
      .non_boundary = PY_VERSION_HEX >= 0x030E0000,
  };
}

/* Whether no other thread can wait for the lock: there is no other interpreter, and no other thread in this one. Other
 * threads may add and free the states of other interpreters meanwhile, so none of them is read. */
static bool is_alone(void) {
  PyThreadState *own = PyThreadState_Get();
  PyInterpreterState *interpreter = PyThreadState_GetInterpreter(own);
  return PyInterpreterState_Head() == interpreter && !PyInterpreterState_Next(interpreter) &&
         PyInterpreterState_ThreadHead(interpreter) == own && !PyThreadState_Next(own);
}

/* Whether other threads may run during a call: none can change the text, it is long enough, and there is one. */
static bool may_others_run(const Text *text) {
  return text->is_fixed && text->length >= LONG_TEXT && !is_alone();
}

/* Whether a long text is read as UTF-8 for DFAs. With a confirmed prefix the engine builds none, nor where a match
 * begins at the start of the text alone. At starts of lines they gain little, and with back-references. */
bool engine_may_gain(const Pattern *pattern, const Text *text, const sre_asked *asked) {
  const sre_hints *hints = &pattern->code.hints;
  size_t range = asked->end - asked->start;
  if (text->size == 1 || range < LONG_TEXT || range < (size_t)text->length / LEAST_PART)
    return false;
  return asked->search && !pattern->at_line_start && !hints->has_prefix && !hints->refers;
}

uint64_t engine_first_steps(const Text *text) { return FEW_STEPS + (uint64_t)text->length / CHARACTERS_A_STEP; }

/* What keeps the DFAs and the machine's memory for bytes or UTF-8; null if a call of another thread has it. Each
 * encoding has its own, since one for both drops the DFAs at each change, which made short texts among long ones up to
 * 12 times as slow. */
static sre_pattern *take(Pattern *pattern, const Text *text, bool is_utf8) {
  if (pattern->is_taken || (text->size > 1 && !is_utf8))
    return NULL;
  pattern->is_taken = true;
  return is_utf8 ? &pattern->of_utf8 : &pattern->of_bytes;
}

static void give_back(Pattern *pattern, const sre_pattern *kept) {
  if (kept)
    pattern->is_taken = false;
}

static uint32_t answer(const Pattern *pattern, sre_pattern *kept, const Text *text, bool is_utf8,
                       const sre_asked *asked, sre_found *found, size_t *marks) {
  const sre_code *code = &pattern->code;
  const uint8_t *utf8 = (const uint8_t *)text->utf8;
  size_t length = (size_t)text->length, bytes = (size_t)text->utf8_length, room = 2 * (size_t)pattern->groups;
  if (is_utf8)
    return kept ? sre_pattern_answer_utf8(kept, utf8, bytes, asked, found, marks, room)
                : sre_answer_utf8(code, utf8, bytes, asked, found, marks, room);
  if (kept)
    return sre_pattern_answer_bytes(kept, text->data, length, asked, found, marks, room);
  switch (text->size) {
  case 1:
    return sre_answer_bytes(code, text->data, length, asked, found, marks, room);
  case 2:
    return sre_answer_units(code, text->data, length, asked, found, marks, room);
  default:
    return sre_answer_points(code, text->data, length, asked, found, marks, room);
  }
}

/* The answer by the DFAs that are kept, if it may have them. */
static uint32_t answer_kept(Pattern *pattern, const Text *text, bool is_utf8, bool others_run, const sre_asked *asked,
                            sre_found *found, size_t *marks) {
  EngineCall call;
  sre_pattern *kept = take(pattern, text, is_utf8);
  engine_call_begin(&call, text, others_run);
  uint32_t status = answer(pattern, kept, text, is_utf8, asked, found, marks);
  bool is_stopped = engine_call_end(&call);
  give_back(pattern, kept);
  return is_stopped ? STOPPED : status;
}

/* The answer by the first steps, while other threads wait. If these do not suffice, the engine starts again with the
 * request as it is, so they are not charged, and the answer is that of the request. Then other threads run, and the
 * text is read as UTF-8 if that may gain. */
static uint32_t answer_in_two(Pattern *pattern, Text *text, const sre_asked *asked, sre_found *found, size_t *marks) {
  bool others_run = may_others_run(text), may_gain = engine_may_gain(pattern, text, asked);
  if (!others_run && !may_gain)
    return answer_kept(pattern, text, false, false, asked, found, marks);
  sre_asked first = *asked;
  first.steps = Py_MIN(asked->steps, may_gain ? engine_first_steps(text) : FEW_STEPS);
  uint32_t status = answer(pattern, NULL, text, false, &first, found, marks);
  if (status != SRE_STEP_LIMIT || first.steps == asked->steps)
    return status;
  bool is_utf8 = may_gain && text_utf8(text);
  return answer_kept(pattern, text, is_utf8, others_run, asked, found, marks);
}

static uint32_t character_at(const Text *text, size_t position) {
  switch (text->size) {
  case 1:
    return ((const uint8_t *)text->data)[position];
  case 2:
    return ((const uint16_t *)text->data)[position];
  default:
    return ((const uint32_t *)text->data)[position];
  }
}

/* The first position from start on, and before last, at which a match may begin by the character there; or last. */
static size_t first_begin(const Pattern *pattern, const Text *text, size_t start, size_t last) {
  const bool *begins = pattern->begins;
  const uint8_t *bytes = text->data;
  if (text->size == 1) {
    while (start < last && !begins[bytes[start]])
      start++;
    return start;
  }
  for (; start < last; start++) {
    uint32_t character = character_at(text, start);
    if (character >= 256 || begins[character])
      break;
  }
  return start;
}

/* Moves the start of a search or an iteration past the first few characters with which no match begins. Whether one may
 * begin at the start then, or behind it: the range has room for the shortest match, and a character to begin with. */
static bool may_match(const Pattern *pattern, const Text *text, sre_asked *asked) {
  if (!asked->search && pattern->at_line_start && asked->start && character_at(text, asked->start - 1) != '\n')
    return false;
  if (pattern->knows_begins) {
    size_t few = asked->search ? FEW_CHARACTERS : 1, last = Py_MIN(asked->end, asked->start + few);
    size_t begin = first_begin(pattern, text, asked->start, last);
    if (begin == asked->end || (!asked->search && begin == last))
      return false;
    asked->start = begin;
  }
  return asked->end - asked->start >= pattern->code.hints.width;
}

int engine_match(Pattern *pattern, Text *text, const sre_asked *given, size_t *row) {
  sre_asked narrowed = *given, *asked = &narrowed;
  /* a call with a step limit goes to the engine as it is: without what is kept both engines charge it alike */
  if (asked->steps == UINT64_MAX && !may_match(pattern, text, asked))
    return 0;
  sre_found found;
  uint32_t status = answer_in_two(pattern, text, asked, &found, row + 3);
  if (status == SRE_NO)
    return 0;
  if (status != SRE_YES) {
    engine_fail_in(status, pattern, asked->start, asked->steps);
    return -1;
  }
  row[0] = found.start;
  row[1] = found.end;
  row[2] = (size_t)found.last_index;
  for (size_t at = 3 + found.marks; at < ROW_WIDTH(pattern); at++)
    row[at] = SRE_UNSET;
  return 1;
}

static uint32_t walk(const sre_code *code, sre_pattern *kept, const Text *text, const sre_asked *asked, size_t width,
                     size_t *rows, size_t numbers, sre_walked *walked) {
  const uint8_t *utf8 = (const uint8_t *)text->utf8;
  size_t length = (size_t)text->length, bytes = (size_t)text->utf8_length;
  if (utf8)
    return kept ? sre_pattern_walk_utf8(kept, utf8, bytes, asked, width, rows, numbers, walked)
                : sre_walk_utf8(code, utf8, bytes, asked, width, rows, numbers, walked);
  if (kept)
    return sre_pattern_walk_bytes(kept, text->data, length, asked, width, rows, numbers, walked);
  switch (text->size) {
  case 1:
    return sre_walk_bytes(code, text->data, length, asked, width, rows, numbers, walked);
  case 2:
    return sre_walk_units(code, text->data, length, asked, width, rows, numbers, walked);
  default:
    return sre_walk_points(code, text->data, length, asked, width, rows, numbers, walked);
  }
}

uint32_t engine_walk(Pattern *pattern, const Text *text, const sre_asked *given, size_t *rows, size_t room,
                     sre_walked *walked) {
  sre_asked narrowed = *given, *asked = &narrowed;
  asked->search = true;
  if (asked->steps == UINT64_MAX && !may_match(pattern, text, asked)) {
    *walked = (sre_walked){.start = asked->start, .steps = asked->steps};
    return SRE_NO;
  }
  EngineCall call;
  size_t width = WALK_WIDTH(pattern);
  sre_pattern *kept = take(pattern, text, text->utf8);
  engine_call_begin(&call, text, may_others_run(text));
  uint32_t status = walk(&pattern->code, kept, text, asked, width, rows, width * room, walked);
  bool is_stopped = engine_call_end(&call);
  give_back(pattern, kept);
  return is_stopped ? STOPPED : status;
}
