/* An iteration over the matches of a range, read in batches, so that not every match costs a call. */
#include "native.h"

/* The most numbers of a batch. A signal is handled between two batches. */
#define MOST_NUMBERS 262144

/* A batch of UTF-8 may have a number for so many characters, since each batch validates the whole text. */
#define CHARACTERS_A_NUMBER 8

/* How many times as many rows a batch may have as the one before. */
#define GROWTH 16

/* The rows of the first batch: as many as are wanted, or as fit into `first`. If the caller may stop at any match of a
 * long text, it has one, so that to take the first match costs no more than to search it. */
static size_t first_room(const Walk *walk, Py_ssize_t most) {
  size_t room = sizeof walk->first / sizeof *walk->first / walk->width;
  /* a change of the text between two matches has to be seen */
  if (!walk->text->is_fixed || room == 0 || (most < 0 && walk->text->length >= LONG_TEXT))
    return 1;
  return most > 0 && (size_t)most < room ? (size_t)most : room;
}

/* The most rows of a batch, at least those that it has room for. */
static size_t most_room(const Walk *walk) {
  size_t numbers = walk->text->utf8 ? (size_t)walk->text->length / CHARACTERS_A_NUMBER : 0;
  return Py_MAX(walk->room, Py_MAX(MOST_NUMBERS, numbers) / walk->width);
}

/* Lets the next batches be read as UTF-8, if the text has any. */
static void read_as_utf8(Walk *walk) {
  if (text_utf8(walk->text))
    walk->room = most_room(walk);
}

void walk_begin(Walk *walk, Pattern *pattern, Text *text, const sre_asked *asked, Py_ssize_t most) {
  walk->pattern = pattern;
  walk->text = text;
  walk->asked = *asked;
  walk->max_steps = asked->steps;
  walk->width = WALK_WIDTH(pattern);
  walk->room = first_room(walk, most);
  walk->count = walk->at = 0;
  walk->status = asked->start > asked->end ? SRE_NO : SRE_NO_ROOM;
  walk->rows = NULL;
  walk->has_failed = false;
  if (most == 0 && walk->status == SRE_NO_ROOM && engine_may_gain(pattern, text, asked))
    read_as_utf8(walk);
}

void walk_end(Walk *walk) {
  if (walk->rows)
    PyMem_Free(walk->rows);
}

/* The array for a batch's rows, or null with an exception if the allocation failed. */
static size_t *place_of_rows(Walk *walk) {
  size_t numbers = walk->width * walk->room;
  if (numbers <= sizeof walk->first / sizeof *walk->first)
    return walk->first;
  size_t *rows = PyMem_Realloc(walk->rows, numbers * sizeof *rows);
  if (!rows) {
    PyErr_NoMemory();
    return NULL;
  }
  return walk->rows = rows;
}

/* Reads rows within so many steps. False with an exception. */
static bool read_rows(Walk *walk, uint64_t steps, sre_walked *walked) {
  sre_asked asked = walk->asked;
  size_t *rows = place_of_rows(walk);
  if (!rows)
    return false;
  asked.steps = steps;
  walk->status = engine_walk(walk->pattern, walk->text, &asked, rows, walk->room, walked);
  walk->batch = rows;
  return walk->status != STOPPED;
}

/* Reads a batch. If the first steps do not suffice, it is read again as UTF-8, and they are not charged. */
static bool read_batch(Walk *walk) {
  sre_walked walked;
  uint64_t steps = walk->asked.steps, first = steps;
  if (!walk->text->utf8 && engine_may_gain(walk->pattern, walk->text, &walk->asked))
    first = Py_MIN(steps, engine_first_steps(walk->text));
  if (!read_rows(walk, first, &walked))
    return false;
  if (walk->status == SRE_STEP_LIMIT && first < steps) {
    first = steps;
    read_as_utf8(walk);
    if (!read_rows(walk, steps, &walked))
      return false;
  }
  walk->count = walked.count;
  walk->at = 0;
  walk->asked.start = walked.start;
  walk->asked.must_advance = walked.must_advance;
  walk->asked.steps = steps == UINT64_MAX ? steps : walked.steps + (steps - first);
  return true;
}

/* Lets the next batch have more rows, unless the text may change. */
static void grow(Walk *walk) {
  if (walk->text->is_fixed)
    walk->room = Py_MIN(walk->room * GROWTH, most_room(walk));
}

/* Handles signals, and reads the next batch, with more rows than the one before. False with an exception. */
static bool next_batch(Walk *walk) {
  if (walk->count) {
    grow(walk);
    if (PyErr_CheckSignals() < 0)
      return false;
  }
  return read_batch(walk);
}

const size_t *walk_further(Walk *walk) {
  if (walk->status == SRE_NO_ROOM && !next_batch(walk)) {
    walk->has_failed = true;
    return NULL;
  }
  if (walk->at < walk->count)
    return walk->batch + walk->width * walk->at++;
  if (walk->status != SRE_NO) {
    engine_fail_in(walk->status, walk->pattern, walk->asked.start, walk->max_steps);
    walk->has_failed = true;
  }
  return NULL;
}
