/* Callers with bad arguments of the right types: each has to get a status, and no foreign memory may be touched, which
 * valgrind tests. Link with -Wl,--wrap=malloc,--wrap=realloc, which lets allocations fail here. */
#include <stdio.h>
#include <stdlib.h>
#include <string.h>

#include "sre.h"

static int failures;

#define CHECK(holds)                                                                                                   \
  do {                                                                                                                 \
    if (!(holds)) {                                                                                                    \
      printf("line %d: %s\n", __LINE__, #holds);                                                                       \
      failures++;                                                                                                      \
    }                                                                                                                  \
  } while (0)

#define COUNT(array) (sizeof(array) / sizeof *(array))

/* ---- an allocator that fails ---- */

static long until_refusal = -1; /* how many requests succeed before all fail; below 0 none fails */
static bool is_one;             /* whether only the next one fails */
static long requests;

/* No test needs more at once: bytecode may name a group of a great number, whose captures take that much. */
#define MOST_BYTES ((size_t)1 << 26)

static bool is_refused(size_t size) {
  requests++;
  bool is_due = until_refusal >= 0 && (is_one ? requests == until_refusal + 1 : requests > until_refusal);
  return is_due || size > MOST_BYTES;
}

void *__real_malloc(size_t);
void *__real_realloc(void *, size_t);
void *__wrap_malloc(size_t size);
void *__wrap_realloc(void *old, size_t size);

void *__wrap_malloc(size_t size) { return is_refused(size) ? NULL : __real_malloc(size); }
void *__wrap_realloc(void *old, size_t size) { return is_refused(size) ? NULL : __real_realloc(old, size); }

/* ---- codes and requests ---- */

/* (\w+)=(\d+) */
static const uint32_t setting[] = {14, 4, 0,  3,  4294967295, 17, 0, 24, 9, 1, 4294967295, 13, 4, 8, 14, 0, 1, 17,
                                   1,  16, 61, 17, 2,          24, 9, 1,  4294967295, 13, 4, 8, 10, 0, 1, 17, 3, 1};
/* (?:x+x+)+y */
static const uint32_t running[] = {14, 4, 0, 3, 4294967295, 23, 17, 1, 4294967295, 24, 6, 1, 4294967295, 16, 120,
                                   1,  24, 6, 1, 4294967295, 16, 120, 1, 18, 16, 121, 1};
/* (a|b)*\1 */
static const uint32_t referring[] = {14, 4, 0, 1, 4294967295, 23, 13, 0, 4294967295, 17, 0, 13,
                                     5,  22, 97, 98, 0, 17, 1, 18, 11, 0, 1};

/* (?:(x)|x+x+)+y\1 */
static const uint32_t endless[] = {14, 4, 0, 3, 4294967295, 23, 31, 1, 4294967295, 7, 9, 17, 0, 16, 120, 17, 1, 15, 19,
                                   17, 24, 6, 1, 4294967295, 16, 120, 1, 24, 6, 1, 4294967295, 16, 120, 1, 15, 2, 0, 18,
                                   16, 121, 11, 0, 1};

static sre_table ascii = SRE_ASCII;

/* A copy of bytecode in a block of just its size, so that valgrind sees a read past it; the caller frees it. */
static sre_code code_of(const uint32_t *words, size_t count) {
  uint32_t *copy = __real_malloc(count * sizeof *copy + !count * sizeof *copy);
  memcpy(copy, words, count * sizeof *copy);
  return (sre_code){.words = copy, .words_count = count, .table = &ascii};
}

static void let_go(sre_code *code) { free((void *)code->words); }

static const sre_asked anywhere = {.end = SIZE_MAX, .steps = UINT64_MAX, .search = true};

static uint32_t answer(const sre_code *code, const char *text, const sre_asked *asked, sre_found *found, size_t *marks,
                       size_t room) {
  return sre_answer_bytes(code, (const uint8_t *)text, strlen(text), asked, found, marks, room);
}

/* ---- ranges and step limits ---- */

static void windows(void) {
  static const size_t places[] = {0, 1, 5, 6, 7, SIZE_MAX / 2, SIZE_MAX - 1, SIZE_MAX};
  const char *text = "ab=123";
  sre_code code = code_of(setting, COUNT(setting));
  for (size_t s = 0; s < COUNT(places); s++)
    for (size_t e = 0; e < COUNT(places); e++)
      for (int flags = 0; flags < 16; flags++) {
        sre_asked asked = {places[s], places[e], UINT64_MAX, flags & 1, flags & 2, flags & 4, flags & 8};
        sre_found found = {0};
        size_t marks[4], rows[7];
        sre_walked walked = {0};
        uint32_t told = answer(&code, text, &asked, &found, marks, 4);
        CHECK(told == SRE_YES || told == SRE_NO);
        /* by the specification: the letters end at 2, the digits at 6; no other range has a match */
        bool begins = places[s] == 0 || places[s] == 1, ends = places[e] >= 5;
        CHECK((told == SRE_YES) == (begins && ends));
        CHECK(told == SRE_NO || (found.start == places[s] && found.end == (places[e] < 6 ? places[e] : 6)));
        told = sre_walk_bytes(&code, (const uint8_t *)text, 6, &asked, 7, rows, 7, &walked);
        CHECK(told == SRE_NO || told == SRE_NO_ROOM);
        CHECK(walked.count == (begins && ends));
      }
  let_go(&code);
}

static void no_steps(void) {
  sre_code code = code_of(setting, COUNT(setting));
  sre_asked asked = anywhere;
  asked.steps = 0;
  sre_found found = {0};
  size_t marks[4], rows[7];
  sre_walked walked = {.count = 9};
  CHECK(answer(&code, "a=1", &asked, &found, marks, 4) == SRE_STEP_LIMIT);
  CHECK(found.steps == 0);
  CHECK(sre_walk_bytes(&code, (const uint8_t *)"a=1", 3, &asked, 7, rows, 7, &walked) == SRE_STEP_LIMIT);
  CHECK(walked.count == 0 && walked.steps == 0 && walked.start == 0);
  let_go(&code);
}

/* A code with a step bound, one without, a text of any length, and a code that is none. The bound suffices. */
static void step_bounds(void) {
  uint64_t steps = 9;
  sre_code code = code_of(running, COUNT(running));
  CHECK(sre_step_bound(&code, 100, &steps) == SRE_YES && steps == 8687);
  CHECK(sre_check_code(&code) == SRE_YES && sre_step_bound(&code, 28, &steps) == SRE_YES);
  sre_asked asked = anywhere;
  asked.steps = steps;
  sre_found found = {0};
  size_t marks[2];
  CHECK(answer(&code, "xxxxxxxxxxxxxxxxxxxxxxxxxxxx", &asked, &found, marks, 2) == SRE_NO);
  CHECK(sre_step_bound(&code, SIZE_MAX, &steps) == SRE_NO && steps == 0);
  code.words_count--;
  code.checked = false;
  steps = 9;
  CHECK(sre_step_bound(&code, 100, &steps) == SRE_NO_CODE && steps == 0);
  let_go(&code);
  code = code_of(referring, COUNT(referring));
  CHECK(sre_step_bound(&code, 0, &steps) == SRE_NO && steps == 0);
  let_go(&code);
}

/* Where a match of (\w+)=(\d+) may begin, one of ^a, and one of a code that matches nothing. */
static void beginnings(void) {
  bool flags[200] = {false}, lines = true;
  sre_code code = code_of(setting, COUNT(setting));
  CHECK(sre_begins(&code, flags, COUNT(flags), &lines) == SRE_YES && !lines);
  CHECK(flags['a'] && flags['_'] && flags['0'] && !flags['='] && !flags['\n'] && flags[128] && flags[199]);
  flags[1] = true;
  CHECK(sre_begins(&code, flags, 1, &lines) == SRE_YES && !flags[0] && flags[1]);
  CHECK(sre_begins(&code, flags, 0, &lines) == SRE_YES);
  code.words_count--;
  lines = true;
  CHECK(sre_begins(&code, flags, COUNT(flags), &lines) == SRE_NO_CODE && !lines);
  let_go(&code);
  static const uint32_t line[] = {6, 1, 16, 97, 1}, nothing[] = {1};
  code = code_of(line, COUNT(line));
  CHECK(sre_begins(&code, flags, COUNT(flags), &lines) == SRE_YES && lines && flags['a'] && !flags['b']);
  let_go(&code);
  code = code_of(nothing, COUNT(nothing));
  CHECK(sre_begins(&code, flags, COUNT(flags), &lines) == SRE_NO && !lines);
  let_go(&code);
}

/* ---- no room ---- */

static void no_room(void) {
  sre_code code = code_of(setting, COUNT(setting));
  for (size_t room = 0; room < 4; room++) {
    size_t *marks = __real_malloc(room * sizeof *marks + !room);
    sre_found found = {0};
    CHECK(answer(&code, "a=1", &anywhere, &found, marks, room) == SRE_NO_ROOM);
    CHECK(found.start == 0 && found.end == 3 && found.marks == 4);
    free(marks);
  }
  static const size_t widths[] = {0, 1, 2, 3, 4, 7, 8, 100, SIZE_MAX};
  for (size_t at = 0; at < COUNT(widths); at++) {
    size_t width = widths[at], rows[8] = {9, 9, 9, 9, 9, 9, 9, 9}, room = COUNT(rows);
    sre_walked walked = {.count = 9};
    uint32_t told = sre_walk_bytes(&code, (const uint8_t *)"a=1", 3, &anywhere, width, rows, room, &walked);
    bool fits = width > 0 && width <= room;
    CHECK(walked.count == fits);
    CHECK(told == (fits && 2 * width <= room ? SRE_NO : SRE_NO_ROOM));
    CHECK(rows[0] == (fits ? 0 : 9));
  }
  let_go(&code);
}

/* ---- bytecode ---- */

/* A check and an answer agree on any bytecode, and so do an answer over checked bytecode and one that checks it
 * itself. */
static uint32_t agreed(sre_code *code) {
  sre_found found, again;
  size_t marks[8], marks_again[8], room = COUNT(marks);
  sre_asked asked = anywhere;
  asked.steps = 10000;
  uint32_t checked = sre_check_code(code), told;
  CHECK(checked == SRE_YES || (checked == SRE_NO_CODE && code->place <= code->words_count && code->error > 1));
  CHECK(code->checked == (checked == SRE_YES));
  told = answer(code, "xxab=12y", &asked, &found, marks, room);
  CHECK((told == SRE_NO_CODE) == (checked == SRE_NO_CODE));
  CHECK(told <= SRE_NO_ROOM);
  code->checked = false;
  CHECK(answer(code, "xxab=12y", &asked, &again, marks_again, room) == told);
  if (told == SRE_YES) {
    CHECK(found.start == again.start && found.end == again.end && found.steps == again.steps);
    CHECK(memcmp(marks, marks_again, found.marks * sizeof *marks) == 0);
  }
  return checked;
}

static void cut_short(const uint32_t *words, size_t count) {
  for (size_t length = 0; length < count; length++) {
    sre_code code = code_of(words, length);
    CHECK(agreed(&code) == SRE_NO_CODE);
    let_go(&code);
  }
}

static void changed(const uint32_t *words, size_t count) {
  static const uint32_t values[] = {0, 1, 2, 13, 14, 17, 23, 24, 255, 256, INT32_MAX, UINT32_MAX - 1, UINT32_MAX};
  for (size_t at = 0; at < count; at++)
    for (size_t it = 0; it < COUNT(values); it++) {
      sre_code code = code_of(words, count);
      ((uint32_t *)code.words)[at] = values[it];
      agreed(&code);
      let_go(&code);
    }
}

static void no_code(void) {
  cut_short(setting, COUNT(setting));
  cut_short(running, COUNT(running));
  cut_short(referring, COUNT(referring));
  changed(setting, COUNT(setting));
  changed(running, COUNT(running));
  changed(referring, COUNT(referring));
  uint32_t word = 1;
  for (int round = 0; round < 2000; round++) {
    uint32_t words[12];
    for (size_t at = 0; at < COUNT(words); at++)
      words[at] = (word = word * 1664525 + 1013904223) >> 16 & (round & 1 ? 31 : 0xFFFF);
    sre_code code = code_of(words, COUNT(words));
    agreed(&code);
    let_go(&code);
  }
}

/* ---- texts and tables ---- */

static void no_utf8(void) {
  static const char *texts[] = {"\x80",         "a=1\xC3",     "\xC0\x80",         "\xED\xA0\x80",    "\xE2\x82",
                                "\xF0\x9D\x94", "\xF4\x90\x80\x80", "\xF8\x88\x80\x80\x80", "a=1 \xFF b=2", "\xFE"};
  sre_code code = code_of(setting, COUNT(setting));
  for (size_t at = 0; at < COUNT(texts); at++) {
    size_t length = strlen(texts[at]), marks[4], rows[7];
    uint8_t *text = __real_malloc(length);
    memcpy(text, texts[at], length);
    sre_found found;
    sre_walked walked = {.count = 9};
    CHECK(sre_answer_utf8(&code, text, length, &anywhere, &found, marks, 4) == SRE_NOT_UTF8);
    CHECK(sre_walk_utf8(&code, text, length, &anywhere, 7, rows, 7, &walked) == SRE_NOT_UTF8 && walked.count == 0);
    free(text);
  }
  let_go(&code);
}

/* Numbers that are no code points, and surrogates, are characters like any other. */
static void no_points(void) {
  static const uint32_t points[] = {0xD800, 0xDFFF, 0x110000, UINT32_MAX, 'a', '=', '1'};
  static const uint16_t units[] = {0xD800, 0xDFFF, 0xFFFF, 'a', '=', '1'};
  sre_code code = code_of(setting, COUNT(setting));
  sre_found found;
  size_t marks[4];
  CHECK(sre_answer_points(&code, points, COUNT(points), &anywhere, &found, marks, 4) == SRE_YES && found.start == 4);
  CHECK(sre_answer_units(&code, units, COUNT(units), &anywhere, &found, marks, 4) == SRE_YES && found.start == 3);
  let_go(&code);
}

static void faulty_tables(void) {
  static const sre_pair unsorted[] = {{300, 310}, {200, 210}}, backwards[] = {{310, 300}}, low[] = {{65, 97}},
                        surrogates[] = {{0xD800, 0xD801}}, high[] = {{0x110000, UINT32_MAX}},
                        most[] = {{UINT32_MAX, 0}};
  static const struct {
    const sre_pair *pairs;
    size_t count;
  } lists[] = {{unsorted, 2}, {backwards, 1}, {low, 1}, {surrogates, 1}, {high, 1}, {most, 1}};
  sre_code code = code_of(setting, COUNT(setting));
  for (size_t at = 0; at < COUNT(lists); at++) {
    sre_table table = SRE_ASCII;
    table.alnum = lists[at].pairs;
    table.alnum_count = lists[at].count;
    sre_found found;
    size_t marks[4], rows[7];
    sre_walked walked = {.count = 9};
    code.table = &table;
    CHECK(sre_check_table(&table) == SRE_FAULTY_TABLE && table.error >= 2 && table.error <= 4 && !table.checked);
    CHECK(sre_check_code(&code) == SRE_FAULTY_TABLE && !code.checked);
    CHECK(answer(&code, "a=1", &anywhere, &found, marks, 4) == SRE_FAULTY_TABLE);
    CHECK(sre_walk_bytes(&code, (const uint8_t *)"a=1", 3, &anywhere, 7, rows, 7, &walked) == SRE_FAULTY_TABLE);
    CHECK(walked.count == 0);
  }
  let_go(&code);
}

/* ---- memory ---- */

/* Each allocation in turn fails, and all after it: the call reports that, or returns the same as without failures. */
static void refused(const uint32_t *words, size_t count, const char *text, bool is_checked) {
  sre_code code = code_of(words, count);
  if (is_checked)
    CHECK(sre_check_code(&code) == SRE_YES);
  sre_found found, wanted;
  size_t marks[8], rows[14], room = COUNT(marks);
  sre_walked walked;
  uint32_t plain = answer(&code, text, &anywhere, &wanted, marks, room);
  CHECK(plain == SRE_YES || plain == SRE_NO);
  long met = 0, told = 0;
  for (bool is_refused = true; is_refused; met++) {
    requests = 0;
    until_refusal = met;
    uint32_t status = answer(&code, text, &anywhere, &found, marks, room);
    is_refused = requests > met;
    until_refusal = -1;
    told += status == SRE_MEMORY;
    CHECK(status == plain || (is_refused && status == SRE_MEMORY));
    CHECK(status != SRE_YES || (found.start == wanted.start && found.end == wanted.end));
  }
  CHECK(told > 0);
  requests = 0;
  until_refusal = 0;
  uint32_t status = sre_walk_bytes(&code, (const uint8_t *)text, strlen(text), &anywhere, 7, rows, 14, &walked);
  until_refusal = -1;
  CHECK(status == SRE_MEMORY && walked.count == 0);
  let_go(&code);
}

static void no_memory(void) {
  char text[101];
  memset(text, 'x', 100);
  text[100] = 0;
  for (int is_checked = 0; is_checked < 2; is_checked++) {
    refused(setting, COUNT(setting), "  ab=12", is_checked);
    refused(running, COUNT(running), text, is_checked);
    refused(referring, COUNT(referring), "ababbb", is_checked);
  }
  until_refusal = requests = 0;
  sre_code code = code_of(setting, COUNT(setting));
  CHECK(sre_check_code(&code) == SRE_MEMORY && !code.checked);
  until_refusal = -1;
  let_go(&code);
}

/* ---- patterns ---- */

/* What an answer and an iteration return and write. */
typedef struct outcome {
  uint32_t answer, walk;
  sre_found found;
  sre_walked walked;
  size_t marks[4], rows[21];
} outcome;

typedef struct text {
  const char *bytes;
  size_t count;
  bool is_utf8;
} text;

/* By a pattern, or by its code alone. */
static outcome outcome_of(sre_pattern *by, bool is_kept, text in, uint64_t steps) {
  const uint8_t *bytes = (const uint8_t *)in.bytes;
  sre_asked asked = anywhere;
  asked.steps = steps;
  outcome it = {0};
  if (is_kept) {
    it.answer = (in.is_utf8 ? sre_pattern_answer_utf8 : sre_pattern_answer_bytes)(by, bytes, in.count, &asked,
                                                                                  &it.found, it.marks, 4);
    it.walk = (in.is_utf8 ? sre_pattern_walk_utf8 : sre_pattern_walk_bytes)(by, bytes, in.count, &asked, 7, it.rows,
                                                                            21, &it.walked);
  } else {
    it.answer = (in.is_utf8 ? sre_answer_utf8 : sre_answer_bytes)(&by->code, bytes, in.count, &asked, &it.found,
                                                                  it.marks, 4);
    it.walk = (in.is_utf8 ? sre_walk_utf8 : sre_walk_bytes)(&by->code, bytes, in.count, &asked, 7, it.rows, 21,
                                                            &it.walked);
  }
  return it;
}

/* Whether they are the same but for steps, which DFAs save. */
static bool is_same(const outcome *a, const outcome *b) {
  return a->answer == b->answer && a->walk == b->walk && a->found.start == b->found.start &&
         a->found.end == b->found.end && a->found.last_index == b->found.last_index &&
         a->walked.count == b->walked.count && a->walked.start == b->walked.start &&
         a->walked.must_advance == b->walked.must_advance && !memcmp(a->marks, b->marks, sizeof a->marks) &&
         !memcmp(a->rows, b->rows, sizeof a->rows);
}

/* A pattern and its code agree on a text. Within a tight limit, DFAs can answer where the machine alone stops. */
static void agree(sre_pattern *pattern, text in, uint64_t steps) {
  outcome plain = outcome_of(pattern, false, in, steps), it = outcome_of(pattern, true, in, steps);
  CHECK(is_same(&it, &plain) || (plain.answer == SRE_STEP_LIMIT && it.answer != SRE_YES));
  CHECK(pattern->is_kept || it.answer > SRE_YES);
}

static char blank[1 << 15]; /* after a search in it, a pattern has DFAs */

/* Texts in both encodings, by a pattern that is new, has DFAs, was checked, or was freed twice. */
static void kept(const uint32_t *words, size_t count, const sre_table *table) {
  static const char *texts[] = {"", "a=1", "  ab=12, b=3", "xxxy ababbb", "\xC3\xA9=1 \xC3\xA9z=2", "x=1\xFF"};
  static const uint64_t limits[] = {UINT64_MAX, 100000, 0};
  sre_pattern pattern = {.code = code_of(words, count)};
  pattern.code.table = table;
  for (int round = 0; round < 8; round++) {
    if (round == 4) sre_check_code(&pattern.code);
    if (round == 6) sre_pattern_free(&pattern), sre_pattern_free(&pattern);
    if (round & 2) agree(&pattern, (text){blank, sizeof blank, round & 1}, UINT64_MAX);
    for (size_t at = 0; at < 2 * COUNT(texts); at++)
      for (size_t limit = 0; limit < COUNT(limits); limit++) {
        const char *it = texts[at % COUNT(texts)];
        agree(&pattern, (text){it, strlen(it), (at >= COUNT(texts)) ^ (round & 1)}, limits[limit]);
      }
  }
  sre_pattern_free(&pattern);
  CHECK(!pattern.is_kept);
  let_go(&pattern.code);
}

/* How many calls return SRE_MEMORY if each request in turn fails. Any other returns the plain answer, and so does the
 * next one. A call by a pattern is its first, or the first that builds DFAs. */
static long refused_calls(sre_pattern *pattern, bool is_utf8, bool is_kept, bool has_paid) {
  const text in = {"  ab=12 xxxy abb", 16, is_utf8};
  const outcome plain = outcome_of(pattern, false, in, UINT64_MAX);
  sre_found found;
  size_t marks[4];
  long refused = 0;
  bool is_refused = true;
  for (long before = 0; is_refused; before++) {
    sre_pattern_free(pattern);
    if (has_paid)
      (is_utf8 ? sre_pattern_answer_utf8 : sre_pattern_answer_bytes)(pattern, (const uint8_t *)blank, sizeof blank,
                                                                     &anywhere, &found, marks, 4);
    requests = 0;
    until_refusal = before;
    outcome it = outcome_of(pattern, is_kept, in, UINT64_MAX);
    until_refusal = -1;
    is_refused = requests > before;
    bool is_memory = it.answer == SRE_MEMORY || it.walk == SRE_MEMORY;
    refused += is_memory;
    CHECK(is_memory || is_same(&it, &plain));
    it = outcome_of(pattern, is_kept, in, UINT64_MAX);
    CHECK(is_same(&it, &plain));
  }
  return refused;
}

static void no_memory_for_patterns(const uint32_t *words, size_t count) {
  sre_pattern pattern = {.code = code_of(words, count)};
  sre_found found;
  size_t marks[4];
  is_one = true;
  until_refusal = requests = 0; /* nothing is kept if that is refused */
  CHECK(sre_pattern_answer_bytes(&pattern, (const uint8_t *)"", 0, &anywhere, &found, marks, 4) == SRE_NO);
  until_refusal = -1;
  CHECK(!pattern.is_kept && requests > 0);
  for (int is_utf8 = 0; is_utf8 < 2; is_utf8++) {
    long plain = refused_calls(&pattern, is_utf8, false, false);
    long first = refused_calls(&pattern, is_utf8, true, false); /* its walk has the memory of the answer before it */
    CHECK(0 < first && first <= plain);
    CHECK(refused_calls(&pattern, is_utf8, true, true) <= plain);
  }
  is_one = false;
  sre_pattern_free(&pattern);
  let_go(&pattern.code);
}

/* A search that would take years ends soon after memory is refused. */
static void stopped(void) {
  char text[61];
  memset(text, 'x', 60);
  text[60] = 0;
  sre_pattern pattern = {.code = code_of(endless, COUNT(endless))};
  sre_found found;
  size_t marks[2];
  CHECK(sre_check_code(&pattern.code) == SRE_YES);
  until_refusal = 50;
  for (int is_kept = 0; is_kept < 2; is_kept++) {
    requests = 0;
    CHECK((is_kept ? sre_pattern_answer_bytes(&pattern, (const uint8_t *)text, 60, &anywhere, &found, marks, 2)
                   : answer(&pattern.code, text, &anywhere, &found, marks, 2)) == SRE_MEMORY);
    CHECK(requests > 50 && requests < 60);
  }
  until_refusal = -1;
  CHECK(sre_pattern_answer_bytes(&pattern, (const uint8_t *)"axyx", 4, &anywhere, &found, marks, 2) == SRE_YES);
  sre_pattern_free(&pattern);
  let_go(&pattern.code);
}

static void patterns(void) {
  static const sre_pair low[] = {{65, 97}};
  sre_table faulty = SRE_ASCII;
  faulty.lower = low, faulty.lower_count = COUNT(low);
  memset(blank, ' ', sizeof blank);
  kept(setting, COUNT(setting), &ascii);
  kept(running, COUNT(running), &ascii);
  kept(setting, COUNT(setting) - 1, &ascii);
  kept(setting, COUNT(setting), &faulty);
  no_memory_for_patterns(setting, COUNT(setting));
  no_memory_for_patterns(running, COUNT(running));
}

int main(void) {
  CHECK(sre_abi() == SRE_ABI);
  CHECK(sre_check_table(&ascii) == SRE_YES);
  windows();
  no_steps();
  step_bounds();
  beginnings();
  no_room();
  no_code();
  no_utf8();
  no_points();
  faulty_tables();
  no_memory();
  patterns();
  stopped();
  printf("bad callers: %d failures\n", failures);
  return failures != 0;
}
