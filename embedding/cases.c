/* Answers a file of cases by the C interface as `sre_cases` does (docs/PROGRAM.md), with no options and no `check`:
 *
 *     cases FILE [ROWS [PASSES]]
 *
 * ROWS is the greatest number of matches that one call writes. The file is answered PASSES times: first by codes, and
 * then by a sre_pattern for each bytecode, which is kept and has DFAs. The answers are the same. Link with libsre_c.a.
 * tools/speed.py measures one pass as any program of that kind. */
#include <stdio.h>
#include <stdlib.h>
#include <string.h>

#include "sre.h"

static const sre_table ascii = SRE_ASCII;
static size_t most = 1 << 16;
static unsigned long passes = 1;

/* The bytecode of a line, and that of lines before it. */
typedef struct node {
  sre_pattern pattern;
  struct node *before;
} node;

static node *nodes;

typedef struct question {
  sre_pattern *pattern;
  const uint8_t *text;
  size_t count;
  sre_asked asked;
  bool is_walk, is_text, is_ascii;
} question;

static void *room(size_t size) {
  void *block = malloc(size + !size);
  if (!block) {
    puts("no memory");
    exit(1);
  }
  return block;
}

static char *contents(const char *path) {
  FILE *file = fopen(path, "rb");
  if (!file || fseek(file, 0, SEEK_END)) exit(2);
  size_t size = (size_t)ftell(file);
  char *text = room(size + 1);
  rewind(file);
  if (fread(text, 1, size, file) != size) exit(2);
  text[size] = 0;
  fclose(file);
  return text;
}

/* The bytecode of a field: numbers with commas between them. */
static sre_code code_of(const char *field) {
  size_t count = 0;
  uint32_t *words = room((strlen(field) / 2 + 1) * sizeof *words);
  while (*field && *field != '-') {
    char *end;
    words[count++] = (uint32_t)strtoul(field, &end, 10);
    field = *end ? end + 1 : end;
  }
  return (sre_code){.words = words, .words_count = count, .table = &ascii};
}

/* A pattern of this bytecode. If patterns are kept, that of an earlier line with the same bytecode. */
static sre_pattern *pattern_of(sre_code code) {
  size_t size = code.words_count * sizeof *code.words;
  for (node *it = passes > 1 ? nodes : NULL; it; it = it->before) {
    const sre_code *met = &it->pattern.code;
    if (met->words_count == code.words_count && !memcmp(met->words, code.words, size)) {
      free((void *)code.words);
      return &it->pattern;
    }
  }
  node *made = room(sizeof *made);
  *made = (node){.pattern = {.code = code}, .before = nodes};
  nodes = made;
  sre_check_code(&made->pattern.code); /* if it fails, so does each call */
  return &made->pattern;
}

static void free_patterns(void) {
  while (nodes) {
    node *it = nodes;
    nodes = it->before;
    sre_pattern_free(&it->pattern);
    free((void *)it->pattern.code.words);
    free(it);
  }
}

/* The bytes of a field of hexadecimal digits, which takes their place. */
static size_t read_bytes(char *digits) {
  static const char all[] = "0123456789abcdef";
  size_t count = strlen(digits) / 2;
  for (size_t i = 0; i < count; i++)
    digits[i] = (char)((strchr(all, digits[2 * i]) - all) * 16 + (strchr(all, digits[2 * i + 1]) - all));
  return count;
}

static question question_of(char *line) {
  char *verb = strtok(line, " "), *words = strtok(NULL, " "), *text = strtok(NULL, " "), *range = strtok(NULL, " "),
       *flags = strtok(NULL, " ");
  question it = {.pattern = pattern_of(code_of(words)), .is_walk = *verb == 'w', .is_text = *text == 's'};
  it.count = read_bytes(text + 2);
  it.text = (const uint8_t *)text + 2;
  it.is_ascii = true;
  for (size_t i = 0; i < it.count; i++) it.is_ascii &= it.text[i] < 128;
  it.asked = (sre_asked){.end = SIZE_MAX, .search = *verb == 's'};
  if (strcmp(range, "all")) sscanf(range, "%zu..%zu", &it.asked.start, &it.asked.end);
  it.asked.match_all = strchr(flags, 'f') != NULL;
  it.asked.must_advance = strchr(flags, 'a') != NULL;
  it.asked.non_boundary = strchr(flags, 'n') != NULL;
  return it;
}

static void put_match(const sre_found *found, const size_t *marks) {
  printf("yes %zu..%zu last %td marks", found->start, found->end, found->last_index);
  if (!found->marks) printf(" none");
  for (size_t i = 0; i < found->marks; i++) {
    putchar(i ? ',' : ' ');
    if (marks[i] == SRE_UNSET)
      putchar('-');
    else
      printf("%zu", marks[i]);
  }
  putchar('\n');
}

static uint32_t answer(const question *it, bool is_kept, bool is_text, const sre_asked *asked) {
  sre_pattern *by = it->pattern;
  sre_found found = {.marks = 16};
  uint32_t status;
  do {
    size_t count = found.marks, *marks = room(count * sizeof *marks);
    if (is_kept)
      status = (is_text ? sre_pattern_answer_utf8 : sre_pattern_answer_bytes)(by, it->text, it->count, asked, &found,
                                                                              marks, count);
    else
      status = (is_text ? sre_answer_utf8 : sre_answer_bytes)(&by->code, it->text, it->count, asked, &found, marks,
                                                              count);
    if (status == SRE_YES) put_match(&found, marks);
    free(marks);
  } while (status == SRE_NO_ROOM);
  if (status == SRE_NO) puts("no");
  return status;
}

static uint32_t walk(const question *it, bool is_kept, bool is_text, sre_asked asked) {
  sre_pattern *by = it->pattern;
  size_t count = 2 * most, *rows = room(count * sizeof *rows);
  bool is_first = true;
  uint32_t status;
  sre_walked walked;
  do {
    if (is_kept)
      status = (is_text ? sre_pattern_walk_utf8 : sre_pattern_walk_bytes)(by, it->text, it->count, &asked, 2, rows,
                                                                          count, &walked);
    else
      status = (is_text ? sre_walk_utf8 : sre_walk_bytes)(&by->code, it->text, it->count, &asked, 2, rows, count,
                                                          &walked);
    for (size_t i = 0; i < walked.count; i++, is_first = false)
      printf("%s%zu..%zu", is_first ? "" : " ", rows[2 * i], rows[2 * i + 1]);
    asked.start = walked.start, asked.must_advance = walked.must_advance;
  } while (status == SRE_NO_ROOM);
  if (status == SRE_NO) puts(is_first ? "none" : "");
  free(rows);
  return status;
}

/* Searches texts that are long enough together for DFAs to be built, in the encoding of a line's text. A pattern with
 * back-references may take exponential time, so the first search has a step limit, and may be the only one. */
static void build(const question *it) {
  sre_asked asked = {.end = SIZE_MAX, .steps = 1 << 20, .search = true};
  const size_t zeros = 512, count = zeros + it->count;
  uint8_t *text = room(count);
  memset(text, 0, zeros);
  memcpy(text + zeros, it->text, it->count);
  sre_found found;
  size_t marks[1];
  uint32_t status = SRE_NO;
  for (size_t passed = 0; passed < 40000 && status != SRE_STEP_LIMIT; passed += count, asked.steps = UINT64_MAX)
    status = (it->is_text ? sre_pattern_answer_utf8 : sre_pattern_answer_bytes)(it->pattern, text, count, &asked,
                                                                                &found, marks, 0);
  free(text);
}

/* The third pass has a step limit. In the fourth one a text that is ASCII has the other encoding. */
static void put_answer(const question *it, unsigned long pass) {
  bool is_kept = pass > 0, is_text = it->is_text ^ (it->is_ascii && pass == 3);
  sre_asked asked = it->asked;
  asked.steps = pass == 2 ? UINT64_MAX - 1 : UINT64_MAX;
  if (is_kept && !it->pattern->is_kept && (it->is_walk || asked.search)) build(it);
  uint32_t status = it->is_walk ? walk(it, is_kept, is_text, asked) : answer(it, is_kept, is_text, &asked);
  if (status == SRE_NO_CODE) puts("refused");
  if (status == SRE_MEMORY) puts("memory");
}

int main(int count, char **arguments) {
  if (count < 2) return 2;
  if (count > 2) most = strtoul(arguments[2], NULL, 10);
  if (count > 3) passes = strtoul(arguments[3], NULL, 10);
  char *text = contents(arguments[1]), *line = text;
  size_t lines = 1, asked = 0;
  for (char *at = text; *at; at++) lines += *at == '\n';
  question *questions = room(lines * sizeof *questions);
  while (line && *line) {
    char *end = strchr(line, '\n');
    if (end) *end = 0;
    if (*line && *line != '#') questions[asked++] = question_of(line);
    line = end ? end + 1 : NULL;
  }
  for (unsigned long pass = 0; pass < passes; pass++)
    for (size_t i = 0; i < asked; i++) put_answer(&questions[i], pass);
  free_patterns();
  free(questions);
  free(text);
  return 0;
}
