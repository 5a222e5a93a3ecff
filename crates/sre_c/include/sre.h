/* Gaffsilver, Python's regex engine SRE, for C: bytecode and a text in, a match out.
 *
 * The caller owns its bytecode, lists and texts, and passes plain structs that point to them. Only a sre_pattern keeps
 * memory of the library, until sre_pattern_free. Each function has a contract in crates/sre_c/src/lib.rt, which is
 * proved.
 *
 *     static const uint32_t words[] = {17, 0, 16, 97, 17, 1, 16, 98, 1};            // (a)b
 *     static const sre_table ascii = SRE_ASCII;
 *     sre_code code = {.words = words, .words_count = 9, .table = &ascii};
 *     if (sre_check_code(&code) != SRE_YES) ...
 *     sre_asked asked = {.end = SIZE_MAX, .steps = UINT64_MAX, .search = true};
 *     sre_found found;
 *     size_t marks[2];
 *     uint32_t status = sre_answer_bytes(&code, (const uint8_t *)"xab", 3, &asked, &found, marks, 2);
 *     // SRE_YES; found.start is 1, found.end is 3; marks are 1 and 2
 *
 * What a caller owes, since no function can check it:
 * - Pointers are aligned and not null, also for an empty list or text (SRE_NO_PAIRS is one for a list), and valid for
 *   the given counts. A bool is 0 or 1. Outputs overlap no other argument.
 * - Memory does not change during a call. What a checked table or code points to does not change while it is in use.
 * - `checked` is false in a struct that a caller fills in, and only a check sets it. From then on no call checks the
 *   lists or the bytecode again. So set `checked` to false before you change a field, or what the struct points to.
 * - No function is called from a signal handler, nor in a forked child of a process with threads.
 *
 * Positions count characters. A character is a byte, a code point of UTF-8, or a number of 32 or of 16 bits.
 *
 * `steps` limits the steps of a call. UINT64_MAX means no limit, and is returned as it was given. A call over bytes or
 * UTF-8 builds lazy DFAs once the backtracking machine has spent about as much time as that takes. They find where a
 * match can begin or, without a limit, its start and end. The matches are the same. A call by a code builds its DFAs
 * and frees them. A call by a sre_pattern goes on with what earlier calls by it have spent and built, so a program that
 * searches many short texts has DFAs, too:
 *
 *     sre_pattern pattern = {.code = code};
 *     status = sre_pattern_answer_bytes(&pattern, (const uint8_t *)"xab", 3, &asked, &found, marks, 2);
 *     sre_pattern_free(&pattern);
 */
#ifndef SRE_H
#define SRE_H

#include <assert.h>
#include <stdbool.h>
#include <stddef.h>
#include <stdint.h>

#ifdef __cplusplus
extern "C" {
#endif

/* The number of the declarations below, and the result of sre_abi. It changes with each status, struct and function. So
 * a program that was compiled with the header of another library can find that out. */
#define SRE_ABI 849984695

/* What a function returns. */
#define SRE_NO 0           /* there is no match, or no further one */
#define SRE_YES 1          /* there is a match; bytecode has a tree; a table's lists have no fault */
#define SRE_STEP_LIMIT 2   /* step limit exceeded before the answer was known */
#define SRE_MEMORY 3       /* an allocation failed */
#define SRE_NO_CODE 4      /* the bytecode has no tree */
#define SRE_NO_ROOM 5      /* there is a match, but no room for its captures; or no room for one more row */
#define SRE_NOT_UTF8 6     /* the text is not valid UTF-8 */
#define SRE_FAULTY_TABLE 7 /* a list of the table has a fault */

/* Instead of a position: an unset capture slot, or no group that was closed last. */
#define SRE_UNSET SIZE_MAX

/* An entry of a table's list: (from, to) of a case map, or (low, high) of a range with both ends included. */
typedef struct sre_pair {
  uint32_t low;
  uint32_t high;
} sre_pair;

/* The cases, alphanumerics and digits past ASCII, which is fixed. `lower` and `upper` are maps, and `alnum` and
 * `digits` are ranges. Each entry is above the previous one. All numbers are Unicode scalar values, also those inside a
 * range, and no entry begins below 128. */
typedef struct sre_table {
  const sre_pair *lower;
  size_t lower_count;
  const sre_pair *upper;
  size_t upper_count;
  const sre_pair *alnum;
  size_t alnum_count;
  const sre_pair *digits;
  size_t digits_count;
  uint32_t error; /* after SRE_FAULTY_TABLE: 2 unsorted, 3 an entry in ASCII, 4 no scalar value; 0 after SRE_YES */
  bool checked;   /* only sre_check_table sets it */
} sre_table;

#define SRE_NO_PAIRS ((const sre_pair *)sizeof(sre_pair))

/* Initializes a table that knows only ASCII. */
#define SRE_ASCII {SRE_NO_PAIRS, 0, SRE_NO_PAIRS, 0, SRE_NO_PAIRS, 0, SRE_NO_PAIRS, 0, 0, false}

/* The confirmed search hints of the INFO block, and three numbers of the tree. */
typedef struct sre_hints {
  uint32_t width;       /* the least width of a match in characters; 0 unless has_width */
  uint32_t prefix;      /* the length of the literal prefix of each match in characters; 0 unless has_prefix */
  uint32_t prefix_skip; /* how many of these a match need not test again */
  uint32_t longest_lookbehind; /* the length of the longest lookbehind in characters; 0 if there is none */
  uint32_t asked_from;  /* the least group that the code refers to, counted from 0; 4294967295 if it refers to none */
  bool has_width;
  bool has_prefix;
  bool literal;   /* the whole code is the prefix */
  bool first_set; /* each match begins with a character of the set in the INFO block */
  bool refers;    /* the code has a back-reference or a conditional */
} sre_hints;

/* A compiled pattern: its bytecode and its table. A caller fills in the first three fields. */
typedef struct sre_code {
  const uint32_t *words;
  size_t words_count;
  const sre_table *table;
  size_t place;    /* after SRE_NO_CODE the address of the fault, at most the number of words */
  uint32_t error;  /* after SRE_NO_CODE the number of the error, 2 to 11; 0 after SRE_YES */
  sre_hints hints; /* after SRE_YES */
  bool checked;    /* only sre_check_code sets it */
} sre_code;

/* A code, and the DFAs and the memory of calls by this struct. A caller fills in the code, zeros the rest and calls
 * sre_pattern_free at the end. While something is kept, the struct is not copied, and neither its words nor its table
 * change. Only one thread at a time uses it. */
typedef struct sre_pattern {
  sre_code code;
  void *kept;      /* the library's own, as reads_utf8 */
  bool is_kept;    /* whether something is kept */
  bool reads_utf8; /* whether a text was not ASCII */
} sre_pattern;

/* A request: a range of characters, a step limit, and flags. */
typedef struct sre_asked {
  size_t start; /* clamped to the end */
  size_t end;   /* clamped to the number of characters */
  uint64_t steps; /* UINT64_MAX: no limit, and then no steps are counted */
  bool search;       /* search the range for the least start with a match, or match only at its start */
  bool match_all;    /* a match has to end at the end of the range */
  bool must_advance; /* no empty match at the start of the range */
  bool non_boundary; /* whether a non-boundary matches in an empty text */
} sre_asked;

/* The match, and the steps that are left. */
typedef struct sre_found {
  size_t start;
  size_t end;
  ptrdiff_t last_index; /* the group that was closed last, counted from 1; -1 if there is none */
  size_t marks;         /* how many capture slots the match has; group g has the slots 2g - 2 and 2g - 1 */
  uint64_t steps;
} sre_found;

/* The state of an iteration. The next call continues it with this `start` and `must_advance`. */
typedef struct sre_walked {
  size_t count; /* how many rows were written */
  size_t start;
  uint64_t steps;        /* that are left */
  uint64_t steps_before; /* that were left before the last match was searched */
  bool must_advance;
} sre_walked;

/* The sizes of the structs in bytes, for languages that declare them anew. */
#if defined(static_assert) || defined(__cplusplus) /* C99 has no assertions */
static_assert(sizeof(sre_pair) == 8, "sre_pair");
static_assert(sizeof(sre_table) == 72, "sre_table");
static_assert(sizeof(sre_hints) == 28, "sre_hints");
static_assert(sizeof(sre_code) == 72, "sre_code");
static_assert(sizeof(sre_pattern) == 88, "sre_pattern");
static_assert(sizeof(sre_asked) == 32, "sre_asked");
static_assert(sizeof(sre_found) == 40, "sre_found");
static_assert(sizeof(sre_walked) == 40, "sre_walked");
#endif

/* The SRE_ABI of the library. Before any other call, compare it if the library was not linked by the same header. */
uint32_t sre_abi(void);

/* Checks a table's lists: SRE_YES, SRE_FAULTY_TABLE. */
uint32_t sre_check_table(sre_table *table);

/* Checks bytecode: SRE_YES, SRE_NO_CODE, SRE_FAULTY_TABLE, SRE_MEMORY. It need not be called first, since the calls
 * below check bytecode and lists that are not `checked`. It saves each of them that check. */
uint32_t sre_check_code(sre_code *code);

/* The step bound of a code for texts of at most so many characters: a step limit that suffices for each match, search
 * and row over any range of such a text, unless an allocation fails. SRE_YES, with `steps`; SRE_NO, there is none;
 * SRE_NO_CODE; SRE_FAULTY_TABLE; SRE_MEMORY. `steps` is 0 except after SRE_YES. It is computed from the bytecode. */
uint32_t sre_step_bound(const sre_code *code, size_t characters, uint64_t *steps);

/* Where a match may begin. SRE_YES: for each character below `flags_count` and 128, its flag says whether one may begin
 * with it; with a later character one may begin, and at the end of a range none does. SRE_NO, that is not known. With
 * both, `at_line_start` says whether each begins at the start of the text or after a newline. SRE_NO_CODE;
 * SRE_FAULTY_TABLE; SRE_MEMORY; these three write false. */
uint32_t sre_begins(const sre_code *code, bool *flags, size_t flags_count, bool *at_line_start);

/* The match: SRE_YES, with `found` and its captures in `marks`; SRE_NO; SRE_NO_ROOM, with `found`, if the match has
 * more capture slots than `marks_count`; SRE_STEP_LIMIT; SRE_MEMORY; SRE_NO_CODE; SRE_NOT_UTF8; SRE_FAULTY_TABLE. */
uint32_t sre_answer_bytes(const sre_code *code, const uint8_t *text, size_t text_count, const sre_asked *asked,
                          sre_found *found, size_t *marks, size_t marks_count);
uint32_t sre_answer_utf8(const sre_code *code, const uint8_t *text, size_t text_count, const sre_asked *asked,
                         sre_found *found, size_t *marks, size_t marks_count);
uint32_t sre_answer_points(const sre_code *code, const uint32_t *text, size_t text_count, const sre_asked *asked,
                           sre_found *found, size_t *marks, size_t marks_count);
uint32_t sre_answer_units(const sre_code *code, const uint16_t *text, size_t text_count, const sre_asked *asked,
                          sre_found *found, size_t *marks, size_t marks_count);

/* All matches in order, each in a row of `width` numbers: start, end, the group that was closed last, and the capture
 * slots, then SRE_UNSET. `asked->search` is ignored. SRE_NO: there is no further match. SRE_NO_ROOM: there is no room
 * for one more row. After these, SRE_STEP_LIMIT and SRE_MEMORY, the rows that `walked` counts are the first matches,
 * and it says how to continue. SRE_NO_CODE, SRE_NOT_UTF8 and SRE_FAULTY_TABLE: no rows. */
uint32_t sre_walk_bytes(const sre_code *code, const uint8_t *text, size_t text_count, const sre_asked *asked,
                        size_t width, size_t *rows, size_t rows_count, sre_walked *walked);
uint32_t sre_walk_utf8(const sre_code *code, const uint8_t *text, size_t text_count, const sre_asked *asked,
                       size_t width, size_t *rows, size_t rows_count, sre_walked *walked);
uint32_t sre_walk_points(const sre_code *code, const uint32_t *text, size_t text_count, const sre_asked *asked,
                         size_t width, size_t *rows, size_t rows_count, sre_walked *walked);
uint32_t sre_walk_units(const sre_code *code, const uint16_t *text, size_t text_count, const sre_asked *asked,
                        size_t width, size_t *rows, size_t rows_count, sre_walked *walked);

/* The same for the code of a pattern, which keeps the DFAs that these calls build, and some memory. If it has no room
 * for them, a call does not fail for that, and the next one builds anew. */
uint32_t sre_pattern_answer_bytes(sre_pattern *pattern, const uint8_t *text, size_t text_count, const sre_asked *asked,
                                  sre_found *found, size_t *marks, size_t marks_count);
uint32_t sre_pattern_answer_utf8(sre_pattern *pattern, const uint8_t *text, size_t text_count, const sre_asked *asked,
                                 sre_found *found, size_t *marks, size_t marks_count);
uint32_t sre_pattern_walk_bytes(sre_pattern *pattern, const uint8_t *text, size_t text_count, const sre_asked *asked,
                                size_t width, size_t *rows, size_t rows_count, sre_walked *walked);
uint32_t sre_pattern_walk_utf8(sre_pattern *pattern, const uint8_t *text, size_t text_count, const sre_asked *asked,
                               size_t width, size_t *rows, size_t rows_count, sre_walked *walked);

/* Frees what a pattern keeps, if there is something. It can be used again, and then builds anew. */
void sre_pattern_free(sre_pattern *pattern);

#ifdef __cplusplus
}
#endif

#endif
