/* Finds all matches of a pattern in a text by one engine, so many times, and prints how many there are:
 *
 *     peers PATTERN_FILE TEXT_FILE TIMES OPTIONS
 *
 * peers.py compiles it with BY_SRE, BY_RE2 or BY_PCRE2. Both files are UTF-8, without a last newline; for BY_SRE the
 * first has numbers with commas between them. Options are letters: b, characters are bytes; c, by a code; j, by JIT; g
 * and the number of groups, each match with its captures. */
#include <cstdio>
#include <cstdlib>
#include <fstream>
#include <iterator>
#include <string>
#include <vector>

#ifdef BY_SRE
#include "sre.h"

struct Engine {
  std::vector<uint32_t> words;
  sre_table table = SRE_ASCII;
  sre_pattern pattern = {};
  bool is_bytes, is_kept;
  size_t width = 2;
  std::vector<size_t> rows = std::vector<size_t>(1 << 17);

  Engine(const std::string &numbers, const std::string &options)
      : is_bytes(options.find('b') != options.npos), is_kept(options.find('c') == options.npos) {
    size_t groups = options.find('g');
    if (groups != options.npos) width = 3 + 2 * strtoul(options.c_str() + groups + 1, nullptr, 10);
    for (const char *at = numbers.c_str(); *at; at += *at == ',') words.push_back(strtoul(at, (char **)&at, 10));
    pattern.code.words = words.data(), pattern.code.words_count = words.size(), pattern.code.table = &table;
    if (sre_check_table(&table) != SRE_YES || sre_check_code(&pattern.code) != SRE_YES) exit(3);
  }

  uint32_t walk(const std::string &text, const sre_asked &asked, sre_walked &walked) {
    const uint8_t *bytes = (const uint8_t *)text.data();
    if (is_kept)
      return (is_bytes ? sre_pattern_walk_bytes : sre_pattern_walk_utf8)(&pattern, bytes, text.size(), &asked, width,
                                                                         rows.data(), rows.size(), &walked);
    return (is_bytes ? sre_walk_bytes : sre_walk_utf8)(&pattern.code, bytes, text.size(), &asked, width, rows.data(),
                                                       rows.size(), &walked);
  }

  long count(const std::string &text) {
    sre_asked asked = {0, SIZE_MAX, UINT64_MAX, false, false, false, false};
    sre_walked walked;
    long found = 0;
    uint32_t status;
    while ((status = walk(text, asked, walked)) == SRE_NO_ROOM) {
      found += walked.count;
      asked.start = walked.start, asked.must_advance = walked.must_advance;
    }
    if (status != SRE_NO) exit(4);
    return found + walked.count;
  }
};
#else
/* Behind an empty match: where the next character begins. */
static size_t after(const std::string &text, size_t at) {
  do
    at++;
  while (at < text.size() && (text[at] & 0xC0) == 0x80);
  return at;
}
#endif

#ifdef BY_RE2
#include <re2/re2.h>

struct Engine {
  re2::RE2 code;
  std::vector<re2::StringPiece> spans;

  Engine(const std::string &pattern, const std::string &options) : code(pattern) {
    if (!code.ok()) exit(3);
    spans.resize(options.find('g') == options.npos ? 1 : 1 + code.NumberOfCapturingGroups());
  }

  long count(const std::string &text) {
    const re2::StringPiece &span = spans[0];
    size_t at = 0;
    long found = 0;
    for (; at <= text.size() && code.Match(text, at, text.size(), re2::RE2::UNANCHORED, spans.data(), spans.size());
         found++) {
      size_t begin = span.data() - text.data();
      at = span.empty() ? after(text, begin) : begin + span.size();
    }
    return found;
  }
};
#endif

#ifdef BY_PCRE2
#define PCRE2_CODE_UNIT_WIDTH 8
#include <pcre2.h>

struct Engine {
  pcre2_code *code;
  pcre2_match_data *match = pcre2_match_data_create(1, nullptr);

  Engine(const std::string &pattern, const std::string &options) {
    int error;
    PCRE2_SIZE where;
    bool is_jit = options.find('j') != options.npos;
    code = pcre2_compile((PCRE2_SPTR)pattern.data(), pattern.size(), PCRE2_UTF, &error, &where, nullptr);
    if (!code || (is_jit && pcre2_jit_compile(code, PCRE2_JIT_COMPLETE))) exit(3);
  }

  long count(const std::string &text) {
    const PCRE2_SIZE *span = pcre2_get_ovector_pointer(match);
    size_t at = 0;
    uint32_t unchecked = 0; /* the first search checks the text */
    long found = 0;
    for (; at <= text.size(); found++, unchecked = PCRE2_NO_UTF_CHECK) {
      int status = pcre2_match(code, (PCRE2_SPTR)text.data(), text.size(), at, unchecked, match, nullptr);
      if (status == PCRE2_ERROR_NOMATCH) break;
      if (status < 0) exit(4);
      at = span[0] == span[1] ? after(text, span[1]) : span[1];
    }
    return found;
  }
};
#endif

static std::string contents(const char *path) {
  std::ifstream file(path, std::ios::binary);
  return {std::istreambuf_iterator<char>(file), {}};
}

int main(int arguments, char **words) {
  if (arguments != 5) return 2;
  const std::string text = contents(words[2]);
  Engine engine(contents(words[1]), words[4]);
  long found = 0;
  for (long times = strtol(words[3], nullptr, 10); times > 0; times--) found = engine.count(text);
  printf("%ld\n", found);
}
