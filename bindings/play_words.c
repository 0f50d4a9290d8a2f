/* The words of a script (docs/FORMATS.md, play). */
#include "play_words.h"

#include <stdlib.h>
#include <string.h>

enum { LONGEST = 1 << 19 }; /* a script has at most twice as many octets (docs/FORMATS.md) */

bool is(const char *word, const char *name) { return strcmp(word, name) == 0; }
bool natural(const char *word, uint64_t most, uint64_t *value) {
  uint64_t n = 0;
  if (!*word || (*word == '0' && word[1])) return false;
  for (; *word; word++) {
    if (*word < '0' || *word > '9') return false;
    uint64_t digit = (uint64_t)(*word - '0');
    if (n > (most - digit) / 10) return false;
    n = 10 * n + digit;
  }
  *value = n;
  return true;
}
static bool integer(const char *word, int64_t low, int64_t high, int64_t *value) {
  uint64_t n;
  if (*word == '-') {
    if (!natural(word + 1, (uint64_t)-low, &n) || !n) return false;
    *value = -(int64_t)n;
    return true;
  }
  if (!natural(word, (uint64_t)high, &n)) return false;
  *value = (int64_t)n;
  return true;
}
bool identifier(const char *word, bool may_be_absent, int *id) {
  int64_t n = TCAP_NO_ID;
  bool is_good = (may_be_absent && is(word, "-")) || integer(word, -128, 127, &n);
  *id = (int)n;
  return is_good;
}
bool dialogue_named(const char *word, uint32_t *dialogue) {
  uint64_t n = 0;
  bool is_good = natural(word, UINT32_MAX, &n);
  *dialogue = (uint32_t)n;
  return is_good;
}
bool hex(const char *word, int room, tcap_octets *of) {
  static uint8_t rooms[4][LONGEST];
  size_t len = strlen(word);
  *of = (tcap_octets){rooms[room], 0};
  if (is(word, "-")) return true;
  if (!len || len % 2 || len / 2 > LONGEST || strspn(word, "0123456789abcdefABCDEF") != len) return false;
  for (; of->len < len / 2; of->len++) {
    const char digits[3] = {word[2 * of->len], word[2 * of->len + 1], 0};
    rooms[room][of->len] = (uint8_t)strtoul(digits, NULL, 16);
  }
  return true;
}
bool code_named(const char *word, tcap_code *code) {
  int64_t n = 0;
  bool is_good = integer(word, INT32_MIN, INT32_MAX, &n);
  *code = (tcap_code){TCAP_LOCAL, (int32_t)n, {NULL, 0}};
  return is_good;
}
