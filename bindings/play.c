/* Plays a script (docs/FORMATS.md, play) by two engines of libtcap, and prints its text:
 *
 *   play SCRIPT [SEEN]    status 1 where a line is bad; SEEN: how often each status was answered and each kind of output
 *                         told is written to this file, `status NUMBER - COUNT` and `kind NUMBER - COUNT`
 *
 * Three lines more than there: `memory refused` and `memory given`, from where on the library gets none, or some again;
 * `S open DIALOGUES MESSAGE DIALOGUE NUMBER`, another engine in place of S's, with these limits and first identifiers; and a
 * `reject` may have a code to 255. */
#include <inttypes.h>
#include <stdbool.h>
#include <stdio.h>
#include <stdlib.h>
#include <string.h>

#include "play_text.h"
#include "play_words.h"

enum { WORDS = 9, KINDS = 18, STATUSES = 17 };
enum { LONGEST_SCRIPT = 1 << 20 }; /* docs/FORMATS.md; so no line is longer, and no more messages are sent */

struct message { uint8_t *octets; size_t len; bool is_to_peer; enum { WAITS, RECEIVED, LOST } fate; };
struct side { char letter; uint8_t address; tcap *engine; struct message *sent; size_t count; };

static struct side sides[2] = {{.letter = 'A', .address = 0x41}, {.letter = 'B', .address = 0x42}};
static uint64_t now, idle;
static bool is_open, is_refused;
static unsigned long statuses[STATUSES], kinds[KINDS];

/* ---- memory */
static void *take(size_t size) { return is_refused ? NULL : malloc(size); }
static void *grow(void *block, size_t size) { return is_refused ? NULL : realloc(block, size); }

static struct side *other(const struct side *of) { return &sides[of == &sides[0]]; }

static void print_send(struct side *s, const tcap_output *o) {
  struct message *sent = realloc(s->sent, (s->count + 1) * sizeof *sent);
  if (!sent) abort();
  s->sent = sent;
  struct message *m = &sent[s->count++];
  m->octets = malloc(o->message.len + 1), m->len = o->message.len, m->fate = WAITS;
  if (!m->octets) abort();
  memcpy(m->octets, o->message.at, m->len);
  m->is_to_peer = o->address.len == 1 && *o->address.at == other(s)->address;
  printf("send %c%zu ", s->letter, s->count);
  print_hex(o->message);
  if (!m->is_to_peer) printf(" to "), print_hex(o->address);
}
/* What a call answered: a refusal, or `name` and a number if there is one; and all that it told. */
static void answered(struct side *s, tcap_status status, const char *name, uint64_t value) {
  statuses[status]++;
  if (status) printf("%c refused %d\n", s->letter, (int)status);
  else if (name && value) printf("%c %s %" PRIu64 "\n", s->letter, name, value);
  else if (name) printf("%c %s\n", s->letter, name);
  const tcap_output *o;
  while ((o = tcap_next(s->engine)) != NULL) {
    kinds[o->kind]++;
    printf("%c ", s->letter);
    if (o->kind == TCAP_SEND) print_send(s, o);
    else print_output(o);
    printf("\n");
  }
}

/* ---- lines, by the number of their words */
static struct side *side_named(const char *word) {
  return is(word, "A") ? &sides[0] : is(word, "B") ? &sides[1] : NULL;
}
/* Puts another engine in place of the side's: whether its limits are in their ranges. */
static bool open_engine(struct side *s, tcap_limits limits) {
  tcap *engine;
  if (tcap_open(&engine, &limits)) return false;
  tcap_close(s->engine);
  s->engine = engine;
  return true;
}
static tcap_limits limits_of_a_play(void) {
  tcap_limits limits = TCAP_LIMITS;
  limits.max_dialogues = 16, limits.reject_ms = 1000, limits.idle_ms = idle;
  return limits;
}
static bool both_advance(uint64_t at) {
  if (at > now && at <= UINT64_C(1) << 62) now = at;
  for (struct side *s = sides; s < sides + 2; s++) answered(s, tcap_advance(s->engine, at), NULL, 0);
  return true;
}
/* `deliver M`, `again M`, `lose M`. */
static bool carry(const char *verb, const char *name) {
  uint64_t number;
  const char letter[2] = {name[0], 0};
  struct side *from = side_named(letter);
  if (!from || !natural(name + 1, from->count, &number) || number < 1) return false;
  struct message *m = &from->sent[number - 1];
  if (is(verb, "lose")) {
    if (m->fate != WAITS) return false;
    m->fate = LOST;
    return true;
  }
  if (m->fate != (is(verb, "again") ? RECEIVED : WAITS) || !m->is_to_peer) return false;
  m->fate = RECEIVED;
  struct side *to = other(from);
  tcap_octets message = {m->octets, m->len}, address = {&from->address, 1};
  answered(to, tcap_receive(to->engine, now, address, message), NULL, 0);
  return true;
}
static bool two(char **w) {
  uint64_t n;
  if (is(w[0], "deliver") || is(w[0], "again") || is(w[0], "lose")) return carry(w[0], w[1]);
  if (is(w[0], "advance")) return natural(w[1], UINT64_MAX, &n) && both_advance(n);
  if (is(w[0], "memory")) return is_refused = is(w[1], "refused"), is_refused || is(w[1], "given");
  struct side *s = side_named(w[0]);
  if (!s || !is(w[1], "new")) return false;
  uint32_t dialogue = 0;
  tcap_status status = tcap_new_dialogue(s->engine, &dialogue);
  answered(s, status, "new", dialogue);
  return true;
}
static bool receive(struct side *s, tcap_octets from, const char *word) {
  tcap_octets message;
  if (!hex(word, 1, &message)) return false;
  answered(s, tcap_receive(s->engine, now, from, message), NULL, 0);
  return true;
}
static bool three(struct side *s, char **w) {
  uint32_t d;
  if (is(w[1], "raw")) return receive(s, (tcap_octets){&other(s)->address, 1}, w[2]);
  if (!is(w[1], "prearranged") || !dialogue_named(w[2], &d)) return false;
  answered(s, tcap_end(s->engine, now, d, TCAP_PREARRANGED, NULL), NULL, 0);
  return true;
}
static bool four(struct side *s, char **w) {
  uint32_t d;
  int id;
  uint64_t number = 0;
  tcap_octets from;
  if (is(w[1], "rawfrom")) return hex(w[2], 0, &from) && from.len <= 255 && receive(s, from, w[3]);
  if (!is(w[1], "cancel") || !dialogue_named(w[2], &d) || !identifier(w[3], false, &id)) return false;
  tcap_status status = tcap_u_cancel(s->engine, d, id, &number);
  answered(s, status, "givenup", number);
  return true;
}
static bool five(struct side *s, char **w) {
  uint32_t d;
  tcap_portion portion;
  tcap_octets to = {&other(s)->address, 1};
  if (!dialogue_named(w[2], &d) || !hex(w[4], 1, &portion.info)) return false;
  if (is(w[1], "abort")) {
    if (!is(w[3], "user") && !is(w[3], "unsupported")) return false;
    tcap_abort_reason reason = is(w[3], "user") ? TCAP_USER_SPECIFIC : TCAP_CONTEXT_NOT_SUPPORTED;
    answered(s, tcap_u_abort(s->engine, now, d, reason, portion.info), NULL, 0);
    return true;
  }
  if (!hex(w[3], 0, &portion.context)) return false;
  if (is(w[1], "uni")) answered(s, tcap_uni(s->engine, now, d, to, &portion), NULL, 0);
  else if (is(w[1], "begin")) answered(s, tcap_begin(s->engine, now, d, to, &portion), NULL, 0);
  else if (is(w[1], "continue")) answered(s, tcap_continue(s->engine, now, d, &portion), NULL, 0);
  else if (is(w[1], "end")) answered(s, tcap_end(s->engine, now, d, TCAP_BASIC, &portion), NULL, 0);
  else return false;
  return true;
}
/* `S open DIALOGUES MESSAGE DIALOGUE NUMBER` */
static bool another(struct side *s, char **w) {
  uint64_t n[4];
  for (int i = 0; i < 4; i++)
    if (!natural(w[2 + i], i < 3 ? UINT32_MAX : UINT64_MAX, &n[i])) return false;
  tcap_limits limits = limits_of_a_play();
  limits.max_dialogues = (uint32_t)n[0], limits.max_message = (uint32_t)n[1];
  limits.first_dialogue = (uint32_t)n[2], limits.first_number = n[3];
  return open_engine(s, limits);
}
static bool reject(struct side *s, uint32_t d, char **w) {
  static const char *const names[] = {"general", "invoke", "result", "error"};
  uint64_t code;
  int id, kind = 0;
  while (kind < 4 && !is(w[4], names[kind])) kind++;
  if (!identifier(w[3], true, &id) || kind == 4 || !natural(w[5], 255, &code)) return false;
  answered(s, tcap_u_reject(s->engine, d, id, 256 * kind + (int)code), "done", 0);
  return true;
}
static bool six(struct side *s, char **w) {
  uint32_t d;
  int id;
  tcap_octets parameter, to;
  tcap_portion portion;
  tcap_code code = {TCAP_NO_CODE, 0, {NULL, 0}};
  if (is(w[1], "open")) return another(s, w);
  if (!dialogue_named(w[2], &d)) return false;
  if (is(w[1], "reject")) return reject(s, d, w);
  if (is(w[1], "beginto")) {
    if (!hex(w[3], 2, &to) || to.len > 255 || !hex(w[4], 0, &portion.context) || !hex(w[5], 1, &portion.info)) return false;
    answered(s, tcap_begin(s->engine, now, d, to, &portion), NULL, 0);
    return true;
  }
  bool has_body = !is(w[4], "-") || is(w[1], "error");
  if (!identifier(w[3], false, &id) || (has_body && !code_named(w[4], &code)) || !hex(w[5], 0, &parameter)) return false;
  if (!has_body && parameter.len) return false;
  if (is(w[1], "last")) answered(s, tcap_result_l(s->engine, d, id, code, parameter), "done", 0);
  else if (is(w[1], "more")) answered(s, tcap_result_nl(s->engine, d, id, code, parameter), "done", 0);
  else if (is(w[1], "error")) answered(s, tcap_u_error(s->engine, d, id, code, parameter), "done", 0);
  else return false;
  return true;
}
/* `S invoke D ID CLASS CODE TIMEOUT LINKED PARAM` */
static bool nine(struct side *s, char **w) {
  uint32_t d;
  int id, linked;
  uint64_t op_class, timeout, number = 0;
  tcap_code code;
  tcap_octets parameter;
  if (!is(w[1], "invoke") || !dialogue_named(w[2], &d) || !identifier(w[3], false, &id)) return false;
  if (!natural(w[4], 4, &op_class) || !op_class || !code_named(w[5], &code) || !natural(w[6], UINT64_MAX, &timeout)) return false;
  if (!identifier(w[7], true, &linked) || !hex(w[8], 0, &parameter)) return false;
  tcap_status status = tcap_invoke(s->engine, d, id, linked, (int)op_class, code, parameter, timeout, &number);
  answered(s, status, "number", number);
  return true;
}
static bool line_is_done(char *line) {
  char *w[WORDS + 1];
  int count = 0;
  for (char *next = line; next && count <= WORDS; count++) {
    w[count] = next;
    char *space = strchr(next, ' ');
    if (space) *space = 0;
    next = space ? space + 1 : NULL;
  }
  if (!is_open) {
    bool is_idle = count == 2 && is(w[0], "idle");
    if (is_idle && !natural(w[1], UINT64_C(1) << 62, &idle)) return false;
    is_open = open_engine(&sides[0], limits_of_a_play()) && open_engine(&sides[1], limits_of_a_play());
    if (!is_open) return false;
    if (is_idle) return true;
  }
  struct side *s = side_named(w[0]);
  if (count == 2) return two(w);
  if (!s) return false;
  switch (count) {
  case 3: return three(s, w);
  case 4: return four(s, w);
  case 5: return five(s, w);
  case 6: return six(s, w);
  case 9: return nine(s, w);
  default: return false;
  }
}

static bool is_played(FILE *script) {
  static char line[LONGEST_SCRIPT + 2];
  for (int number = 1; fgets(line, sizeof line, script); number++) {
    line[strcspn(line, "\n")] = 0;
    if (!*line || *line == '#' || line_is_done(line)) continue;
    printf("line %d bad\n", number);
    return false;
  }
  return true;
}
static void write_seen(const char *name) {
  FILE *file = fopen(name, "w");
  if (!file) perror(name), exit(2);
  for (int i = 0; i < STATUSES; i++) (void)fprintf(file, "status %d - %lu\n", i, statuses[i]);
  for (int i = 1; i < KINDS; i++) (void)fprintf(file, "kind %d - %lu\n", i, kinds[i]);
  if (fclose(file)) perror(name), exit(2);
}
int main(int argc, char **argv) {
  FILE *script = argc > 1 ? fopen(argv[1], "r") : NULL;
  if (!script || tcap_set_memory(take, grow, free)) return fprintf(stderr, "play SCRIPT [SEEN]\n"), 2;
  bool is_good = is_played(script);
  (void)fclose(script);
  for (struct side *s = sides; s < sides + 2; s++) {
    tcap_close(s->engine);
    while (s->count) free(s->sent[--s->count].octets);
    free(s->sent);
  }
  if (argc > 2) write_seen(argv[2]);
  return !is_good;
}
