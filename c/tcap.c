/* The calls of tcap.h over those of tcap_c.h. This file isn't proved, so it holds no logic: memory, pointers that are
 * NULL, the moment of a call before the call, and one output with the room for its octets. */
#include "../include/tcap.h"
#include "tcap_c.h"

#include <stdlib.h>
#include <string.h>

/* an output, as the proved calls write it and as a program reads it */
union told { tcap_c_out numbers; tcap_output output; };
#define SAME(field) _Static_assert(offsetof(tcap_c_out, field) == offsetof(tcap_output, field), #field)
SAME(event); SAME(number); SAME(address); SAME(message); SAME(portion.context); SAME(portion.info); SAME(code.kind);
SAME(code.local); SAME(code.global); SAME(parameter); SAME(dialogue); SAME(invoke_id); SAME(linked_id); SAME(problem);
SAME(cause); SAME(diagnostic); SAME(kind); SAME(pdu); SAME(closes); SAME(is_last); SAME(has_context);
SAME(has_parameter); SAME(is_version1); SAME(is_accepted); SAME(is_by_provider);
_Static_assert(sizeof(tcap_c_out) == sizeof(tcap_output) && sizeof(tcap_code_kind) == 4, "the structs of an output");
struct tcap {
  tcap_c_handle handle;
  union told told;           /* the output that tcap_next answered last */
  uint8_t room[65535 + 255]; /* its octets: a message and an address are the most */
};

/* ---- memory */
static void *(*take_block)(size_t) = malloc;
static void *(*grow_block)(void *, size_t) = realloc;
static void (*give_block_back)(void *) = free;
static uint8_t no_octets[1]; /* in place of NULL */
tcap_status tcap_set_memory(void *(*take)(size_t), void *(*grow)(void *, size_t), void (*give_back)(void *)) {
  if (!take || !grow || !give_back) return TCAP_BAD_ARGUMENT;
  take_block = take, grow_block = grow, give_block_back = give_back;
  return TCAP_OK;
}
rattle_block rattle_alloc(size_t size, size_t align) {
  void *block = take_block(size ? size : 1); /* aligned for any object: to 16 */
  (void)align;
  return (rattle_block){block != NULL, block ? block : no_octets};
}
rattle_block rattle_realloc(void *old, size_t old_size, size_t size, size_t align) {
  void *block = grow_block(old, size ? size : 1);
  (void)old_size, (void)align;
  return (rattle_block){block != NULL, block ? block : old};
}
void rattle_dealloc(void *block) { give_block_back(block); }

/* ---- an engine is opened and closed. FIRST_SIZE: the size of tcap_limits in 0.1.0, the least that a program has */
#define FIRST_SIZE (offsetof(tcap_limits, first_number) + sizeof(uint64_t))
tcap_status tcap_open(tcap **engine, const tcap_limits *limits) {
  tcap_limits l = {0};
  if (!engine || !limits || limits->size < FIRST_SIZE || limits->size > 4096) return TCAP_BAD_ARGUMENT;
  for (size_t at = sizeof l; at < limits->size; at++)
    if (((const uint8_t *)limits)[at]) return TCAP_BAD_ARGUMENT;
  memcpy(&l, limits, limits->size < sizeof l ? limits->size : sizeof l);
  tcap *t = take_block(sizeof *t);
  if (!t) return TCAP_OUT_OF_MEMORY;
  memset(t, 0, sizeof *t);
  uint8_t status = tcap_c_open(&t->handle, l.max_dialogues, l.max_message, l.reject_ms, l.idle_ms, l.first_dialogue,
                               l.first_number);
  if (status) give_block_back(t); else *engine = t;
  return (tcap_status)status;
}
void tcap_close(tcap *t) { if (t) tcap_c_close(&t->handle), give_block_back(t); }
uint32_t tcap_version(void) { return TCAP_VERSION; }
const char *tcap_status_text(tcap_status status) {
  static const char *const texts[] = {
      "ok", "out of memory", "unknown dialogue", "the state of the dialogue doesn't have the request",
      "the invoke identifier is in use", "no such invocation", "bad timeout", "too long",
      "as many dialogues stand as may", "no dialogue identifier is left", "no invocation number is left",
      "not an object identifier", "bad parameter", "not of class 4 alone", "the moment is too late", "no context",
      "bad argument", [TCAP_ROOM_TOO_SMALL] = "the room is too small"};
  return (size_t)status < sizeof texts / sizeof *texts && texts[status] ? texts[status] : "no status of this library";
}

/* ---- events. IF: the status of a call whose arguments are there; AT: of one behind its moment; O: two arguments */
#define O(octets) ((octets).len ? (octets).at : no_octets), (octets).len
#define IF(there, call) return (tcap_status)((there) ? (call) : TCAP_C_BAD_ARGUMENT)
#define AT(there, now, call) \
  uint8_t late = (there) ? tcap_c_advance(&t->handle, now) : TCAP_C_BAD_ARGUMENT; IF(true, late ? late : (call))
static bool all_there(const tcap *t, tcap_octets a, tcap_octets b) { return t && (a.at || !a.len) && (b.at || !b.len); }
tcap_status tcap_receive(tcap *t, uint64_t now, tcap_octets from, tcap_octets message) {
  IF(all_there(t, from, message), tcap_c_receive(&t->handle, now, O(from), O(message)));
}
tcap_status tcap_advance(tcap *t, uint64_t now) { IF(t, tcap_c_advance(&t->handle, now)); }

/* ---- component handling. CODED: the arguments of a code and a parameter */
#define CODED (int32_t)code.kind, code.local, O(code.global), O(parameter)
tcap_status tcap_new_dialogue(tcap *t, uint32_t *d) { IF(t && d, tcap_c_new_dialogue(&t->handle, d)); }
tcap_status tcap_invoke(tcap *t, uint32_t d, int id, int linked, int op_class, tcap_code code, tcap_octets parameter,
                        uint64_t ms, uint64_t *n) {
  IF(all_there(t, code.global, parameter) && n, tcap_c_invoke(&t->handle, d, id, linked, op_class, CODED, ms, n));
}
tcap_status tcap_result_l(tcap *t, uint32_t d, int id, tcap_code code, tcap_octets parameter) {
  IF(all_there(t, code.global, parameter), tcap_c_result_l(&t->handle, d, id, CODED));
}
tcap_status tcap_result_nl(tcap *t, uint32_t d, int id, tcap_code code, tcap_octets parameter) {
  IF(all_there(t, code.global, parameter), tcap_c_result_nl(&t->handle, d, id, CODED));
}
tcap_status tcap_u_error(tcap *t, uint32_t d, int id, tcap_code code, tcap_octets parameter) {
  IF(all_there(t, code.global, parameter), tcap_c_u_error(&t->handle, d, id, CODED));
}
tcap_status tcap_u_reject(tcap *t, uint32_t d, int id, int p) { IF(t, tcap_c_u_reject(&t->handle, d, id, p)); }
tcap_status tcap_u_cancel(tcap *t, uint32_t d, int id, uint64_t *number) {
  IF(t && number, tcap_c_u_cancel(&t->handle, d, id, number));
}

/* ---- dialogue handling. P: the portion, if there is one; PARTS: its arguments */
#define P (portion ? *portion : no_portion)
#define PARTS O(P.context), O(P.info)
static const tcap_portion no_portion;
tcap_status tcap_uni(tcap *t, uint64_t now, uint32_t d, tcap_octets to, const tcap_portion *portion) {
  AT(all_there(t, P.context, P.info) && all_there(t, to, to), now, tcap_c_uni(&t->handle, d, O(to), PARTS));
}
tcap_status tcap_begin(tcap *t, uint64_t now, uint32_t d, tcap_octets to, const tcap_portion *portion) {
  AT(all_there(t, P.context, P.info) && all_there(t, to, to), now, tcap_c_begin(&t->handle, d, O(to), PARTS));
}
tcap_status tcap_continue(tcap *t, uint64_t now, uint32_t d, const tcap_portion *portion) {
  AT(all_there(t, P.context, P.info), now, tcap_c_continue(&t->handle, d, PARTS));
}
tcap_status tcap_end(tcap *t, uint64_t now, uint32_t d, tcap_termination termination, const tcap_portion *portion) {
  AT(all_there(t, P.context, P.info), now, tcap_c_end(&t->handle, d, (int32_t)termination, PARTS));
}
tcap_status tcap_u_abort(tcap *t, uint64_t now, uint32_t d, tcap_abort_reason reason, tcap_octets info) {
  AT(all_there(t, info, info), now, tcap_c_u_abort(&t->handle, d, (int32_t)reason, O(info)));
}

/* ---- what waits: where each part stands in the room becomes a pointer */
#define PLACE(part) (t->told.output.part.at = t->room + t->told.numbers.part.at)
__attribute__((noinline)) /* so that tcap_next saves fewer registers, also where nothing waits */
static const tcap_output *with_pointers(tcap *t) {
  PLACE(address), PLACE(message), PLACE(portion.context), PLACE(portion.info), PLACE(code.global), PLACE(parameter);
  return &t->told.output;
}
const tcap_output *tcap_next(tcap *t) {
  return !t || tcap_c_next(&t->handle, &t->told.numbers, t->room, sizeof t->room) ? NULL : with_pointers(t);
}

/* ---- getters: the proved calls take the handle for the time of a call, and leave it as it was */
#define HANDLE ((tcap_c_handle *)&t->handle)
uint64_t tcap_next_timer(const tcap *t) {
  uint64_t at = TCAP_NEVER;
  return t && !tcap_c_next_timer(HANDLE, &at) ? at : TCAP_NEVER;
}
tcap_state tcap_state_of(const tcap *t, uint32_t d) { return (tcap_state)(t ? tcap_c_state_of(HANDLE, d) : 0); }
size_t tcap_dialogues(const tcap *t) { return t ? tcap_c_dialogues(HANDLE) : 0; }
size_t tcap_due(const tcap *t, uint64_t now) {
  size_t count = 0;
  return t && !tcap_c_due(HANDLE, now, &count) ? count : 0;
}
tcap_status tcap_next_identifiers(const tcap *t, uint32_t *d, uint64_t *n) {
  IF(t && d && n, tcap_c_next_identifiers(HANDLE, d, n));
}
