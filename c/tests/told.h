/* Outputs as text, beside the text that is wanted; and octets by hexadecimal digits. */
#ifndef TCAP_TESTS_TOLD_H
#define TCAP_TESTS_TOLD_H

#include "common.h"

static int rows, failures;

/* ---- an output as text: all that isn't absent or 0 */
static char text[8192];
static void add(const char *name, tcap_octets o, bool is_there) {
  size_t len = strlen(text);
  if (!is_there) return;
  len += (size_t)snprintf(text + len, sizeof text - len, " %s=", name);
  for (size_t i = 0; i < o.len && len + 3 < sizeof text; i++)
    len += (size_t)snprintf(text + len, sizeof text - len, "%02X", o.at[i]);
}
static void add_number(const char *name, long long value, bool is_there) {
  size_t len = strlen(text);
  if (is_there) snprintf(text + len, sizeof text - len, " %s=%lld", name, value);
}
static void add_word(const char *word, bool is_there) {
  size_t len = strlen(text);
  if (is_there) snprintf(text + len, sizeof text - len, " %s", word);
}
static const char *describe(const tcap_output *o) {
  static const char *const kinds[] = {"", "SEND", "UNI", "BEGIN", "CONTINUE", "END", "U_ABORT", "P_ABORT", "INVOKE", "RESULT_L",
                                      "RESULT_NL", "U_ERROR", "L_CANCEL", "CLOSED", "L_REJECT", "R_REJECT", "U_REJECT", "DROPPED"};
  if (!o) return "nothing";
  snprintf(text, sizeof text, "%s", o->kind < 18 ? kinds[o->kind] : "?");
  add_number("dialogue", o->dialogue, o->dialogue != 0);
  add_number("number", (long long)o->number, o->number != 0);
  add_number("id", o->invoke_id, o->invoke_id != TCAP_NO_ID);
  add_number("linked", o->linked_id, o->linked_id != TCAP_NO_ID);
  add_number("problem", o->problem, o->problem != 0);
  add_number("cause", o->cause, o->cause != 0);
  add_number("pdu", o->pdu, o->pdu != 0);
  add_number("diagnostic", o->diagnostic, o->diagnostic != 0);
  add_number("local", o->code.local, o->code.kind == TCAP_LOCAL || o->code.local != 0);
  add("global", o->code.global, o->code.kind == TCAP_GLOBAL || o->code.global.len);
  add("parameter", o->parameter, o->has_parameter || o->parameter.len);
  add("context", o->portion.context, o->has_context || o->portion.context.len);
  add("info", o->portion.info, o->portion.info.len);
  add("to", o->address, o->address.len);
  add("message", o->message, o->message.len);
  add_word("closes", o->closes), add_word("version1", o->is_version1), add_word("accepted", o->is_accepted);
  add_word("by-provider", o->is_by_provider), add_word("last", o->is_last);
  return text;
}
/* The next output of this event is told by this text; event 0: of any. */
static void told_by(tcap *engine, uint64_t event, const char *wanted) {
  const tcap_output *o = tcap_next(engine);
  const char *told = describe(o);
  rows++;
  if (strcmp(told, wanted) == 0 && (!event || (o && o->event == event))) return;
  failures++;
  printf("told:   %s (event %llu)\nwanted: %s (event %llu)\n", told, (unsigned long long)(o ? o->event : 0), wanted,
         (unsigned long long)event);
}
static void told(tcap *engine, const char *wanted) { told_by(engine, 0, wanted); }

/* ---- octets by hexadecimal digits; spaces are for the reader */
static tcap_octets hex(const char *digits) {
  static uint8_t rooms[16][512];
  static int turn;
  uint8_t *room = rooms[turn = (turn + 1) % 16];
  size_t len = 0;
  for (const char *at = digits; *at; at++) {
    char pair[3] = {at[0], at[1], 0};
    if (*at == ' ') continue;
    NEED(len < 512 && at[1]);
    room[len++] = (uint8_t)strtoul(pair, NULL, 16);
    at++;
  }
  return octets(room, len);
}

#endif
