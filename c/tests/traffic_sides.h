/* Of the traffic by lot: its two sides, the network between them, and what is looked at in each output. */
#ifndef TCAP_TESTS_TRAFFIC_SIDES_H
#define TCAP_TESTS_TRAFFIC_SIDES_H

#include "common.h"

enum { CALLS = 25, STATUSES = 17, KINDS = 18, DIALOGUES = 8, INVOKES = 32, IN_FLIGHT = 48, NUMBERS = 1 << 14, CLOSED = 1, GIVEN_UP = 2 };
enum call {
  SET_MEMORY, VERSION, STATUS_TEXT, OPEN, CLOSE, RECEIVE, ADVANCE, NEXT_TIMER, NEW_DIALOGUE, INVOKE,
  RESULT_L, RESULT_NL, U_ERROR, U_REJECT, U_CANCEL, UNI, BEGIN, CONTINUE, END, U_ABORT, NEXT,
  STATE_OF, COUNT, DUE, NEXT_IDENTIFIERS
};
static const char *const call_names[CALLS] = {
    "set_memory", "version", "status_text", "open", "close", "receive", "advance", "next_timer",
    "new_dialogue", "invoke", "result_l", "result_nl", "u_error", "u_reject", "u_cancel", "uni",
    "begin", "continue", "end", "u_abort", "next", "state_of", "dialogues", "due",
    "next_identifiers"};
static const char *const kind_names[KINDS] = {
    "", "SEND", "UNI_IND", "BEGIN_IND", "CONTINUE_IND", "END_IND", "U_ABORT_IND", "P_ABORT_IND",
    "INVOKE_IND", "RESULT_L_IND", "RESULT_NL_IND", "U_ERROR_IND", "L_CANCEL_IND", "CLOSED_IND",
    "L_REJECT_IND", "R_REJECT_IND", "U_REJECT_IND", "DROPPED"};
static unsigned long calls[CALLS], statuses[STATUSES], kinds[KINDS], pdus[6], causes[512], drops[4];

/* One side: its engine, what it knows of it, and which of its invocations are closed. */
struct side {
  tcap *engine;
  tcap_limits limits;
  uint32_t dialogues[DIALOGUES]; /* that it drew or was told of, some of them over */
  struct { uint32_t dialogue; int id; } invokes[INVOKES]; /* that the peer asks */
  uint8_t is_closed[NUMBERS];    /* by number, from the first one of its limits on: 0, CLOSED, or
                                  * GIVEN_UP by u_cancel while outputs waited that may name it */
  uint64_t drawn;                /* numbers */
  uint64_t event;                /* of the last output */
  bool was_last;                 /* that output was the last of its event */
  bool waits;                    /* something may wait */
};
static struct side sides[2];
static struct { uint8_t *octets; size_t len; int to; } in_flight[IN_FLIGHT];
static uint64_t now;

/* ---- the network */
static void drop_message(int at) {
  free(in_flight[at].octets);
  in_flight[at].octets = NULL;
}
static void send_message(int to, tcap_octets message) {
  int at = (int)lot(IN_FLIGHT);
  if (lot(30) == 0) return;                         /* lost */
  if (in_flight[at].octets) drop_message(at);       /* too many */
  in_flight[at].octets = malloc(message.len ? message.len : 1);
  NEED(in_flight[at].octets);
  memcpy(in_flight[at].octets, message.at, message.len);
  in_flight[at].len = message.len;
  in_flight[at].to = to;
}
static void damage(int at) {
  uint8_t *octets = in_flight[at].octets;
  size_t len = in_flight[at].len;
  if (!len) return;
  switch (lot(4)) {
  case 0: octets[lot((uint32_t)len)] ^= (uint8_t)(1u << lot(8)); break;
  case 1: octets[lot((uint32_t)len)] = (uint8_t)lot(256); break;
  case 2: in_flight[at].len = lot((uint32_t)len); break;
  default: octets[len - 1 - lot((uint32_t)(len < 12 ? len : 12))] ^= (uint8_t)(1u << lot(3)); break;
  }
}

/* ---- what an engine tells */
static void note_closing(struct side *s, const tcap_output *o) {
  uint64_t place = o->number - s->limits.first_number;
  NEED(o->number && place < s->drawn);
  NEED(!s->is_closed[place] || (s->is_closed[place] == GIVEN_UP && o->kind == TCAP_RESULT_NL_IND));
  if (o->closes) s->is_closed[place] = CLOSED;
}
static int absent(tcap_octets o) { return o.len == 0; }
/* The fields that the kind doesn't set are as they are where nothing is set. */
static void check_fields(struct side *s, const tcap_output *o) {
  bool is_component = o->kind >= TCAP_INVOKE_IND && o->kind <= TCAP_U_REJECT_IND;
  bool has_body = o->kind >= TCAP_INVOKE_IND && o->kind <= TCAP_U_ERROR_IND;
  bool is_reject = o->kind >= TCAP_L_REJECT_IND && o->kind <= TCAP_U_REJECT_IND;
  bool has_portion = o->kind >= TCAP_UNI_IND && o->kind <= TCAP_U_ABORT_IND;
  bool closes = o->kind == TCAP_RESULT_L_IND || (o->kind >= TCAP_U_ERROR_IND && o->kind <= TCAP_CLOSED_IND);
  NEED((o->kind == TCAP_SEND) == !absent(o->message) && (o->kind == TCAP_SEND || absent(o->address)));
  NEED(has_portion || (!o->has_context && absent(o->portion.context) && absent(o->portion.info)));
  NEED(o->has_context == !absent(o->portion.context));
  NEED(has_body || (o->code.kind == TCAP_NO_CODE && !o->code.local && !o->has_parameter));
  NEED((o->code.kind == TCAP_GLOBAL) == !absent(o->code.global));
  NEED(o->has_parameter == !absent(o->parameter) && (o->code.kind != TCAP_NO_CODE || !o->has_parameter));
  NEED(o->code.kind != TCAP_NO_CODE || (o->kind != TCAP_INVOKE_IND && o->kind != TCAP_U_ERROR_IND));
  NEED(is_component || o->invoke_id == TCAP_NO_ID);
  NEED(o->kind == TCAP_INVOKE_IND || o->linked_id == TCAP_NO_ID);
  NEED((o->invoke_id >= -128 && o->invoke_id <= 127) || o->invoke_id == TCAP_NO_ID);
  NEED(o->invoke_id != TCAP_NO_ID || !is_component || is_reject);
  NEED(is_reject ? o->problem < 0x400 && (o->problem & 0xff) < 0x80 : !o->problem);
  NEED(o->kind == TCAP_P_ABORT_IND ? o->cause <= TCAP_P_IDLE : o->kind == TCAP_DROPPED ? o->cause < 4 : !o->cause);
  NEED(o->kind == TCAP_U_ABORT_IND ? o->pdu <= TCAP_PDU_FOREIGN : !o->pdu);
  NEED(o->pdu == TCAP_PDU_AARE || (!o->diagnostic && !o->is_accepted));
  NEED((o->pdu >= TCAP_PDU_AARQ && o->pdu <= TCAP_PDU_AARE) || !o->is_version1);
  NEED(o->pdu == TCAP_PDU_ABRT || !o->is_by_provider);
  NEED(is_reject || o->closes == closes);
  NEED(o->closes || o->kind == TCAP_RESULT_NL_IND || !o->number);
  NEED(o->dialogue || o->kind == TCAP_SEND || o->kind == TCAP_UNI_IND || o->kind == TCAP_DROPPED ||
       o->kind == TCAP_INVOKE_IND || (is_reject && !o->closes));
  NEED(o->kind != TCAP_SEND || (o->message.len <= (s->limits.max_message > 80 ? s->limits.max_message : 80)));
}
static void take(struct side *s, const tcap_output *o) {
  NEED(o->kind >= 1 && o->kind < KINDS);
  kinds[o->kind]++;
  check_fields(s, o);
  NEED(s->was_last ? o->event > s->event : o->event == s->event);
  s->event = o->event, s->was_last = o->is_last != 0;
  if (o->number) note_closing(s, o);
  switch (o->kind) {
  case TCAP_SEND: send_message(1 - (int)(s - sides), o->message); break;
  case TCAP_BEGIN_IND: s->dialogues[lot(DIALOGUES)] = o->dialogue; break;
  case TCAP_INVOKE_IND: {
    uint32_t at = lot(INVOKES);
    s->invokes[at].dialogue = o->dialogue, s->invokes[at].id = o->invoke_id;
    break;
  }
  case TCAP_U_ABORT_IND: pdus[o->pdu]++; break;
  case TCAP_P_ABORT_IND: causes[o->cause]++; break;
  case TCAP_DROPPED: drops[o->cause]++; break;
  default: break;
  }
}
static void take_all(struct side *s) {
  const tcap_output *o;
  while (calls[NEXT]++, (o = tcap_next(s->engine)) != NULL) take(s, o);
  NEED(s->was_last);
  s->waits = false;
}

/* ---- what is seen of an engine, to tell whether anything has changed */
struct seen { uint64_t number, timer; size_t count; uint32_t next; tcap_state state; };
static struct seen see(struct side *s, uint32_t dialogue) {
  struct seen seen;
  memset(&seen, 0, sizeof seen);
  NEED(tcap_next_identifiers(s->engine, &seen.next, &seen.number) == TCAP_OK);
  seen.timer = tcap_next_timer(s->engine);
  seen.count = tcap_dialogues(s->engine);
  seen.state = tcap_state_of(s->engine, dialogue);
  calls[NEXT_IDENTIFIERS]++, calls[NEXT_TIMER]++, calls[COUNT]++, calls[STATE_OF]++;
  return seen;
}

#endif
