/* For libFuzzer, in two forms. FUZZ_RECEIVE: any octets are received, by an engine in which a dialogue
 * waits for them, and by one in which there is none. FUZZ_CALLS: octets are a list of calls at two
 * engines, whose messages reach one another. Octets that an output points to are read, all of them.
 * Where a call is refused, nothing may have changed; when engines are closed no memory is held. */
#include "common.h"

static uint64_t sum; /* of octets that were read */
/* The proved archive isn't instrumented, so what it answers is what libFuzzer is guided by. */
__attribute__((section("__libfuzzer_extra_counters"))) static uint8_t seen_answers[1 << 13];
static void note(uint64_t what) { seen_answers[(what * 0x9E3779B97F4A7C15u) >> 51] = 1; }
static uint8_t last_message[65535];
static size_t last_len;

static void read_octets(tcap_octets o) {
  for (size_t i = 0; i < o.len; i++) sum += o.at[i];
}
static void take_all(tcap *engine) {
  const tcap_output *o;
  uint64_t before = 0; /* the output before, as it is noted */
  while ((o = tcap_next(engine)) != NULL) {
    NEED(o->kind >= TCAP_SEND && o->kind <= TCAP_DROPPED);
    uint64_t what = o->kind | (uint64_t)o->closes << 8 | (uint64_t)o->code.kind << 9 | (uint64_t)o->pdu << 12 |
                    (uint64_t)o->cause << 16 | (uint64_t)o->problem << 26 | (uint64_t)o->diagnostic << 36 |
                    (uint64_t)o->has_context << 46 | (uint64_t)o->has_parameter << 47 | (uint64_t)o->is_version1 << 48 |
                    (uint64_t)(o->portion.info.len > 0) << 49 | (uint64_t)(o->linked_id == TCAP_NO_ID) << 50;
    note(what), note(what * 31 + before + 1);
    before = what;
    read_octets(o->address), read_octets(o->message), read_octets(o->portion.context);
    read_octets(o->portion.info), read_octets(o->code.global), read_octets(o->parameter);
    if (o->kind == TCAP_SEND) memcpy(last_message, o->message.at, last_len = o->message.len);
  }
}
static tcap *open_engine(uint32_t first_dialogue) {
  tcap_limits limits = TCAP_LIMITS;
  tcap *engine = NULL;
  limits.first_dialogue = first_dialogue;
  NEED(tcap_set_memory(take_counted, grow_counted, give_back_counted) == TCAP_OK);
  NEED(tcap_open(&engine, &limits) == TCAP_OK);
  return engine;
}
static const uint8_t map[] = {0x04, 0x00, 0x00, 0x01, 0x00, 0x01, 0x03};
static const uint8_t parameter[] = {0x30, 0x03, 0x04, 0x01, 0xAA};

#ifdef FUZZ_RECEIVE
/* Dialogue 1 in Initiation Sent with an Invoke of each class, dialogue 2 Active. */
static tcap *open_with_dialogues(void) {
  static const uint8_t answer[] = {0x65, 0x0C, 0x48, 0x04, 0x00, 0x00, 0x00, 0x63, 0x49, 0x04, 0x00, 0x00, 0x00, 0x02};
  tcap_portion portion = {octets(map, sizeof map), {NULL, 0}};
  tcap *engine = open_engine(1);
  for (int i = 1; i <= 2; i++) {
    uint32_t d;
    uint64_t number;
    NEED(tcap_new_dialogue(engine, &d) == TCAP_OK);
    for (int op_class = 1; op_class <= 4; op_class++)
      NEED(tcap_invoke(engine, d, op_class, TCAP_NO_ID, op_class, local_code(2), octets(parameter, 5), 9, &number) == TCAP_OK);
    NEED(tcap_begin(engine, 0, d, TEXT("hlr"), i == 1 ? &portion : NULL) == TCAP_OK);
  }
  NEED(tcap_receive(engine, 0, TEXT("hlr"), octets(answer, sizeof answer)) == TCAP_OK);
  take_all(engine);
  return engine;
}
int LLVMFuzzerTestOneInput(const uint8_t *data, size_t size);
int LLVMFuzzerTestOneInput(const uint8_t *data, size_t size) {
  tcap *with = open_with_dialogues(), *without = open_engine(1);
  tcap *both[] = {with, without};
  for (int i = 0; i < 2; i++) {
    NEED(tcap_receive(both[i], 1, NOTHING, octets(data, size)) == TCAP_OK);
    take_all(both[i]);
    NEED(tcap_receive(both[i], 2, TEXT("other"), octets(data, size)) == TCAP_OK);
    take_all(both[i]);
    NEED(tcap_advance(both[i], 1000000) == TCAP_OK);
    take_all(both[i]);
    tcap_close(both[i]);
  }
  NEED(blocks_held == 0);
  return 0;
}
#endif

#ifdef FUZZ_CALLS
static const uint8_t *next_octet, *end_octet;
static uint8_t octet(void) { return next_octet < end_octet ? *next_octet++ : 0; }
/* Some of the octets that are left, or one that is as it should be. */
static tcap_octets some(const uint8_t *usual, size_t usual_len) {
  uint8_t how = octet();
  size_t left = (size_t)(end_octet - next_octet), len = how & 63u;
  if (how < 128) return octets(usual, usual_len);
  if (how < 192) return octets(NULL, how & 1);
  if (len > left) len = left;
  next_octet += len;
  return octets(next_octet - len, len);
}
static tcap_code a_code(void) {
  tcap_code code = local_code(octet());
  code.kind = (tcap_code_kind)(octet() & 3);
  if (code.kind == TCAP_GLOBAL) code.global = some(map, sizeof map);
  return code;
}
struct seen { uint64_t number, timer; size_t count; uint32_t next; tcap_state state; };
static struct seen see(tcap *engine, uint32_t dialogue) {
  struct seen s;
  memset(&s, 0, sizeof s);
  NEED(tcap_next_identifiers(engine, &s.next, &s.number) == TCAP_OK);
  s.timer = tcap_next_timer(engine), s.count = tcap_dialogues(engine), s.state = tcap_state_of(engine, dialogue);
  return s;
}
static tcap_status call(tcap *t, uint8_t what, uint32_t d, uint64_t now) {
  static const uint8_t external[] = {0x28, 0x09, 0x06, 0x03, 0x2A, 0x03, 0x04, 0xA0, 0x02, 0x05, 0x00};
  int id = (int8_t)octet();
  uint64_t number;
  uint32_t drawn;
  tcap_portion portion = {{NULL, 0}, {NULL, 0}};
  if (what % 16 >= 9 && what & 16) portion.context = some(map, sizeof map);
  if (what % 16 >= 9 && what & 32) portion.info = some(external, sizeof external);
  const tcap_portion *p = what & 64 ? &portion : NULL;
  switch (what % 16) {
  case 0: return tcap_receive(t, now, TEXT("peer"), some(last_message, last_len));
  case 1: return tcap_new_dialogue(t, &drawn);
  case 2: case 3: return tcap_invoke(t, d, id, what & 16 ? octet() * 2 : TCAP_NO_ID, 1 + (octet() & 3), a_code(), some(parameter, 5), octet(), &number);
  case 4: return tcap_result_l(t, d, id, a_code(), some(parameter, 5));
  case 5: return tcap_result_nl(t, d, id, a_code(), some(parameter, 5));
  case 6: return tcap_u_error(t, d, id, a_code(), some(parameter, 5));
  case 7: return tcap_u_reject(t, d, what & 16 ? TCAP_NO_ID : id, octet() << 8 | octet());
  case 8: return tcap_u_cancel(t, d, id, &number);
  case 9: return tcap_uni(t, now, d, some(map, 3), p);
  case 10: return tcap_begin(t, now, d, some(map, 3), p);
  case 11: case 12: return tcap_continue(t, now, d, p);
  case 13: return tcap_end(t, now, d, (tcap_termination)(octet() & 3), p);
  case 14: return tcap_u_abort(t, now, d, (tcap_abort_reason)(octet() & 3), portion.info);
  default: return tcap_advance(t, now);
  }
}
int LLVMFuzzerTestOneInput(const uint8_t *data, size_t size);
int LLVMFuzzerTestOneInput(const uint8_t *data, size_t size) {
  tcap *both[] = {open_engine(1), open_engine(1)};
  uint64_t now = 0;
  next_octet = data, end_octet = data + size, last_len = 0;
  while (next_octet < end_octet) {
    uint8_t what = octet(), where = octet();
    tcap *t = both[where & 1];
    uint32_t d = (where >> 1) & 7;
    now += (uint64_t)(where >> 4) * (where >> 4);
    refuse_at = where == 255 ? blocks_asked + 1 + (what & 3) : 0;
    tcap_status late = tcap_advance(t, now);
    NEED(late == TCAP_OK || late == TCAP_OUT_OF_MEMORY);
    if (late) continue;
    take_all(t);
    struct seen before = see(t, d), after;
    tcap_status status = call(t, what, d, now);
    NEED((int)status >= TCAP_OK && status <= TCAP_BAD_ARGUMENT);
    note((uint64_t)status << 56 | (uint64_t)before.state << 48 | what % 16);
    after = see(t, d);
    if (status) NEED(memcmp(&before, &after, sizeof before) == 0 && tcap_next(t) == NULL);
    if (what < 192) take_all(t);
  }
  refuse_at = 0;
  tcap_close(both[0]), tcap_close(both[1]);
  NEED(blocks_held == 0);
  return 0;
}
#endif
