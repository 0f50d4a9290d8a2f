/* Memory that is refused. A story of two engines is played without a refusal, and then once for each of
 * its requests for memory, which is refused: the call in which it comes answers TCAP_OUT_OF_MEMORY and
 * has changed nothing, the same call again succeeds, and the story goes on to its own text. And a loop
 * of dialogues takes no memory once it is warm. Exits 1 where that isn't so. */
#include "common.h"

enum { VLR, HLR };
static tcap *engines[2];
static const char *const names[] = {"vlr", "hlr"};
static struct { int to; size_t len; uint8_t octets[4096]; } post[64]; /* sent and not received */
static int posted;
static uint64_t now;
static long refusals; /* that a call answered */
static char text[1 << 17], first_text[1 << 17];
static size_t text_len;
static bool is_told = true; /* the text is written */

static const uint8_t map[] = {0x04, 0x00, 0x00, 0x01, 0x00, 0x01, 0x03}; /* 0.4.0.0.1.0.1.3 */
static const uint8_t parameter[] = {0x30, 0x03, 0x04, 0x01, 0xAA};
#define P octets(parameter, sizeof parameter)

/* ---- what is told, as text */
static void add_octets(const char *name, tcap_octets o) {
  if (!o.len) return;
  text_len += (size_t)snprintf(text + text_len, sizeof text - text_len, " %s ", name);
  for (size_t i = 0; i < o.len && text_len + 3 < sizeof text; i++)
    text_len += (size_t)snprintf(text + text_len, sizeof text - text_len, "%02X", o.at[i]);
}
static void tell(int who, const tcap_output *o) {
  if (!is_told) return;
  NEED(text_len + 10000 < sizeof text);
  text_len += (size_t)snprintf(
      text + text_len, sizeof text - text_len, "%s %d: dialogue %u number %llu id %d linked %d problem %d cause %d pdu %d code %d %d closes %d last %d",
      names[who], o->kind, o->dialogue, (unsigned long long)o->number, o->invoke_id, o->linked_id, o->problem, o->cause, o->pdu,
      (int)o->code.kind, o->code.local, o->closes, o->is_last);
  add_octets("to", o->address), add_octets("message", o->message), add_octets("context", o->portion.context);
  add_octets("info", o->portion.info), add_octets("parameter", o->parameter);
  text_len += (size_t)snprintf(text + text_len, sizeof text - text_len, "\n");
}
static void take_all(int who) {
  const tcap_output *o;
  while ((o = tcap_next(engines[who])) != NULL) {
    tell(who, o);
    if (o->kind != TCAP_SEND) continue;
    NEED(posted < 64 && o->message.len <= sizeof post->octets);
    post[posted].to = 1 - who, post[posted].len = o->message.len;
    memcpy(post[posted++].octets, o->message.at, o->message.len);
  }
}

/* ---- a call, and again where memory was refused */
struct seen { uint64_t number, timer; size_t count; uint32_t next; int states[40]; };
static struct seen see(int who) {
  struct seen s;
  memset(&s, 0, sizeof s);
  NEED(tcap_next_identifiers(engines[who], &s.next, &s.number) == TCAP_OK);
  s.timer = tcap_next_timer(engines[who]), s.count = tcap_dialogues(engines[who]);
  for (uint32_t d = 0; d < 40; d++) s.states[d] = (int)tcap_state_of(engines[who], d);
  return s;
}
/* Both of a call and its repetition are this. */
static bool is_done(int who, const struct seen *before, tcap_status status, bool is_again) {
  if (status == TCAP_OK) {
    take_all(who);
    return true;
  }
  struct seen after = see(who);
  NEED(status == TCAP_OUT_OF_MEMORY && !is_again);
  NEED(memcmp(before, &after, sizeof after) == 0 && tcap_next(engines[who]) == NULL);
  refusals++;
  return false;
}
#define DO(who, call) \
  do { \
    struct seen before = see(who); \
    if (!is_done(who, &before, call, false)) NEED(is_done(who, &before, call, true)); \
  } while (0)

/* The moment comes first, by itself, so that a call that is refused then has changed nothing. */
static void moment(int who) { DO(who, tcap_advance(engines[who], now)); }
static uint32_t draw(int who) {
  uint32_t dialogue = 0;
  DO(who, tcap_new_dialogue(engines[who], &dialogue));
  return dialogue;
}
static void invoke(int who, uint32_t d, int id, int linked, int op_class, uint64_t ms) {
  uint64_t number = 0;
  DO(who, tcap_invoke(engines[who], d, id, linked, op_class, local_code(2), P, ms, &number));
  NEED(number);
}
static void begin(int who, uint32_t d, const tcap_portion *portion) {
  moment(who);
  DO(who, tcap_begin(engines[who], now, d, TEXT("other"), portion));
}
static void go_on(int who, uint32_t d) {
  moment(who);
  DO(who, tcap_continue(engines[who], now, d, NULL));
}
static void end(int who, uint32_t d, tcap_termination how) {
  moment(who);
  DO(who, tcap_end(engines[who], now, d, how, NULL));
}
static void hear(int who, tcap_octets message) {
  moment(who);
  DO(who, tcap_receive(engines[who], now, TEXT("other"), message));
}
/* All that was sent is received, in order. */
static void deliver(void) {
  for (int at = 0; at < posted; at++) {
    now++;
    hear(post[at].to, octets(post[at].octets, post[at].len));
  }
  posted = 0;
}

/* ---- the story */
static void open_engines(void) {
  tcap_limits limits = TCAP_LIMITS;
  for (int who = VLR; who <= HLR; who++) {
    tcap_status status = tcap_open(&engines[who], &limits);
    if (status) {
      NEED(status == TCAP_OUT_OF_MEMORY && blocks_held == (who == HLR ? 2 : 0));
      refusals++;
      NEED(tcap_open(&engines[who], &limits) == TCAP_OK);
    }
  }
}
/* Results, an error, a Reject, lapses and an end with invocations open, in one dialogue. */
static void long_dialogue(void) {
  tcap_portion portion = {octets(map, sizeof map), {NULL, 0}};
  uint32_t d = draw(VLR);
  invoke(VLR, d, 1, TCAP_NO_ID, 1, 500), invoke(VLR, d, 2, TCAP_NO_ID, 2, 500), invoke(VLR, d, 3, TCAP_NO_ID, 4, 50);
  begin(VLR, d, &portion);
  deliver();
  DO(HLR, tcap_result_nl(engines[HLR], 1, 1, local_code(2), P));
  invoke(HLR, 1, 7, 1, 1, 500);
  go_on(HLR, 1);
  deliver();
  for (int id = 10; id < 24; id++) invoke(VLR, d, id, TCAP_NO_ID, 1, id < 20 ? 100 : 900);
  DO(VLR, tcap_result_l(engines[VLR], d, 7, local_code(2), P));
  go_on(VLR, d);
  deliver();
  DO(HLR, tcap_result_l(engines[HLR], 1, 1, local_code(2), P));
  DO(HLR, tcap_u_error(engines[HLR], 1, 2, local_code(34), P));
  DO(HLR, tcap_u_reject(engines[HLR], 1, 10, TCAP_INVOKE_UNRECOGNIZED_OPERATION));
  DO(HLR, tcap_result_l(engines[HLR], 1, 99, local_code(2), P)); /* of no invocation: a Reject answers it */
  go_on(HLR, 1);
  deliver();
  now += 200;
  moment(VLR), moment(HLR);
  go_on(VLR, d);
  deliver();
  end(HLR, 1, TCAP_BASIC);
  deliver();
}
static void other_ends(void) {
  uint32_t d = draw(VLR);
  invoke(VLR, d, 1, TCAP_NO_ID, 4, 500);
  moment(VLR);
  DO(VLR, tcap_uni(engines[VLR], now, d, TEXT("other"), NULL));
  d = draw(VLR);
  invoke(VLR, d, 1, TCAP_NO_ID, 1, 500);
  begin(VLR, d, NULL);
  deliver();
  moment(HLR);
  DO(HLR, tcap_u_abort(engines[HLR], now, 2, TCAP_USER_SPECIFIC, NOTHING));
  deliver();
  hear(VLR, octets(parameter, sizeof parameter));                                     /* no message */
  hear(VLR, octets("\x62\x08\x48\x04\x00\x00\x00\x09\x6C\x80", 10));                  /* a faulty Begin */
  hear(VLR, octets("\x65\x0C\x48\x04\x00\x00\x00\x09\x49\x04\x00\x00\x00\x63", 14)); /* to no dialogue */
  deliver();
}
static void many_dialogues(void) {
  uint32_t d[20];
  for (int i = 0; i < 20; i++) {
    d[i] = draw(VLR);
    invoke(VLR, d[i], 1, TCAP_NO_ID, 1, 500);
    begin(VLR, d[i], NULL);
  }
  deliver();
  for (int i = 0; i < 10; i++) end(VLR, d[i], TCAP_PREARRANGED);
  now += 600000; /* those that are left stand still too long */
  moment(VLR), moment(HLR);
}
static void story(void) {
  now = 1000, posted = 0, text_len = 0, blocks_asked = 0;
  open_engines();
  long_dialogue();
  other_ends();
  many_dialogues();
  NEED(tcap_dialogues(engines[VLR]) == 0);
  tcap_close(engines[VLR]), tcap_close(engines[HLR]);
  NEED(blocks_held == 0);
}

/* ---- the loop */
static void lap(uint32_t hlr_dialogue, const tcap_portion *portion) {
  uint32_t d = draw(VLR);
  invoke(VLR, d, 1, TCAP_NO_ID, 1, 500), invoke(VLR, d, 2, TCAP_NO_ID, 1, 5);
  begin(VLR, d, portion);
  deliver();
  DO(HLR, tcap_result_nl(engines[HLR], hlr_dialogue, 1, local_code(2), P));
  go_on(HLR, hlr_dialogue);
  deliver();
  now += 10;
  moment(VLR); /* one lapses */
  go_on(VLR, d);
  deliver();
  DO(HLR, tcap_result_l(engines[HLR], hlr_dialogue, 1, local_code(2), P));
  end(HLR, hlr_dialogue, TCAP_BASIC);
  deliver();
}
/* Requests for memory in 1,000 laps, once 100 were made. */
static long warm_laps(const tcap_portion *portion) {
  long asked = 0;
  is_told = false, now = 1000, posted = 0;
  open_engines();
  for (uint32_t i = 1; i <= 1100; i++) {
    if (i == 101) asked = blocks_asked;
    lap(i, portion);
  }
  asked = blocks_asked - asked;
  tcap_close(engines[VLR]), tcap_close(engines[HLR]);
  NEED(blocks_held == 0);
  return asked;
}
int main(void) {
  tcap_portion portion = {octets(map, sizeof map), {NULL, 0}};
  NEED(tcap_set_memory(take_counted, grow_counted, give_back_counted) == TCAP_OK);
  story();
  long asked = blocks_asked, lines = 0, silent = 0;
  memcpy(first_text, text, sizeof text);
  for (size_t i = 0; i < text_len; i++) lines += text[i] == '\n';
  for (long n = 1; n <= asked; n++) {
    long before = refusals;
    refuse_at = n, blocks_refused = 0;
    story();
    NEED(blocks_refused == 1 && refusals - before <= 1 && strcmp(text, first_text) == 0);
    silent += refusals == before;
  }
  refuse_at = 0;
  printf("a story of %ld lines, %ld requests for memory, each refused once: %ld times a call answers that\n", lines,
         asked, refusals);
  /* An engine keeps places for the memory that dialogues leave. Where they are refused, it keeps none. */
  NEED(silent <= 4);
  long plain = warm_laps(NULL), named = warm_laps(&portion);
  printf("1,000 warm dialogues: %ld requests for memory; with an application context: %ld\n", plain, named);
  NEED(plain == 0 && named == 2000); /* each side keeps the name of a context in a block */
  return 0;
}
