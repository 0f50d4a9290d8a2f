/* Traffic by lot between two engines over a network that loses, repeats, reorders and damages messages:
 * a million turns, or as many as the first argument says; the second is the seed. Where a call is
 * refused nothing may have changed; each output must be as its kind is; each invocation must be closed
 * once. Prints how often each call, status and kind of output was seen. From a million turns on each must
 * be seen once in a thousand turns at least; what fewer turns come to is printed, and not judged. Exits 1
 * where anything is other than it must be. */
#include "traffic_arguments.h"

/* ---- a request by lot */
static tcap_status invoke(struct side *s, uint32_t dialogue) {
  static const int classes[] = {1, 1, 1, 1, 2, 3};
  uint64_t number = 0, timeout = lot(30) ? 1 + lot(lot(6) ? 5000 : 60) : 0;
  int linked = lot(20) ? TCAP_NO_ID : an_id();
  int op_class = dialogue % 8 == 0 ? 4 : classes[lot(6)]; /* some dialogues may be of class 4 alone */
  if (s->drawn == NUMBERS) return TCAP_OK;
  tcap_status status = tcap_invoke(s->engine, dialogue, an_id(), linked, lot(199) ? op_class : 7,
                                   a_code(), a_parameter(), timeout, &number);
  NEED((status == TCAP_OK) == (number != 0));
  if (number) NEED(number == s->limits.first_number + s->drawn++);
  return status;
}
static tcap_status cancel(struct side *s, uint32_t dialogue) {
  uint64_t number = 0;
  tcap_status status = tcap_u_cancel(s->engine, dialogue, an_id(), &number);
  NEED((status == TCAP_OK) == (number != 0));
  if (number) {
    uint64_t place = number - s->limits.first_number;
    NEED(place < s->drawn && !s->is_closed[place]);
    s->is_closed[place] = s->waits ? GIVEN_UP : CLOSED;
  }
  return status;
}
static tcap_status draw_dialogue(struct side *s) {
  uint32_t dialogue = 0;
  tcap_status status = tcap_new_dialogue(s->engine, &dialogue);
  NEED((status == TCAP_OK) == (dialogue != 0));
  if (dialogue) s->dialogues[lot(DIALOGUES)] = dialogue;
  return status;
}
static tcap_status receive(struct side *s) {
  static uint8_t above[65600] = {0x62};
  tcap_status status = TCAP_OK;
  int at = (int)lot(IN_FLIGHT), me = (int)(s - sides);
  if (lot(300) == 0) return tcap_receive(s->engine, moment(), an_address(), octets(above, 65536 + lot(2)));
  for (int i = 0; i < IN_FLIGHT; i++, at = (at + 1) % IN_FLIGHT)
    if (in_flight[at].octets && in_flight[at].to == me) {
      if (lot(25) == 0) damage(at);
      status = tcap_receive(s->engine, moment(), an_address(), octets(in_flight[at].octets, in_flight[at].len));
      if (lot(12)) drop_message(at); /* else it comes again */
      return status;
    }
  return lot(30) ? tcap_advance(s->engine, moment())
                 : tcap_receive(s->engine, moment(), NOTHING, octets(external, lot(sizeof external)));
}
static tcap_status request(struct side *s, enum call call, uint32_t d, int id) {
  tcap *t = s->engine;
  tcap_portion portion;
  switch (call) {
  case RECEIVE: return receive(s);
  case ADVANCE: return tcap_advance(t, moment());
  case NEW_DIALOGUE: return draw_dialogue(s);
  case INVOKE: return invoke(s, d);
  case RESULT_L: return tcap_result_l(t, d, id, a_code(), a_parameter());
  case RESULT_NL: return tcap_result_nl(t, d, id, a_code(), a_parameter());
  case U_ERROR: return tcap_u_error(t, d, id, a_code(), a_parameter());
  case U_REJECT: return tcap_u_reject(t, d, lot(9) ? id : TCAP_NO_ID, lot(60) ? (int)(lot(4) << 8 | lot(9)) : 0x180);
  case U_CANCEL: return cancel(s, d);
  case UNI: return tcap_uni(t, moment(), d, an_address(), a_portion(&portion, 2));
  case BEGIN: return tcap_begin(t, moment(), d, an_address(), a_portion(&portion, 2));
  case CONTINUE: return tcap_continue(t, moment(), d, a_portion(&portion, 6));
  case END: return tcap_end(t, moment(), d, (tcap_termination)(lot(99) ? lot(8) == 0 : 2), a_portion(&portion, 6));
  default:
    (void)a_portion(&portion, 1);
    return tcap_u_abort(t, moment(), d, (tcap_abort_reason)(lot(99) ? lot(2) : 2), portion.info);
  }
}
/* Which call: most often one that the state of the dialogue has. */
static enum call choose(struct side *s, uint32_t dialogue) {
  static const enum call idle[] = {INVOKE, INVOKE, INVOKE, BEGIN};
  static const enum call sent[] = {RECEIVE, RECEIVE, RECEIVE, RECEIVE, RECEIVE, RECEIVE, ADVANCE,
                                   INVOKE,  U_CANCEL, U_ABORT, END};
  static const enum call active[] = {RESULT_L, RESULT_L, RESULT_NL, RESULT_NL, U_ERROR,  U_ERROR,  U_REJECT,
                                     INVOKE,   CONTINUE, CONTINUE,  CONTINUE,  CONTINUE, CONTINUE, END,
                                     U_CANCEL, U_ABORT};
  if (lot(12) == 0) return (enum call)(NEW_DIALOGUE + lot(U_ABORT - NEW_DIALOGUE + 1));
  if (lot(3) == 0) return RECEIVE;
  switch (tcap_state_of(s->engine, dialogue)) {
  case TCAP_UNKNOWN: return lot(3) ? RECEIVE : NEW_DIALOGUE;
  case TCAP_IDLE: return dialogue % 8 == 0 && lot(4) ? UNI : idle[lot(sizeof idle / sizeof *idle)];
  case TCAP_INITIATION_SENT: return sent[lot(sizeof sent / sizeof *sent)];
  default: return active[lot(sizeof active / sizeof *active)];
  }
}
/* An Invoke of the peer in this dialogue, now and then of another; most often it is answered once. */
static bool find_invoke(struct side *s, uint32_t *dialogue, int *id) {
  uint32_t at = lot(INVOKES);
  for (int i = 0; i < INVOKES; i++, at = (at + 1) % INVOKES)
    if (s->invokes[at].dialogue == *dialogue || (i == 0 && lot(99) == 0)) {
      *dialogue = s->invokes[at].dialogue, *id = s->invokes[at].id;
      if (lot(8)) s->invokes[at].dialogue = 0;
      return true;
    }
  return false;
}
static void turn(struct side *s) {
  uint32_t d = a_dialogue(s);
  enum call call = choose(s, d);
  int id = an_id();
  if (call >= RESULT_L && call <= U_REJECT && !find_invoke(s, &d, &id) && lot(4)) call = CONTINUE;
  now += lot(8) ? lot(2) : lot(12);
  /* the clock first, so that what is refused after that has changed nothing */
  size_t due = tcap_due(s->engine, now);
  tcap_status late = tcap_advance(s->engine, now);
  calls[DUE]++, calls[ADVANCE]++, statuses[late]++;
  if (late) {
    NEED(late == TCAP_OUT_OF_MEMORY);
    return;
  }
  s->waits |= due > 0;
  if (s->waits && lot(4)) take_all(s);
  bool waited = s->waits;
  struct seen before = see(s, d), after;
  tcap_status status = request(s, call, d, id);
  NEED((unsigned)status < STATUSES);
  calls[call]++, statuses[status]++;
  calls[STATUS_TEXT]++, calls[VERSION]++;
  NEED(tcap_status_text(status)[0] && tcap_version() == TCAP_VERSION);
  if (status == TCAP_OK) {
    s->waits = true;
    return;
  }
  after = see(s, d);
  NEED(memcmp(&before, &after, sizeof before) == 0);
  if (!waited) NEED(tcap_next(s->engine) == NULL);
}

/* ---- engines are opened and closed */
static void open_side(struct side *s) {
  static const tcap_limits usual = TCAP_LIMITS;
  memset(s, 0, sizeof *s);
  s->limits = usual, s->was_last = true;
  s->limits.max_dialogues = lot(3) ? 12 + lot(24) : 65535;
  s->limits.max_message = lot(2) ? 65535 : lot(2) ? 255 : 120;
  s->limits.reject_ms = lot(3) ? lot(40) : 0;
  s->limits.idle_ms = lot(3) ? 100 + lot(900) : 0;
  if (lot(8) == 0) s->limits.first_dialogue = UINT32_MAX - lot(40);
  if (lot(4) == 0) s->limits.first_number = UINT64_MAX - lot(30);
  tcap_status status;
  do {
    status = tcap_open(&s->engine, &s->limits);
    calls[OPEN]++, statuses[status]++;
  } while (status == TCAP_OUT_OF_MEMORY);
  NEED(status == TCAP_OK && s->engine);
}
/* All dialogues are ended, so that each invocation must be closed. */
static void close_side(struct side *s) {
  refuse_one_of = 0;
  NEED(tcap_advance(s->engine, now) == TCAP_OK);
  take_all(s);
  uint32_t next = 0;
  uint64_t number = 0;
  NEED(tcap_next_identifiers(s->engine, &next, &number) == TCAP_OK);
  NEED(next >= s->limits.first_dialogue && number == s->limits.first_number + s->drawn);
  for (uint64_t d = s->limits.first_dialogue; tcap_dialogues(s->engine) && d <= UINT32_MAX; d++)
    if (tcap_state_of(s->engine, (uint32_t)d) != TCAP_UNKNOWN)
      NEED(tcap_u_abort(s->engine, now, (uint32_t)d, TCAP_USER_SPECIFIC, NOTHING) == TCAP_OK);
  take_all(s);
  NEED(tcap_dialogues(s->engine) == 0 && tcap_next_timer(s->engine) == TCAP_NEVER);
  for (uint64_t place = 0; place < s->drawn; place++) NEED(s->is_closed[place]);
  tcap_close(s->engine);
  calls[CLOSE]++;
  s->engine = NULL;
}
static unsigned long episode(unsigned long left) {
  unsigned long turns = lot(20) ? 50 + lot(300) : 2000 + lot(3000);
  if (turns > left) turns = left;
  NEED(tcap_set_memory(take_counted, grow_counted, give_back_counted) == TCAP_OK);
  calls[SET_MEMORY]++;
  refuse_one_of = lot(2) ? 20 + lot(80) : 0;
  now = lot(9) ? lot(1000) : (UINT64_C(1) << 62) - 5000000;
  open_side(&sides[0]), open_side(&sides[1]);
  for (unsigned long i = 0; i < turns; i++) turn(&sides[lot(2)]);
  close_side(&sides[0]), close_side(&sides[1]);
  for (int at = 0; at < IN_FLIGHT; at++) drop_message(at);
  NEED(blocks_held == 0);
  return turns;
}

/* From how many turns on it is judged how often each was seen: of fewer, some may come less often by lot. */
enum { JUDGED = 1000000 };
static int print_row(const char *name, unsigned long count, unsigned long least) {
  printf("  %10lu  %s%s\n", count, name, count < least ? "   TOO FEW" : "");
  return count < least;
}
int main(int argc, char **argv) {
  unsigned long turns = argc > 1 ? strtoul(argv[1], NULL, 10) : JUDGED, done = 0;
  unsigned long least = turns < JUDGED ? 0 : turns / 1000;
  int few = 0;
  lot_state = argc > 2 ? strtoul(argv[2], NULL, 10) : 77;
  large[0] = 0x04, large[1] = 0x82, large[2] = 30000 >> 8, large[3] = 30000 & 255;
  while (done < turns) done += episode(turns - done);
  printf("%lu turns, %ld refusals of memory\ncalls\n", done, blocks_refused);
  for (int i = 0; i < CALLS; i++) few += print_row(call_names[i], calls[i], least);
  printf("statuses\n");
  for (int i = 0; i < STATUSES; i++) few += print_row(tcap_status_text((tcap_status)i), statuses[i], least);
  printf("kinds of outputs\n");
  for (int i = 1; i < KINDS; i++) few += print_row(kind_names[i], kinds[i], least);
  printf("PDUs of aborts, causes of aborts, causes of drops\n ");
  for (int i = 0; i < 6; i++) printf(" %d:%lu", i, pdus[i]);
  printf("\n ");
  for (int i = 0; i < 512; i++)
    if (causes[i]) printf(" %d:%lu", i, causes[i]);
  printf("\n ");
  for (int i = 0; i < 4; i++) printf(" %d:%lu", i, drops[i]);
  printf("\n%s\n", few ? "too few of some" : least ? "each often enough" : "too few turns to judge how often each is seen");
  return few != 0;
}
