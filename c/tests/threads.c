/* Threads: engines share nothing, and one engine may go from thread to thread under a lock. Four threads
 * have two engines each, of which one asks the other; all of them use a fifth engine, one at a time. To
 * be run under helgrind, too. Exits 1 where an invocation isn't answered. */
#include <pthread.h>

#include "common.h"

enum { THREADS = 4 };
static long laps = 2000;
static tcap *shared;
static pthread_mutex_t lock = PTHREAD_MUTEX_INITIALIZER;
static const uint8_t parameter[] = {0x30, 0x03, 0x04, 0x01, 0xAA};

static tcap *open_engine(void) {
  tcap_limits limits = TCAP_LIMITS;
  tcap *engine = NULL;
  NEED(tcap_open(&engine, &limits) == TCAP_OK);
  return engine;
}
/* The message that an engine sends next goes to the other: the last output that this tells. */
static const tcap_output *pass(tcap *from, tcap *to, uint64_t now) {
  const tcap_output *sent = tcap_next(from), *told = NULL;
  NEED(sent && sent->kind == TCAP_SEND && sent->is_last);
  NEED(tcap_receive(to, now, TEXT("peer"), sent->message) == TCAP_OK);
  do told = tcap_next(to);
  while (told && !told->is_last);
  NEED(told);
  return told;
}
static void ask(tcap *from, tcap *to, uint64_t now) {
  uint32_t d;
  uint64_t number;
  NEED(tcap_new_dialogue(from, &d) == TCAP_OK);
  NEED(tcap_invoke(from, d, 1, TCAP_NO_ID, 1, local_code(2), octets(parameter, 5), 1000, &number) == TCAP_OK);
  NEED(tcap_begin(from, now, d, TEXT("peer"), NULL) == TCAP_OK);
  const tcap_output *o = pass(from, to, now);
  NEED(o->kind == TCAP_INVOKE_IND);
  uint32_t heard = o->dialogue;
  NEED(tcap_result_l(to, heard, o->invoke_id, o->code, o->parameter) == TCAP_OK);
  NEED(tcap_end(to, now, heard, TCAP_BASIC, NULL) == TCAP_OK);
  o = pass(to, from, now);
  NEED(o->kind == TCAP_RESULT_L_IND && o->number == number && o->closes && o->parameter.len == 5);
  NEED(tcap_dialogues(from) == 0 && tcap_state_of(to, heard) == TCAP_UNKNOWN);
}
static void *work(void *unused) {
  tcap *vlr = open_engine(), *hlr = open_engine();
  (void)unused;
  for (long lap = 1; lap <= laps; lap++) {
    ask(vlr, hlr, (uint64_t)lap);
    if (lap % 16) continue;
    NEED(pthread_mutex_lock(&lock) == 0);
    ask(shared, hlr, (uint64_t)lap);
    NEED(pthread_mutex_unlock(&lock) == 0);
  }
  tcap_close(vlr), tcap_close(hlr);
  return NULL;
}
int main(int argc, char **argv) {
  pthread_t threads[THREADS];
  if (argc > 1) laps = strtol(argv[1], NULL, 10);
  shared = open_engine();
  for (int i = 0; i < THREADS; i++) NEED(pthread_create(&threads[i], NULL, work, NULL) == 0);
  for (int i = 0; i < THREADS; i++) NEED(pthread_join(threads[i], NULL) == 0);
  tcap_close(shared);
  printf("%d threads, %ld invocations answered\n", THREADS, THREADS * (laps + laps / 16));
  return 0;
}
