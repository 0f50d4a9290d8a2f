/* A step through C, which `bench/run station` counts: a Continue without components is received at the next
 * moment, its output is taken, and then nothing waits.
 *
 *   station call station SIZE COUNT    an engine with SIZE Active dialogues does COUNT laps, in which each takes
 *                                      a step in turn; from the second lap on no step may ask for memory
 */
#include <stdio.h>
#include <stdlib.h>

#include "../include/tcap.h"

static const tcap_octets peer = {(const uint8_t *)"\x02", 1};
static unsigned long asked; /* requests for memory */

static void *take(size_t size) { return asked++, malloc(size); }
static void *grow(void *block, size_t size) { return asked++, realloc(block, size); }

static void need(int holds, const char *why) {
  if (holds) return;
  fprintf(stderr, "station: %s\n", why);
  exit(2);
}

/* The peer goes on in a dialogue. */
static void step(tcap *engine, uint64_t now_ms, uint32_t dialogue) {
  uint8_t message[] = {0x65, 0x0c, 0x48, 0x04, 0, 0, 0, 5, 0x49, 0x04, 0, 0, 0, 0};
  for (int i = 0; i < 4; i++) message[10 + i] = (uint8_t)(dialogue >> (24 - 8 * i));
  need(tcap_receive(engine, now_ms, peer, (tcap_octets){message, sizeof message}) == TCAP_OK, "a Continue is refused");
  const tcap_output *output = tcap_next(engine);
  need(output && output->kind == TCAP_CONTINUE_IND && output->dialogue == dialogue, "another output is told");
  need(!tcap_next(engine), "an output more is told");
}

int main(int count, char **words) {
  need(count == 5, "see the head of station.c");
  const uint32_t dialogues = (uint32_t)atol(words[3]);
  const long laps = atol(words[4]);
  tcap_limits limits = TCAP_LIMITS;
  limits.idle_ms = 0;
  tcap *engine;
  uint64_t now_ms = 0;
  need(tcap_set_memory(take, grow, free) == TCAP_OK, "tcap_set_memory");
  need(tcap_open(&engine, &limits) == TCAP_OK, "tcap_open");
  for (uint32_t at = 1; at <= dialogues; at++) {
    uint32_t dialogue;
    need(tcap_new_dialogue(engine, &dialogue) == TCAP_OK && dialogue == at, "tcap_new_dialogue");
    need(tcap_begin(engine, now_ms, dialogue, peer, NULL) == TCAP_OK && tcap_next(engine), "tcap_begin");
    step(engine, ++now_ms, dialogue);
  }
  for (long lap = 0; lap < laps; lap++) {
    const unsigned long before = asked;
    for (uint32_t at = 1; at <= dialogues; at++) step(engine, ++now_ms, at);
    need(lap == 0 || asked == before, "a warm step asks for memory");
  }
  tcap_close(engine);
  return 0;
}
