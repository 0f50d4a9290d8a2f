/* The modes of bench.c in which an engine or a dialogue is taken through laps of steps. */
#include <stdint.h>
#include <stdio.h>

uint64_t tcap_bench_engine(uint8_t step, uint16_t dialogues, uint32_t laps);
uint64_t tcap_bench_lapses(uint16_t dialogues, uint16_t together, uint32_t laps);
uint64_t tcap_bench_outbox(uint8_t step, uint16_t dialogues, uint32_t laps);
uint64_t tcap_bench_outbox_lapses(uint16_t dialogues, uint16_t together, uint32_t laps);
uint64_t tcap_bench_invocations(uint8_t step, uint16_t invocations, uint32_t laps);

void stop(const char *why);

/* The kind of step of engine1 to engine6; 0 of any other mode. */
static unsigned engine_step(const char *mode) {
  unsigned step;
  return sscanf(mode, "engine%1u", &step) == 1 && step >= 1 && step <= 6 ? step : 0;
}

/* The same of outbox1 to outbox6. */
static unsigned outbox_step(const char *mode) {
  unsigned step;
  return sscanf(mode, "outbox%1u", &step) == 1 && step >= 1 && step <= 6 ? step : 0;
}

/* How many lapse at a moment, of the modes lapses1 and lapses1000; 0 of any other mode. */
static unsigned together(const char *mode) {
  unsigned count;
  return sscanf(mode, "lapses%4u", &count) == 1 ? count : 0;
}

/* The same of outbox-lapses1 and outbox-lapses1000. */
static unsigned outbox_together(const char *mode) {
  unsigned count;
  return sscanf(mode, "outbox-lapses%4u", &count) == 1 ? count : 0;
}

/* The kind of step of invocations1 to invocations3; 0 of any other mode. */
static unsigned invocation_step(const char *mode) {
  unsigned step;
  return sscanf(mode, "invocations%1u", &step) == 1 && step >= 1 && step <= 3 ? step : 0;
}

/* Each step sends one output and tells two; nothing is due at a moment of the fourth kind. */
static void check_engine(unsigned step, unsigned size, long laps, uint64_t given) {
  const uint64_t each = step < 4 ? 3 : step > 4 ? 1 : 0;
  if (given != each * size * (uint64_t)laps) stop("the engine gave other outputs");
}

/* Each lapse is told, and a Continue sent. */
static void check_lapses(unsigned size, long laps, uint64_t given) {
  if (given != 2 * (uint64_t)size * (uint64_t)laps) stop("the lapses gave other outputs");
}

/* A result is told in a Continue and a Continue sent; a lapse is told and a Continue sent; nothing. */
static void run_invocations(unsigned step, unsigned size, long laps) {
  static const uint64_t outputs[] = {3, 2, 0};
  uint64_t given = tcap_bench_invocations((uint8_t)step, (uint16_t)size, (uint32_t)laps);
  if (given != outputs[step - 1] * size * (uint64_t)laps) stop("the dialogue gave other outputs");
}

/* Whether a mode is one of these. */
int has_steps(const char *mode) {
  return engine_step(mode) || outbox_step(mode) || together(mode) || outbox_together(mode) || invocation_step(mode);
}

void run_steps(const char *mode, unsigned size, long laps) {
  const uint16_t dialogues = (uint16_t)size;
  const uint32_t count = (uint32_t)laps;
  unsigned kind;
  if ((kind = engine_step(mode)))
    check_engine(kind, size, laps, tcap_bench_engine((uint8_t)kind, dialogues, count));
  else if ((kind = outbox_step(mode)))
    check_engine(kind, size, laps, tcap_bench_outbox((uint8_t)kind, dialogues, count));
  else if ((kind = together(mode)))
    check_lapses(size, laps, tcap_bench_lapses(dialogues, (uint16_t)kind, count));
  else if ((kind = outbox_together(mode)))
    check_lapses(size, laps, tcap_bench_outbox_lapses(dialogues, (uint16_t)kind, count));
  else
    run_invocations(invocation_step(mode), size, laps);
}
