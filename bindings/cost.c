/* One dialogue after the other between two engines, which `cost` counts: a Begin with an Invoke and a parameter of 3 octets, an
 * End with its result, and each output taken. cost DIALOGUES; prints how many results came. */
#include <stdio.h>
#include <stdlib.h>
#include <string.h>

#include <tcap.h>

static const tcap_octets parameter = {(const uint8_t *)"\x04\x01\xAA", 3};
static const tcap_octets names[2] = {{(const uint8_t *)"vlr", 3}, {(const uint8_t *)"hlr", 3}};
static const tcap_code operation = {TCAP_LOCAL, 2, {NULL, 0}};
static tcap *engines[2];
static unsigned long results;

static void need(tcap_status status) {
  if (status) puts(tcap_status_text(status)), exit(1);
}
/* Takes what waits at one engine; messages go to the other, and each Invoke is answered. */
static void serve(int at) {
  const tcap_output *o;
  while ((o = tcap_next(engines[at])) != NULL) switch (o->kind) {
      case TCAP_SEND: need(tcap_receive(engines[!at], 0, names[at], o->message)); break;
      case TCAP_INVOKE_IND:
        need(tcap_result_l(engines[at], o->dialogue, o->invoke_id, operation, parameter));
        need(tcap_end(engines[at], 0, o->dialogue, TCAP_BASIC, NULL));
        break;
      case TCAP_RESULT_L_IND: results++; break;
      default: break;
    }
}
int main(int argc, char **argv) {
  tcap_limits limits = TCAP_LIMITS;
  limits.idle_ms = 0;
  need(tcap_open(&engines[0], &limits));
  need(tcap_open(&engines[1], &limits));
  for (long left = argc > 1 ? strtol(argv[1], NULL, 10) : 0; left > 0; left--) {
    uint32_t dialogue;
    uint64_t number;
    need(tcap_new_dialogue(engines[0], &dialogue));
    need(tcap_invoke(engines[0], dialogue, 1, TCAP_NO_ID, 1, operation, parameter, 5000, &number));
    need(tcap_begin(engines[0], 0, dialogue, names[1], NULL));
    serve(0);
    serve(1);
    serve(0);
  }
  tcap_close(engines[0]);
  tcap_close(engines[1]);
  printf("%lu\n", results);
}
