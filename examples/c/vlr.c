/* A VLR. It asks the HLR for subscribers, and takes the data that it is sent meanwhile. */
#include <stddef.h>

#include "node.h"

static const uint8_t network_loc_up[] = {0x04, 0x00, 0x00, 0x01, 0x00, 0x01, 0x03}; /* 0.4.0.0.1.0.1.3 */

void vlr_ask(int32_t operation, uint8_t subscriber) {
  const uint8_t octets[] = {0x30, 0x03, 0x04, 0x01, subscriber};
  const tcap_code code = {TCAP_LOCAL, operation, {NULL, 0}};
  const tcap_octets parameter = {octets, sizeof octets}, address = {(const uint8_t *)"hlr", 3};
  const tcap_portion portion = {{network_loc_up, sizeof network_loc_up}, {NULL, 0}};
  uint32_t dialogue;
  uint64_t number;
  if (!is_done(&vlr, "dialogue", tcap_new_dialogue(vlr.engine, &dialogue))) return;
  if (!is_done(&vlr, "invoke", tcap_invoke(vlr.engine, dialogue, 1, TCAP_NO_ID, 1, code, parameter,
                                           2000, &number)) ||
      !is_done(&vlr, "begin", tcap_begin(vlr.engine, clock_ms(), dialogue, address, &portion))) {
    is_done(&vlr, "abort", tcap_u_abort(vlr.engine, clock_ms(), dialogue, TCAP_USER_SPECIFIC,
                                        (tcap_octets){NULL, 0}));
  } else {
    say(&vlr, "asks by operation %d for subscriber %02X: invocation %llu", (int)operation,
        (unsigned)subscriber, (unsigned long long)number);
  }
  node_drain(&vlr);
}

/* What becomes of an invocation: each is closed once. */
static void close_invocation(const struct node *node, const tcap_output *output) {
  unsigned long long number = output->number;
  switch (output->kind) {
  case TCAP_RESULT_L_IND: say(node, "invocation %llu: done", number); break;
  case TCAP_U_ERROR_IND: say(node, "invocation %llu: error %d", number, (int)output->code.local); break;
  case TCAP_L_CANCEL_IND: say(node, "invocation %llu: no answer in time", number); break;
  case TCAP_CLOSED_IND: say(node, "invocation %llu: its dialogue is over", number); break;
  default: say(node, "invocation %llu: rejected, problem %03X", number, (unsigned)output->problem); break;
  }
}

static void hear(struct node *node, const tcap_output *output) {
  const tcap_octets none = {NULL, 0};
  if (output->closes) close_invocation(node, output);
  switch (output->kind) {
  case TCAP_INVOKE_IND:
    say(node, "takes %zu octets of data", output->parameter.len);
    is_done(node, "result", tcap_result_l(node->engine, output->dialogue, output->invoke_id,
                                          (tcap_code){TCAP_NO_CODE, 0, {NULL, 0}}, none));
    break;
  case TCAP_L_CANCEL_IND: /* the HLR may not even know the dialogue: it ends here */
    is_done(node, "abort", tcap_u_abort(node->engine, clock_ms(), output->dialogue,
                                        TCAP_USER_SPECIFIC, none));
    break;
  default: break;
  }
  if (output->is_last && tcap_state_of(node->engine, output->dialogue) == TCAP_ACTIVE)
    is_done(node, "continue", tcap_continue(node->engine, clock_ms(), output->dialogue, NULL));
}

struct node vlr = {"vlr", NULL, hear};
