/* An HLR. It answers updateLocation of a subscriber that it knows: first it sends the subscriber's data
 * in a Continue, and when the VLR has taken them, the result in an End. */
#include <stddef.h>

#include "node.h"

/* Updates that wait until the VLR has the data: by dialogue, the identifier that the result goes to. */
static struct {
  uint32_t dialogue;
  int invoke_id;
} updates[16];
enum { UPDATES = sizeof updates / sizeof *updates };

static const uint8_t subscriber_data[] = {0x30, 0x04, 0x81, 0x02, 0x91, 0x44};
static const uint8_t hlr_number[] = {0x30, 0x03, 0x04, 0x01, 0x0A};

/* The subscriber that an updateLocation names, -1 where its parameter isn't as it should be. */
static int subscriber_of(tcap_octets parameter) {
  return parameter.len == 5 && parameter.at[2] == 0x04 && parameter.at[3] == 1 ? parameter.at[4] : -1;
}

static tcap_code local(int32_t number) {
  tcap_code code = {TCAP_LOCAL, number, {NULL, 0}};
  return code;
}

static void update_location(struct node *node, const tcap_output *invoke) {
  const tcap_octets none = {NULL, 0}, data = {subscriber_data, sizeof subscriber_data};
  int subscriber = subscriber_of(invoke->parameter);
  uint64_t number;
  if (subscriber < 0) {
    is_done(node, "reject", tcap_u_reject(node->engine, invoke->dialogue, invoke->invoke_id,
                                          TCAP_INVOKE_MISTYPED_PARAMETER));
    return;
  }
  if (subscriber >= 0xF0) { /* we know none of these */
    say(node, "knows no subscriber %02X", (unsigned)subscriber);
    is_done(node, "error", tcap_u_error(node->engine, invoke->dialogue, invoke->invoke_id,
                                        local(UNKNOWN_SUBSCRIBER), none));
    return;
  }
  for (size_t i = 0; i < UPDATES; i++) {
    if (updates[i].dialogue) continue;
    if (!is_done(node, "invoke", tcap_invoke(node->engine, invoke->dialogue, 1, TCAP_NO_ID, 1,
                                             local(INSERT_SUBSCRIBER_DATA), data, 5000, &number)))
      break; /* as where the dialogue has an update that waits already */
    say(node, "sends the data of subscriber %02X", (unsigned)subscriber);
    updates[i].dialogue = invoke->dialogue;
    updates[i].invoke_id = invoke->invoke_id;
    return;
  }
  is_done(node, "reject", tcap_u_reject(node->engine, invoke->dialogue, invoke->invoke_id,
                                        TCAP_INVOKE_RESOURCE_LIMITATION));
}

/* The VLR has the data: the update is done. */
static void finish_update(struct node *node, uint32_t dialogue) {
  const tcap_octets number = {hlr_number, sizeof hlr_number};
  for (size_t i = 0; i < UPDATES; i++)
    if (updates[i].dialogue == dialogue) {
      updates[i].dialogue = 0;
      say(node, "has updated the location");
      is_done(node, "result", tcap_result_l(node->engine, dialogue, updates[i].invoke_id,
                                            local(UPDATE_LOCATION), number));
    }
}

static bool is_waiting(uint32_t dialogue) {
  for (size_t i = 0; i < UPDATES; i++)
    if (updates[i].dialogue == dialogue) return true;
  return false;
}

/* A message is told to its end: what was queued goes out, and ends the dialogue if nothing waits. */
static void answer(struct node *node, uint32_t dialogue) {
  switch (tcap_state_of(node->engine, dialogue)) {
  case TCAP_INITIATION_RECEIVED:
  case TCAP_ACTIVE:
    if (is_waiting(dialogue))
      is_done(node, "continue", tcap_continue(node->engine, clock_ms(), dialogue, NULL));
    else
      is_done(node, "end", tcap_end(node->engine, clock_ms(), dialogue, TCAP_BASIC, NULL));
    break;
  default: /* it is over: nothing waits any more */
    for (size_t i = 0; i < UPDATES; i++)
      if (updates[i].dialogue == dialogue) updates[i].dialogue = 0;
  }
}

static void hear(struct node *node, const tcap_output *output) {
  switch (output->kind) {
  case TCAP_INVOKE_IND:
    if (output->code.kind == TCAP_LOCAL && output->code.local == UPDATE_LOCATION) {
      update_location(node, output);
    } else {
      say(node, "doesn't know this operation");
      is_done(node, "reject", tcap_u_reject(node->engine, output->dialogue, output->invoke_id,
                                            TCAP_INVOKE_UNRECOGNIZED_OPERATION));
    }
    break;
  case TCAP_RESULT_L_IND: finish_update(node, output->dialogue); break;
  case TCAP_L_CANCEL_IND: say(node, "has no answer from the VLR"); break;
  case TCAP_P_ABORT_IND: say(node, "dialogue %u is over: cause %u", output->dialogue, output->cause); break;
  case TCAP_U_ABORT_IND: say(node, "dialogue %u is over: the VLR aborts", output->dialogue); break;
  default: break; /* also what a later library tells */
  }
  if (output->is_last) answer(node, output->dialogue);
}

struct node hlr = {"hlr", NULL, hear};
