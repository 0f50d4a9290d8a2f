/* An HLR and a VLR in one process, with a network and a clock that the program plays: each message takes
 * 20 ms, and two are lost. In a program of yours stands SCCP in place of this, and poll() with the
 * moment of tcap_next_timer as its timeout. */
#include <stdio.h>
#include <stdlib.h>
#include <string.h>

#include "node.h"

enum { DELAY = 20, MESSAGES = 16 };
static struct {
  struct node *to;
  const char *from;
  uint64_t at; /* when it comes */
  size_t len;  /* 0: this place is free */
  uint8_t octets[255];
} messages[MESSAGES];
static uint64_t now;
static int sent, lost = -1; /* how many messages were sent, and which one is lost */

uint64_t clock_ms(void) { return now; }

void network_send(struct node *from, tcap_octets to, tcap_octets message) {
  static const char *const types[] = {"Unidirectional", "Begin", "?", "End", "Continue", "?", "Abort"};
  struct node *node = to.len == 3 && memcmp(to.at, "hlr", 3) == 0 ? &hlr : &vlr;
  unsigned type = message.at[0] - 0x61u;
  say(from, "-> %s: %s of %zu octets%s", node->name, type < 7 ? types[type] : "?", message.len,
      sent == lost ? ", lost" : "");
  if (sent++ == lost) return;
  if (message.len > sizeof messages->octets) { /* as an Abort may be by which an engine answers */
    say(from, "too long for the network");
    return;
  }
  for (int i = 0; i < MESSAGES; i++)
    if (!messages[i].len) {
      messages[i].to = node, messages[i].from = from->name;
      messages[i].at = now + DELAY, messages[i].len = message.len;
      memcpy(messages[i].octets, message.at, message.len);
      return;
    }
  say(from, "the network is full");
}

/* The next message to come, -1 where there is none. */
static int first_message(void) {
  int first = -1;
  for (int i = 0; i < MESSAGES; i++)
    if (messages[i].len && (first < 0 || messages[i].at < messages[first].at)) first = i;
  return first;
}

/* Until no message is on its way and no timer runs before the moment. */
static void run_until(uint64_t end) {
  for (;;) {
    int message = first_message();
    uint64_t at = message < 0 ? TCAP_NEVER : messages[message].at;
    struct node *woken = tcap_next_timer(vlr.engine) < tcap_next_timer(hlr.engine) ? &vlr : &hlr;
    uint64_t timer = tcap_next_timer(woken->engine);
    if ((at < timer ? at : timer) > end) break;
    now = at < timer ? at : timer;
    if (at < timer) {
      uint8_t octets[255];
      tcap_octets received = {octets, messages[message].len};
      memcpy(octets, messages[message].octets, messages[message].len);
      messages[message].len = 0;
      node_receive(messages[message].to, messages[message].from, received);
    } else {
      node_wake(woken);
    }
  }
  now = end;
}

int main(void) {
  node_open(&hlr);
  node_open(&vlr);
  vlr_ask(UPDATE_LOCATION, 0xAA);
  run_until(1000);
  vlr_ask(UPDATE_LOCATION, 0xF1);
  run_until(2000);
  vlr_ask(99, 0xAA);
  run_until(3000);
  lost = sent; /* the next Begin */
  vlr_ask(UPDATE_LOCATION, 0xAB);
  run_until(10000);
  lost = sent + 3; /* the End with the result */
  vlr_ask(UPDATE_LOCATION, 0xAC);
  run_until(60000);
  printf("%zu dialogues stand at the VLR, %zu at the HLR\n", tcap_dialogues(vlr.engine), tcap_dialogues(hlr.engine));
  node_close(&vlr);
  node_close(&hlr);
  return 0;
}
