/* The loop of a node: what happens is handed in, what waits is taken. */
#include "node.h"

#include <stdarg.h>
#include <stdio.h>
#include <stdlib.h>
#include <string.h>

void say(const struct node *node, const char *format, ...) {
  va_list arguments;
  printf("%6llu %s ", (unsigned long long)clock_ms(), node->name);
  va_start(arguments, format);
  vprintf(format, arguments);
  va_end(arguments);
  putchar('\n');
}

bool is_done(const struct node *node, const char *what, tcap_status status) {
  if (status != TCAP_OK) say(node, "%s refused: %s", what, tcap_status_text(status));
  return status == TCAP_OK;
}

void node_open(struct node *node) {
  tcap_limits limits = TCAP_LIMITS;
  limits.max_message = 255; /* what a UDT of SCCP holds */
  limits.idle_ms = 30000;
  if (!is_done(node, "open", tcap_open(&node->engine, &limits))) exit(1);
}

void node_close(struct node *node) {
  tcap_close(node->engine);
  node->engine = NULL;
}

/* Requests are made while this goes on: what they send and tell waits behind the rest. */
void node_drain(struct node *node) {
  const tcap_output *output;
  while ((output = tcap_next(node->engine)) != NULL) {
    if (output->kind == TCAP_SEND)
      network_send(node, output->address, output->message);
    else
      node->hear(node, output);
  }
}

void node_receive(struct node *node, const char *from, tcap_octets message) {
  tcap_octets address = {(const uint8_t *)from, strlen(from)};
  is_done(node, "receive", tcap_receive(node->engine, clock_ms(), address, message));
  node_drain(node);
}

void node_wake(struct node *node) {
  is_done(node, "advance", tcap_advance(node->engine, clock_ms()));
  node_drain(node);
}
