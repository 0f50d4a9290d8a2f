/* A node of the network: an engine, and a user of it. hlr.c and vlr.c are such users, node.c is the loop
 * that both share, and network.c stands in place of SCCP and of a clock. */
#ifndef NODE_H
#define NODE_H

#include <stdbool.h>

#include "tcap.h"

struct node {
  const char *name; /* which is its address, too */
  tcap *engine;
  void (*hear)(struct node *, const tcap_output *); /* what its user does with an indication */
};

extern struct node hlr, vlr;

/* vlr.c: asks the HLR by an operation for a subscriber. */
void vlr_ask(int32_t operation, uint8_t subscriber);

/* node.c */
void node_open(struct node *);
void node_close(struct node *);
void node_receive(struct node *, const char *from, tcap_octets message); /* a message came */
void node_wake(struct node *);                                           /* its timer is due */
void node_drain(struct node *); /* sends and tells all that waits: after each request from outside */
void say(const struct node *, const char *format, ...);
bool is_done(const struct node *, const char *what, tcap_status); /* prints a refusal */

/* network.c */
void network_send(struct node *from, tcap_octets to, tcap_octets message);
uint64_t clock_ms(void); /* never goes back */

/* The operations and errors of MAP that are played (3GPP TS 29.002). */
enum { UPDATE_LOCATION = 2, INSERT_SUBSCRIBER_DATA = 7, UNKNOWN_SUBSCRIBER = 1 };

#endif
