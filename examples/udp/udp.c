/* The HLR and the VLR of examples/c over UDP on loopback: each has a socket, and poll() waits for messages and for
 * timers. It prints what examples/c/network.c prints, but for the moments. In a program of yours stands SCCP in place
 * of UDP. */
#define _POSIX_C_SOURCE 200809L // NOLINT(bugprone-reserved-identifier,cert-dcl37-c,cert-dcl51-cpp): POSIX names it
#include <arpa/inet.h>
#include <errno.h>
#include <poll.h>
#include <stdio.h>
#include <stdlib.h>
#include <string.h>
#include <sys/socket.h>
#include <time.h>
#include <unistd.h>

#include "node.h"

enum { NODES = 2, LONGEST = 255, LIMIT = 20000 };
static struct node *const nodes[NODES] = {&vlr, &hlr};
static struct pollfd sockets[NODES];
static struct sockaddr_in addresses[NODES];
static int sent, lost = -1; /* how many messages were sent, and which one is lost */

static void fail(const char *what) {
  perror(what);
  exit(2);
}

uint64_t clock_ms(void) {
  struct timespec now;
  if (clock_gettime(CLOCK_MONOTONIC, &now)) fail("clock_gettime");
  return (uint64_t)now.tv_sec * 1000 + (uint64_t)now.tv_nsec / 1000000;
}

static void open_socket(int at) {
  struct sockaddr_in *address = &addresses[at];
  socklen_t size = sizeof *address;
  address->sin_family = AF_INET;
  address->sin_addr.s_addr = htonl(INADDR_LOOPBACK); /* port 0: any that is free */
  sockets[at].fd = socket(AF_INET, SOCK_DGRAM, 0);
  sockets[at].events = POLLIN;
  if (sockets[at].fd < 0 || bind(sockets[at].fd, (struct sockaddr *)address, size)) fail("socket");
  if (getsockname(sockets[at].fd, (struct sockaddr *)address, &size)) fail("getsockname");
}

void network_send(struct node *from, tcap_octets to, tcap_octets message) {
  static const char *const types[] = {"Unidirectional", "Begin", "?", "End", "Continue", "?", "Abort"};
  int target = to.len == 3 && memcmp(to.at, "hlr", 3) == 0;
  unsigned type = message.at[0] - 0x61u;
  say(from, "-> %s: %s of %zu octets%s", nodes[target]->name, type < 7 ? types[type] : "?", message.len,
      sent == lost ? ", lost" : "");
  if (sent++ == lost) return;
  if (sendto(sockets[from == &hlr].fd, message.at, message.len, 0, (struct sockaddr *)&addresses[target],
             sizeof addresses[target]) < 0)
    say(from, "the network doesn't take it: %s", strerror(errno)); /* as a lost one */
}

/* A datagram came. One from elsewhere than the other node is none of ours. */
static void receive(int at) {
  uint8_t octets[LONGEST + 1]; /* one more shows that it was longer */
  struct sockaddr_in from;
  socklen_t size = sizeof from;
  ssize_t len = recvfrom(sockets[at].fd, octets, sizeof octets, 0, (struct sockaddr *)&from, &size);
  if (len < 0 || from.sin_port != addresses[!at].sin_port) return;
  if (len > LONGEST) {
    say(nodes[at], "too long for the network");
    return;
  }
  tcap_octets message = {octets, (size_t)len};
  node_receive(nodes[at], nodes[!at]->name, message);
}

/* How long poll() may wait: until the first timer of any engine, and no longer than until the end. A program that has no
 * end waits for ever, -1, where the first is TCAP_NEVER. */
static int wait_ms(uint64_t end) {
  uint64_t first = end, now = clock_ms();
  for (int i = 0; i < NODES; i++)
    if (tcap_next_timer(nodes[i]->engine) < first) first = tcap_next_timer(nodes[i]->engine);
  return first <= now ? 0 : (int)(first - now);
}

/* Until no dialogue stands. */
static void run(void) {
  uint64_t end = clock_ms() + LIMIT;
  while (tcap_dialogues(vlr.engine) + tcap_dialogues(hlr.engine) > 0 && clock_ms() < end) {
    int ready = poll(sockets, NODES, wait_ms(end));
    if (ready < 0 && errno != EINTR) fail("poll");
    for (int i = 0; i < NODES; i++) {
      if (tcap_next_timer(nodes[i]->engine) <= clock_ms()) node_wake(nodes[i]);
      if (ready > 0 && sockets[i].revents & POLLIN) receive(i);
    }
  }
}

int main(void) {
  for (int i = 0; i < NODES; i++) open_socket(i), node_open(nodes[i]);
  vlr_ask(UPDATE_LOCATION, 0xAA);
  run();
  vlr_ask(UPDATE_LOCATION, 0xF1);
  run();
  vlr_ask(99, 0xAA);
  run();
  lost = sent; /* the next Begin */
  vlr_ask(UPDATE_LOCATION, 0xAB);
  run();
  lost = sent + 3; /* the End with the result */
  vlr_ask(UPDATE_LOCATION, 0xAC);
  run();
  printf("%zu dialogues stand at the VLR, %zu at the HLR\n", tcap_dialogues(vlr.engine), tcap_dialogues(hlr.engine));
  for (int i = 0; i < NODES; i++) node_close(nodes[i]), close(sockets[i].fd);
  return 0;
}
