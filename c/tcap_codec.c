/* The calls of tcap_codec.h over those of tcap_codec_c.h. This file isn't proved, so it holds no logic: pointers that
 * are NULL, and lengths. */
#include "../include/tcap_codec.h"

#include <string.h>

#include "tcap_codec_c.h"

static uint8_t no_octets[1]; /* in place of NULL */

/* O: two arguments; IN: the room; GIVE: the call, where all that it wants is there */
#define O(octets) ((octets).len ? (octets).at : no_octets), (octets).len
#define IN (room_len ? (uint8_t *)room : no_octets), room_len
#define GIVE(octets, call) \
  return ((octets).at || !(octets).len) && (room || !room_len) && len ? (tcap_status)(call) : TCAP_BAD_ARGUMENT
#define TELL(call) \
  bool good = false; \
  if (!is_good || !len || (!room && room_len) || (!message.at && message.len)) return TCAP_BAD_ARGUMENT; \
  tcap_status status = (tcap_status)(call); \
  if (status == TCAP_OK || status == TCAP_ROOM_TOO_SMALL) *is_good = good; \
  return status

tcap_status tcap_front(tcap_octets message, struct tcap_ids *ids) {
  uint8_t room[8] = {0};
  size_t origin = 0, destination = 0;
  if (!ids || (!message.at && message.len)) return TCAP_BAD_ARGUMENT;
  tcap_status status = (tcap_status)tcap_c_front(O(message), &origin, &destination, room, sizeof room);
  memset(ids, 0, sizeof *ids);
  memcpy(ids->origin, room, origin), memcpy(ids->destination, room + origin, destination);
  ids->origin_len = (uint8_t)origin, ids->destination_len = (uint8_t)destination;
  return status;
}
tcap_status tcap_oid_from_text(tcap_octets text, uint8_t *room, size_t room_len, size_t *len) {
  GIVE(text, tcap_c_oid_of_text(O(text), len, IN));
}
tcap_status tcap_oid_to_text(tcap_octets oid, char *room, size_t room_len, size_t *len) {
  GIVE(oid, tcap_c_text_of_oid(O(oid), len, IN));
}
tcap_status tcap_show(tcap_octets message, char *room, size_t room_len, size_t *len, int *is_good) {
  TELL(tcap_c_show(O(message), &good, len, IN));
}
tcap_status tcap_check(tcap_octets message, char *room, size_t room_len, size_t *len, int *is_good) {
  TELL(tcap_c_check(O(message), &good, len, IN));
}
tcap_status tcap_canon(tcap_octets message, char *room, size_t room_len, size_t *len, int *is_good) {
  TELL(tcap_c_canon(O(message), &good, len, IN));
}
