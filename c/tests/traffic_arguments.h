/* Of the traffic by lot: the arguments of its calls, some of which are refused. */
#ifndef TCAP_TESTS_TRAFFIC_ARGUMENTS_H
#define TCAP_TESTS_TRAFFIC_ARGUMENTS_H

#include "traffic_sides.h"

static const uint8_t map[] = {0x04, 0x00, 0x00, 0x01, 0x00, 0x01, 0x03}; /* 0.4.0.0.1.0.1.3 */
static const uint8_t external[] = {0x28, 0x09, 0x06, 0x03, 0x2A, 0x03, 0x04, 0xA0, 0x02, 0x05, 0x00};
static uint8_t large[70000]; /* one element of 60,000 octets and more */
static uint64_t moment(void) { return lot(200) ? now : (UINT64_C(1) << 62) + 1 + lot(9); }
static int an_id(void) { return lot(99) ? (int)lot(6) - 3 : lot(2) ? 200 : -129; }
static tcap_code a_code(void) {
  tcap_code code = local_code((int32_t)lot(9) - 4);
  if (lot(4) == 0) code.kind = TCAP_GLOBAL, code.global = octets(map, lot(30) ? sizeof map : 2);
  if (lot(30) == 0) code.global = octets("\x81", 1), code.kind = TCAP_GLOBAL; /* no object identifier */
  if (lot(199) == 0) code.kind = (tcap_code_kind)(lot(2) ? 0 : 7);
  return code;
}
static tcap_octets a_parameter(void) {
  static const uint8_t element[] = {0x30, 0x03, 0x04, 0x01, 0xAA, 0x00};
  switch (lot(80)) {
  case 0: return octets(element, 6); /* an element, and an octet */
  case 1: return octets(element, 4); /* cut off */
  case 2: return octets(large, 4 + 30000u);
  case 3: return lot(3) ? octets(element, 5) : octets(NULL, 3);
  default: return octets(element, lot(3) ? 5 : 0);
  }
}
static const tcap_portion *a_portion(tcap_portion *portion, uint32_t one_of) {
  static const tcap_octets none;
  portion->context = lot(3) ? octets(map, lot(30) ? sizeof map : 0) : none;
  portion->info = lot(4) == 0 ? octets(external, sizeof external - (lot(9) == 0)) : none;
  if (lot(199) == 0) portion->context = octets(NULL, 5);
  return lot(one_of) ? NULL : portion;
}
static tcap_octets an_address(void) {
  static const uint8_t address[300] = {0x0B, 0x12};
  return octets(address, lot(99) ? 2 + lot(5) : 256);
}
/* Most often one that stands. */
static uint32_t a_dialogue(struct side *s) {
  uint32_t dialogue = s->dialogues[lot(DIALOGUES)];
  for (int i = 0; i < 3 && tcap_state_of(s->engine, dialogue) == TCAP_UNKNOWN; i++)
    dialogue = s->dialogues[lot(DIALOGUES)];
  return lot(60) ? dialogue : lot(4);
}

#endif
