/* That each argument goes where it belongs, and each field comes from where it should: messages as Q.773
 * and X.690 have them, by hand, beside the calls that send them and the outputs that tell them. And that
 * the moment of a call comes before the call. Exits 1 where something else is told. */
#include "told.h"

#define CONTEXT "04000001000103"                /* 0.4.0.0.1.0.1.3 */
#define EXTERNAL "280906032A0304A0020500"        /* an EXTERNAL of 1.2.3.4 */
#define DIALOGUE_AS "060700118605010101"         /* dialogue-as-id */
#define UNI_AS "060700118605010201"              /* uniDialogue-as-id */
#define VERSION_1 "80020780"
#define NAME "A1090607" CONTEXT
#define OK(call) NEED((call) == TCAP_OK)

static tcap *open_engine(uint32_t first_dialogue, uint64_t first_number) {
  tcap_limits limits = TCAP_LIMITS;
  tcap *engine = NULL;
  limits.first_dialogue = first_dialogue, limits.first_number = first_number;
  OK(tcap_open(&engine, &limits));
  return engine;
}
static tcap_code global_code(void) {
  tcap_code code = {TCAP_GLOBAL, 0, hex(CONTEXT)};
  return code;
}

/* A dialogue that this side begins, with two Invokes: its identifier. */
static uint32_t begun(tcap *engine) {
  tcap_portion portion = {hex(CONTEXT), hex(EXTERNAL)};
  uint32_t d = 0, next_dialogue = 0;
  uint64_t number = 0;
  OK(tcap_new_dialogue(engine, &d));
  NEED(d == 0x01020304 && tcap_state_of(engine, d) == TCAP_IDLE && tcap_dialogues(engine) == 1);
  OK(tcap_invoke(engine, d, -128, TCAP_NO_ID, 1, local_code(-2), hex("30030401AA"), 700, &number));
  NEED(number == 257);
  OK(tcap_invoke(engine, d, 127, TCAP_NO_ID, 4, global_code(), NOTHING, 800, &number));
  NEED(number == 258);
  OK(tcap_begin(engine, 1000, d, hex("0B12"), &portion));
  told(engine, "SEND to=0B12 message=6250" "480401020304"
               "6B2B2829060700118605010101A01E601C80020780A109060704000001000103BE0B280906032A0304A0020500"
               "6C1BA10B0201800201FE30030401AAA10C02017F060704000001000103 last");
  NEED(tcap_state_of(engine, d) == TCAP_INITIATION_SENT && tcap_next_timer(engine) == 1700);
  NEED(tcap_due(engine, 1699) == 0 && tcap_due(engine, 1700) >= 1);
  OK(tcap_next_identifiers(engine, &next_dialogue, &number));
  NEED(next_dialogue == 0x01020305 && number == 259);
  return d;
}
/* Each request of component handling and its arguments, in that dialogue. */
static void test_requests(void) {
  tcap *engine = open_engine(0x01020304, 257);
  const uint32_t d = begun(engine);
  const tcap_code none = {TCAP_NO_CODE, 0, {NULL, 0}};
  uint64_t number = 0;
  OK(tcap_receive(engine, 1000, hex("0B34"), hex("6561" "480400000063" "490401020304"
      "6B372835" DIALOGUE_AS "A02A6128" VERSION_1 NAME "A203020100" "A305A103020100" "BE0B" EXTERNAL
      "6C1A" "A70D02018030080201FE30030401BB" "A109020105800180020107")));
  told(engine, "CONTINUE dialogue=16909060 context=" CONTEXT " info=" EXTERNAL);
  told(engine, "RESULT_NL dialogue=16909060 number=257 id=-128 local=-2 parameter=30030401BB");
  told(engine, "INVOKE dialogue=16909060 id=5 linked=-128 local=7 last");
  NEED(tcap_state_of(engine, d) == TCAP_ACTIVE);
  OK(tcap_result_l(engine, d, 5, none, NOTHING));
  OK(tcap_u_error(engine, d, 6, global_code(), hex("30030401AA")));
  OK(tcap_u_reject(engine, d, TCAP_NO_ID, TCAP_GENERAL_MISTYPED_COMPONENT));
  OK(tcap_u_reject(engine, d, 8, TCAP_INVOKE_UNEXPECTED_LINKED_OPERATION));
  OK(tcap_result_nl(engine, d, 7, local_code(300), hex("0401CC")));
  OK(tcap_result_l(engine, d, 9, global_code(), NOTHING));
  OK(tcap_invoke(engine, d, 1, 5, 2, local_code(3), NOTHING, 100, &number));
  OK(tcap_continue(engine, 1001, d, NULL));
  told(engine, "SEND to=0B34 message=655E" "480401020304" "490400000063" "6C50"
               "A203020105" "A311020106060704000001000103" "30030401AA" "A4050500800101" "A406020108810107"
               "A70C02010730070202012C0401CC" "A20E0201093009060704000001000103" "A109020101800105020103 last");
  OK(tcap_receive(engine, 1002, NOTHING, hex("6526" "480400000063" "490401020304" "6C18"
      "A406020180810101" "A406020105820100" "A306020101020122" /* an error by its code 34 */)));
  told(engine, "CONTINUE dialogue=16909060");
  told(engine, "U_REJECT dialogue=16909060 number=257 id=-128 problem=257 closes");
  told(engine, "R_REJECT dialogue=16909060 id=5 problem=512");
  told(engine, "U_ERROR dialogue=16909060 number=259 id=1 local=34 closes last");
  OK(tcap_u_cancel(engine, d, 127, &number));
  NEED(number == 258);
  OK(tcap_end(engine, 1003, d, TCAP_PREARRANGED, NULL));
  told(engine, "nothing");
  NEED(tcap_dialogues(engine) == 0 && tcap_state_of(engine, d) == TCAP_UNKNOWN && tcap_next_timer(engine) == TCAP_NEVER);
  tcap_close(engine);
}

/* Dialogue handling on the other side, and a Unidirectional. */
static void test_answers(void) {
  tcap *engine = open_engine(1, 1);
  tcap_portion portion = {hex(CONTEXT), hex(EXTERNAL)}, only_context = {hex(CONTEXT), {NULL, 0}};
  uint32_t d;
  uint64_t number;
  const tcap_octets begin = hex("6233" "48020A0B" "6B1E281C" DIALOGUE_AS "A011600F" VERSION_1 NAME "6C0D" "A10B02010102010230030401AA");
  OK(tcap_receive(engine, 0, hex("AA"), begin));
  told(engine, "BEGIN dialogue=1 context=" CONTEXT);
  told(engine, "INVOKE dialogue=1 id=1 local=2 parameter=30030401AA last");
  NEED(tcap_state_of(engine, 1) == TCAP_INITIATION_RECEIVED);
  OK(tcap_end(engine, 0, 1, TCAP_BASIC, &portion));
  told(engine, "SEND to=AA message=643D" "49020A0B" "6B372835" DIALOGUE_AS
               "A02A6128" VERSION_1 NAME "A203020100" "A305A103020100" "BE0B" EXTERNAL " last");
  OK(tcap_receive(engine, 0, hex("BB"), begin));
  told(engine, "BEGIN dialogue=2 context=" CONTEXT);
  told(engine, "INVOKE dialogue=2 id=1 local=2 parameter=30030401AA last");
  OK(tcap_u_abort(engine, 0, 2, TCAP_CONTEXT_NOT_SUPPORTED, NOTHING));
  told(engine, "SEND to=BB message=6730" "49020A0B" "6B2A2828" DIALOGUE_AS
               "A01D611B" VERSION_1 NAME "A203020101" "A305A103020102" " last");
  OK(tcap_receive(engine, 0, hex("CC"), begin));
  told(engine, "BEGIN dialogue=3 context=" CONTEXT);
  told(engine, "INVOKE dialogue=3 id=1 local=2 parameter=30030401AA last");
  OK(tcap_u_abort(engine, 0, 3, TCAP_USER_SPECIFIC, hex(EXTERNAL)));
  told(engine, "SEND to=CC message=6725" "49020A0B" "6B1F281D" DIALOGUE_AS "A0126410" "800100" "BE0B" EXTERNAL " last");
  OK(tcap_new_dialogue(engine, &d));
  OK(tcap_invoke(engine, d, 3, TCAP_NO_ID, 4, local_code(5), NOTHING, 1, &number));
  OK(tcap_uni(engine, 0, d, hex("0C"), &only_context));
  told(engine, "SEND to=0C message=612A" "6B1E281C" UNI_AS "A011600F" VERSION_1 NAME "6C08" "A106020103020105");
  told(engine, "CLOSED dialogue=4 number=1 id=3 closes last");
  OK(tcap_receive(engine, 0, NOTHING, hex("612A" "6B1E281C" UNI_AS "A011600F" VERSION_1 NAME "6C08" "A106020103020105")));
  told(engine, "UNI context=" CONTEXT);
  told(engine, "INVOKE id=3 local=5 last");
  OK(tcap_receive(engine, 0, NOTHING, hex("6218" "48010D" "6C13" "A111" "020101" "0607" CONTEXT "30030401AA")));
  told(engine, "BEGIN dialogue=5");
  told(engine, "INVOKE dialogue=5 id=1 global=" CONTEXT " parameter=30030401AA last");
  OK(tcap_receive(engine, 0, NOTHING, hex("6403490163")));
  told(engine, "DROPPED cause=2 last");
  told(engine, "nothing");
  tcap_close(engine);
}

/* The dialogue PDU of an Abort, each kind of one; a cause; what of a message can't be read. */
static void test_aborts(void) {
  static const struct { const char *abort, *told; } aborts[] = {
      {"6706" "490400000001", "U_ABORT dialogue=1"},
      {"6726" "490400000002" "6B1E281C" DIALOGUE_AS "A011600F" VERSION_1 NAME, "P_ABORT dialogue=2 cause=256"}, /* AARQ */
      {"672E" "490400000003" "6B262824" DIALOGUE_AS "A0196117" NAME "A203020101" "A305A103020102", /* version by default */
       "U_ABORT dialogue=3 pdu=3 diagnostic=2 context=" CONTEXT " version1"},
      {"6732" "490400000004" "6B2A2828" DIALOGUE_AS "A01D611B" VERSION_1 NAME "A203020101" "A305A103020102",
       "U_ABORT dialogue=4 pdu=3 diagnostic=2 context=" CONTEXT " version1"},
      {"6732" "490400000005" "6B2A2828" DIALOGUE_AS "A01D611B" "80020640" NAME "A203020101" "A305A203020101", /* version 2 */
       "U_ABORT dialogue=5 pdu=3 diagnostic=257 context=" CONTEXT},
      {"6732" "490400000006" "6B2A2828" DIALOGUE_AS "A01D611B" VERSION_1 NAME "A203020101" "A305A203020102",
       "P_ABORT dialogue=6 cause=257"}, /* no common dialogue portion */
      {"6727" "490400000007" "6B1F281D" DIALOGUE_AS "A0126410" "800100" "BE0B" EXTERNAL, "U_ABORT dialogue=7 pdu=4 info=" EXTERNAL},
      {"671A" "490400000008" "6B122810" DIALOGUE_AS "A0056403" "800101", "P_ABORT dialogue=8 cause=256"}, /* ABRT by the provider */
      {"6715" "490400000009" "6B0D" "280B06052A03040506A0020500", "U_ABORT dialogue=9 pdu=5 info=280B06052A03040506A0020500"},
      {"6709" "49040000000A" "4A0104", "P_ABORT dialogue=10 cause=4"},
      {"6709" "49040000000B" "4A017F", "P_ABORT dialogue=11 cause=127"}};
  tcap *engine = open_engine(1, 1);
  tcap_portion portion = {hex(CONTEXT), {NULL, 0}};
  for (size_t i = 0; i < sizeof aborts / sizeof *aborts; i++) {
    char closed[99];
    uint32_t d;
    uint64_t number;
    OK(tcap_new_dialogue(engine, &d));
    OK(tcap_invoke(engine, d, -1, TCAP_NO_ID, 1, local_code(2), NOTHING, 9, &number));
    OK(tcap_begin(engine, 0, d, hex("AA"), &portion));
    NEED(tcap_next(engine)->kind == TCAP_SEND);
    OK(tcap_receive(engine, 0, hex("BB"), hex(aborts[i].abort)));
    told(engine, aborts[i].told);
    snprintf(closed, sizeof closed, "CLOSED dialogue=%u number=%u id=-1 closes last", d, d);
    told(engine, closed);
  }
  tcap_close(engine);
}

/* A call at a later moment: what is due then is told before, as an event of its own. */
static void test_moments(void) {
  tcap_code code = local_code(2);
  for (int call = 0; call < 7; call++) {
    tcap *engine = open_engine(1, 1);
    uint32_t d;
    uint64_t number;
    OK(tcap_new_dialogue(engine, &d));
    OK(tcap_invoke(engine, d, 1, TCAP_NO_ID, 1, code, NOTHING, 10, &number));
    OK(tcap_begin(engine, 0, d, NOTHING, NULL));
    OK(tcap_receive(engine, 0, NOTHING, hex("6504" "48020A0B")));          /* a faulty Continue */
    OK(tcap_receive(engine, 0, NOTHING, hex("620F" "48010C" "6C0A" "A108020101020102" "0500"))); /* dialogue 2 */
    OK(tcap_new_dialogue(engine, &d));
    OK(tcap_invoke(engine, d, 1, TCAP_NO_ID, 4, code, NOTHING, 5, &number));
    while (tcap_next(engine)) continue;
    /* events: new_dialogue 1, invoke 2, begin 3 and 4, receive 5 to 8, new_dialogue 9, invoke 10 */
    switch (call) {
    case 0: OK(tcap_advance(engine, 10)); break;
    case 1: OK(tcap_receive(engine, 10, NOTHING, hex("6403490163"))); break;
    case 2: OK(tcap_uni(engine, 10, d, NOTHING, NULL)); break;
    case 3: OK(tcap_begin(engine, 10, d, NOTHING, NULL)); break;
    case 4: OK(tcap_continue(engine, 10, 2, NULL)); break;
    case 5: OK(tcap_end(engine, 10, 2, TCAP_BASIC, NULL)); break;
    default: OK(tcap_u_abort(engine, 10, 2, TCAP_USER_SPECIFIC, NOTHING)); break;
    }
    told_by(engine, 11, "L_CANCEL dialogue=1 number=1 id=1 closes last");
    const tcap_output *next = tcap_next(engine);
    NEED(call == 0 ? next == NULL : next && next->event == 12);
    if (call == 3) NEED(tcap_next_timer(engine) == 15); /* five milliseconds from this moment */
    tcap_close(engine);
  }
}

/* An element of so many octets, at least 4: its tag, and its length in two octets behind 82. */
static tcap_octets element(uint8_t *room, uint8_t tag, size_t len) {
  room[0] = tag, room[1] = 0x82, room[2] = (uint8_t)((len - 4) >> 8), room[3] = (uint8_t)(len - 4);
  return octets(room, len);
}
/* A message of 65,535 octets goes to an address of 255: an output has no more. One octet more is too long. */
static void test_largest(void) {
  static uint8_t parameter[60000], info[6000], address[255], message[65535];
  tcap *engine = open_engine(1, 1), *other = open_engine(1, 1);
  size_t len = 0, info_len = 5000;
  tcap_status status = TCAP_OK;
  memset(parameter + 4, 0x5A, sizeof parameter - 4), memset(address, 0x0B, sizeof address);
  while (status == TCAP_OK) {
    uint32_t d;
    uint64_t number;
    tcap_portion portion = {hex(CONTEXT), element(info, 0x28, ++info_len)};
    element(info + 4, 0x04, info_len - 4);
    NEED(info_len < sizeof info);
    OK(tcap_new_dialogue(engine, &d));
    OK(tcap_invoke(engine, d, 1, TCAP_NO_ID, 4, local_code(2), element(parameter, 0x04, 59900), 9, &number));
    status = tcap_begin(engine, 0, d, octets(address, 255), &portion);
    if (status) continue;
    const tcap_output *o = tcap_next(engine);
    NEED(o && o->kind == TCAP_SEND && o->address.len == 255 && memcmp(o->address.at, address, 255) == 0);
    memcpy(message, o->message.at, len = o->message.len);
  }
  NEED(status == TCAP_TOO_LONG && len == 65535);
  OK(tcap_receive(other, 0, octets(address, 255), octets(message, len)));
  const tcap_output *o = tcap_next(other);
  NEED(o && o->kind == TCAP_BEGIN_IND && o->portion.info.len == info_len - 1 && o->portion.info.at[0] == 0x28);
  o = tcap_next(other);
  NEED(o && o->kind == TCAP_INVOKE_IND && o->parameter.len == 59900 && memcmp(o->parameter.at, parameter, 59900) == 0);
  rows += 3;
  tcap_close(engine), tcap_close(other);
}
int main(void) {
  NEED(tcap_set_memory(take_counted, grow_counted, give_back_counted) == TCAP_OK);
  test_requests();
  test_answers();
  test_aborts();
  test_moments();
  test_largest();
  NEED(blocks_held == 0);
  printf("%d outputs, %d other than wanted\n", rows, failures);
  return failures != 0;
}
