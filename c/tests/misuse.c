/* Misuse that can be told is told, and nothing has changed: a table of calls, each with what is wrong
 * about it and what it must answer. Exits 1 where one doesn't. */
#include "common.h"

static tcap *engine;
static uint32_t idle, sent; /* dialogues in Idle and in Initiation Sent */
static uint64_t number;
static int rows, failures;

static const uint8_t byte[300] = {0x30, 0x03, 0x04, 0x01, 0xAA};
static const tcap_octets no = {NULL, 0}, parameter = {byte, 5}, untrue = {NULL, 5}, map = {(const uint8_t *)"\x04\x00\x00\x01\x00\x01\x03", 7};

/* What of an engine can be seen to change. */
struct seen { uint64_t number, timer; size_t count; uint32_t next; int idle, sent; };
static struct seen see(void) {
  struct seen s;
  memset(&s, 0, sizeof s);
  NEED(tcap_next_identifiers(engine, &s.next, &s.number) == TCAP_OK);
  s.timer = tcap_next_timer(engine), s.count = tcap_dialogues(engine);
  s.idle = (int)tcap_state_of(engine, idle), s.sent = (int)tcap_state_of(engine, sent);
  return s;
}
static struct seen before;
static void row(const char *what, tcap_status answered, tcap_status wanted) {
  struct seen after = see();
  bool is_same = memcmp(&before, &after, sizeof before) == 0 && tcap_next(engine) == NULL;
  rows++;
  if (answered == wanted && is_same) return;
  failures++;
  printf("%s: %s, not %s%s\n", what, tcap_status_text(answered), tcap_status_text(wanted), is_same ? "" : ", and something has changed");
}
#define BAD(call) row(#call, call, TCAP_BAD_ARGUMENT)
#define REFUSED(call, status) row(#call, call, status)

static tcap_limits limits(void) {
  tcap_limits l = TCAP_LIMITS;
  return l;
}
static tcap_status open_with(tcap_limits l) {
  tcap *other = NULL;
  tcap_status status = tcap_open(&other, &l);
  NEED((status == TCAP_OK) == (other != NULL));
  tcap_close(other);
  return status;
}
#define LIMIT(field, value, status) \
  do { \
    tcap_limits with = limits(); \
    with.field = value; \
    row("limits: " #field " " #value, open_with(with), status); \
  } while (0)

static void test_limits(void) {
  tcap *other = NULL;
  tcap_limits l = limits();
  struct { tcap_limits limits; uint64_t newer[2]; } grown = {TCAP_LIMITS, {0, 0}};
  BAD(tcap_open(NULL, &l));
  BAD(tcap_open(&other, NULL));
  LIMIT(size, 0, TCAP_BAD_ARGUMENT);
  LIMIT(size, sizeof l - 1, TCAP_BAD_ARGUMENT);
  LIMIT(size, SIZE_MAX, TCAP_BAD_ARGUMENT);
  grown.limits.size = sizeof grown;
  REFUSED(tcap_open(&other, &grown.limits), TCAP_OK);
  tcap_close(other);
  ((uint8_t *)&grown)[sizeof grown - 1] = 1;
  BAD(tcap_open(&other, &grown.limits));
  LIMIT(max_dialogues, 0, TCAP_BAD_ARGUMENT);
  LIMIT(max_dialogues, 65536, TCAP_BAD_ARGUMENT);
  LIMIT(max_dialogues, 65535, TCAP_OK);
  LIMIT(max_dialogues, 1, TCAP_OK);
  LIMIT(max_message, 0, TCAP_BAD_ARGUMENT);
  LIMIT(max_message, 65536, TCAP_BAD_ARGUMENT);
  LIMIT(max_message, 65535, TCAP_OK);
  LIMIT(max_message, 1, TCAP_OK);
  LIMIT(reject_ms, (UINT64_C(1) << 62) + 1, TCAP_BAD_ARGUMENT);
  LIMIT(reject_ms, UINT64_C(1) << 62, TCAP_OK);
  LIMIT(idle_ms, (UINT64_C(1) << 62) + 1, TCAP_BAD_ARGUMENT);
  LIMIT(idle_ms, UINT64_C(1) << 62, TCAP_OK);
  LIMIT(first_dialogue, 0, TCAP_BAD_ARGUMENT);
  LIMIT(first_dialogue, UINT32_MAX, TCAP_OK);
  LIMIT(first_number, 0, TCAP_BAD_ARGUMENT);
  LIMIT(first_number, UINT64_MAX, TCAP_OK);
  BAD(tcap_set_memory(NULL, realloc, free));
  BAD(tcap_set_memory(malloc, NULL, free));
  BAD(tcap_set_memory(malloc, realloc, NULL));
}
static void test_no_engine(void) {
  tcap *gone = NULL; /* a closed engine's variable, set to NULL */
  tcap_code code = local_code(2);
  uint32_t d = 7;
  uint64_t n = 7;
  BAD(tcap_receive(gone, 0, no, parameter));
  BAD(tcap_advance(gone, 0));
  BAD(tcap_new_dialogue(gone, &d));
  BAD(tcap_invoke(gone, idle, 1, TCAP_NO_ID, 1, code, no, 9, &n));
  BAD(tcap_result_l(gone, idle, 1, code, no));
  BAD(tcap_result_nl(gone, idle, 1, code, no));
  BAD(tcap_u_error(gone, idle, 1, code, no));
  BAD(tcap_u_reject(gone, idle, 1, TCAP_INVOKE_UNRECOGNIZED_OPERATION));
  BAD(tcap_u_cancel(gone, idle, 1, &n));
  BAD(tcap_uni(gone, 0, idle, no, NULL));
  BAD(tcap_begin(gone, 0, idle, no, NULL));
  BAD(tcap_continue(gone, 0, idle, NULL));
  BAD(tcap_end(gone, 0, idle, TCAP_BASIC, NULL));
  BAD(tcap_u_abort(gone, 0, idle, TCAP_USER_SPECIFIC, no));
  BAD(tcap_next_identifiers(gone, &d, &n));
  NEED(d == 7 && n == 7);
  NEED(tcap_next(gone) == NULL && tcap_next_timer(gone) == TCAP_NEVER && tcap_due(gone, 9) == 0);
  NEED(tcap_state_of(gone, idle) == TCAP_UNKNOWN && tcap_dialogues(gone) == 0);
  tcap_close(gone);
  BAD(tcap_new_dialogue(engine, NULL));
  BAD(tcap_invoke(engine, idle, 1, TCAP_NO_ID, 1, code, no, 9, NULL));
  BAD(tcap_u_cancel(engine, sent, 1, NULL));
  BAD(tcap_next_identifiers(engine, NULL, &n));
  BAD(tcap_next_identifiers(engine, &d, NULL));
}
/* Octets without a pointer, addresses of 256. */
static void test_octets(void) {
  tcap_code code = local_code(2), global = {TCAP_GLOBAL, 0, {NULL, 5}};
  tcap_portion context = {{NULL, 5}, {NULL, 0}}, info = {{NULL, 0}, {NULL, 5}};
  tcap_octets address = {byte, 256};
  BAD(tcap_receive(engine, 0, untrue, parameter));
  BAD(tcap_receive(engine, 0, no, untrue));
  BAD(tcap_receive(engine, 0, address, parameter));
  BAD(tcap_invoke(engine, idle, 1, TCAP_NO_ID, 1, code, untrue, 9, &number));
  BAD(tcap_invoke(engine, idle, 1, TCAP_NO_ID, 1, global, no, 9, &number));
  BAD(tcap_result_l(engine, idle, 1, code, untrue));
  BAD(tcap_result_l(engine, idle, 1, global, no));
  BAD(tcap_result_nl(engine, idle, 1, code, untrue));
  BAD(tcap_result_nl(engine, idle, 1, global, no));
  BAD(tcap_u_error(engine, idle, 1, code, untrue));
  BAD(tcap_u_error(engine, idle, 1, global, no));
  BAD(tcap_uni(engine, 0, idle, untrue, NULL));
  BAD(tcap_uni(engine, 0, idle, address, NULL));
  BAD(tcap_uni(engine, 0, idle, no, &context));
  BAD(tcap_uni(engine, 0, idle, no, &info));
  BAD(tcap_begin(engine, 0, idle, untrue, NULL));
  BAD(tcap_begin(engine, 0, idle, address, NULL));
  BAD(tcap_begin(engine, 0, idle, no, &context));
  BAD(tcap_begin(engine, 0, idle, no, &info));
  BAD(tcap_continue(engine, 0, idle, &context));
  BAD(tcap_continue(engine, 0, idle, &info));
  BAD(tcap_end(engine, 0, idle, TCAP_BASIC, &context));
  BAD(tcap_end(engine, 0, idle, TCAP_BASIC, &info));
  BAD(tcap_u_abort(engine, 0, idle, TCAP_USER_SPECIFIC, untrue));
}
/* Identifiers and problems out of their ranges, and beside each the last one in it, which is refused for another reason. */
static void test_identifiers(void) {
  static const int bad_ids[] = {-129, 128, 200, 255, 257, 0x10001, INT32_MIN, INT32_MAX};
  static const int bad_problems[] = {-1, 0x080, 0x0ff, 0x180, 0x280, 0x380, 0x400, 0x10100, INT32_MIN, INT32_MAX};
  const tcap_code code = local_code(2);
  for (size_t i = 0; i < sizeof bad_ids / sizeof *bad_ids; i++) {
    BAD(tcap_invoke(engine, idle, bad_ids[i], TCAP_NO_ID, 1, code, no, 9, &number));
    BAD(tcap_invoke(engine, idle, 1, bad_ids[i], 1, code, no, 9, &number));
    BAD(tcap_result_l(engine, idle, bad_ids[i], code, no));
    BAD(tcap_result_nl(engine, idle, bad_ids[i], code, no));
    BAD(tcap_u_error(engine, idle, bad_ids[i], code, no));
    BAD(tcap_u_reject(engine, idle, bad_ids[i], TCAP_INVOKE_UNRECOGNIZED_OPERATION));
    BAD(tcap_u_cancel(engine, sent, bad_ids[i], &number));
  }
  BAD(tcap_invoke(engine, idle, TCAP_NO_ID, TCAP_NO_ID, 1, code, no, 9, &number));
  BAD(tcap_result_l(engine, idle, TCAP_NO_ID, code, no));
  BAD(tcap_result_nl(engine, idle, TCAP_NO_ID, code, no));
  BAD(tcap_u_error(engine, idle, TCAP_NO_ID, code, no));
  BAD(tcap_u_cancel(engine, sent, TCAP_NO_ID, &number));
  REFUSED(tcap_u_cancel(engine, sent, -128, &number), TCAP_NO_SUCH_INVOCATION);
  REFUSED(tcap_u_cancel(engine, sent, 127, &number), TCAP_NO_SUCH_INVOCATION);
  REFUSED(tcap_u_reject(engine, idle, TCAP_NO_ID, TCAP_ERROR_MISTYPED_PARAMETER), TCAP_WRONG_STATE);
  for (size_t i = 0; i < sizeof bad_problems / sizeof *bad_problems; i++)
    BAD(tcap_u_reject(engine, idle, 1, bad_problems[i]));
  REFUSED(tcap_u_reject(engine, idle, 1, 0x000), TCAP_WRONG_STATE);
  REFUSED(tcap_u_reject(engine, idle, 1, 0x37f), TCAP_WRONG_STATE);
}
/* Classes, kinds of codes, terminations and reasons: the same. */
static void test_enumerations(void) {
  static const int bad_classes[] = {-1, 0, 5, 7, 257, INT32_MAX};
  tcap_code code = local_code(2), none = {TCAP_NO_CODE, 0, {NULL, 0}}, empty = {TCAP_GLOBAL, 0, {NULL, 0}}, other = code;
  other.kind = (tcap_code_kind)7;
  for (size_t i = 0; i < sizeof bad_classes / sizeof *bad_classes; i++)
    BAD(tcap_invoke(engine, idle, 1, TCAP_NO_ID, bad_classes[i], code, no, 9, &number));
  for (int op_class = 1; op_class <= 4; op_class++)
    REFUSED(tcap_invoke(engine, idle, 1, TCAP_NO_ID, op_class, code, no, 0, &number), TCAP_BAD_TIMEOUT);
  BAD(tcap_invoke(engine, idle, 1, TCAP_NO_ID, 1, none, no, 9, &number));
  REFUSED(tcap_invoke(engine, idle, 1, TCAP_NO_ID, 1, empty, no, 9, &number), TCAP_BAD_OID);
  BAD(tcap_invoke(engine, idle, 1, TCAP_NO_ID, 1, other, no, 9, &number));
  BAD(tcap_u_error(engine, idle, 1, none, no));
  REFUSED(tcap_u_error(engine, idle, 1, empty, no), TCAP_WRONG_STATE);
  BAD(tcap_u_error(engine, idle, 1, other, no));
  BAD(tcap_result_l(engine, idle, 1, none, parameter));
  REFUSED(tcap_result_l(engine, idle, 1, empty, no), TCAP_WRONG_STATE);
  BAD(tcap_result_l(engine, idle, 1, other, no));
  BAD(tcap_result_nl(engine, idle, 1, none, parameter));
  REFUSED(tcap_result_l(engine, idle, 1, none, no), TCAP_WRONG_STATE);
  REFUSED(tcap_result_nl(engine, idle, 1, none, no), TCAP_WRONG_STATE);
  BAD(tcap_end(engine, 0, sent, (tcap_termination)2, NULL));
  BAD(tcap_end(engine, 0, sent, (tcap_termination)256, NULL));
  BAD(tcap_u_abort(engine, 0, sent, (tcap_abort_reason)2, no));
  BAD(tcap_u_abort(engine, 0, sent, (tcap_abort_reason)256, no));
}
/* What an engine itself refuses, each by the status that tcap.h names. */
static void test_refusals(void) {
  const uint64_t late = (UINT64_C(1) << 62) + 1;
  tcap_code code = local_code(2), wrong = {TCAP_GLOBAL, 0, {(const uint8_t *)"\x81", 1}};
  tcap_portion context = {map, no}, faulty = {{(const uint8_t *)"\x81", 1}, no}, info = {no, parameter}, both = {map, parameter};
  REFUSED(tcap_invoke(engine, 0, 1, TCAP_NO_ID, 1, code, no, 9, &number), TCAP_UNKNOWN_DIALOGUE);
  REFUSED(tcap_result_l(engine, 99, 1, code, no), TCAP_UNKNOWN_DIALOGUE);
  REFUSED(tcap_begin(engine, 0, sent, no, NULL), TCAP_WRONG_STATE);
  REFUSED(tcap_continue(engine, 0, sent, NULL), TCAP_WRONG_STATE);
  REFUSED(tcap_invoke(engine, sent, 1, TCAP_NO_ID, 1, code, no, 9, &number), TCAP_INVOKE_ID_IN_USE);
  REFUSED(tcap_u_cancel(engine, sent, 2, &number), TCAP_NO_SUCH_INVOCATION);
  REFUSED(tcap_invoke(engine, sent, 2, TCAP_NO_ID, 1, code, no, late, &number), TCAP_BAD_TIMEOUT);
  REFUSED(tcap_invoke(engine, sent, 2, TCAP_NO_ID, 1, wrong, no, 9, &number), TCAP_BAD_OID);
  REFUSED(tcap_begin(engine, 0, idle, no, &faulty), TCAP_BAD_OID);
  REFUSED(tcap_invoke(engine, sent, 2, TCAP_NO_ID, 1, code, octets(byte, 6), 9, &number), TCAP_BAD_PARAMETER);
  REFUSED(tcap_begin(engine, 0, idle, no, &both), TCAP_BAD_PARAMETER);
  REFUSED(tcap_begin(engine, 0, idle, no, &info), TCAP_BAD_PARAMETER);
  REFUSED(tcap_continue(engine, 0, sent, &context), TCAP_WRONG_STATE);
  REFUSED(tcap_uni(engine, 0, idle, no, NULL), TCAP_NOT_CLASS_FOUR);
  REFUSED(tcap_receive(engine, late, no, parameter), TCAP_MOMENT_TOO_LATE);
  REFUSED(tcap_advance(engine, late), TCAP_MOMENT_TOO_LATE);
  REFUSED(tcap_begin(engine, late, idle, no, NULL), TCAP_MOMENT_TOO_LATE);
  REFUSED(tcap_end(engine, UINT64_MAX, sent, TCAP_BASIC, NULL), TCAP_MOMENT_TOO_LATE);
}
int main(void) {
  tcap_limits l = limits();
  NEED(tcap_set_memory(take_counted, grow_counted, give_back_counted) == TCAP_OK);
  NEED(tcap_open(&engine, &l) == TCAP_OK);
  NEED(tcap_new_dialogue(engine, &idle) == TCAP_OK && tcap_new_dialogue(engine, &sent) == TCAP_OK);
  NEED(tcap_invoke(engine, sent, 1, TCAP_NO_ID, 1, local_code(2), parameter, 9, &number) == TCAP_OK);
  NEED(tcap_begin(engine, 0, sent, TEXT("hlr"), NULL) == TCAP_OK);
  NEED(tcap_next(engine) != NULL && tcap_next(engine) == NULL);
  before = see();
  number = 7;
  test_limits();
  test_no_engine();
  test_octets();
  test_identifiers();
  test_enumerations();
  test_refusals();
  NEED(number == 7); /* nothing was written */
  NEED(tcap_status_text((tcap_status)17)[0] && tcap_status_text((tcap_status)-1)[0]);
  tcap_close(engine);
  NEED(blocks_held == 0);
  printf("%d calls, %d answered otherwise\n", rows, failures);
  return failures != 0;
}
