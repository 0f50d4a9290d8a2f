/* The text of outputs (docs/FORMATS.md, play: the answers). */
#include "play_text.h"

#include <inttypes.h>
#include <stdbool.h>
#include <stdio.h>

void print_hex(tcap_octets of) {
  for (size_t i = 0; i < of.len; i++) printf("%02x", of.at[i]);
  if (!of.len) printf("-");
}
static void print_id(int id) {
  if (id == TCAP_NO_ID) printf("-");
  else printf("%d", id);
}
static void print_portion(const tcap_output *o) {
  printf("context ");
  print_hex(o->portion.context);
  printf(" info ");
  print_hex(o->portion.info);
}
/* ` op CODE param P`, or `code` for `op`; of a result without a body `-` for the code. */
static void print_coded(const char *name, const tcap_output *o) {
  printf(" %s ", name);
  if (o->code.kind == TCAP_LOCAL) printf("local %" PRId32, o->code.local);
  else if (o->code.kind == TCAP_GLOBAL) printf("global "), print_hex(o->code.global);
  else printf("-");
  printf(" param ");
  print_hex(o->parameter);
}
static void print_problem(const tcap_output *o) {
  static const char *const names[] = {"general", "invoke", "result", "error"};
  printf(" %s %d", names[o->problem >> 8 & 3], o->problem & 255);
}
static void print_pdu(const tcap_output *o) {
  switch (o->pdu) {
  case TCAP_PDU_AARQ:
  case TCAP_PDU_AUDT:
    printf("%s version %s ", o->pdu == TCAP_PDU_AARQ ? "aarq" : "audt", o->is_version1 ? "yes" : "no");
    print_portion(o);
    break;
  case TCAP_PDU_AARE:
    printf("aare version %s context ", o->is_version1 ? "yes" : "no");
    print_hex(o->portion.context);
    printf(" result %d %s %d info ", !o->is_accepted, o->diagnostic < 256 ? "user" : "provider", o->diagnostic & 255);
    print_hex(o->portion.info);
    break;
  case TCAP_PDU_ABRT:
    printf("abrt %s info ", o->is_by_provider ? "provider" : "user");
    print_hex(o->portion.info);
    break;
  case TCAP_PDU_FOREIGN:
    printf("foreign ");
    print_hex(o->portion.info);
    break;
  default:
    printf("-");
  }
}
static void print_cause(unsigned cause) {
  if (cause == TCAP_P_ABNORMAL_DIALOGUE) printf(" abnormal");
  else if (cause == TCAP_P_NO_COMMON_DIALOGUE) printf(" nocommon");
  else if (cause == TCAP_P_IDLE) printf(" idle");
  else printf(" cause %u", cause);
}
static void print_invocation(const char *name, const tcap_output *o) {
  printf("%s %" PRIu32 " id %d number %" PRIu64, name, o->dialogue, o->invoke_id, o->number);
}
/* A Reject: of an invocation that it closes, or of none. */
static void print_reject(const tcap_output *o, const char *by) {
  bool is_local = o->kind == TCAP_L_REJECT_IND;
  if (o->closes) {
    print_invocation("rejected", o);
  } else {
    printf(is_local ? "localreject " : "remotereject ");
    if (o->dialogue) printf("%" PRIu32, o->dialogue);
    else printf("-");
    printf(" id ");
    print_id(o->invoke_id);
  }
  print_problem(o);
  if (o->closes || !is_local) printf(" by %s", by);
}
void print_output(const tcap_output *o) {
  static const char *const names[] = {[TCAP_BEGIN_IND] = "begin", [TCAP_CONTINUE_IND] = "continue", [TCAP_END_IND] = "end"};
  static const char *const drops[] = {"toolong", "badmessage", "nodialogue", "baddialogue"};
  switch (o->kind) {
  case TCAP_UNI_IND: printf("uni "), print_portion(o); break;
  case TCAP_BEGIN_IND:
  case TCAP_CONTINUE_IND:
  case TCAP_END_IND: printf("%s %" PRIu32 " ", names[o->kind], o->dialogue), print_portion(o); break;
  case TCAP_U_ABORT_IND: printf("uabort %" PRIu32 " ", o->dialogue), print_pdu(o); break;
  case TCAP_P_ABORT_IND: printf("pabort %" PRIu32, o->dialogue), print_cause(o->cause); break;
  case TCAP_INVOKE_IND:
    if (o->dialogue) printf("invoked %" PRIu32 " id %d linked ", o->dialogue, o->invoke_id);
    else printf("invoked - id %d linked ", o->invoke_id);
    print_id(o->linked_id), print_coded("op", o);
    break;
  case TCAP_RESULT_L_IND: print_invocation("last", o), print_coded("op", o); break;
  case TCAP_RESULT_NL_IND: print_invocation("more", o), print_coded("op", o); break;
  case TCAP_U_ERROR_IND: print_invocation("error", o), print_coded("code", o); break;
  case TCAP_L_CANCEL_IND: print_invocation("lapsed", o); break;
  case TCAP_CLOSED_IND: print_invocation("ended", o); break;
  case TCAP_L_REJECT_IND: print_reject(o, "local"); break;
  case TCAP_R_REJECT_IND: print_reject(o, "provider"); break;
  case TCAP_U_REJECT_IND: print_reject(o, "user"); break;
  case TCAP_DROPPED: printf("dropped %s", drops[o->cause & 3]); break;
  default: printf("kind %d", o->kind);
  }
}
