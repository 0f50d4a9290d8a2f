/* tcap.h: Transaction Capabilities (ITU-T Q.771 to Q.774), as a library. Link with -ltcap.
 *
 * An engine has no input or output, no clock and no thread. You hand it what happens, and it queues
 * what is to be sent and told:
 *
 *   tcap_receive(engine, now_ms, from, message);  // or a request, or tcap_advance(engine, now_ms)
 *   while ((output = tcap_next(engine)) != NULL)  // all that waits, in order
 *     switch (output->kind) {                     // requests may be made in here
 *     case TCAP_SEND: .. case TCAP_INVOKE_IND: ..
 *     }
 *
 * Refusals. A call that answers another status than TCAP_OK has changed nothing, and wrote nothing.
 *   But a call that takes `now_ms` is two events, the moment and then the call: where the call is
 *   refused, the clock may stand at that moment, and what was due then waits, as by tcap_advance.
 *   Seen before the moment are only NULL, a length beside a pointer that is NULL, and an address of
 *   tcap_receive above 255 octets.
 *   TCAP_OUT_OF_MEMORY is such a refusal: the same call may be made again, now or later.
 * Octets. What you pass is copied during the call. What tcap_next answers, and all it points to, is
 *   valid until the next tcap_next or tcap_close of that engine, whatever other calls you make.
 * Time. Milliseconds by any clock that doesn't go back, at most 2^62. A moment before the last one
 *   does nothing.
 * Threads. One call at a time on an engine, also of those that take a `const tcap *`; it may go
 *   from one thread to another, under a lock or by start and join. Two engines share nothing.
 *   Don't call from a signal handler, nor in a forked child of a process with threads.
 * What you owe, and nothing checks: each `tcap *` is one that tcap_open gave and tcap_close didn't
 *   take back, or NULL; calls come one at a time; pointers point to as many octets as you say, and
 *   what a call writes doesn't overlap what it is passed. All else that can be wrong about an
 *   argument is answered: TCAP_BAD_ARGUMENT.
 * What may change while the soname stays: tcap_limits and tcap_output grow at their end, and
 *   enumerations by new values; no other struct changes. So let `switch` have a `default`, take
 *   outputs by pointer as tcap_next answers them, and begin limits with TCAP_LIMITS. */
#ifndef TCAP_H
#define TCAP_H

#include <stddef.h>
#include <stdint.h>

#ifdef __GNUC__
#define TCAP_MUST_CHECK __attribute__((warn_unused_result))
#else
#define TCAP_MUST_CHECK
#endif

#ifdef __cplusplus
extern "C" {
#endif

/* 0.1.0: major, minor, patch, an octet each. tcap_version() answers that of the library. */
#define TCAP_VERSION 0x000100u

/* In place of a moment: no timer runs. */
#define TCAP_NEVER UINT64_MAX

/* In place of an invoke identifier, -128 to 127: none. */
#define TCAP_NO_ID 256

/* An engine, and what waits to be sent and told. */
typedef struct tcap tcap;

/* Octets of yours, or of an output. */
typedef struct {
  const uint8_t *at; /* the first one; not looked at where there are none */
  size_t len;        /* how many; 0: absent */
} tcap_octets;

/* Which form a code has (Q.773, Operation Code, Error Code). */
typedef enum {
  TCAP_NO_CODE = 0, /* none: only of a result, which has no parameter then */
  TCAP_LOCAL = 1,   /* a local value: a number */
  TCAP_GLOBAL = 2   /* a global value: an object identifier */
} tcap_code_kind;

/* The code of an operation or of an error. */
typedef struct {
  tcap_code_kind kind;
  int32_t local;      /* of TCAP_LOCAL */
  tcap_octets global; /* of TCAP_GLOBAL: the contents octets of the object identifier, 1 to 255 */
} tcap_code;

/* What the dialogue portion of a message has for the user (Q.771, Dialogue handling). */
typedef struct {
  tcap_octets context; /* application context name: contents octets of its object identifier,
                        * 04 00 00 01 00 01 03 of 0.4.0.0.1.0.1.3 */
  tcap_octets info;    /* user information: EXTERNALs one after the other */
} tcap_portion;

/* What a call answers. */
typedef enum {
  TCAP_OK = 0,
  TCAP_OUT_OF_MEMORY = 1,      /* memory was refused: the same call again may succeed */
  TCAP_UNKNOWN_DIALOGUE = 2,   /* no dialogue with this identifier stands */
  TCAP_WRONG_STATE = 3,        /* the state of the dialogue doesn't have the request */
  TCAP_INVOKE_ID_IN_USE = 4,   /* the invoke identifier is in use, or waits for a Reject still */
  TCAP_NO_SUCH_INVOCATION = 5, /* no invocation with this invoke identifier is open */
  TCAP_BAD_TIMEOUT = 6,        /* the timeout is 0 or above 2^62 */
  TCAP_TOO_LONG = 7,           /* the queue would be above 60,000 octets, or the message above
                                * max_message */
  TCAP_DIALOGUES_FULL = 8,     /* max_dialogues stand */
  TCAP_DIALOGUE_IDS_SPENT = 9, /* no dialogue identifier is left: open another engine */
  TCAP_NUMBERS_SPENT = 10,     /* no invocation number is left: open another engine */
  TCAP_BAD_OID = 11,           /* a context or a global code is no object identifier */
  TCAP_BAD_PARAMETER = 12,     /* a parameter isn't one element, or user information no EXTERNALs */
  TCAP_NOT_CLASS_FOUR = 13,    /* a Unidirectional has no component, or an Invoke of class 1 to 3 */
  TCAP_MOMENT_TOO_LATE = 14,   /* the moment is above 2^62 */
  TCAP_NO_CONTEXT = 15,        /* a context or user information, and no dialogue portion for it */
  TCAP_BAD_ARGUMENT = 16,      /* an argument is NULL or out of its range: a fault of the program */
  TCAP_ROOM_TOO_SMALL = 19     /* of tcap_codec.h alone: what is given has more octets than the room */
} tcap_status;

/* How far a dialogue is (Q.774, Transaction state machine). */
typedef enum {
  TCAP_UNKNOWN = 0,             /* none stands */
  TCAP_IDLE = 1,                /* new: nothing was sent */
  TCAP_INITIATION_SENT = 2,     /* a Begin was sent */
  TCAP_INITIATION_RECEIVED = 3, /* a Begin was received, and nothing was sent */
  TCAP_ACTIVE = 4               /* a Continue was sent or received */
} tcap_state;

/* How a dialogue ends (Q.771, Dialogue end). */
typedef enum {
  TCAP_BASIC = 0,      /* an End is sent */
  TCAP_PREARRANGED = 1 /* nothing is sent: the peer ends it by itself */
} tcap_termination;

/* Why the user aborts (Q.771, Abort by the user). */
typedef enum {
  TCAP_USER_SPECIFIC = 0,        /* a reason of its own, in the user information */
  TCAP_CONTEXT_NOT_SUPPORTED = 1 /* it doesn't support the application context of the Begin */
} tcap_abort_reason;

/* The problem of a Reject: 256 times its kind, and its code, 0 to 127 (Q.773, Problem). */
typedef enum {
  TCAP_GENERAL_UNRECOGNIZED_COMPONENT = 0x000,
  TCAP_GENERAL_MISTYPED_COMPONENT = 0x001,
  TCAP_GENERAL_BADLY_STRUCTURED_COMPONENT = 0x002,
  TCAP_INVOKE_DUPLICATE_INVOKE_ID = 0x100,
  TCAP_INVOKE_UNRECOGNIZED_OPERATION = 0x101,
  TCAP_INVOKE_MISTYPED_PARAMETER = 0x102,
  TCAP_INVOKE_RESOURCE_LIMITATION = 0x103,
  TCAP_INVOKE_INITIATING_RELEASE = 0x104,
  TCAP_INVOKE_UNRECOGNIZED_LINKED_ID = 0x105,
  TCAP_INVOKE_LINKED_RESPONSE_UNEXPECTED = 0x106,
  TCAP_INVOKE_UNEXPECTED_LINKED_OPERATION = 0x107,
  TCAP_RESULT_UNRECOGNIZED_INVOKE_ID = 0x200,
  TCAP_RESULT_RETURN_RESULT_UNEXPECTED = 0x201,
  TCAP_RESULT_MISTYPED_PARAMETER = 0x202,
  TCAP_ERROR_UNRECOGNIZED_INVOKE_ID = 0x300,
  TCAP_ERROR_RETURN_ERROR_UNEXPECTED = 0x301,
  TCAP_ERROR_UNRECOGNIZED_ERROR = 0x302,
  TCAP_ERROR_UNEXPECTED_ERROR = 0x303,
  TCAP_ERROR_MISTYPED_PARAMETER = 0x304
} tcap_problem;

/* ---- an engine is opened and closed */

/* What an engine keeps to. Begin with TCAP_LIMITS and set what differs. */
typedef struct {
  size_t size;            /* sizeof(tcap_limits) of your compilation */
  uint32_t max_dialogues; /* how many dialogues may stand, 1 to 65,535 */
  uint32_t max_message;   /* how many octets the layer below carries, 1 to 65,535: a request whose
                           * message is longer is refused. An Abort that the engine answers to a
                           * message goes out all the same: up to 350 octets, by its context */
  uint64_t reject_ms;     /* how long an invoke identifier waits for a Reject, at most 2^62 */
  uint64_t idle_ms;       /* how long a dialogue in Initiation Sent or Active may stand still, at most
                           * 2^62; 0: for ever. In Idle and Initiation Received it may for ever:
                           * answer or abort the dialogue of each TCAP_BEGIN_IND */
  uint32_t first_dialogue; /* the identifier of the first dialogue, not 0: another range for each
                            * engine behind one address; at UINT32_MAX none is left */
  uint64_t first_number;   /* the number of the first invocation, not 0; at UINT64_MAX none is left */
} tcap_limits;

/* The limits that you get where you set none. */
#define TCAP_LIMITS {sizeof(tcap_limits), 65535, 65535, 1000, 600000, 1, 1}

/* Opens an engine with clock 0 and no dialogues. It draws identifiers and numbers upward from those
 * of the limits, each once. Fields above the size that you give are taken as 0. TCAP_BAD_ARGUMENT:
 * NULL, or a limit out of its range; a size above 4,096 or below that of 0.1.0, which ends with
 * first_number (48 octets where a pointer has 64 bits); or octets above the size of the library
 * which aren't 0: of a newer header, a limit that this library doesn't have. */
TCAP_MUST_CHECK tcap_status tcap_open(tcap **engine, const tcap_limits *limits);

/* Closes an engine and gives back all its memory. What waits is lost. NULL: does nothing. Set your
 * variable to NULL, and a call after that is told. */
void tcap_close(tcap *engine);

/* Takes memory from these functions, in place of malloc, realloc and free, whose contracts they
 * keep: blocks are aligned for any object, NULL is a refusal. `grow` makes blocks smaller too, as
 * realloc does; where it refuses that, the block stays. Call tcap_set_memory before the first
 * tcap_open, from one thread; never while an engine is open. No engine asks for 0 octets, or hands
 * NULL to either of the others. They call no engine. TCAP_BAD_ARGUMENT: one is NULL. */
TCAP_MUST_CHECK tcap_status tcap_set_memory(void *(*take)(size_t size),
                                            void *(*grow)(void *block, size_t size),
                                            void (*give_back)(void *block));

/* TCAP_VERSION of the library that is linked. */
uint32_t tcap_version(void);

/* What a status means, in a few words of English. Never NULL. */
const char *tcap_status_text(tcap_status status);

/* ---- what happens */

/* A message was received from an address, 0 to 255 octets into which no engine looks: answers go
 * there. No octets are refused: at least one output waits then. TCAP_MOMENT_TOO_LATE,
 * TCAP_OUT_OF_MEMORY. */
TCAP_MUST_CHECK tcap_status tcap_receive(tcap *engine, uint64_t now_ms, tcap_octets from,
                                         tcap_octets message);

/* Time has come so far: what is due is told. TCAP_MOMENT_TOO_LATE, TCAP_OUT_OF_MEMORY. */
TCAP_MUST_CHECK tcap_status tcap_advance(tcap *engine, uint64_t now_ms);

/* The moment for the next tcap_advance; TCAP_NEVER where no timer runs. */
uint64_t tcap_next_timer(const tcap *engine);

/* A new dialogue, in which nothing has happened: its identifier, never 0.
 * TCAP_DIALOGUES_FULL, TCAP_DIALOGUE_IDS_SPENT, TCAP_OUT_OF_MEMORY. */
TCAP_MUST_CHECK tcap_status tcap_new_dialogue(tcap *engine, uint32_t *dialogue);

/* ---- component handling (Q.771): a component is queued, and the next request of dialogue handling
 * sends it. `parameter`: the octets of one BER element, or absent. Each may be refused by
 * TCAP_UNKNOWN_DIALOGUE, TCAP_TOO_LONG and TCAP_OUT_OF_MEMORY, beside what it names. */

/* TC-INVOKE request: its number, never 0, by which outputs name the invocation. `invoke_id`: -128
 * to 127; `linked_id`: the same, or TCAP_NO_ID; `op_class`: 1 to 4; `timeout_ms`: 1 to 2^62, from
 * the moment at which it is sent. TCAP_BAD_TIMEOUT, TCAP_BAD_OID, TCAP_BAD_PARAMETER,
 * TCAP_INVOKE_ID_IN_USE, TCAP_NUMBERS_SPENT. */
TCAP_MUST_CHECK tcap_status tcap_invoke(tcap *engine, uint32_t dialogue, int invoke_id,
                                        int linked_id, int op_class, tcap_code operation,
                                        tcap_octets parameter, uint64_t timeout_ms,
                                        uint64_t *number);

/* TC-RESULT-L request: the last or only result of an Invoke of the peer. `operation`: TCAP_NO_CODE
 * where there is no parameter either; one without a parameter is sent as it is.
 * TCAP_WRONG_STATE, TCAP_BAD_OID, TCAP_BAD_PARAMETER. */
TCAP_MUST_CHECK tcap_status tcap_result_l(tcap *engine, uint32_t dialogue, int invoke_id,
                                          tcap_code operation, tcap_octets parameter);

/* TC-RESULT-NL request: a result that others follow. As tcap_result_l. */
TCAP_MUST_CHECK tcap_status tcap_result_nl(tcap *engine, uint32_t dialogue, int invoke_id,
                                           tcap_code operation, tcap_octets parameter);

/* TC-U-ERROR request: an Invoke of the peer failed. TCAP_WRONG_STATE, TCAP_BAD_OID,
 * TCAP_BAD_PARAMETER. */
TCAP_MUST_CHECK tcap_status tcap_u_error(tcap *engine, uint32_t dialogue, int invoke_id,
                                         tcap_code error, tcap_octets parameter);

/* TC-U-REJECT request: a component of the peer is rejected. `invoke_id`: TCAP_NO_ID where it isn't
 * known; `problem`: a tcap_problem, or another of these four kinds with a code to 127.
 * TCAP_WRONG_STATE. */
TCAP_MUST_CHECK tcap_status tcap_u_reject(tcap *engine, uint32_t dialogue, int invoke_id,
                                          int problem);

/* TC-U-CANCEL request: an invocation of this side is given up: its number. This closes it, so no
 * output closes it, and none names it but a TC-RESULT-NL that waits already.
 * TCAP_UNKNOWN_DIALOGUE, TCAP_NO_SUCH_INVOCATION, no others. */
TCAP_MUST_CHECK tcap_status tcap_u_cancel(tcap *engine, uint32_t dialogue, int invoke_id,
                                          uint64_t *number);

/* ---- dialogue handling (Q.771): sends what is queued. `portion`: NULL where there is none. Each
 * may be refused by TCAP_MOMENT_TOO_LATE, TCAP_UNKNOWN_DIALOGUE, TCAP_WRONG_STATE, TCAP_BAD_OID (of
 * a context), TCAP_BAD_PARAMETER (of user information), TCAP_NO_CONTEXT, TCAP_TOO_LONG and
 * TCAP_OUT_OF_MEMORY, beside what it names. */

/* TC-UNI request: a Unidirectional to an address, 0 to 255 octets, and the dialogue is over: each
 * Invoke that it carries is told by TCAP_CLOSED_IND. TCAP_NOT_CLASS_FOUR. */
TCAP_MUST_CHECK tcap_status tcap_uni(tcap *engine, uint64_t now_ms, uint32_t dialogue,
                                     tcap_octets to, const tcap_portion *portion);

/* TC-BEGIN request: a Begin to an address, 0 to 255 octets, which the dialogue keeps. */
TCAP_MUST_CHECK tcap_status tcap_begin(tcap *engine, uint64_t now_ms, uint32_t dialogue,
                                       tcap_octets to, const tcap_portion *portion);

/* TC-CONTINUE request. A context and user information only in the first answer to a Begin that has
 * a context; where that answer names none, it has that of the Begin. */
TCAP_MUST_CHECK tcap_status tcap_continue(tcap *engine, uint64_t now_ms, uint32_t dialogue,
                                          const tcap_portion *portion);

/* TC-END request: the dialogue is over, and each invocation that was open is told by
 * TCAP_CLOSED_IND. Of context and user information as tcap_continue; none by a prearranged end. */
TCAP_MUST_CHECK tcap_status tcap_end(tcap *engine, uint64_t now_ms, uint32_t dialogue,
                                     tcap_termination termination, const tcap_portion *portion);

/* TC-U-ABORT request: the dialogue is over, and each invocation that was open is told by
 * TCAP_CLOSED_IND. An Abort is sent if the peer knows the dialogue. */
TCAP_MUST_CHECK tcap_status tcap_u_abort(tcap *engine, uint64_t now_ms, uint32_t dialogue,
                                         tcap_abort_reason reason, tcap_octets info);

/* ---- what is to be sent and told */

/* What an output is. Beside each: the fields that it sets, besides `event` and `is_last`; (own): no
 * primitive of Q.771. */
typedef enum {
  TCAP_SEND = 1,           /* address, message: to be sent there, an N-UNITDATA request */
  TCAP_UNI_IND = 2,        /* TC-UNI: portion */
  TCAP_BEGIN_IND = 3,      /* TC-BEGIN: dialogue, portion */
  TCAP_CONTINUE_IND = 4,   /* TC-CONTINUE: dialogue, portion */
  TCAP_END_IND = 5,        /* TC-END: dialogue, portion */
  TCAP_U_ABORT_IND = 6,    /* TC-U-ABORT: dialogue, pdu, and by that as tcap_pdu says */
  TCAP_P_ABORT_IND = 7,    /* TC-P-ABORT: dialogue, cause: a tcap_abort_cause */
  TCAP_INVOKE_IND = 8,     /* TC-INVOKE: dialogue, invoke_id, linked_id, code, parameter */
  TCAP_RESULT_L_IND = 9,   /* TC-RESULT-L: dialogue, number, invoke_id, code, parameter; closes */
  TCAP_RESULT_NL_IND = 10, /* TC-RESULT-NL: dialogue, number, invoke_id, code, parameter */
  TCAP_U_ERROR_IND = 11,   /* TC-U-ERROR: dialogue, number, invoke_id, code, parameter; closes */
  TCAP_L_CANCEL_IND = 12,  /* TC-L-CANCEL: dialogue, number, invoke_id: its timer ran out; closes */
  TCAP_CLOSED_IND = 13,    /* (own) dialogue, number, invoke_id: its dialogue is over; closes */
  TCAP_L_REJECT_IND = 14,  /* TC-L-REJECT, by the component sublayer here: dialogue, invoke_id,
                            * problem, number where it closes */
  TCAP_R_REJECT_IND = 15,  /* TC-R-REJECT, by that of the peer: the same */
  TCAP_U_REJECT_IND = 16,  /* TC-U-REJECT, by the peer's user: the same */
  TCAP_DROPPED = 17        /* (own) a message was dropped: cause: a tcap_drop_cause */
} tcap_kind;

/* Why the provider aborted: 0 to 255 as received (Q.773, P-Abort cause); above that, own. */
typedef enum {
  TCAP_P_UNRECOGNIZED_MESSAGE_TYPE = 0,
  TCAP_P_UNRECOGNIZED_TRANSACTION_ID = 1,
  TCAP_P_BADLY_FORMATTED_TRANSACTION_PORTION = 2,
  TCAP_P_INCORRECT_TRANSACTION_PORTION = 3,
  TCAP_P_RESOURCE_LIMITATION = 4,
  TCAP_P_ABNORMAL_DIALOGUE = 256,  /* the dialogue portion wasn't as it should be */
  TCAP_P_NO_COMMON_DIALOGUE = 257, /* there is no common dialogue portion */
  TCAP_P_IDLE = 258                /* the dialogue stood still for idle_ms */
} tcap_abort_cause;

/* Why a message was dropped (own). */
typedef enum {
  TCAP_DROP_TOO_LONG = 0,    /* it is above 65,535 octets */
  TCAP_DROP_BAD_MESSAGE = 1, /* it can't be read, nor answered */
  TCAP_DROP_NO_DIALOGUE = 2, /* it is an End or an Abort to a dialogue that doesn't stand */
  TCAP_DROP_BAD_DIALOGUE = 3 /* it is a Unidirectional whose dialogue portion is abnormal */
} tcap_drop_cause;

/* The dialogue PDU of an Abort by the user. Beside each: what it sets (Q.773, Dialogue portion). An
 * Abort with an AARQ, an AUDT, an AARE that accepts or an ABRT by the provider is abnormal today,
 * and told as TCAP_P_ABORT_IND. */
typedef enum {
  TCAP_PDU_NONE = 0,   /* the Abort has none */
  TCAP_PDU_AARQ = 1,   /* portion, is_version1 */
  TCAP_PDU_AUDT = 2,   /* portion, is_version1 */
  TCAP_PDU_AARE = 3,   /* portion, is_version1, is_accepted, diagnostic */
  TCAP_PDU_ABRT = 4,   /* portion.info, is_by_provider */
  TCAP_PDU_FOREIGN = 5 /* portion.info: an EXTERNAL of another abstract syntax, whole */
} tcap_pdu;

/* The result source diagnostic of an AARE: that of the user, or 256 more that of the provider. */
typedef enum {
  TCAP_DIAGNOSTIC_USER_NULL = 0,
  TCAP_DIAGNOSTIC_USER_NO_REASON = 1,
  TCAP_DIAGNOSTIC_USER_CONTEXT_NOT_SUPPORTED = 2,
  TCAP_DIAGNOSTIC_PROVIDER_NULL = 256,
  TCAP_DIAGNOSTIC_PROVIDER_NO_REASON = 257,
  TCAP_DIAGNOSTIC_PROVIDER_NO_COMMON_DIALOGUE = 258
} tcap_diagnostic;

/* An output. A field that its kind doesn't set is 0, octets absent, an identifier TCAP_NO_ID. */
typedef struct {
  uint64_t event;         /* which event told it, from 1: moments, messages and requests that were
                           * accepted are counted, each; one with now_ms is two */
  uint64_t number;        /* of the invocation, as tcap_invoke gave it */
  tcap_octets address;    /* where the message goes */
  tcap_octets message;    /* what is sent */
  tcap_portion portion;   /* of the dialogue portion */
  tcap_code code;         /* of the operation or the error */
  tcap_octets parameter;  /* the octets of one BER element */
  uint32_t dialogue;      /* its identifier; 0: of none, as in a Unidirectional */
  int16_t invoke_id;      /* -128 to 127 */
  int16_t linked_id;      /* -128 to 127 */
  uint16_t problem;       /* a tcap_problem, or another code of its kind */
  uint16_t cause;         /* a tcap_abort_cause or tcap_drop_cause */
  uint16_t diagnostic;    /* a tcap_diagnostic, or another number of its source */
  uint8_t kind;           /* a tcap_kind */
  uint8_t pdu;            /* a tcap_pdu */
  uint8_t closes;         /* 1: it closes the invocation `number`, and no later output names it */
  uint8_t is_last;        /* 1: the last output of its event: all of a message is told */
  uint8_t has_context;    /* 1: portion.context is there */
  uint8_t has_parameter;  /* 1: `parameter` is there */
  uint8_t is_version1;    /* 1: protocol version 1 is among the versions of the PDU */
  uint8_t is_accepted;    /* 1: the AARE accepts; 0: it rejects */
  uint8_t is_by_provider; /* 1: the ABRT is by the dialogue service provider; 0: by the user */
} tcap_output;

/* The output that comes next, which waits no longer; NULL where nothing waits. Takes no memory, so
 * it is never refused; it may make blocks smaller, by `grow`, and give some back. */
const tcap_output *tcap_next(tcap *engine);

/* ---- what is seen of an engine: takes no memory and changes nothing. Of NULL, 0 is seen */

/* The state of the dialogue with this identifier. */
tcap_state tcap_state_of(const tcap *engine, uint32_t dialogue);

/* How many dialogues stand. */
size_t tcap_dialogues(const tcap *engine);

/* For how many outputs tcap_advance finds room at this moment: 0 where it tells nothing, and else
 * at least as many as it tells. */
size_t tcap_due(const tcap *engine, uint64_t now_ms);

/* The identifier of the next dialogue and the number of the next invocation: keep them to open the
 * next engine where this one left off. TCAP_BAD_ARGUMENT: one is NULL. */
TCAP_MUST_CHECK tcap_status tcap_next_identifiers(const tcap *engine, uint32_t *dialogue,
                                                  uint64_t *number);

#ifdef __cplusplus
}
#endif

#endif
