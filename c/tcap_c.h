/* tcap_c.h: the exports of crates/tcap_c, which c/tcap.c alone calls, and what they call.
 *
 * Octets are a pointer, never NULL, and a length. A number out of its range is TCAP_C_BAD_ARGUMENT.
 * Each export is one event, one output that is taken or one getter, but tcap_c_receive two events: the
 * clock moves by tcap_c_advance and, before octets are received, by that. A call that doesn't answer TCAP_C_OK has changed
 * and written nothing, but that of tcap_c_receive the clock may have moved. */
#ifndef TCAP_C_H
#define TCAP_C_H

#include <stdbool.h>
#include <stddef.h>
#include <stdint.h>

/* All zero: closed. One variable, never a copy of it: each call gets it as the last one left it. */
typedef struct {
  void *at;
  bool is_open;
} tcap_c_handle;

/* What a call answers. 1 to 15: the refusals of an engine, numbered as in tcap.h. */
enum {
  TCAP_C_OK = 0,
  TCAP_C_BAD_ARGUMENT = 16,
  TCAP_C_NOT_OPEN = 17,       /* the handle is closed; of tcap_c_open: it is open */
  TCAP_C_NOTHING = 18,        /* nothing waits, or no timer runs */
  TCAP_C_ROOM_TOO_SMALL = 19, /* the octets of the output that comes next don't fit */
};

/* Where a part of an output stands in the room, and how many octets it has. */
typedef struct {
  size_t at, len;
} tcap_c_place;

/* An output, laid out as tcap_output of tcap.h, with places where that has pointers. Its octets stand at the front of
 * the room, part after part. */
typedef struct {
  uint64_t event, number;
  tcap_c_place address, message;
  struct {
    tcap_c_place context, info;
  } portion;
  struct {
    uint32_t kind;
    int32_t local;
    tcap_c_place global;
  } code;
  tcap_c_place parameter;
  uint32_t dialogue;
  int16_t invoke_id, linked_id;
  uint16_t problem, cause, diagnostic;
  uint8_t kind, pdu;
  bool closes, is_last, has_context, has_parameter, is_version1, is_accepted, is_by_provider;
  bool has_dialogue; /* in an octet that tcap_output doesn't use */
} tcap_c_out;

/* A block of memory: whether it is given, and where; never NULL. */
typedef struct {
  bool ok;
  void *at;
} rattle_block;

/* What both sides rely on (crates/tcap_c/src/output_numbers.rt). */
#define TCAP_C_AT(type, field, place) _Static_assert(offsetof(type, field) == (place), #field)
_Static_assert(sizeof(int) == 4 && sizeof(size_t) == 8 && sizeof(bool) == 1, "numbers");
_Static_assert(sizeof(tcap_c_handle) == 16 && sizeof(tcap_c_out) == 144, "the structs");
_Static_assert(sizeof(rattle_block) == 16, "a block");
TCAP_C_AT(tcap_c_handle, is_open, 8);
TCAP_C_AT(rattle_block, at, 8);
TCAP_C_AT(tcap_c_out, number, 8);
TCAP_C_AT(tcap_c_out, address, 16);
TCAP_C_AT(tcap_c_out, message, 32);
TCAP_C_AT(tcap_c_out, portion.context, 48);
TCAP_C_AT(tcap_c_out, portion.info, 64);
TCAP_C_AT(tcap_c_out, code.kind, 80);
TCAP_C_AT(tcap_c_out, code.local, 84);
TCAP_C_AT(tcap_c_out, code.global, 88);
TCAP_C_AT(tcap_c_out, parameter, 104);
TCAP_C_AT(tcap_c_out, dialogue, 120);
TCAP_C_AT(tcap_c_out, invoke_id, 124);
TCAP_C_AT(tcap_c_out, linked_id, 126);
TCAP_C_AT(tcap_c_out, problem, 128);
TCAP_C_AT(tcap_c_out, cause, 130);
TCAP_C_AT(tcap_c_out, diagnostic, 132);
TCAP_C_AT(tcap_c_out, kind, 134);
TCAP_C_AT(tcap_c_out, pdu, 135);
TCAP_C_AT(tcap_c_out, closes, 136);
TCAP_C_AT(tcap_c_out, is_last, 137);
TCAP_C_AT(tcap_c_out, has_context, 138);
TCAP_C_AT(tcap_c_out, has_parameter, 139);
TCAP_C_AT(tcap_c_out, is_version1, 140);
TCAP_C_AT(tcap_c_out, is_accepted, 141);
TCAP_C_AT(tcap_c_out, is_by_provider, 142);
TCAP_C_AT(tcap_c_out, has_dialogue, 143);

/* ---- an engine is opened and closed */
uint8_t tcap_c_open(tcap_c_handle *, uint32_t max_dialogues, uint32_t max_message,
                    uint64_t reject_ms, uint64_t idle_ms, uint32_t first_dialogue,
                    uint64_t first_number);
void tcap_c_close(tcap_c_handle *); /* of a closed one: does nothing */

/* ---- events */
uint8_t tcap_c_receive(tcap_c_handle *, uint64_t now, const uint8_t *from, size_t from_len,
                       const uint8_t *message, size_t message_len);
uint8_t tcap_c_advance(tcap_c_handle *, uint64_t now);

/* ---- component handling */
uint8_t tcap_c_new_dialogue(tcap_c_handle *, uint32_t *dialogue);
uint8_t tcap_c_invoke(tcap_c_handle *, uint32_t dialogue, int32_t invoke_id, int32_t linked_id,
                      int32_t op_class, int32_t code_kind, int32_t local, const uint8_t *global,
                      size_t global_len, const uint8_t *parameter, size_t parameter_len,
                      uint64_t timeout_ms, uint64_t *number);
uint8_t tcap_c_result_l(tcap_c_handle *, uint32_t dialogue, int32_t invoke_id, int32_t code_kind,
                        int32_t local, const uint8_t *global, size_t global_len,
                        const uint8_t *parameter, size_t parameter_len);
uint8_t tcap_c_result_nl(tcap_c_handle *, uint32_t dialogue, int32_t invoke_id, int32_t code_kind,
                         int32_t local, const uint8_t *global, size_t global_len,
                         const uint8_t *parameter, size_t parameter_len);
uint8_t tcap_c_u_error(tcap_c_handle *, uint32_t dialogue, int32_t invoke_id, int32_t code_kind,
                       int32_t local, const uint8_t *global, size_t global_len,
                       const uint8_t *parameter, size_t parameter_len);
uint8_t tcap_c_u_reject(tcap_c_handle *, uint32_t dialogue, int32_t invoke_id, int32_t problem);
uint8_t tcap_c_u_cancel(tcap_c_handle *, uint32_t dialogue, int32_t invoke_id, uint64_t *number);

/* ---- dialogue handling */
uint8_t tcap_c_uni(tcap_c_handle *, uint32_t dialogue, const uint8_t *to, size_t to_len,
                   const uint8_t *context, size_t context_len, const uint8_t *info,
                   size_t info_len);
uint8_t tcap_c_begin(tcap_c_handle *, uint32_t dialogue, const uint8_t *to, size_t to_len,
                     const uint8_t *context, size_t context_len, const uint8_t *info,
                     size_t info_len);
uint8_t tcap_c_continue(tcap_c_handle *, uint32_t dialogue, const uint8_t *context,
                        size_t context_len, const uint8_t *info, size_t info_len);
uint8_t tcap_c_end(tcap_c_handle *, uint32_t dialogue, int32_t termination, const uint8_t *context,
                   size_t context_len, const uint8_t *info, size_t info_len);
uint8_t tcap_c_u_abort(tcap_c_handle *, uint32_t dialogue, int32_t reason, const uint8_t *info,
                       size_t info_len);

/* ---- the output that comes next: the struct must hold true bools before the call */
uint8_t tcap_c_next(tcap_c_handle *, tcap_c_out *, uint8_t *room, size_t room_len);

/* ---- getters: take no memory and change nothing */
uint8_t tcap_c_next_timer(tcap_c_handle *, uint64_t *at);
uint8_t tcap_c_state_of(tcap_c_handle *, uint32_t dialogue); /* 0 unknown to 4 active */
size_t tcap_c_dialogues(tcap_c_handle *);                    /* 0 of a closed one */
uint8_t tcap_c_next_identifiers(tcap_c_handle *, uint32_t *dialogue, uint64_t *number);
uint8_t tcap_c_due(tcap_c_handle *, uint64_t now, size_t *count);

/* ---- what the archive calls, and nothing else does: memory. Blocks are aligned to 16, and `align`
 * is at most that. The size may be 0; the block of it is one that can be given back. Where a block
 * isn't given, the old one is as it was. */
rattle_block rattle_alloc(size_t size, size_t align);
rattle_block rattle_realloc(void *block, size_t old_size, size_t size, size_t align);
void rattle_dealloc(void *block);

#endif
