/* What a program that was compiled with an earlier tcap.h of this soname relies on: no field moves. Only
 * compiled. New fields stand behind the last of these, and its line says where that is. */
#include <assert.h>

#include "../../include/tcap.h"
#include "../../include/tcap_codec.h"

#define AT(type, field, place) static_assert(offsetof(type, field) == (place), #type " " #field)
static_assert(sizeof(tcap_status) == 4 && sizeof(tcap_kind) == 4, "enumerations");
static_assert(sizeof(tcap_octets) == 16 && sizeof(tcap_portion) == 32 && sizeof(tcap_code) == 24, "passed by value");
AT(tcap_octets, at, 0);
AT(tcap_octets, len, 8);
AT(tcap_portion, context, 0);
AT(tcap_portion, info, 16);
AT(tcap_code, kind, 0);
AT(tcap_code, local, 4);
AT(tcap_code, global, 8);
AT(tcap_limits, size, 0);
AT(tcap_limits, max_dialogues, 8);
AT(tcap_limits, max_message, 12);
AT(tcap_limits, reject_ms, 16);
AT(tcap_limits, idle_ms, 24);
AT(tcap_limits, first_dialogue, 32);
AT(tcap_limits, first_number, 40);
static_assert(offsetof(tcap_limits, first_number) + sizeof(uint64_t) == 48, "the first size of tcap_limits");
AT(tcap_output, event, 0);
AT(tcap_output, number, 8);
AT(tcap_output, address, 16);
AT(tcap_output, message, 32);
AT(tcap_output, portion, 48);
AT(tcap_output, code, 80);
AT(tcap_output, parameter, 104);
AT(tcap_output, dialogue, 120);
AT(tcap_output, invoke_id, 124);
AT(tcap_output, linked_id, 126);
AT(tcap_output, problem, 128);
AT(tcap_output, cause, 130);
AT(tcap_output, diagnostic, 132);
AT(tcap_output, kind, 134);
AT(tcap_output, pdu, 135);
AT(tcap_output, closes, 136);
AT(tcap_output, is_last, 137);
AT(tcap_output, has_context, 138);
AT(tcap_output, has_parameter, 139);
AT(tcap_output, is_version1, 140);
AT(tcap_output, is_accepted, 141);
AT(tcap_output, is_by_provider, 142);
static_assert(sizeof(struct tcap_ids) == 10, "tcap_ids has no size of its own");
#define IDS(field, place) static_assert(offsetof(struct tcap_ids, field) == (place), "tcap_ids " #field)
IDS(origin, 0);
IDS(destination, 4);
IDS(origin_len, 8);
IDS(destination_len, 9);
static_assert(TCAP_ROOM_TOO_SMALL == 19, "behind those of an engine, with two numbers between");
