/* Prints the layout of the structs of tcap.h and tcap_codec.h, which names.py compares with that of the package for
 * Python: the size of each, and the place and size of each field. */
#include <stddef.h>
#include <stdio.h>

#include <tcap.h>
#include <tcap_codec.h>

#define STRUCT(type) printf(#type " %zu\n", sizeof(type))
#define FIELD(type, name, printed) printf(#type "." printed " %zu %zu\n", offsetof(type, name), sizeof((type){0}.name))
#define LIMIT(name) FIELD(tcap_limits, name, #name)
#define OUTPUT(name) FIELD(tcap_output, name, #name)
#define IDS(name) FIELD(tcap_ids, name, #name)
typedef struct tcap_ids tcap_ids;

int main(void) {
  STRUCT(tcap_limits);
  LIMIT(size), LIMIT(max_dialogues), LIMIT(max_message), LIMIT(reject_ms), LIMIT(idle_ms), LIMIT(first_dialogue);
  LIMIT(first_number);
  STRUCT(tcap_output);
  OUTPUT(event), OUTPUT(number), OUTPUT(address), OUTPUT(message), OUTPUT(portion), OUTPUT(code), OUTPUT(parameter);
  OUTPUT(dialogue), OUTPUT(invoke_id), OUTPUT(linked_id), OUTPUT(problem), OUTPUT(cause), OUTPUT(diagnostic), OUTPUT(kind);
  OUTPUT(pdu), OUTPUT(closes), OUTPUT(is_last), OUTPUT(has_context), OUTPUT(has_parameter), OUTPUT(is_version1);
  OUTPUT(is_accepted), OUTPUT(is_by_provider);
  STRUCT(tcap_ids);
  IDS(origin), IDS(destination), IDS(origin_len), IDS(destination_len);
}
