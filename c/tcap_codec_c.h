/* tcap_codec_c.h: the exports of crates/tcap_c that want no handle (src/codec.rt), which c/tcap_codec.c alone
 * calls. Octets are a pointer, never NULL, and a length. Memory is that of tcap_c.h. */
#ifndef TCAP_CODEC_C_H
#define TCAP_CODEC_C_H

#include <stdbool.h>
#include <stddef.h>
#include <stdint.h>

/* The octets of both stand in the room, one behind the other: 8 suffice. */
uint8_t tcap_c_front(const uint8_t *message, size_t message_len, size_t *origin_count,
                     size_t *destination_count, uint8_t *room, size_t room_len);

uint8_t tcap_c_oid_of_text(const uint8_t *text, size_t text_len, size_t *count, uint8_t *room,
                           size_t room_len);
uint8_t tcap_c_text_of_oid(const uint8_t *octets, size_t octets_len, size_t *count, uint8_t *room,
                           size_t room_len);

/* The bool must be a true one before the call. */
uint8_t tcap_c_show(const uint8_t *message, size_t message_len, bool *is_good, size_t *count,
                    uint8_t *room, size_t room_len);
uint8_t tcap_c_check(const uint8_t *message, size_t message_len, bool *is_good, size_t *count,
                     uint8_t *room, size_t room_len);
uint8_t tcap_c_canon(const uint8_t *message, size_t message_len, bool *is_good, size_t *count,
                     uint8_t *room, size_t room_len);

#endif
