/* tcap_codec.h: what TCAP octets are, without an engine (ITU-T Q.773, X.690). Link with -ltcap.
 *
 * Each call takes octets of yours, writes into variables and rooms of yours, and keeps nothing. Calls
 * may come from several threads at once. tcap_show, tcap_check and tcap_canon take memory as an engine
 * does (tcap_set_memory), and give all of it back before they answer; the others take none.
 * Rooms. What is given stands at the front of `room`, `room_len` octets of yours, and what lay behind
 *   it stays. `len` gets how many octets it has. Where they are more than room_len, the call answers
 *   TCAP_ROOM_TOO_SMALL, and the room is as it was: take one of `len` octets and call again. A text
 *   has no null character at its end. `room` may be NULL where room_len is 0.
 * Refusals. Any other status than TCAP_OK and TCAP_ROOM_TOO_SMALL: nothing is written. */
#ifndef TCAP_CODEC_H
#define TCAP_CODEC_H

#include "tcap.h"

#ifdef __cplusplus
extern "C" {
#endif

/* The transaction identifiers at the front of a message (Q.773, Transaction ID). */
struct tcap_ids {
  uint8_t origin[4];       /* the originating one: its octets from the front on, 0 behind them */
  uint8_t destination[4];  /* the destination one: the same */
  uint8_t origin_len;      /* how many octets it has, 1 to 4; 0: none can be read */
  uint8_t destination_len; /* the same */
};

/* Reads the transaction identifiers of a message, as a router needs them, also where what stands
 * behind them is faulty or missing: an originating one that is whole, and then a destination one.
 * `message`: any octets. TCAP_BAD_ARGUMENT: NULL. No other refusal. */
TCAP_MUST_CHECK tcap_status tcap_front(tcap_octets message, struct tcap_ids *ids);

/* The contents octets of the object identifier that a text names, as "0.4.0.0.1.0.1.3": what
 * tcap_portion and tcap_code take. `text`: decimal numbers without leading zeros, full stops between
 * them; each at most 4,294,967,295, behind a first number 2 at most 4,294,967,215. At most 255 octets
 * come of it. TCAP_BAD_OID: the text names none. TCAP_ROOM_TOO_SMALL; TCAP_BAD_ARGUMENT: NULL. */
TCAP_MUST_CHECK tcap_status tcap_oid_from_text(tcap_octets text, uint8_t *room, size_t room_len,
                                               size_t *len);

/* The text of an object identifier's contents octets; at most 2,816 characters come of it.
 * TCAP_BAD_OID: they are none, or a number in it is above 4,294,967,295. TCAP_ROOM_TOO_SMALL;
 * TCAP_BAD_ARGUMENT: NULL. */
TCAP_MUST_CHECK tcap_status tcap_oid_to_text(tcap_octets oid, char *room, size_t room_len,
                                             size_t *len);

/* Shows a message line by line, as the command `tcap show` prints it: each line ends by a line feed.
 * Of octets that are no message, the verdict alone. `*is_good`: 1 where the verdict is good, else 0;
 * written also where the room is too small. `message`: any octets. TCAP_OUT_OF_MEMORY: the same call
 * again may succeed. TCAP_ROOM_TOO_SMALL; TCAP_BAD_ARGUMENT: NULL. */
TCAP_MUST_CHECK tcap_status tcap_show(tcap_octets message, char *room, size_t room_len, size_t *len,
                                      int *is_good);

/* The verdict on a message, as `tcap check` prints it: one line. The rest as of tcap_show. */
TCAP_MUST_CHECK tcap_status tcap_check(tcap_octets message, char *room, size_t room_len,
                                       size_t *len, int *is_good);

/* The canonical form of a message as `tcap canon` prints it: one line of lower case hexadecimal where
 * `*is_good` is 1; else the verdict. The rest as of tcap_show. */
TCAP_MUST_CHECK tcap_status tcap_canon(tcap_octets message, char *room, size_t room_len,
                                       size_t *len, int *is_good);

#ifdef __cplusplus
}
#endif

#endif
