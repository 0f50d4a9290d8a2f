/* What tcap_codec.h gives of octets: messages by hand (Q.773, X.690) beside the texts of docs/FORMATS.md, in rooms that
 * fit, that are larger and that are too small; what is no message, no text and no object identifier; NULL; and memory
 * that is refused. Exits 1 where something else is given. */
#include "common.h"

#include "../../include/tcap_codec.h"

typedef tcap_status call(tcap_octets, char *, size_t, size_t *, int *);
static int rows;

/* Octets from hexadecimal. */
static uint8_t octets_at[512];
static tcap_octets hex(const char *digits) {
  size_t len = strlen(digits) / 2;
  NEED(len <= sizeof octets_at);
  for (size_t i = 0; i < len; i++) {
    const char two[3] = {digits[2 * i], digits[2 * i + 1], 0};
    octets_at[i] = (uint8_t)strtoul(two, NULL, 16);
  }
  return octets(octets_at, len);
}

/* ---- texts: a room of each length up to the text's and above */
static void text(call *of, const char *message, const char *wanted, int wanted_good) {
  size_t needed = strlen(wanted);
  tcap_octets m = hex(message);
  char room[2048], before[2048];
  NEED(needed + 2 <= sizeof room);
  memset(before, '#', sizeof before);
  for (size_t room_len = 0; room_len <= needed + 2; room_len++, rows++) {
    size_t len = 4711;
    int is_good = 7;
    memcpy(room, before, sizeof room);
    tcap_status status = of(m, room_len ? room : NULL, room_len, &len, &is_good);
    NEED(status == (room_len < needed ? TCAP_ROOM_TOO_SMALL : TCAP_OK));
    NEED(len == needed && is_good == wanted_good);
    NEED(memcmp(room, status ? before : wanted, status ? sizeof room : needed) == 0);
    NEED(memcmp(room + needed, before + needed, sizeof room - needed) == 0);
    NEED(blocks_held == 0);
  }
}
/* Each request for memory refused in turn, until none is. */
static void refused(call *of, const char *message) {
  char room[2048] = "#";
  for (long at = 1;; at++, rows++) {
    size_t len = 4711;
    int is_good = 7;
    blocks_asked = 0, refuse_at = at;
    tcap_status status = of(hex(message), room, sizeof room, &len, &is_good);
    NEED(blocks_held == 0);
    if (status == TCAP_OK) break;
    NEED(status == TCAP_OUT_OF_MEMORY && len == 4711 && is_good == 7 && room[0] == '#' && at < 100);
  }
  NEED(refuse_at > 1);
  refuse_at = 0;
}
static void texts(void) {
  static const char location[] =
      "624E4804000000016B1E281C060700118605010101A011600F80020780A1090607040000010001036C26A124020101020102301C0408321405"
      "00000000F1810791447700091000040791447700091000";
  static const char short_lengths[] =
      "624e4804000000016b1e281c060700118605010101a011600f80020780a1090607040000010001036c26a124020101020102301c0408321405"
      "00000000f1810791447700091000040791447700091000\n";
  text(tcap_show, location,
       "begin\n  otid 00000001\n  dialogue 30\n    aarq version yes context 04000001000103 info -\n  components 38\n"
       "    invoke 1 linked - op local 2 param 301c040832140500000000f1810791447700091000040791447700091000\n",
       1);
  text(tcap_check, location, "good\n", 1);
  text(tcap_canon, location, short_lengths, 1);
  text(tcap_show, "62810348810107", "fault badly formatted\n", 0); /* the length is of 3 octets, and 4 stand there */
  text(tcap_canon, "62810448810107", "6203480107\n", 1);
  text(tcap_show, "650648010749010A", "continue\n  otid 07\n  dtid 0a\n", 1);
  text(tcap_show, "6206490105" "4A0104", "fault incorrect\n", 0);
  text(tcap_show, "6706490105" "4A0104", "abort\n  dtid 05\n  cause 4\n", 1);
  text(tcap_show, "6207480107" "6C02A900", "begin\n  otid 07\n  components 2\n    faulty - general 0\n", 0);
  text(tcap_check, "6207480107" "6C02A900", "fault component 1\n", 0);
  text(tcap_canon, "6207480107" "6C02A900", "fault component 1\n", 0);
  text(tcap_check, "6303480107", "fault unknown type\n", 0);
  refused(tcap_show, location), refused(tcap_check, location), refused(tcap_canon, location);
}

/* ---- transaction identifiers */
static void front(const char *message, const char *origin, const char *destination) {
  struct tcap_ids ids, wanted;
  memset(&ids, 0xEE, sizeof ids), memset(&wanted, 0, sizeof wanted);
  tcap_octets o = hex(origin);
  memcpy(wanted.origin, o.at, o.len), wanted.origin_len = (uint8_t)o.len;
  o = hex(destination);
  memcpy(wanted.destination, o.at, o.len), wanted.destination_len = (uint8_t)o.len;
  NEED(tcap_front(hex(message), &ids) == TCAP_OK && memcmp(&ids, &wanted, sizeof ids) == 0);
  rows++;
}
static void fronts(void) {
  front("6203480107", "07", "");                                 /* a Begin */
  front("650C48040000000149040000000A", "00000001", "0000000A"); /* a Continue */
  front("6403490105", "", "05");                                 /* an End */
  front("652048020102490401020304FF", "0102", "01020304");       /* 32 octets are stated, and 11 stand there */
  front("65074801074904010203", "07", "");                       /* of the destination one octet is missing */
  front("620748050102030405", "", "");                           /* 5 octets are no identifier */
  front("420348010748", "", ""), front("62", "", ""), front("", "", "");
}

/* ---- object identifiers */
static void oid(const char *dotted, const char *contents) {
  uint8_t room[300];
  char back[3000];
  size_t len = 4711, needed = strlen(contents) / 2, back_len = 4711;
  memset(room, 0xEE, sizeof room), memset(back, '#', sizeof back);
  if (needed) {
    NEED(tcap_oid_from_text(octets(dotted, strlen(dotted)), room, needed - 1, &len) == TCAP_ROOM_TOO_SMALL);
    NEED(len == needed && room[0] == 0xEE);
    NEED(tcap_oid_from_text(octets(dotted, strlen(dotted)), room, needed, &len) == TCAP_OK && len == needed);
    NEED(memcmp(room, hex(contents).at, len) == 0 && room[len] == 0xEE);
    NEED(tcap_oid_to_text(octets(room, len), back, strlen(dotted) - 1, &back_len) == TCAP_ROOM_TOO_SMALL);
    NEED(back_len == strlen(dotted) && back[0] == '#');
    NEED(tcap_oid_to_text(octets(room, len), back, sizeof back, &back_len) == TCAP_OK);
    NEED(back_len == strlen(dotted) && memcmp(back, dotted, back_len) == 0 && back[back_len] == '#');
  } else {
    NEED(tcap_oid_from_text(octets(dotted, strlen(dotted)), room, sizeof room, &len) == TCAP_BAD_OID);
    NEED(len == 4711 && room[0] == 0xEE);
  }
  rows++;
}
static void oids(void) {
  static const char *const none[] = {"", "1", "3.1", "1.40", "01.2", "1.2.", ".1.2", "1..2", "1.2x", "1.4294967296", "\xFF", "1.2\xC3\xA9"};
  static const char *const no_contents[] = {"", "88", "8001", "9080808000"};
  oid("0.4.0.0.1.0.1.3", "04000001000103"), oid("2.999.3", "883703"), oid("1.39", "4F"), oid("2.4294967215", "8FFFFFFF7F");
  for (size_t i = 0; i < sizeof none / sizeof *none; i++) oid(none[i], "");
  for (size_t i = 0; i < sizeof no_contents / sizeof *no_contents; i++, rows++) {
    char room[8] = "#";
    size_t len = 4711;
    NEED(tcap_oid_to_text(hex(no_contents[i]), room, sizeof room, &len) == TCAP_BAD_OID && len == 4711 && room[0] == '#');
  }
}

/* ---- NULL */
static void nulls(void) {
  static call *const calls[] = {tcap_show, tcap_check, tcap_canon};
  struct tcap_ids ids;
  uint8_t room[64] = {0};
  char text_room[64] = "#";
  size_t len = 4711;
  int is_good = 7;
  for (size_t i = 0; i < 3; i++, rows++) {
    NEED(calls[i](octets(NULL, 1), text_room, 64, &len, &is_good) == TCAP_BAD_ARGUMENT);
    NEED(calls[i](NOTHING, NULL, 1, &len, &is_good) == TCAP_BAD_ARGUMENT);
    NEED(calls[i](NOTHING, text_room, 64, NULL, &is_good) == TCAP_BAD_ARGUMENT);
    NEED(calls[i](NOTHING, text_room, 64, &len, NULL) == TCAP_BAD_ARGUMENT);
  }
  NEED(tcap_front(octets(NULL, 1), &ids) == TCAP_BAD_ARGUMENT && tcap_front(NOTHING, NULL) == TCAP_BAD_ARGUMENT);
  NEED(tcap_oid_from_text(octets(NULL, 1), room, 64, &len) == TCAP_BAD_ARGUMENT);
  NEED(tcap_oid_from_text(TEXT("1.2"), NULL, 1, &len) == TCAP_BAD_ARGUMENT);
  NEED(tcap_oid_from_text(TEXT("1.2"), room, 64, NULL) == TCAP_BAD_ARGUMENT);
  NEED(tcap_oid_to_text(octets(NULL, 1), text_room, 64, &len) == TCAP_BAD_ARGUMENT);
  NEED(tcap_oid_to_text(TEXT("\x2A"), NULL, 1, &len) == TCAP_BAD_ARGUMENT);
  NEED(tcap_oid_to_text(TEXT("\x2A"), text_room, 64, NULL) == TCAP_BAD_ARGUMENT);
  NEED(len == 4711 && is_good == 7 && text_room[0] == '#' && room[0] == 0);
  NEED(tcap_oid_from_text(TEXT("1.2"), NULL, 0, &len) == TCAP_ROOM_TOO_SMALL && len == 1);
  NEED(!strcmp(tcap_status_text(TCAP_ROOM_TOO_SMALL), "the room is too small"));
  NEED(!strcmp(tcap_status_text((tcap_status)17), "no status of this library"));
  NEED(tcap_front(NOTHING, &ids) == TCAP_OK && !ids.origin_len && !ids.destination_len);
  rows++;
}

int main(void) {
  NEED(tcap_set_memory(take_counted, grow_counted, give_back_counted) == TCAP_OK);
  texts(), fronts(), oids(), nulls();
  NEED(blocks_held == 0);
  printf("%d rows: as they should be\n", rows);
  return 0;
}
