/* The messages of bench.c that are made, and don't stand in data/messages.txt. */
#include <stddef.h>
#include <stdint.h>
#include <string.h>

extern uint8_t message[];
extern size_t length;

/* Appends octets to the message. */
void add(const char *octets, size_t count) {
  memcpy(message + length, octets, count);
  length += count;
}

/* A head with two length octets. */
static void add_head(int tag, size_t content) {
  char head[] = {(char)tag, (char)0x82, (char)(content >> 8), (char)content};
  add(head, sizeof head);
}

static void make_invokes(unsigned count) {
  add_head(0x62, 6 + 4 + 16 * (size_t)count);
  add("\x48\x04\0\0\0\1", 6);
  add_head(0x6c, 16 * (size_t)count);
  for (unsigned i = 0; i < count; i++) {
    char invoke[] = "\xa1\x0e\x02\x01\x01\x02\x01\x02\x30\x06\x04\x04ZZZZ";
    invoke[4] = (char)i;
    add(invoke, 16);
  }
}

static void make_results(unsigned count) {
  add_head(0x62, 6 + 4 + 5 * (size_t)count);
  add("\x48\x04\0\0\0\1", 6);
  add_head(0x6c, 5 * (size_t)count);
  for (unsigned i = 0; i < count; i++) add((char[]){(char)0xa2, 3, 2, 1, (char)(i % 128)}, 5);
}

static void make_definite(unsigned depth) {
  size_t head = 4, inside = 8000, parameter = head * depth + head + inside;
  add_head(0x62, 6 + head + head + 6 + parameter);
  add("\x48\x04\0\0\0\1", 6);
  add_head(0x6c, head + 6 + parameter);
  add_head(0xa1, 6 + parameter);
  add("\x02\x01\x01\x02\x01\x02", 6);
  for (unsigned i = 1; i <= depth; i++) add_head(0x30, parameter - head * i);
  add_head(0x04, inside);
  memset(message + length, 'Z', inside);
  length += inside;
}

static void add_nested(unsigned depth, unsigned elements) {
  for (unsigned i = 0; i < depth; i++) add("\x30\x80", 2);
  for (unsigned i = 0; i < elements; i++) add("\x04\x02ZZ", 4);
  for (unsigned i = 0; i < depth; i++) add("\0\0", 2);
}

static void make_inside(unsigned depth) {
  add("\x62\x80\x48\x04\0\0\0\1\x6c\x80\xa1\x80\x02\x01\x01\x02\x01\x02", 18);
  add_nested(depth, 15000);
  add("\0\0\0\0\0\0", 6);
}

static void make_indefinite(unsigned depth) {
  add("\x64\x80\x49\x04\0\0\0\1\x6c\x80\xa2\x80\x02\x01\x01\x30\x80\x02\x01\x02", 20);
  add_nested(depth, 1000);
  add("\0\0\0\0\0\0\0\0", 8);
}

/* The peer's answer to a Begin with Invoke 1: its result, in an End or in a Continue. */
static void make_answer(int last) {
  if (last) add("\x64\x0d\x49\x04\0\0\0\1", 8);
  else add("\x65\x13\x48\x04\0\0\0\5\x49\x04\0\0\0\1", 14);
  add("\x6c\x05\xa2\x03\x02\x01\x01", 7);
}

/* Makes the message of the mode, and tells whether it has one that is made. */
int make_message(const char *mode, unsigned size) {
  length = 0;
  if (!strcmp(mode, "invokes")) make_invokes(size);
  else if (!strcmp(mode, "nested")) add_nested(size, 15000);
  else if (!strcmp(mode, "inside")) make_inside(size);
  else if (!strcmp(mode, "definite")) make_definite(size);
  else if (!strcmp(mode, "indefinite")) make_indefinite(size);
  else if (!strcmp(mode, "results")) make_results(size);
  else if (!strcmp(mode, "dialogue")) make_answer(0);
  else if (!strcmp(mode, "ending")) make_answer(1);
  else if (!strcmp(mode, "answer")) make_answer(size == 2);
  else return 0;
  return 1;
}
