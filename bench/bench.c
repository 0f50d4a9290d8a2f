/* Calls the codec, by crates/tcap_bench, over and over on one message.
 *
 *   bench test                      whether each message is written, and rewritten, as it stands, a feed gives it
 *                                   however it is cut, steps give as many outputs as they should, and traffic
 *                                   depends on its seed
 *   bench call MODE SIZE COUNT      COUNT calls; prints nothing
 *   bench time MODE SIZE COUNT      the same; prints the nanoseconds of one, least of five rounds
 *   bench length MODE SIZE          the bytes of the message
 *   bench hex MODE SIZE             the message in hexadecimal
 *   bench held MODE SIZE            the octets of memory that SIZE dialogues hold which stand (bench-held)
 *
 * MODE read, write, rewrite, element: SIZE is a line of data/messages.txt, counted from 1. MODE invokes: reads a
 * Begin of SIZE Invokes. MODE nested: reads one element of SIZE indefinite elements one in another,
 * with 60,000 bytes inside. MODE inside: reads a Begin, all of indefinite form, with SIZE of them in
 * the parameter of its Invoke. MODE definite: reads a Begin whose Invoke has 8,000 bytes in SIZE elements of
 * definite form one in another. MODE indefinite: reads an End, all of indefinite form, whose result has 4,000
 * bytes in SIZE of them. MODE results: reads a Begin of SIZE results. MODE dialogue, ending: a dialogue is taken
 * SIZE steps far, 1 the Invoke, 2 the Begin, 3 the Continue (ending: the End) with its result, 4 a result queued,
 * 5 the Continue sent.
 * MODE feed4096, feed16, feed1: hands the message to a new feed in pieces of so many octets. MODE
 * stream4096, stream16, stream1: hands 1,000 of it to a new feed. MODE copy: takes memory for the message,
 * copies it there and gives the memory back.
 * MODE answer: reads that message, SIZE 1 the Continue, 2 the End. MODE engine1 to engine6: an engine
 * with SIZE dialogues open does COUNT laps of SIZE steps of that kind; outbox1 to outbox6: by calls that append
 * to one outbox. MODE lapses1, lapses1000: an engine with SIZE Active dialogues does COUNT laps, in which each
 * lapses once, so many at a moment; outbox-lapses1, outbox-lapses1000: into one outbox. MODE invocations1 to invocations3: a dialogue with SIZE invocations Sent does COUNT laps of SIZE steps.
 */
#include <stdint.h>
#include <stdio.h>
#include <stdlib.h>
#include <string.h>
#include <time.h>

struct invocation {
  int8_t id;
  int32_t operation;
  uint32_t start, end;
};

uint64_t tcap_bench_read(const uint8_t *bytes, size_t length);
uint64_t tcap_bench_element(const uint8_t *bytes, size_t length);
uint64_t tcap_bench_feed(uint32_t width, const uint8_t *bytes, size_t length);
size_t tcap_bench_write_begin(uint32_t otid, const uint8_t *context, size_t context_length,
                              const struct invocation *invocations, size_t count,
                              const uint8_t *pool, size_t pool_length, uint8_t *room,
                              size_t room_length);
size_t tcap_bench_write_continue(uint32_t otid, uint32_t dtid, const uint8_t *context,
                                 size_t context_length, int8_t id, uint8_t *room,
                                 size_t room_length);
size_t tcap_bench_rewrite(const uint8_t *bytes, size_t length, uint8_t *room, size_t room_length);
uint64_t tcap_bench_dialogue(uint8_t steps, const uint8_t *bytes, size_t length);
uint64_t tcap_bench_traffic(uint64_t seed, uint16_t dialogues, uint32_t turns);

/* The modes of steps (steps.c). */
int has_steps(const char *mode);
void run_steps(const char *mode, unsigned size, long laps);
void stop(const char *why);

/* The messages that are made (made.c): appends octets; makes the message of a mode, 0 where it has none. */
void add(const char *octets, size_t count);
int make_message(const char *mode, unsigned size);

/* Where the program's memory is a buffer (buffer.c), all that a call took is given back behind it. */
size_t memory_used(void) __attribute__((weak));
void memory_reset(size_t mark) __attribute__((weak));
/* Where what the C library's heap holds is counted (held.c): the octets at the last block taken. */
size_t memory_held(void) __attribute__((weak));

enum { MOST = 1 << 18, STREAM = 1000, MESSAGES = 6, MOST_INVOKES = 11, ROUNDS = 5 };

uint8_t message[MOST];
size_t length;
static uint8_t room[MOST];
static struct invocation invocations[MOST_INVOKES];

/* The values of each message. The parameter of Invoke i stands in the message from first + 16 i on:
 * eight bytes, that of the last one to the end. */
static const struct values {
  uint32_t otid, dtid;
  int context;
  unsigned invokes;
  int32_t operation;
  uint32_t first;
} values[MESSAGES] = {
    {1, 0, 0, 1, 10, 18}, {1, 0, 0, 1, 2, 18}, {5, 1, 1, 0, 0, 0},
    {1, 0, 1, 1, 2, 50},  {1, 0, 1, 1, 2, 53}, {1, 0, 1, 11, 2, 52},
};
static const uint8_t context[] = {0x04, 0x00, 0x00, 0x01, 0x00, 0x01, 0x03};

void stop(const char *why) {
  fprintf(stderr, "bench: %s\n", why);
  exit(2);
}

static void read_line(unsigned number) {
  static char line[1 << 16];
  FILE *file = fopen("data/messages.txt", "r");
  if (!file) stop("data/messages.txt can't be read");
  for (unsigned i = 0; i < number; i++)
    if (!fgets(line, sizeof line, file)) stop("no such message");
  fclose(file);
  length = 0;
  for (const char *at = line; *at > ' '; at += 2) {
    unsigned octet;
    if (sscanf(at, "%2x", &octet) != 1) stop("no hexadecimal");
    message[length++] = (uint8_t)octet;
  }
}

static void make_values(const struct values *v) {
  for (unsigned i = 0; i < v->invokes; i++) {
    uint32_t start = v->first + 16 * i;
    invocations[i] = (struct invocation){(int8_t)(i + 1), v->operation, start,
                                         i + 1 < v->invokes ? start + 8 : (uint32_t)length};
  }
}

static size_t write_message(const struct values *v) {
  if (v->dtid)
    return tcap_bench_write_continue(v->otid, v->dtid, context, sizeof context, 1, room, sizeof room);
  return tcap_bench_write_begin(v->otid, context, v->context ? sizeof context : 0, invocations,
                                v->invokes, message, length, room, sizeof room);
}

/* The octets of a piece of the modes feed and stream; 0 of any other mode. */
static unsigned piece_width(const char *mode) {
  unsigned width;
  if (sscanf(mode, "feed%4u", &width) == 1 || sscanf(mode, "stream%4u", &width) == 1) return width;
  return 0;
}

/* The message that was made, a thousand times. */
static void make_stream(void) {
  size_t one = length;
  for (unsigned i = 1; i < STREAM; i++) add((const char *)message, one);
}

/* Takes memory for the message, copies it and gives the memory back; answers its last octet, and 1. */
static uint64_t copy_message(void) {
  uint8_t *volatile copy = malloc(length);
  if (!copy) stop("no memory");
  memcpy(copy, message, length);
  uint64_t last = copy[length - 1] + 1;
  free(copy);
  return last;
}

static void make(const char *mode, unsigned size) {
  if (has_steps(mode)) return;
  if (make_message(mode, size)) return;
  if (size < 1 || size > MESSAGES) stop("no such message");
  read_line(size);
  make_values(&values[size - 1]);
  if (!strncmp(mode, "stream", 6)) make_stream();
}

static uint64_t repeat(const char *mode, unsigned size, long count) {
  if (has_steps(mode)) return run_steps(mode, size, count), 1;
  uint64_t sum = 0;
  size_t mark = memory_used ? memory_used() : 0;
  unsigned width = piece_width(mode);
  if (width)
    for (long i = 0; i < count; i++) {
      uint64_t given = tcap_bench_feed(width, message, length);
      if (given != length) stop("the feed gave other messages");
      sum += given;
    }
  else if (!strcmp(mode, "copy"))
    for (long i = 0; i < count; i++) sum += copy_message();
  else if (!strcmp(mode, "write"))
    for (long i = 0; i < count; i++) {
      sum += write_message(&values[size - 1]);
      if (memory_reset) memory_reset(mark);
    }
  else if (!strcmp(mode, "rewrite"))
    for (long i = 0; i < count; i++) {
      sum += tcap_bench_rewrite(message, length, room, sizeof room);
      if (memory_reset) memory_reset(mark);
    }
  else if (!strcmp(mode, "element") || !strcmp(mode, "nested"))
    for (long i = 0; i < count; i++) sum += tcap_bench_element(message, length);
  else if (!strcmp(mode, "read") || !strcmp(mode, "invokes") || !strcmp(mode, "inside") ||
           !strcmp(mode, "definite") || !strcmp(mode, "indefinite") || !strcmp(mode, "results") ||
           !strcmp(mode, "answer"))
    for (long i = 0; i < count; i++) sum += tcap_bench_read(message, length);
  else if (!strcmp(mode, "dialogue") || !strcmp(mode, "ending"))
    for (long i = 0; i < count; i++) /* before the Begin there is no output */
      sum += tcap_bench_dialogue((uint8_t)size, message, length) + (size < 2);
  else
    stop("no such mode");
  if (count && !sum) stop("the message can't be read or written");
  return sum;
}

static double nanoseconds(void) {
  struct timespec now;
  clock_gettime(CLOCK_MONOTONIC, &now);
  return (double)now.tv_sec * 1e9 + (double)now.tv_nsec;
}

/* Few steps of each kind; each stops where it gives other outputs. */
static void test_steps(void) {
  static const char *const modes[] = {"engine1", "engine2", "engine3",    "engine4",      "engine5",      "engine6",
                                      "outbox1", "outbox2", "outbox3",    "outbox4",      "outbox5",      "outbox6",
                                      "lapses1", "lapses2", "lapses1000", "invocations1", "invocations2", "invocations3",
                                      "outbox-lapses1", "outbox-lapses2"};
  for (size_t i = 0; i < sizeof modes / sizeof *modes; i++) run_steps(modes[i], 3, 2);
}

/* Traffic is answered, alike for the same seed, otherwise for another. */
static void test_traffic(void) {
  uint64_t digest = tcap_bench_traffic(1, 20, 2000);
  if (!digest || tcap_bench_traffic(1, 20, 2000) != digest || tcap_bench_traffic(2, 20, 2000) == digest)
    stop("the digest of traffic doesn't follow from its seed");
}

static int test(void) {
  for (unsigned i = 1; i <= MESSAGES; i++) {
    make("write", i);
    if (write_message(&values[i - 1]) != length || memcmp(room, message, length) ||
        tcap_bench_rewrite(message, length, room, sizeof room) != length ||
        memcmp(room, message, length)) {
      fprintf(stderr, "bench: message %u is not written as it stands\n", i);
      return 1;
    }
  }
  make("write", 1);
  if (tcap_bench_rewrite(message, length, room, length - 1)) {
    fprintf(stderr, "bench: a message is written to a room that is too short\n");
    return 1;
  }
  for (uint32_t width = 0; width <= length; width++)
    if (tcap_bench_feed(width, message, length) != (width ? length : 0)) {
      fprintf(stderr, "bench: a feed doesn't give its message in pieces of %u octets\n", width);
      return 1;
    }
  /* Send, Continue, ResultLast, Send; and Send, End, ResultLast. */
  make("dialogue", 5);
  uint64_t outputs = tcap_bench_dialogue(5, message, length);
  make("ending", 3);
  if (outputs != 4 || tcap_bench_dialogue(3, message, length) != 3) {
    fprintf(stderr, "bench: a dialogue doesn't make each of its steps\n");
    return 1;
  }
  test_steps();
  test_traffic();
  return 0;
}

int main(int count, char **words) {
  if (count == 2 && !strcmp(words[1], "test")) return test();
  if (count < 4) stop("see the head of bench.c");
  unsigned size = (unsigned)atoi(words[3]);
  long calls = count > 4 ? atol(words[4]) : 0;
  make(words[2], size);
  if (!strcmp(words[1], "call")) repeat(words[2], size, calls);
  else if (!strcmp(words[1], "length")) printf("%zu\n", length);
  else if (!strcmp(words[1], "hex"))
    for (size_t i = 0; i < length; i++) printf("%02x", message[i]);
  else if (!strcmp(words[1], "held") && memory_held) {
    size_t before = memory_held();
    repeat(words[2], size, 0);
    printf("%zu\n", memory_held() - before);
  }
  else if (!strcmp(words[1], "time")) {
    double least = 0;
    for (int round = 0; round < ROUNDS; round++) {
      double start = nanoseconds();
      repeat(words[2], size, calls);
      double taken = (nanoseconds() - start) / (double)calls;
      if (round == 0 || taken < least) least = taken;
    }
    printf("%.1f\n", least);
  } else
    stop("see the head of bench.c");
  return 0;
}
