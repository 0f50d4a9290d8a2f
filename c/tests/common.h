/* What the tests share: numbers by lot, and memory that counts its blocks and refuses some. */
#ifndef TCAP_TESTS_COMMON_H
#define TCAP_TESTS_COMMON_H

#include <stdbool.h>
#include <stdint.h>
#include <stdio.h>
#include <stdlib.h>
#include <string.h>

#include "../../include/tcap.h"

/* Ends the test where this isn't so. */
#define NEED(holds) \
  do { \
    if (!(holds)) { \
      printf("%s:%d: %s\n", __FILE__, __LINE__, #holds); \
      fflush(stdout); \
      exit(1); \
    } \
  } while (0)

/* A number by lot, below `limit`: splitmix64 (Steele, Lea, Flood). */
static uint64_t lot_state;
static inline uint64_t lot64(void) {
  uint64_t x = lot_state += 0x9E3779B97F4A7C15u;
  x = (x ^ (x >> 30)) * 0xBF58476D1CE4E5B9u;
  x = (x ^ (x >> 27)) * 0x94D049BB133111EBu;
  return x ^ (x >> 31);
}
static inline uint32_t lot(uint32_t limit) { return (uint32_t)(lot64() >> 32) % limit; }

/* Memory: how many blocks are held, how often one was asked for, which one is refused (counted from 1
 * on, 0: none), and one of how many is refused by lot (0: none). */
static long blocks_held, blocks_asked, refuse_at, refuse_one_of, blocks_refused;
static inline bool is_refused(void) {
  bool refused = ++blocks_asked == refuse_at || (refuse_one_of && !lot((uint32_t)refuse_one_of));
  blocks_refused += refused;
  return refused;
}
static inline void *take_counted(size_t size) {
  NEED(size > 0);
  void *block = is_refused() ? NULL : malloc(size);
  blocks_held += block != NULL;
  return block;
}
static inline void *grow_counted(void *block, size_t size) {
  NEED(block && size > 0);
  return is_refused() ? NULL : realloc(block, size);
}
static inline void give_back_counted(void *block) {
  NEED(block);
  blocks_held--;
  free(block);
}

static inline tcap_octets octets(const void *at, size_t len) {
  tcap_octets o = {(const uint8_t *)at, len};
  return o;
}
#define TEXT(text) octets(text, sizeof(text) - 1)
#define NOTHING octets(NULL, 0)
static inline tcap_code local_code(int32_t number) {
  tcap_code code = {TCAP_LOCAL, number, {NULL, 0}};
  return code;
}

#endif
