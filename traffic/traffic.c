/* Hands traffic drawn by lot to an engine, by crates/tcap_bench, and prints the digest of its answers.
 *
 *   traffic DIALOGUES TURNS SEED
 */
#include <inttypes.h>
#include <stdint.h>
#include <stdio.h>
#include <stdlib.h>

uint64_t tcap_bench_traffic(uint64_t seed, uint16_t dialogues, uint32_t turns);

/* A number from 1 to a limit. */
static unsigned long number(const char *word, unsigned long most) {
  char *end;
  unsigned long value = strtoul(word, &end, 10);
  if (*end || value < 1 || value > most) {
    fprintf(stderr, "traffic: %s is no number from 1 to %lu\n", word, most);
    exit(2);
  }
  return value;
}

int main(int count, char **words) {
  if (count != 4) {
    fprintf(stderr, "traffic: DIALOGUES, TURNS and SEED are wanted\n");
    return 2;
  }
  uint16_t dialogues = (uint16_t)number(words[1], UINT16_MAX);
  uint32_t turns = (uint32_t)number(words[2], UINT32_MAX);
  uint64_t digest = tcap_bench_traffic(number(words[3], UINT32_MAX), dialogues, turns);
  if (!digest) {
    fprintf(stderr, "traffic: memory was wanting\n");
    return 1;
  }
  printf("%016" PRIx64 "\n", digest);
  return 0;
}
