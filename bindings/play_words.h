/* The words of a script. Each answers whether a word is of its form, and writes what it stands for. */
#ifndef PLAY_WORDS_H
#define PLAY_WORDS_H
#include <stdbool.h>
#include <tcap.h>

bool is(const char *word, const char *name);
/* A decimal number of at most this, without leading zeros. */
bool natural(const char *word, uint64_t most, uint64_t *value);
/* An invoke identifier, TCAP_NO_ID for `-` where it may be absent. */
bool identifier(const char *word, bool may_be_absent, int *id);
bool dialogue_named(const char *word, uint32_t *dialogue);
/* Hexadecimal, or `-` for none, into one of four rooms, 0 to 3. */
bool hex(const char *word, int room, tcap_octets *of);
/* A local code. */
bool code_named(const char *word, tcap_code *code);
#endif
