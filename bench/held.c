/* The memory of a benchmark program: the C library's heap, with what it holds counted. Linked into
 * bench-held. */
#include <malloc.h>
#include <stddef.h>

void *__libc_malloc(size_t size);
void *__libc_calloc(size_t count, size_t size);
void *__libc_realloc(void *block, size_t size);
void __libc_free(void *block);

static size_t held, at_last;

/* A block's octets, with the word before it that the heap keeps for itself. */
static size_t octets_of(void *block) { return block ? malloc_usable_size(block) + sizeof(size_t) : 0; }

static void *taken(void *block) {
  held += octets_of(block);
  at_last = held;
  return block;
}

void *malloc(size_t size) { return taken(__libc_malloc(size)); }

void *calloc(size_t count, size_t size) { return taken(__libc_calloc(count, size)); }

void *realloc(void *block, size_t size) {
  size_t before = octets_of(block);
  void *fresh = __libc_realloc(block, size);
  if (!fresh) return NULL;
  held -= before;
  return taken(fresh);
}

void free(void *block) {
  held -= octets_of(block);
  __libc_free(block);
}

/* The octets that were held when the last block was taken. */
size_t memory_held(void) { return at_last; }
