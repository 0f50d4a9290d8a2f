/* The memory of a benchmark program: a buffer of fixed size, in place of the C library's heap. A block
 * is the next bytes of it, and all blocks are given back at once. Linked into bench-buffer. */
#include <stddef.h>
#include <stdint.h>
#include <string.h>

enum { SIZE = 1 << 22, ALIGN = 16 };

static _Alignas(ALIGN) uint8_t buffer[SIZE];
static size_t used;

void *malloc(size_t size) {
  size_t start = used;
  if (size > SIZE - start - ALIGN) return NULL;
  used = (start + size + ALIGN - 1) & ~(size_t)(ALIGN - 1);
  return buffer + start;
}

void free(void *block) { (void)block; }

void *realloc(void *block, size_t size) {
  uint8_t *fresh = malloc(size);
  if (fresh && block) {
    size_t before = (size_t)(fresh - (uint8_t *)block);
    memcpy(fresh, block, before < size ? before : size);
  }
  return fresh;
}

void *calloc(size_t count, size_t size) {
  if (size && count > SIZE / size) return NULL;
  void *block = malloc(count * size);
  if (block) memset(block, 0, count * size);
  return block;
}

size_t memory_used(void) { return used; }
void memory_reset(size_t mark) { used = mark; }
