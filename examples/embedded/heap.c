/* The memory of the library, over malloc, with a count. A block has its size in front; each is at least 16 octets aligned. */
#include "heap.h"

#include <stdint.h>
#include <stdlib.h>

#include "huwapire.h"

size_t heap_now, heap_most;
size_t heap_refuses_from = SIZE_MAX;

/* What an address points to where nothing is there. */
static _Alignas(16) char none[16];

enum { FRONT = 16 };

static huwapire_memory block(void *old, size_t had, size_t size) {
  huwapire_memory memory = {false, none};
  if (heap_refuses_from == 0 || size > SIZE_MAX - FRONT) return memory;
  if (heap_refuses_from != SIZE_MAX) heap_refuses_from--;
  char *front = realloc(old, FRONT + size);
  if (front == NULL) return memory;
  *(size_t *)(void *)front = size;
  heap_now += size - had;
  if (heap_now > heap_most) heap_most = heap_now;
  memory.is_there = true;
  memory.at = front + FRONT;
  return memory;
}

static char *front_of(void *at) { return (char *)at - FRONT; }

static size_t size_of(void *at) { return *(size_t *)(void *)front_of(at); }

huwapire_memory rattle_alloc(size_t size, size_t align) {
  (void)align;
  return block(NULL, 0, size);
}

huwapire_memory rattle_realloc(void *at, size_t kept, size_t size, size_t align) {
  (void)kept;
  (void)align;
  return block(front_of(at), size_of(at), size);
}

void rattle_dealloc(void *at) {
  heap_now -= size_of(at);
  free(front_of(at));
}
