/* The three calls by which the library takes memory and gives it back, over those of the C library. */
#include <stdbool.h>
#include <stddef.h>
#include <stdlib.h>

struct taken {
  bool is_given;
  unsigned char *pointer;
};

/* What is told in place of a pointer where memory is wanting. */
static unsigned char nowhere;

static struct taken taken_of(void *pointer) {
  struct taken taken = {pointer != NULL, pointer != NULL ? (unsigned char *)pointer : &nowhere};
  return taken;
}

/* Rattle asks for no alignment above that of max_align_t. */
struct taken rattle_alloc(size_t size, size_t alignment) {
  (void)alignment;
  return taken_of(malloc(size));
}

struct taken rattle_realloc(unsigned char *pointer, size_t kept, size_t size, size_t alignment) {
  (void)kept;
  (void)alignment;
  return taken_of(realloc(pointer, size));
}

void rattle_dealloc(unsigned char *pointer) { free(pointer); }
