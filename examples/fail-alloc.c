/* Refuses one of a program's calls for memory: the one whose number, from 1, stands in FAIL_ALLOC. fail-alloc.sh
 * preloads it. All calls are counted, also those of the C library itself. A refused call gives no memory, and the line
 * `refused` is written to standard error. */
#include <errno.h>
#include <stdatomic.h>
#include <stddef.h>
#include <stdlib.h>
#include <unistd.h>

/* The C library's own. */
void *__libc_malloc(size_t);
void *__libc_calloc(size_t, size_t);
void *__libc_realloc(void *, size_t);
void *__libc_memalign(size_t, size_t);

static int is_refused(void) {
  static atomic_long calls;
  const char *text = getenv("FAIL_ALLOC");
  long call = ++calls;
  if (text == NULL || atol(text) != call) return 0;
  if (write(2, "refused\n", 8) != 8) abort();
  errno = ENOMEM;
  return 1;
}

void *malloc(size_t size) {
  return is_refused() ? NULL : __libc_malloc(size);
}

void *calloc(size_t count, size_t size) {
  return is_refused() ? NULL : __libc_calloc(count, size);
}

void *realloc(void *old, size_t size) {
  return is_refused() ? NULL : __libc_realloc(old, size);
}

void *memalign(size_t alignment, size_t size) {
  return is_refused() ? NULL : __libc_memalign(alignment, size);
}

void *aligned_alloc(size_t alignment, size_t size) {
  return memalign(alignment, size);
}

int posix_memalign(void **memory, size_t alignment, size_t size) {
  void *found = memalign(alignment, size);
  if (found == NULL) return ENOMEM;
  *memory = found;
  return 0;
}
