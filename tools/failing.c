/* A library that is loaded before a program: one of its allocations fails. `tools/allocations` and `bench/run_table` use it. */
#define _GNU_SOURCE
#include <dlfcn.h>
#include <errno.h>
#include <stdlib.h>
#include <unistd.h>

/* The allocation of this number, from 1, fails, and a byte tells of it on descriptor 9. */
static long left = -1;

static int fails(void) {
  if (left < 0) {
    const char *number = getenv("FAILING_ALLOCATION");
    left = number ? atol(number) : 0;
  }
  if (left == 0 || --left > 0) return 0;
  errno = ENOMEM;
  return write(9, "!", 1) >= 0;
}

#define REAL(name) __typeof__(name) *real = (__typeof__(name) *)dlsym(RTLD_NEXT, #name)

void *malloc(size_t size) { REAL(malloc); return fails() ? NULL : real(size); }
void *calloc(size_t count, size_t size) { REAL(calloc); return fails() ? NULL : real(count, size); }
void *realloc(void *old, size_t size) { REAL(realloc); return fails() ? NULL : real(old, size); }
void *aligned_alloc(size_t align, size_t size) { REAL(aligned_alloc); return fails() ? NULL : real(align, size); }
int posix_memalign(void **place, size_t align, size_t size) { REAL(posix_memalign); return fails() ? ENOMEM : real(place, align, size); }
