/* Stands between a program and the C library, by LD_PRELOAD, and counts the bytes that the program has allocated and not freed. After half a
   second of the processor it writes them to standard output, and ends the program. */
#include <malloc.h>
#include <signal.h>
#include <stdio.h>
#include <stdlib.h>
#include <sys/time.h>
#include <unistd.h>

extern void *__libc_malloc(size_t);
extern void *__libc_calloc(size_t, size_t);
extern void *__libc_realloc(void *, size_t);
extern void *__libc_memalign(size_t, size_t);
extern void __libc_free(void *);

static long held;

static void *counted(void *block) {
  if (block) held += malloc_usable_size(block);
  return block;
}

void *malloc(size_t size) { return counted(__libc_malloc(size)); }
void *calloc(size_t count, size_t size) { return counted(__libc_calloc(count, size)); }
void *memalign(size_t by, size_t size) { return counted(__libc_memalign(by, size)); }
void *aligned_alloc(size_t by, size_t size) { return counted(__libc_memalign(by, size)); }

int posix_memalign(void **block, size_t by, size_t size) {
  *block = counted(__libc_memalign(by, size));
  return *block ? 0 : 12;
}

void free(void *block) {
  if (block) held -= malloc_usable_size(block);
  __libc_free(block);
}

void *realloc(void *old, size_t size) {
  long before = old ? malloc_usable_size(old) : 0;
  void *block = __libc_realloc(old, size);
  if (block || size == 0) held -= before;
  return counted(block);
}

static void tell(int signal) {
  (void)signal;
  char text[32];
  int length = snprintf(text, sizeof text, "%ld\n", held);
  _exit(write(1, text, length) == length ? 0 : 1);
}

__attribute__((constructor)) static void begin(void) {
  struct itimerval after = {{0, 0}, {0, 500000}};
  signal(SIGPROF, tell);
  setitimer(ITIMER_PROF, &after, 0);
}
