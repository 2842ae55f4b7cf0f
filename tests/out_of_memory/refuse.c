/* Refuses one growth of the program that it is loaded into: the one whose number the variable REFUSE names, counted from 1 on over all
   threads. How many there were stands in the file that COUNT names, as one number of the machine's. It stands before the C library's own calls
   (LD_PRELOAD), so the program that is swept is the very one that is shipped. */
#define _GNU_SOURCE
#include <dlfcn.h>
#include <errno.h>
#include <fcntl.h>
#include <stdatomic.h>
#include <stdlib.h>
#include <sys/mman.h>
#include <unistd.h>

static atomic_ulong *made;
static unsigned long refused;
static void *(*own_malloc)(size_t);
static void *(*own_calloc)(size_t, size_t);
static void *(*own_realloc)(void *, size_t);
static int (*own_memalign)(void **, size_t, size_t);
static void *(*own_aligned)(size_t, size_t);

/* What dlsym asks for before the calls are known. */
static char early[4096];
static size_t taken;

__attribute__((constructor)) static void begin(void) {
  own_malloc = dlsym(RTLD_NEXT, "malloc");
  own_calloc = dlsym(RTLD_NEXT, "calloc");
  own_realloc = dlsym(RTLD_NEXT, "realloc");
  own_memalign = dlsym(RTLD_NEXT, "posix_memalign");
  own_aligned = dlsym(RTLD_NEXT, "aligned_alloc");
  const char *number = getenv("REFUSE"), *path = getenv("COUNT");
  int file = path ? open(path, O_RDWR | O_CREAT | O_TRUNC, 0644) : -1;
  if (!number || file < 0 || ftruncate(file, sizeof *made)) _exit(99);
  void *shared = mmap(NULL, sizeof *made, PROT_READ | PROT_WRITE, MAP_SHARED, file, 0);
  if (shared == MAP_FAILED) _exit(99);
  refused = strtoul(number, NULL, 10);
  made = shared;
}

static int is_refused(void) {
  return made && atomic_fetch_add(made, 1) + 1 == refused;
}

void *malloc(size_t size) {
  if (!own_malloc) return NULL;
  if (is_refused()) return errno = ENOMEM, NULL;
  return own_malloc(size);
}

void *calloc(size_t count, size_t size) {
  if (!own_calloc) {
    size_t at = taken;
    taken += (count * size + 15) & ~(size_t)15;
    return taken <= sizeof early ? early + at : NULL;
  }
  if (is_refused()) return errno = ENOMEM, NULL;
  return own_calloc(count, size);
}

void *realloc(void *old, size_t size) {
  if (is_refused()) return errno = ENOMEM, NULL;
  return own_realloc(old, size);
}

int posix_memalign(void **place, size_t alignment, size_t size) {
  if (is_refused()) return ENOMEM;
  return own_memalign(place, alignment, size);
}

void *aligned_alloc(size_t alignment, size_t size) {
  if (is_refused()) return errno = ENOMEM, NULL;
  return own_aligned(alignment, size);
}
