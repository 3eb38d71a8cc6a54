/* Preloaded into a program, refuses one of its allocations, or each one of a period. REFUSED names a file of four numbers of
   eight bytes, which both sides map: which allocation is refused (0: none), how many there were, how many were refused, and the
   period (0: none). Where none is to be refused none is counted. */
#include <errno.h>
#include <fcntl.h>
#include <stdint.h>
#include <stdlib.h>
#include <sys/mman.h>
#include <unistd.h>

struct told {
  uint64_t nth;
  uint64_t count;
  uint64_t refused;
  uint64_t every;
};

static struct told none;
static struct told *told = &none;

extern void *__libc_malloc(size_t);
extern void *__libc_realloc(void *, size_t);

__attribute__((constructor)) static void begin(void) {
  const char *path = getenv("REFUSED");
  int file = path ? open(path, O_RDWR) : -1;
  if (file < 0) return;
  void *mapped = mmap(0, sizeof(struct told), PROT_READ | PROT_WRITE, MAP_SHARED, file, 0);
  close(file);
  if (mapped != MAP_FAILED) told = mapped;
}

static int is_refused(void) {
  uint64_t nth = __atomic_load_n(&told->nth, __ATOMIC_SEQ_CST);
  uint64_t every = __atomic_load_n(&told->every, __ATOMIC_SEQ_CST);
  if (nth == 0 && every == 0) return 0;
  uint64_t number = __atomic_add_fetch(&told->count, 1, __ATOMIC_SEQ_CST);
  if (number != nth && (every == 0 || number % every != 0)) return 0;
  __atomic_add_fetch(&told->refused, 1, __ATOMIC_SEQ_CST);
  errno = ENOMEM;
  return 1;
}

void *malloc(size_t size) { return is_refused() ? 0 : __libc_malloc(size); }

void *realloc(void *old, size_t size) { return is_refused() ? 0 : __libc_realloc(old, size); }
