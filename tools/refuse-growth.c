/* Refuses growths of memory, in the program into which tools/refuse-growth loads it.

   The calls that want memory are counted from the first that the program itself makes, which is
   told by the address from which it comes. Those before it are calls of the loader and of the C
   library's start; they are counted apart and never refused. The calls from the number
   REFUSE_FIRST to the number REFUSE_LAST answer that there is no memory. The counts stand in the
   file REFUSE_COUNTS, so that they are there however the program ends. It is made for the GNU C
   library, whose inner names of these calls it uses. */
#define _GNU_SOURCE
#include <errno.h>
#include <fcntl.h>
#include <link.h>
#include <stdatomic.h>
#include <stdint.h>
#include <stdlib.h>
#include <sys/mman.h>
#include <unistd.h>

void *__libc_malloc(size_t);
void *__libc_calloc(size_t, size_t);
void *__libc_realloc(void *, size_t);
void *__libc_memalign(size_t, size_t);

struct counts {
  _Atomic uint64_t before, made, refused;
};

static struct counts own;
static struct counts *counts = &own;
static uint64_t first = UINT64_MAX, last;
static uintptr_t low, high; /* where the program's own code stands */

/* The first object that is listed is the program. */
static int place(struct dl_phdr_info *object, size_t size, void *nothing) {
  (void)size, (void)nothing;
  low = UINTPTR_MAX;
  for (int i = 0; i < object->dlpi_phnum; i++) {
    const ElfW(Phdr) *part = &object->dlpi_phdr[i];
    uintptr_t front = object->dlpi_addr + part->p_vaddr;
    if (part->p_type != PT_LOAD) continue;
    if (front < low) low = front;
    if (front + part->p_memsz > high) high = front + part->p_memsz;
  }
  return 1;
}

__attribute__((constructor)) static void begin(void) {
  const char *name = getenv("REFUSE_COUNTS");
  int file = open(name ? name : "", O_RDWR | O_CLOEXEC);
  void *room = mmap(0, sizeof own, PROT_READ | PROT_WRITE, MAP_SHARED, file, 0);
  if (file < 0 || room == MAP_FAILED) _exit(125);
  close(file);
  ((struct counts *)room)->before += own.before;
  counts = room;
  first = strtoull(getenv("REFUSE_FIRST"), 0, 10);
  last = strtoull(getenv("REFUSE_LAST"), 0, 10);
  dl_iterate_phdr(place, 0);
}

/* Counts a call that comes from this address, and says whether it is refused. */
static int refuses(void *from) {
  uintptr_t at = (uintptr_t)from;
  if (counts->made == 0 && (at < low || at >= high)) {
    counts->before++;
    return 0;
  }
  uint64_t number = ++counts->made;
  if (number < first || number > last) return 0;
  counts->refused++;
  errno = ENOMEM;
  return 1;
}

#define REFUSES refuses(__builtin_return_address(0))

void *malloc(size_t size) { return REFUSES ? 0 : __libc_malloc(size); }
void *calloc(size_t count, size_t size) { return REFUSES ? 0 : __libc_calloc(count, size); }
void *realloc(void *old, size_t size) { return REFUSES ? 0 : __libc_realloc(old, size); }
void *memalign(size_t to, size_t size) { return REFUSES ? 0 : __libc_memalign(to, size); }
void *aligned_alloc(size_t to, size_t size) { return REFUSES ? 0 : __libc_memalign(to, size); }

int posix_memalign(void **at, size_t to, size_t size) {
  void *found = REFUSES ? 0 : __libc_memalign(to, size);
  if (found) *at = found;
  return found ? 0 : ENOMEM;
}
