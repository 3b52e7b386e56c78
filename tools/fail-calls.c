/* Stands between the program and the system, in the program into which tools/fail-calls loads it.

   It makes one call of getppid, which the program never makes, before the program's own first
   call. So the log of a run tells where the loader's calls end. What else it does is told by
   numbers in the environment; each is left alone where its number is missing or 0:
     SHORT_PIECE    a read and a write move so many bytes at most, since no more are asked of the
                    system: it tells what it really moved
     SHORT_READ,    only the read, or the write, of this number is so
     SHORT_WRITE
     ROOM_LEFT      from now on the program gets so many bytes of address space less 1. Memory for
                    the stack is taken before, since the stack can't be refused */
#define _GNU_SOURCE
#include <stdatomic.h>
#include <stdint.h>
#include <stdlib.h>
#include <sys/resource.h>
#include <sys/syscall.h>
#include <unistd.h>

enum { STACK = 1 << 20, PAGE = 4096 };

static size_t piece;
static uint64_t short_read, short_write;
static _Atomic uint64_t reads, writes;

static uint64_t told(const char *name) {
  const char *text = getenv(name);
  return text ? strtoull(text, 0, 10) : 0;
}

/* How many bytes of address space the program has. */
static size_t space(void) {
  char text[32] = {0};
  int file = syscall(SYS_openat, -100, "/proc/self/statm", 0);
  if (file < 0 || syscall(SYS_read, file, text, sizeof text - 1) <= 0) _exit(125);
  close(file);
  return strtoull(text, 0, 10) * PAGE;
}

static void take_stack(void) {
  volatile char bytes[STACK];
  for (size_t at = 0; at < STACK; at += PAGE) bytes[STACK - 1 - at] = 1;
  (void)bytes[0];
}

__attribute__((constructor)) static void begin(void) {
  uint64_t room = told("ROOM_LEFT");
  piece = told("SHORT_PIECE");
  short_read = told("SHORT_READ");
  short_write = told("SHORT_WRITE");
  if (room > 0) {
    take_stack();
    struct rlimit limit = {space() + room - 1, RLIM_INFINITY};
    if (setrlimit(RLIMIT_AS, &limit) != 0) _exit(125);
  }
  syscall(SYS_getppid);
}

/* How many of so many bytes the call of this number moves at most. */
static size_t moved(size_t count, uint64_t number, uint64_t only) {
  return piece > 0 && piece < count && (only == 0 || only == number) ? piece : count;
}

ssize_t read(int file, void *bytes, size_t count) {
  return syscall(SYS_read, file, bytes, moved(count, ++reads, short_read));
}

ssize_t write(int file, const void *bytes, size_t count) {
  return syscall(SYS_write, file, bytes, moved(count, ++writes, short_write));
}
