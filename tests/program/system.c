/* Stands in for the C library's read and write, for what no test can make the system do when it should:
   SYSTEM=interrupted     every other call is interrupted before it moves a byte, and the others move a few bytes at most
   SYSTEM=read-fails      the read behind the first 40 bytes fails
   SYSTEM=write-fails     the write behind the first 40 bytes of standard output fails
   SYSTEM=takes-nothing   a write to standard output takes no byte and does not fail */
#define _GNU_SOURCE
#include <errno.h>
#include <stdlib.h>
#include <string.h>
#include <sys/syscall.h>
#include <unistd.h>

enum { FEW = 5, FRONT = 40 };

static int is(const char* name) {
  const char* system = getenv("SYSTEM");
  return system != NULL && strcmp(system, name) == 0;
}

static ssize_t fail(int error) {
  errno = error;
  return -1;
}

static size_t least(size_t a, size_t b) { return a < b ? a : b; }

ssize_t read(int fd, void* to, size_t count) {
  static size_t calls, moved;
  if (is("interrupted")) {
    if (calls++ % 2 == 0) return fail(EINTR);
    count = least(count, FEW);
  }
  if (is("read-fails")) {
    if (moved == FRONT) return fail(EIO);
    count = least(count, FRONT - moved);
  }
  const ssize_t got = syscall(SYS_read, fd, to, count);
  if (got > 0) moved += (size_t)got;
  return got;
}

ssize_t write(int fd, const void* from, size_t count) {
  static size_t calls, moved;
  if (is("interrupted")) {
    if (calls++ % 2 == 0) return fail(EINTR);
    count = least(count, FEW);
  }
  if (is("write-fails") && fd == STDOUT_FILENO) {
    if (moved == FRONT) return fail(EIO);
    count = least(count, FRONT - moved);
  }
  if (is("takes-nothing") && fd == STDOUT_FILENO) return 0;
  const ssize_t put = syscall(SYS_write, fd, from, count);
  if (put > 0 && fd == STDOUT_FILENO) moved += (size_t)put;
  return put;
}
