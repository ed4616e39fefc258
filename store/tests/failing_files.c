/* Makes changes of files fail for a program that it is loaded into (LD_PRELOAD), as store/tests/failing_files.rs asks by
 * the environment:
 *   FAULT_AT=N      the Nth change fails: a write at a place, a sync, or a new length
 *   FAULT_LAST=N    so do all up to this one
 *   FAULT_ERROR=E   with this error number
 *   FAULT_TORN=1    a write that fails has written half of its bytes
 * Counts begin when the program does, and are written to standard output at its end. */
#define _GNU_SOURCE
#include <errno.h>
#include <fcntl.h>
#include <stdio.h>
#include <stdlib.h>
#include <sys/syscall.h>
#include <sys/types.h>
#include <unistd.h>

static unsigned long first, last, calls;
static int error = EIO, is_torn;

static unsigned long number(const char *name) {
  const char *text = getenv(name);
  return text ? strtoul(text, NULL, 10) : 0;
}

__attribute__((constructor)) static void begin(void) {
  first = number("FAULT_AT");
  last = getenv("FAULT_LAST") ? number("FAULT_LAST") : first;
  if (getenv("FAULT_ERROR")) error = (int)number("FAULT_ERROR");
  is_torn = number("FAULT_TORN") > 0;
}

__attribute__((destructor)) static void end(void) { dprintf(STDOUT_FILENO, "\nchanges %lu\n", calls); }

/* Counts a change, and says whether it is to fail. */
static int fails(void) {
  unsigned long call = __atomic_add_fetch(&calls, 1, __ATOMIC_SEQ_CST);
  if (!first || call < first || call > last) return 0;
  errno = error;
  return 1;
}

static ssize_t written(int file, const void *bytes, size_t size, off_t place) {
  if (!fails()) return syscall(SYS_pwrite64, file, bytes, size, place);
  if (is_torn) syscall(SYS_pwrite64, file, bytes, size / 2, place);
  errno = error;
  return -1;
}

ssize_t pwrite(int file, const void *bytes, size_t size, off_t place) { return written(file, bytes, size, place); }
ssize_t pwrite64(int file, const void *bytes, size_t size, off64_t place) { return written(file, bytes, size, place); }
int fsync(int file) { return fails() ? -1 : (int)syscall(SYS_fsync, file); }
int fdatasync(int file) { return fails() ? -1 : (int)syscall(SYS_fdatasync, file); }
int ftruncate(int file, off_t length) { return fails() ? -1 : (int)syscall(SYS_ftruncate, file, length); }
int ftruncate64(int file, off64_t length) { return fails() ? -1 : (int)syscall(SYS_ftruncate, file, length); }
