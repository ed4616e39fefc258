/* Has a program that it is loaded into (LD_PRELOAD) see its machine as one that was suspended: CLOCK_MONOTONIC is
 * behind by the nanoseconds that a file holds, which is made in the folder SUSPENDED, by the number of the process. */
#define _GNU_SOURCE
#include <fcntl.h>
#include <stdio.h>
#include <stdlib.h>
#include <sys/mman.h>
#include <sys/syscall.h>
#include <time.h>
#include <unistd.h>

static const long long second = 1000000000;
static volatile long long *behind;

__attribute__((constructor)) static void begin(void) {
  const char *folder = getenv("SUSPENDED");
  char path[4096];
  if (!folder || snprintf(path, sizeof path, "%s/%d", folder, (int)getpid()) >= (int)sizeof path) return;
  int file = open(path, O_RDWR | O_CREAT, 0600);
  if (file < 0) return;
  if (ftruncate(file, sizeof *behind) == 0) {
    void *shared = mmap(NULL, sizeof *behind, PROT_READ, MAP_SHARED, file, 0);
    if (shared != MAP_FAILED) behind = shared;
  }
  close(file);
}

int clock_gettime(clockid_t clock, struct timespec *told) {
  int failed = (int)syscall(SYS_clock_gettime, clock, told);
  if (failed || !behind || clock != CLOCK_MONOTONIC) return failed;
  long long since = told->tv_sec * second + told->tv_nsec - *behind;
  told->tv_sec = since / second;
  told->tv_nsec = since % second;
  return 0;
}
