/* Disturbs a program that it is loaded into (LD_PRELOAD), for tools/trial --fleet:
 *   DISTURBED=FOLDER  CLOCK_MONOTONIC is behind, and CLOCK_REALTIME and CLOCK_BOOTTIME ahead, by the three numbers of
 *                     nanoseconds in a file, which is made in the folder, by the number of the process
 *   VIA=PORT=RELAY,.. what connects to a port of 127.0.0.1 gets to the port of a relay instead
 */
#define _GNU_SOURCE
#include <arpa/inet.h>
#include <dlfcn.h>
#include <fcntl.h>
#include <linux/futex.h>
#include <netinet/in.h>
#include <stdarg.h>
#include <stdio.h>
#include <stdlib.h>
#include <string.h>
#include <sys/mman.h>
#include <sys/socket.h>
#include <sys/syscall.h>
#include <time.h>
#include <unistd.h>

static const long long second = 1000000000;
enum { clocks = 3 };
static volatile long long *turned;
static long (*real_syscall)(long, ...);

__attribute__((constructor)) static void begin(void) {
  const char *folder = getenv("DISTURBED");
  char path[4096];
  if (!folder || snprintf(path, sizeof path, "%s/%d", folder, (int)getpid()) >= (int)sizeof path) return;
  int file = open(path, O_RDWR | O_CREAT, 0600);
  if (file < 0) return;
  if (ftruncate(file, clocks * sizeof *turned) == 0) {
    void *shared = mmap(NULL, clocks * sizeof *turned, PROT_READ, MAP_SHARED, file, 0);
    if (shared != MAP_FAILED) turned = shared;
  }
  close(file);
}

static long passed_on(long number, long *words) {
  if (!real_syscall) *(void **)&real_syscall = dlsym(RTLD_NEXT, "syscall");
  return real_syscall(number, words[0], words[1], words[2], words[3], words[4], words[5]);
}

static struct timespec later(struct timespec time, long long by) {
  long long since = time.tv_sec * second + time.tv_nsec + by;
  time.tv_sec = since / second;
  time.tv_nsec = since % second;
  return time;
}

int clock_gettime(clockid_t clock, struct timespec *told) {
  long words[6] = {clock, (long)told};
  int failed = (int)passed_on(SYS_clock_gettime, words);
  if (failed || !turned) return failed;
  if (clock == CLOCK_MONOTONIC) *told = later(*told, -turned[0]);
  if (clock == CLOCK_REALTIME) *told = later(*told, turned[1]);
  if (clock == CLOCK_BOOTTIME) *told = later(*told, turned[2]);
  return 0;
}

/* Rust's locks wait until a time of CLOCK_MONOTONIC, which the kernel tells without what is behind. */
long syscall(long number, ...) {
  long words[6];
  va_list list;
  va_start(list, number);
  for (int at = 0; at < 6; at++) words[at] = va_arg(list, long);
  va_end(list);
  struct timespec until;
  int waits = number == SYS_futex && (words[1] & FUTEX_CMD_MASK) == FUTEX_WAIT_BITSET;
  if (turned && waits && words[3] && !(words[1] & FUTEX_CLOCK_REALTIME)) {
    until = later(*(struct timespec *)words[3], turned[0]);
    words[3] = (long)&until;
  }
  return passed_on(number, words);
}

static unsigned short relayed(unsigned short port) {
  const char *at = getenv("VIA");
  for (; at && *at; at = strchr(at, ',') ? strchr(at, ',') + 1 : NULL) {
    unsigned from, to;
    if (sscanf(at, "%u=%u", &from, &to) == 2 && from == port) return (unsigned short)to;
  }
  return port;
}

int connect(int socket, const struct sockaddr *to, socklen_t length) {
  struct sockaddr_in other;
  if (to->sa_family == AF_INET && length >= sizeof other) {
    memcpy(&other, to, sizeof other);
    if (other.sin_addr.s_addr == htonl(INADDR_LOOPBACK)) other.sin_port = htons(relayed(ntohs(other.sin_port)));
    to = (const struct sockaddr *)&other;
    length = sizeof other;
  }
  long words[6] = {socket, (long)to, length};
  return (int)passed_on(SYS_connect, words);
}
