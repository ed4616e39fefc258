/* Tells which blocks of instructions of a program are reached first, for tools/fuzz, which loads it (LD_PRELOAD) into a copy of the program
 * that has a trap where each block begins that no run has reached yet. A trap that is met is told, taken away, and passed:
 *   BLOCKS_ORIGINAL=FILE   the program without traps
 *   BLOCKS_SHIFT=N         by how much an instruction's address is above its place in that file
 *   BLOCKS_TOLD=FD         the file to which each place is written, as 8 bytes */
#define _GNU_SOURCE
#include <fcntl.h>
#include <link.h>
#include <signal.h>
#include <stdlib.h>
#include <sys/mman.h>
#include <ucontext.h>
#include <unistd.h>

static unsigned long base, shift;
static int original = -1, told = -1;

/* The first object is the program itself. */
static int first_object(struct dl_phdr_info *object, size_t size, void *data) {
  (void)size, (void)data;
  base = object->dlpi_addr;
  return 1;
}

static void take_away(int signal, siginfo_t *info, void *context) {
  (void)signal, (void)info;
  greg_t *next = &((ucontext_t *)context)->uc_mcontext.gregs[REG_RIP];
  unsigned char *trap = (unsigned char *)*next - 1;
  unsigned long place = (unsigned long)trap - base - shift;
  unsigned long page = (unsigned long)trap & ~4095UL;
  unsigned char byte;
  if (pread(original, &byte, 1, (off_t)place) != 1 || mprotect((void *)page, 4096, PROT_READ | PROT_WRITE | PROT_EXEC)) _exit(90);
  *trap = byte;
  if (write(told, &place, sizeof place) != sizeof place) _exit(91);
  *next = (greg_t)trap;
}

__attribute__((constructor)) static void begin(void) {
  const char *file = getenv("BLOCKS_ORIGINAL");
  if (!file) return;
  original = open(file, O_RDONLY);
  shift = strtoul(getenv("BLOCKS_SHIFT"), NULL, 10);
  told = atoi(getenv("BLOCKS_TOLD"));
  dl_iterate_phdr(first_object, NULL);
  struct sigaction action = {.sa_sigaction = take_away, .sa_flags = SA_SIGINFO | SA_NODEFER};
  sigaction(SIGTRAP, &action, NULL);
}
