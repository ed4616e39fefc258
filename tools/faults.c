/* Makes memory or streams fail for a program that it is loaded into (LD_PRELOAD), as tools/runs.py asks by the environment:
 *   FAULT_MEMORY=N   the Nth allocation is refused        FAULT_MEMORY=N+   all from the Nth on are
 *   FAULT_READ=N     the Nth read of standard input fails FAULT_WRITE=N     the Nth write to standard output does
 *   FAULT_ERROR=E    with this error number               FAULT_PIECE=B     no read or write moves more than B bytes
 *   FAULT_TOLD=FD    a byte is written to this file for each call that fails
 * Counts begin when the program does. */
#include <errno.h>
#include <stdlib.h>
#include <string.h>
#include <sys/syscall.h>
#include <unistd.h>

extern void *__libc_malloc(size_t size);
extern void *__libc_realloc(void *block, size_t size);
extern void *__libc_calloc(size_t count, size_t size);
extern void *__libc_memalign(size_t alignment, size_t size);

enum kind { MEMORY, READ, WRITE, KINDS };

static const char *const names[KINDS] = {"FAULT_MEMORY", "FAULT_READ", "FAULT_WRITE"};
static unsigned long failing[KINDS], calls[KINDS];
static int from_there_on[KINDS];
static unsigned long piece;
static int has_begun, error = EIO, told = -1;

static unsigned long number(const char *name) {
  const char *text = getenv(name);
  return text ? strtoul(text, NULL, 10) : 0;
}

__attribute__((constructor)) static void begin(void) {
  for (int kind = 0; kind < KINDS; kind++) {
    const char *text = getenv(names[kind]);
    failing[kind] = number(names[kind]);
    from_there_on[kind] = text && strchr(text, '+');
  }
  piece = number("FAULT_PIECE");
  if (getenv("FAULT_ERROR")) error = (int)number("FAULT_ERROR");
  if (getenv("FAULT_TOLD")) told = (int)number("FAULT_TOLD");
  has_begun = 1;
}

/* Counts a call, and says whether it is to fail. */
static int fails(enum kind kind) {
  if (!has_begun || !failing[kind]) return 0;
  unsigned long call = __atomic_add_fetch(&calls[kind], 1, __ATOMIC_SEQ_CST);
  if (from_there_on[kind] ? call < failing[kind] : call != failing[kind]) return 0;
  if (told >= 0) syscall(SYS_write, told, "x", 1);
  errno = kind == MEMORY ? ENOMEM : error;
  return 1;
}

void *malloc(size_t size) { return fails(MEMORY) ? NULL : __libc_malloc(size); }
void *calloc(size_t count, size_t size) { return fails(MEMORY) ? NULL : __libc_calloc(count, size); }
void *realloc(void *block, size_t size) { return fails(MEMORY) ? NULL : __libc_realloc(block, size); }
void *aligned_alloc(size_t alignment, size_t size) { return fails(MEMORY) ? NULL : __libc_memalign(alignment, size); }

static ssize_t moved(long call, enum kind kind, int file, const void *bytes, size_t size) {
  int standard = kind == READ ? STDIN_FILENO : STDOUT_FILENO;
  if (file != standard) return syscall(call, file, bytes, size);
  if (fails(kind)) return -1;
  return syscall(call, file, bytes, piece && piece < size ? piece : size);
}

ssize_t read(int file, void *bytes, size_t size) { return moved(SYS_read, READ, file, bytes, size); }
ssize_t write(int file, const void *bytes, size_t size) { return moved(SYS_write, WRITE, file, bytes, size); }
ssize_t __write(int file, const void *bytes, size_t size) { return write(file, bytes, size); }
