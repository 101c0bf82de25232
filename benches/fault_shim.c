// Stands before the C library in a run of the program, counts its calls, and has one of them fail or move less.
//
// FAULT=<kind>:<n>: at the n-th call of its class, from 1: alloc, open, read and write refuse; short_read and short_write
// move one byte, part_write moves half and the next write fails; zero_write moves nothing. A kind with no number is counted only.
// COUNTED=<file>: at the end, the counts of the four classes, and where the fault struck: opens before it, and the last name.
#define _GNU_SOURCE
#include <dlfcn.h>
#include <errno.h>
#include <fcntl.h>
#include <stdarg.h>
#include <stdio.h>
#include <stdlib.h>
#include <string.h>
#include <sys/types.h>
#include <unistd.h>

enum { ALLOC, OPEN, READ, WRITE, CLASSES };
static const char *const names[CLASSES] = {"alloc", "open", "read", "write"};
static long count[CLASSES];
static long target = -1, struck_after_opens = -1;
static int fault_class = -1, is_ready, is_next_refused, struck_fd = -1;
static char kind[32], last_name[256], struck_name[256];

static void begin(void) {
  const char *text = getenv("FAULT");
  is_ready = 1;
  if (!text) return;
  const char *colon = strchr(text, ':');
  size_t length = colon ? (size_t)(colon - text) : strlen(text);
  if (length >= sizeof kind) return;
  memcpy(kind, text, length);
  target = colon ? atol(colon + 1) : -1;
  for (int it = 0; it < CLASSES; it++)
    if (strstr(kind, names[it])) fault_class = it;
}

// Counts a call, and tells whether it is the one.
static int strikes(int class, int fd) {
  if (!is_ready) begin();
  count[class]++;
  if (class != fault_class || count[class] != target) return 0;
  struck_after_opens = count[OPEN];
  struck_fd = fd;
  memcpy(struck_name, last_name, sizeof struck_name);
  return 1;
}

#define NEXT(type, name) \
  static __typeof__(type) next; \
  if (!next) next = (__typeof__(type))dlsym(RTLD_NEXT, name)

void *malloc(size_t n) {
  NEXT(void *(*)(size_t), "malloc");
  if (strikes(ALLOC, -1)) return errno = ENOMEM, (void *)0;
  return next(n);
}

void *realloc(void *p, size_t n) {
  NEXT(void *(*)(void *, size_t), "realloc");
  if (strikes(ALLOC, -1)) return errno = ENOMEM, (void *)0;
  return next(p, n);
}

void *aligned_alloc(size_t by, size_t n) {
  NEXT(void *(*)(size_t, size_t), "aligned_alloc");
  if (strikes(ALLOC, -1)) return errno = ENOMEM, (void *)0;
  return next(by, n);
}

int posix_memalign(void **to, size_t by, size_t n) {
  NEXT(int (*)(void **, size_t, size_t), "posix_memalign");
  if (strikes(ALLOC, -1)) return ENOMEM;
  return next(to, by, n);
}

static int opened(const char *name) {
  strncpy(last_name, name, sizeof last_name - 1);
  if (!strikes(OPEN, -1)) return 0;
  errno = EMFILE;
  return 1;
}

#define MODE(flags) \
  mode_t mode = 0; \
  if ((flags) & O_CREAT) { \
    va_list more; \
    va_start(more, flags); \
    mode = va_arg(more, mode_t); \
    va_end(more); \
  }

int open(const char *name, int flags, ...) {
  NEXT(int (*)(const char *, int, ...), "open");
  MODE(flags)
  return opened(name) ? -1 : next(name, flags, mode);
}

int open64(const char *name, int flags, ...) {
  NEXT(int (*)(const char *, int, ...), "open64");
  MODE(flags)
  return opened(name) ? -1 : next(name, flags, mode);
}

int openat(int at, const char *name, int flags, ...) {
  NEXT(int (*)(int, const char *, int, ...), "openat");
  MODE(flags)
  return opened(name) ? -1 : next(at, name, flags, mode);
}

ssize_t read(int fd, void *to, size_t n) {
  NEXT(ssize_t (*)(int, void *, size_t), "read");
  if (!strikes(READ, fd)) return next(fd, to, n);
  if (!strcmp(kind, "short_read")) return next(fd, to, n ? 1 : 0);
  errno = EIO;
  return -1;
}

ssize_t write(int fd, const void *from, size_t n) {
  NEXT(ssize_t (*)(int, const void *, size_t), "write");
  if (is_next_refused) {
    is_next_refused = 0;
    errno = ENOSPC;
    return -1;
  }
  if (!strikes(WRITE, fd)) return next(fd, from, n);
  if (!strcmp(kind, "short_write")) return next(fd, from, n ? 1 : 0);
  if (!strcmp(kind, "zero_write")) return 0;
  if (!strcmp(kind, "part_write") && n > 1) {
    is_next_refused = 1;
    return next(fd, from, n / 2);
  }
  errno = ENOSPC;
  return -1;
}

// The C library's other name of the same call.
ssize_t __write(int fd, const void *from, size_t n) { return write(fd, from, n); }

__attribute__((destructor)) static void told(void) {
  const char *file = getenv("COUNTED");
  char text[512];
  NEXT(ssize_t (*)(int, const void *, size_t), "write");
  int fd = file ? open(file, O_WRONLY | O_CREAT | O_TRUNC, 0600) : -1;
  if (fd < 0) return;
  // That open is the shim's own.
  int n = snprintf(text, sizeof text, "%ld %ld %ld %ld %ld %d %s\n", count[ALLOC], count[OPEN] - 1, count[READ], count[WRITE],
                   struck_after_opens, struck_fd, struck_name);
  if (next(fd, text, n) < 0) _exit(99);
}
