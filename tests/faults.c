// Preloaded into chihome and chicheck: makes calls of the C library fail, or a clock go on, as the environment says.
//   FAULT_MEMORY=N   the N-th block of memory that is asked for is refused
//   FAULT_ON=1       so is each block after it
//   FAULT_THREADS=1  no thread can be started
//   FAULT_READ=N     the N-th read of standard input fails
//   FAULT_WRITE=N    the N-th write of standard output fails
//   FAULT_BYTES=1    each read gives one byte, and each write takes one; =2: each write alone
//   FAULT_CLOCK=N    the monotonic clock begins at 0, and goes on by N milliseconds each time that it is read
//   FAULT_MET=FILE   made where a call was made to fail
#define _GNU_SOURCE
#include <dlfcn.h>
#include <errno.h>
#include <fcntl.h>
#include <pthread.h>
#include <stdatomic.h>
#include <stddef.h>
#include <stdlib.h>
#include <sys/syscall.h>
#include <time.h>
#include <unistd.h>

void *__libc_malloc(size_t size);
void *__libc_calloc(size_t count, size_t size);
void *__libc_realloc(void *block, size_t size);
void *__libc_memalign(size_t alignment, size_t size);

static long refused_block, refused_on, threads_refused, failed_read, failed_write, by_bytes, clock_step;
static const char *met_file;
static atomic_long blocks, reads, writes, readings;

static long number(const char *name) {
  const char *text = getenv(name);
  return text ? atol(text) : 0;
}

__attribute__((constructor)) static void begin(void) {
  refused_on = number("FAULT_ON");
  threads_refused = number("FAULT_THREADS");
  failed_read = number("FAULT_READ");
  failed_write = number("FAULT_WRITE");
  by_bytes = number("FAULT_BYTES");
  clock_step = number("FAULT_CLOCK");
  met_file = getenv("FAULT_MET");
  refused_block = number("FAULT_MEMORY");
}

static void met(void) {
  int file = met_file ? open(met_file, O_CREAT | O_WRONLY, 0600) : -1;
  if (file >= 0) close(file);
}

// Whether this block is refused. Blocks are counted from 1.
static int is_refused(void) {
  if (refused_block == 0) return 0;
  long block = atomic_fetch_add(&blocks, 1) + 1;
  if (block != refused_block && !(refused_on && block > refused_block)) return 0;
  met();
  errno = ENOMEM;
  return 1;
}

void *malloc(size_t size) { return is_refused() ? NULL : __libc_malloc(size); }

void *realloc(void *block, size_t size) { return is_refused() ? NULL : __libc_realloc(block, size); }

void *calloc(size_t count, size_t size) { return is_refused() ? NULL : __libc_calloc(count, size); }

void *aligned_alloc(size_t alignment, size_t size) { return is_refused() ? NULL : __libc_memalign(alignment, size); }

void *memalign(size_t alignment, size_t size) { return is_refused() ? NULL : __libc_memalign(alignment, size); }

int posix_memalign(void **block, size_t alignment, size_t size) {
  void *found = is_refused() ? NULL : __libc_memalign(alignment, size);
  if (!found) return ENOMEM;
  *block = found;
  return 0;
}

typedef int start(pthread_t *, const pthread_attr_t *, void *(*)(void *), void *);

int pthread_create(pthread_t *thread, const pthread_attr_t *attr, void *(*body)(void *), void *with) {
  static start *real;
  if (threads_refused) {
    met();
    return EAGAIN;
  }
  if (!real) real = (start *)dlsym(RTLD_NEXT, "pthread_create");
  return real(thread, attr, body, with);
}

// Whether this call of a device fails. Calls are counted from 1.
static int fails(atomic_long *calls, long failed) {
  if (atomic_fetch_add(calls, 1) + 1 != failed) return 0;
  met();
  errno = EIO;
  return 1;
}

static size_t at_once(size_t count, int by_one) { return by_one && count > 1 ? 1 : count; }

ssize_t read(int file, void *bytes, size_t count) {
  if (file == STDIN_FILENO) {
    if (fails(&reads, failed_read)) return -1;
    count = at_once(count, by_bytes == 1);
  }
  return syscall(SYS_read, file, bytes, count);
}

ssize_t write(int file, const void *bytes, size_t count) {
  if (file == STDOUT_FILENO) {
    if (fails(&writes, failed_write)) return -1;
    count = at_once(count, by_bytes != 0);
  }
  return syscall(SYS_write, file, bytes, count);
}

int clock_gettime(clockid_t clock, struct timespec *time) {
  if (clock_step == 0 || clock != CLOCK_MONOTONIC) return (int)syscall(SYS_clock_gettime, clock, time);
  long now = atomic_fetch_add(&readings, 1) * clock_step;
  time->tv_sec = now / 1000;
  time->tv_nsec = now % 1000 * 1000000;
  return 0;
}
