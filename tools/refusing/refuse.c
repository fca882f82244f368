/* Loaded before the C library: counts growths of memory, and refuses those that are asked for.
   REFUSE       growth, or thread: what is counted and refused
   REFUSE_AT    the number of the one that is refused, from 1; none where it is not set
   REFUSE_ON    refuses all after it too, where it is set
   REFUSE_TOLD  a file of eight bytes in which the count is kept
   READ_MOST, WRITE_MOST  the most bytes of one read of standard input, of one write to standard output */
#define _GNU_SOURCE
#include <dlfcn.h>
#include <errno.h>
#include <fcntl.h>
#include <pthread.h>
#include <stdatomic.h>
#include <stdlib.h>
#include <string.h>
#include <sys/mman.h>
#include <unistd.h>

static atomic_ulong own_count;
static atomic_ulong *count = &own_count;
static unsigned long at, read_most, write_most;
static int on, threads;
static void *(*next_malloc)(size_t);
static void *(*next_realloc)(void *, size_t);
static int (*next_create)(pthread_t *, const pthread_attr_t *, void *(*)(void *), void *);
static ssize_t (*next_read)(int, void *, size_t);
static ssize_t (*next_write)(int, const void *, size_t);

static unsigned long number(const char *name) {
  const char *text = getenv(name);
  return text ? strtoul(text, NULL, 10) : 0;
}

static void ready(void) {
  if (next_malloc) return;
  next_realloc = dlsym(RTLD_NEXT, "realloc");
  next_create = dlsym(RTLD_NEXT, "pthread_create");
  next_read = dlsym(RTLD_NEXT, "read");
  next_write = dlsym(RTLD_NEXT, "write");
  next_malloc = dlsym(RTLD_NEXT, "malloc");
}

__attribute__((constructor)) static void begin(void) {
  const char *what = getenv("REFUSE"), *told = getenv("REFUSE_TOLD");
  int file = told ? open(told, O_RDWR) : -1;
  void *shared = file < 0 ? MAP_FAILED : mmap(NULL, sizeof *count, PROT_READ | PROT_WRITE, MAP_SHARED, file, 0);
  ready();
  if (shared != MAP_FAILED) count = shared;
  threads = what && strcmp(what, "thread") == 0;
  on = getenv("REFUSE_ON") != NULL;
  read_most = number("READ_MOST");
  write_most = number("WRITE_MOST");
  atomic_store(count, 0);
  at = number("REFUSE_AT");
}

static int is_refused(void) {
  unsigned long now = atomic_fetch_add(count, 1) + 1;
  return at && (on ? now >= at : now == at);
}

void *malloc(size_t size) {
  ready();
  if (!threads && is_refused()) { errno = ENOMEM; return NULL; }
  return next_malloc(size);
}

void *realloc(void *old, size_t size) {
  ready();
  if (!threads && is_refused()) { errno = ENOMEM; return NULL; }
  return next_realloc(old, size);
}

int pthread_create(pthread_t *thread, const pthread_attr_t *how, void *(*run)(void *), void *with) {
  ready();
  if (threads && is_refused()) return EAGAIN;
  return next_create(thread, how, run, with);
}

ssize_t read(int file, void *bytes, size_t size) {
  ready();
  return next_read(file, bytes, file == 0 && read_most && size > read_most ? read_most : size);
}

ssize_t write(int file, const void *bytes, size_t size) {
  ready();
  return next_write(file, bytes, file == 1 && write_most && size > write_most ? write_most : size);
}
